//! Arguments and results.
use crate::error::beyond_interface;
use crate::ffi;
use std::error::Error;
use std::fmt;
use std::str::FromStr;

/// A number of 32 or 64 bits. Wasm's numbers have no sign of their own; here they are read with one.
///
/// It displays, and is parsed, as a text of calls has it. Numbers of Rust with and without a sign come from it, and become one.
///
/// ```
/// use gate::Value;
///
/// assert_eq!(Value::I32(-5).to_string(), "i32:-5");
/// assert_eq!("i64:9223372036854775807".parse(), Ok(Value::I64(i64::MAX)));
/// assert!("i32:2147483648".parse::<Value>().is_err());
/// assert_eq!(u32::try_from(Value::I32(-1)), Ok(u32::MAX));
/// assert_eq!(Value::from(u32::MAX), Value::I32(-1));
/// ```
#[derive(Clone, Copy, Debug, PartialEq, Eq, Hash)]
pub enum Value {
    /// 32 bits.
    I32(i32),
    /// 64 bits.
    I64(i64),
}

impl Value {
    pub(crate) fn to_c(self) -> ffi::gate_value {
        match self {
            Value::I32(number) => ffi::gate_value {
                width: 32,
                bits: u64::from(number as u32),
            },
            Value::I64(number) => ffi::gate_value {
                width: 64,
                bits: number as u64,
            },
        }
    }

    pub(crate) fn of(value: ffi::gate_value) -> Self {
        match value.width {
            32 => Value::I32(value.bits as u32 as i32),
            64 => Value::I64(value.bits as i64),
            width => beyond_interface("width", width),
        }
    }
}

impl From<i32> for Value {
    fn from(number: i32) -> Self {
        Value::I32(number)
    }
}

impl From<u32> for Value {
    fn from(number: u32) -> Self {
        Value::I32(number as i32)
    }
}

impl From<i64> for Value {
    fn from(number: i64) -> Self {
        Value::I64(number)
    }
}

impl From<u64> for Value {
    fn from(number: u64) -> Self {
        Value::I64(number as i64)
    }
}

impl TryFrom<Value> for i32 {
    type Error = WidthError;

    fn try_from(value: Value) -> Result<Self, WidthError> {
        match value {
            Value::I32(number) => Ok(number),
            Value::I64(_) => Err(WidthError),
        }
    }
}

impl TryFrom<Value> for u32 {
    type Error = WidthError;

    fn try_from(value: Value) -> Result<Self, WidthError> {
        i32::try_from(value).map(|number| number as u32)
    }
}

impl TryFrom<Value> for i64 {
    type Error = WidthError;

    fn try_from(value: Value) -> Result<Self, WidthError> {
        match value {
            Value::I32(_) => Err(WidthError),
            Value::I64(number) => Ok(number),
        }
    }
}

impl TryFrom<Value> for u64 {
    type Error = WidthError;

    fn try_from(value: Value) -> Result<Self, WidthError> {
        i64::try_from(value).map(|number| number as u64)
    }
}

/// The number has the other width.
#[derive(Clone, Copy, Debug, PartialEq, Eq, Hash)]
pub struct WidthError;

impl fmt::Display for WidthError {
    fn fmt(&self, f: &mut fmt::Formatter<'_>) -> fmt::Result {
        f.write_str("the number has the other width")
    }
}

impl Error for WidthError {}

impl fmt::Display for Value {
    fn fmt(&self, f: &mut fmt::Formatter<'_>) -> fmt::Result {
        match self {
            Value::I32(number) => write!(f, "i32:{number}"),
            Value::I64(number) => write!(f, "i64:{number}"),
        }
    }
}

/// The word is not `i32:D` or `i64:D`, with D in its range and in its shortest form.
#[derive(Clone, Copy, Debug, PartialEq, Eq, Hash)]
pub struct ValueError;

impl fmt::Display for ValueError {
    fn fmt(&self, f: &mut fmt::Formatter<'_>) -> fmt::Result {
        f.write_str("a value is i32:N or i64:N, with N in its range")
    }
}

impl Error for ValueError {}

impl FromStr for Value {
    type Err = ValueError;

    fn from_str(word: &str) -> Result<Self, ValueError> {
        let value = match word.split_once(':') {
            Some(("i32", digits)) => digits.parse().map(Value::I32),
            Some(("i64", digits)) => digits.parse().map(Value::I64),
            _ => return Err(ValueError),
        };
        // `+1`, `01` and `-0` are numbers to Rust and not to a text of calls.
        value.ok().filter(|value| value.to_string() == word).ok_or(ValueError)
    }
}

#[cfg(test)]
mod tests {
    use super::*;

    #[test]
    fn bits_go_there_and_back() {
        for number in [i32::MIN, -1, 0, 1, i32::MAX] {
            assert!(Value::I32(number).to_c().bits < 1 << 32);
            assert_eq!(Value::of(Value::I32(number).to_c()), number.into());
        }
        for number in [i64::MIN, -1, 0, 1, i64::MAX] {
            assert_eq!(Value::of(Value::I64(number).to_c()), number.into());
        }
    }

    #[test]
    fn numbers_of_rust() {
        assert_eq!(Value::from(0x8000_0000_u32), Value::I32(i32::MIN));
        assert_eq!(Value::from(1_u64 << 63), Value::I64(i64::MIN));
        assert_eq!(i32::try_from(Value::I32(-2)), Ok(-2));
        assert_eq!(u32::try_from(Value::I32(-2)), Ok(0xFFFF_FFFE));
        assert_eq!(i64::try_from(Value::I64(-2)), Ok(-2));
        assert_eq!(u64::try_from(Value::I64(-2)), Ok(0xFFFF_FFFF_FFFF_FFFE));
        assert_eq!(i32::try_from(Value::I64(1)), Err(WidthError));
        assert_eq!(u32::try_from(Value::I64(1)), Err(WidthError));
        assert_eq!(i64::try_from(Value::I32(1)), Err(WidthError));
        assert_eq!(u64::try_from(Value::I32(1)), Err(WidthError));
    }

    #[test]
    fn words_are_those_of_a_text_of_calls() {
        for word in ["i32:0", "i32:-2147483648", "i32:2147483647", "i64:-9223372036854775808"] {
            assert_eq!(word.parse::<Value>().map(|value| value.to_string()), Ok(word.to_string()));
        }
        for word in [
            "",
            "5",
            "i32",
            "i32:",
            "i32:+1",
            "i32:01",
            "i32:-0",
            "i32: 1",
            "f32:1",
            "i32:-2147483649",
            "i64:9223372036854775808",
        ] {
            assert_eq!(word.parse::<Value>(), Err(ValueError), "{word}");
        }
    }
}
