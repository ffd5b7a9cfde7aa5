//! How a call ends.
use crate::error::{self, beyond_interface};
use crate::{ffi, NoMemory, Value};
use std::error::Error;
use std::fmt;

/// How a call ended, and what it cost. It displays as its line of a report has it, after the number.
#[must_use = "a call may end in a trap"]
#[derive(Clone, Debug, PartialEq, Eq, Hash)]
pub struct Call {
    /// How it ended.
    pub end: End,
    /// The fuel that it cost, the start function included; 0 where nothing ran.
    pub fuel: u32,
}

/// How a call ended. Before it runs the export is asked for, then the arguments, then the instance.
#[derive(Clone, Debug, PartialEq, Eq, Hash)]
pub enum End {
    /// The function's results, the lowest first.
    Values(Vec<Value>),
    /// The start function or the function trapped.
    Trap(Trap),
    /// The next charge would pass the fuel.
    OutOfFuel,
    /// The next entry would pass the frames.
    OutOfFrames,
    /// Nothing of that name is exported.
    NoExport,
    /// What is exported is no function.
    NotAFunction,
    /// The arguments are not of the function's type.
    BadArguments,
    /// No instance can be made.
    NotStarted(NotStarted),
}

/// Why a call trapped.
#[derive(Clone, Copy, Debug, PartialEq, Eq, Hash)]
pub enum Trap {
    /// `unreachable` was executed.
    Unreachable,
    /// An access outside the memory.
    OutOfBounds,
    /// A call through an entry past the table's end.
    UndefinedElement,
    /// A call through an entry that no function was put into.
    UninitializedElement,
    /// A call through the table with another type than the function's.
    TypeMismatch,
    /// An integer division by zero.
    DivideByZero,
    /// An integer division whose quotient has no place.
    IntegerOverflow,
}

/// Why no instance can be made: the first reason that holds.
#[derive(Clone, Copy, Debug, PartialEq, Eq, Hash)]
pub enum NotStarted {
    /// The module has an import.
    Imports,
    /// A float stands somewhere in the module.
    Floats,
    /// The table's minimum is above 65,536.
    TableLimit,
    /// The memory's minimum is above the pages of the settings.
    MemoryLimit,
    /// The least element segment that ends outside its table, from 0.
    ElementOutside(u32),
    /// The least data segment that ends outside its memory, from 0.
    DataOutside(u32),
}

impl Call {
    /// The number that a function of one result gave.
    ///
    /// # Errors
    ///
    /// Each other end, and a number of the other width.
    ///
    /// ```
    /// use gate::{Module, Settings};
    ///
    /// let bytes = std::fs::read("../add.wasm")?;
    /// let module = Module::new(&bytes)?;
    /// let add = |one: i32, other: i32| module.call("add", &[one.into(), other.into()], Settings::default());
    /// assert_eq!(add(-1, -1)?.value(), Ok(-2_i32));
    /// assert_eq!(add(-1, -1)?.value(), Ok(0xFFFF_FFFE_u32));
    /// assert!(add(-1, -1)?.value::<i64>().is_err());
    /// # Ok::<(), Box<dyn std::error::Error>>(())
    /// ```
    pub fn value<T: TryFrom<Value>>(self) -> Result<T, CallError> {
        let number = match &self.end {
            End::Values(values) if values.len() == 1 => T::try_from(values[0]).ok(),
            _ => None,
        };
        number.ok_or(CallError(self))
    }

    /// That a function without results came to its end.
    ///
    /// ```
    /// # let bytes = b"\0asm\x01\0\0\0\x01\x04\x01\x60\0\0\x03\x02\x01\0\x07\x08\x01\x04init\0\0\x0a\x04\x01\x02\0\x0b";
    /// let module = gate::Module::new(bytes)?; // `init` takes and gives nothing
    /// module.call("init", &[], gate::Settings::default())?.no_value()?;
    /// # Ok::<(), Box<dyn std::error::Error>>(())
    /// ```
    ///
    /// # Errors
    ///
    /// Each other end, and results.
    pub fn no_value(self) -> Result<(), CallError> {
        match &self.end {
            End::Values(values) if values.is_empty() => Ok(()),
            _ => Err(CallError(self)),
        }
    }

    /// The call that the numbers of the library tell.
    pub(crate) fn of(ended: &ffi::gate_call, results: Vec<ffi::gate_value>) -> Result<Self, NoMemory> {
        let end = match ended.end {
            0 => End::Values(results.into_iter().map(Value::of).collect()),
            1 => End::Trap(Trap::of(ended.reason)),
            2 => End::OutOfFuel,
            3 => End::OutOfFrames,
            4 => End::NoExport,
            5 => End::NotAFunction,
            6 => End::BadArguments,
            7 => End::NotStarted(NotStarted::of(ended.reason, ended.place)),
            8 => return Err(NoMemory),
            end => beyond_interface("end", end),
        };
        Ok(Call { end, fuel: ended.fuel })
    }

    /// The call that a line of a report tells.
    pub(crate) fn of_line(line: &str) -> Result<Self, NoMemory> {
        match Words::of(line) {
            Some(words) if words.kind == "no-memory" => Err(NoMemory),
            Some(words) => match words.end() {
                Some(end) => Ok(Call { end, fuel: words.fuel }),
                None => beyond_interface("line", line),
            },
            None => beyond_interface("line", line),
        }
    }
}

/// The call did not give what is asked for: one number of that width, or none. It says how it ended.
#[derive(Clone, Debug, PartialEq, Eq, Hash)]
pub struct CallError(pub Call);

impl fmt::Display for CallError {
    fn fmt(&self, f: &mut fmt::Formatter<'_>) -> fmt::Result {
        if let End::Values(_) = self.0.end {
            f.write_str("not what is asked for: ")?;
        }
        self.0.fmt(f)
    }
}

impl Error for CallError {}

/// What the library is given for a call beside its name and limits.
pub(crate) struct Operands {
    pub(crate) args: Vec<ffi::gate_value>,
    /// As many as the function has results.
    pub(crate) results: Vec<ffi::gate_value>,
    pub(crate) ended: ffi::gate_call,
}

impl Operands {
    pub(crate) fn new(args: &[Value], results_count: usize) -> Result<Self, NoMemory> {
        let (mut numbers, mut results) = (error::room(args.len())?, error::room(results_count)?);
        numbers.extend(args.iter().map(|value| value.to_c()));
        results.resize(results_count, ffi::gate_value::default());
        Ok(Operands {
            args: numbers,
            results,
            ended: ffi::gate_call::default(),
        })
    }

    /// The call, after the library has written how it ended.
    pub(crate) fn call(mut self) -> Result<Call, NoMemory> {
        self.results.truncate(usize::try_from(self.ended.results).unwrap_or(usize::MAX));
        Call::of(&self.ended, self.results)
    }
}

/// The words of a line of a report, after its number and without its fuel.
struct Words<'a> {
    kind: &'a str,
    rest: Option<&'a str>,
    fuel: u32,
}

impl<'a> Words<'a> {
    fn of(line: &'a str) -> Option<Self> {
        let (_, told) = line.split_once(' ')?;
        let (told, fuel) = match told.split_once(" fuel ") {
            Some((told, fuel)) => (told, fuel.parse().ok()?),
            None => (told, 0),
        };
        let (kind, rest) = match told.split_once(' ') {
            Some((kind, rest)) => (kind, Some(rest)),
            None => (told, None),
        };
        Some(Words { kind, rest, fuel })
    }

    /// The end that they tell, but for `no-memory`.
    fn end(&self) -> Option<End> {
        match (self.kind, self.rest) {
            ("values", None) => Some(End::Values(Vec::new())),
            ("values", Some(values)) => values.split(',').map(str::parse).collect::<Result<_, _>>().ok().map(End::Values),
            ("trap", Some(reason)) => Trap::of_word(reason).map(End::Trap),
            ("not-started", Some(reason)) => NotStarted::of_words(reason).map(End::NotStarted),
            ("out-of-fuel", None) => Some(End::OutOfFuel),
            ("out-of-frames", None) => Some(End::OutOfFrames),
            ("no-export", None) => Some(End::NoExport),
            ("not-a-function", None) => Some(End::NotAFunction),
            ("bad-arguments", None) => Some(End::BadArguments),
            _ => None,
        }
    }
}

impl Trap {
    /// All of them, in the order of the library's numbers.
    const ALL: [Trap; 7] = [
        Trap::Unreachable,
        Trap::OutOfBounds,
        Trap::UndefinedElement,
        Trap::UninitializedElement,
        Trap::TypeMismatch,
        Trap::DivideByZero,
        Trap::IntegerOverflow,
    ];

    fn of(reason: u32) -> Self {
        match Self::ALL.get(reason as usize) {
            Some(trap) => *trap,
            None => beyond_interface("trap", reason),
        }
    }

    /// The one of that name in a report.
    fn of_word(word: &str) -> Option<Self> {
        Self::ALL.into_iter().find(|trap| trap.to_string() == word)
    }
}

impl NotStarted {
    /// The one that the words of a report name.
    fn of_words(words: &str) -> Option<Self> {
        match words.split_once(' ') {
            None => [
                NotStarted::Imports,
                NotStarted::Floats,
                NotStarted::TableLimit,
                NotStarted::MemoryLimit,
            ]
            .into_iter()
            .find(|reason| reason.to_string() == words),
            Some(("element-outside", segment)) => segment.parse().ok().map(NotStarted::ElementOutside),
            Some(("data-outside", segment)) => segment.parse().ok().map(NotStarted::DataOutside),
            Some(_) => None,
        }
    }

    fn of(reason: u32, place: u32) -> Self {
        match reason {
            0 => NotStarted::Imports,
            1 => NotStarted::Floats,
            2 => NotStarted::TableLimit,
            3 => NotStarted::MemoryLimit,
            4 => NotStarted::ElementOutside(place),
            5 => NotStarted::DataOutside(place),
            reason => beyond_interface("reason not to start", reason),
        }
    }
}

impl Error for Trap {}

impl Error for NotStarted {}

impl fmt::Display for Call {
    fn fmt(&self, f: &mut fmt::Formatter<'_>) -> fmt::Result {
        match self.end {
            End::NoExport | End::NotAFunction | End::BadArguments | End::NotStarted(_) => self.end.fmt(f),
            _ => write!(f, "{} fuel {}", self.end, self.fuel),
        }
    }
}

impl fmt::Display for End {
    fn fmt(&self, f: &mut fmt::Formatter<'_>) -> fmt::Result {
        match self {
            End::Values(values) => write_values(values, f),
            End::Trap(trap) => write!(f, "trap {trap}"),
            End::OutOfFuel => f.write_str("out-of-fuel"),
            End::OutOfFrames => f.write_str("out-of-frames"),
            End::NoExport => f.write_str("no-export"),
            End::NotAFunction => f.write_str("not-a-function"),
            End::BadArguments => f.write_str("bad-arguments"),
            End::NotStarted(reason) => write!(f, "not-started {reason}"),
        }
    }
}

fn write_values(values: &[Value], f: &mut fmt::Formatter<'_>) -> fmt::Result {
    f.write_str("values")?;
    let mut before = ' ';
    for value in values {
        write!(f, "{before}{value}")?;
        before = ',';
    }
    Ok(())
}

impl fmt::Display for Trap {
    fn fmt(&self, f: &mut fmt::Formatter<'_>) -> fmt::Result {
        f.write_str(match self {
            Trap::Unreachable => "unreachable",
            Trap::OutOfBounds => "out-of-bounds",
            Trap::UndefinedElement => "undefined-element",
            Trap::UninitializedElement => "uninitialized-element",
            Trap::TypeMismatch => "type-mismatch",
            Trap::DivideByZero => "divide-by-zero",
            Trap::IntegerOverflow => "integer-overflow",
        })
    }
}

impl fmt::Display for NotStarted {
    fn fmt(&self, f: &mut fmt::Formatter<'_>) -> fmt::Result {
        match self {
            NotStarted::Imports => f.write_str("imports"),
            NotStarted::Floats => f.write_str("floats"),
            NotStarted::TableLimit => f.write_str("table-limit"),
            NotStarted::MemoryLimit => f.write_str("memory-limit"),
            NotStarted::ElementOutside(segment) => write!(f, "element-outside {segment}"),
            NotStarted::DataOutside(segment) => write!(f, "data-outside {segment}"),
        }
    }
}

#[cfg(test)]
mod tests {
    use super::*;

    #[test]
    fn calls_display_as_in_a_report() {
        let line = |end, fuel| Call { end, fuel }.to_string();
        assert_eq!(line(End::Values(vec![]), 3), "values fuel 3");
        assert_eq!(
            line(End::Values(vec![Value::I32(-1), Value::I64(2)]), 4),
            "values i32:-1,i64:2 fuel 4"
        );
        assert_eq!(line(End::Trap(Trap::DivideByZero), 1), "trap divide-by-zero fuel 1");
        assert_eq!(line(End::OutOfFuel, 0), "out-of-fuel fuel 0");
        assert_eq!(line(End::NoExport, 0), "no-export");
        assert_eq!(line(End::NotStarted(NotStarted::DataOutside(2)), 0), "not-started data-outside 2");
    }

    #[test]
    fn lines_tell_calls() {
        let told = |line: &str| Call::of_line(line).map(|call| (call.end, call.fuel));
        let values = vec![Value::I32(-1), Value::I64(2)];
        assert_eq!(told("0 values fuel 3"), Ok((End::Values(vec![]), 3)));
        assert_eq!(
            told("17 values i32:-1,i64:2 fuel 1000000000"),
            Ok((End::Values(values), 1_000_000_000))
        );
        assert_eq!(told("1 trap type-mismatch fuel 1"), Ok((End::Trap(Trap::TypeMismatch), 1)));
        assert_eq!(told("2 out-of-fuel fuel 0"), Ok((End::OutOfFuel, 0)));
        assert_eq!(told("3 out-of-frames fuel 9"), Ok((End::OutOfFrames, 9)));
        assert_eq!(told("4 no-export"), Ok((End::NoExport, 0)));
        assert_eq!(told("5 not-a-function"), Ok((End::NotAFunction, 0)));
        assert_eq!(told("6 bad-arguments"), Ok((End::BadArguments, 0)));
        assert_eq!(told("7 not-started table-limit"), Ok((End::NotStarted(NotStarted::TableLimit), 0)));
        assert_eq!(
            told("8 not-started element-outside 3"),
            Ok((End::NotStarted(NotStarted::ElementOutside(3)), 0))
        );
        assert_eq!(told("9 no-memory"), Err(NoMemory));
    }

    #[test]
    #[should_panic(expected = "which interface 1 does not have")]
    fn another_line_is_of_another_library() {
        let _ = Call::of_line("0 trap boredom fuel 1");
    }
}
