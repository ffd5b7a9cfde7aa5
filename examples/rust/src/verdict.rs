//! Whether bytes are a module, and if not, the first reason.
use crate::error::beyond_interface;
use crate::ffi;
use crate::{explain, CheckError, NoMemory};
use std::error::Error;
use std::fmt;

/// What is said of a module. It displays as the verdict line: `accepted`, `refused rule 5`.
#[derive(Clone, Copy, Debug, PartialEq, Eq, Hash)]
pub enum Verdict {
    /// The bytes spell a module that the rules and the typing of the standard admit.
    Accepted,
    /// They do not, and this is the first reason.
    Refused(Refusal),
}

/// The first reason to refuse a module, in the order of the rows. It displays as the words after `refused`.
#[derive(Clone, Copy, Debug, PartialEq, Eq, Hash)]
pub enum Refusal {
    /// More than 16,777,216 bytes.
    TooLarge,
    /// The bytes spell no module, the insides of bodies aside.
    Malformed,
    /// The least module rule that is broken, 2 to 13.
    Rule(u32),
    /// The least function whose body is refused.
    Body {
        /// Its index; imported functions count first.
        function: u32,
        /// What is wrong with its body.
        class: BodyFault,
    },
}

/// What is wrong with a body.
#[derive(Clone, Copy, Debug, PartialEq, Eq, Hash)]
pub enum BodyFault {
    /// Its bytes spell none.
    Malformed,
    /// It declares more than 100,000 locals, parameters aside.
    TooManyLocals,
    /// It has no type.
    IllTyped {
        /// The first token that no completion can save, from 0; `end` and `else` are tokens.
        token: u64,
    },
}

impl Verdict {
    /// The verdict that the numbers of the library tell.
    pub(crate) fn of(verdict: &ffi::gate_verdict) -> Self {
        match verdict.kind {
            0 => Verdict::Accepted,
            _ => Verdict::Refused(Refusal::of(verdict)),
        }
    }
}

impl Refusal {
    /// The refusal that the numbers of the library tell.
    pub(crate) fn of(verdict: &ffi::gate_verdict) -> Self {
        let body = |class| Refusal::Body {
            function: verdict.function,
            class,
        };
        match verdict.kind {
            1 => Refusal::TooLarge,
            2 => Refusal::Malformed,
            3 => Refusal::Rule(verdict.rule),
            4 => body(BodyFault::Malformed),
            5 => body(BodyFault::TooManyLocals),
            6 => body(BodyFault::IllTyped { token: verdict.token }),
            kind => beyond_interface("verdict", kind),
        }
    }
}

impl fmt::Display for Verdict {
    fn fmt(&self, f: &mut fmt::Formatter<'_>) -> fmt::Result {
        match self {
            Verdict::Accepted => f.write_str("accepted"),
            Verdict::Refused(refusal) => write!(f, "refused {refusal}"),
        }
    }
}

impl fmt::Display for Refusal {
    fn fmt(&self, f: &mut fmt::Formatter<'_>) -> fmt::Result {
        match self {
            Refusal::TooLarge => f.write_str("too-large"),
            Refusal::Malformed => f.write_str("malformed"),
            Refusal::Rule(rule) => write!(f, "rule {rule}"),
            Refusal::Body { function, class } => write!(f, "body {function} {class}"),
        }
    }
}

impl fmt::Display for BodyFault {
    fn fmt(&self, f: &mut fmt::Formatter<'_>) -> fmt::Result {
        match self {
            BodyFault::Malformed => f.write_str("malformed"),
            BodyFault::TooManyLocals => f.write_str("too-many-locals"),
            BodyFault::IllTyped { token } => write!(f, "ill-typed at {token}"),
        }
    }
}

impl Error for Refusal {}

/// Judges a module.
///
/// ```
/// use gate::{judge, Refusal, Verdict};
///
/// assert_eq!(judge(b"\0asm\x01\0\0\0")?, Verdict::Accepted);
/// assert_eq!(judge(b"\0asm\x01\0\0")?, Verdict::Refused(Refusal::Malformed));
/// assert_eq!(judge(b"")?.to_string(), "refused malformed");
/// # Ok::<(), gate::NoMemory>(())
/// ```
///
/// # Errors
///
/// [`NoMemory`], where memory was refused.
pub fn judge(bytes: &[u8]) -> Result<Verdict, NoMemory> {
    let mut verdict = ffi::gate_verdict::default();
    // SAFETY: the slice is borrowed for the call, and `verdict` is reached by nobody else.
    match unsafe { ffi::gate_check(bytes.as_ptr(), bytes.len(), &mut verdict) } {
        ffi::GATE_OK => Ok(Verdict::Accepted),
        ffi::GATE_MODULE_REFUSED => Ok(Verdict::Refused(Refusal::of(&verdict))),
        ffi::GATE_NO_MEMORY => Err(NoMemory),
        status => beyond_interface("status", status),
    }
}

/// Judges a module, where all but acceptance is an error.
///
/// ```
/// assert!(gate::check(b"\0asm\x01\0\0\0").is_ok());
///
/// // A start section that names a function that does not exist.
/// let error = gate::check(b"\0asm\x01\0\0\0\x08\x01\0").unwrap_err();
/// assert_eq!(error.refusal(), Some(gate::Refusal::Rule(11)));
/// assert!(error.to_string().starts_with("refused rule 11: "));
/// ```
///
/// # Errors
///
/// A [`CheckError`]: where and why it is refused, or that memory was.
pub fn check(bytes: &[u8]) -> Result<(), CheckError> {
    match judge(bytes)? {
        Verdict::Accepted => Ok(()),
        Verdict::Refused(_) => Err(explain(bytes)?.into()),
    }
}

#[cfg(test)]
mod tests {
    use super::*;

    /// The line that the library itself makes of numbers.
    fn library_line(verdict: &ffi::gate_verdict) -> String {
        let (mut out, mut length) = ([0; 100], 0);
        // SAFETY: `out` has the room that is told, and the three overlap nowhere.
        let status = unsafe { ffi::gate_verdict_line(verdict, out.as_mut_ptr(), out.len(), &mut length) };
        assert_eq!(status, ffi::GATE_OK);
        String::from_utf8(out[..length].to_vec()).unwrap()
    }

    #[test]
    fn lines_are_the_library_s() {
        let (rule, function, token) = (13, u32::MAX, u64::MAX);
        for kind in 0..=6 {
            let numbers = ffi::gate_verdict {
                kind,
                rule: if kind == 3 { rule } else { 0 },
                function: if kind >= 4 { function } else { 0 },
                token: if kind == 6 { token } else { 0 },
            };
            assert_eq!(format!("{}\n", Verdict::of(&numbers)), library_line(&numbers));
        }
    }
}
