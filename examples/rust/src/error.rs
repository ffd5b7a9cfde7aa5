//! What else than an answer may come.
use crate::{Call, Explanation, Refusal};
use std::error::Error;
use std::fmt;

/// The library was refused memory. Nothing was answered; the same question may be asked again.
#[derive(Clone, Copy, Debug, PartialEq, Eq, Hash)]
pub struct NoMemory;

impl fmt::Display for NoMemory {
    fn fmt(&self, f: &mut fmt::Formatter<'_>) -> fmt::Result {
        f.write_str("no memory")
    }
}

impl Error for NoMemory {}

/// An empty vector with room for `count` items.
pub(crate) fn room<T>(count: usize) -> Result<Vec<T>, NoMemory> {
    let mut items = Vec::new();
    items.try_reserve_exact(count).map_err(|_| NoMemory)?;
    Ok(items)
}

/// That many bytes, 0 each.
pub(crate) fn zeros(count: usize) -> Result<Vec<u8>, NoMemory> {
    let mut bytes = room(count)?;
    bytes.resize(count, 0);
    Ok(bytes)
}

/// Where the library answers what interface 1 does not have: another library was linked.
pub(crate) fn beyond_interface(what: &str, told: impl fmt::Display) -> ! {
    panic!("libgate answers the {what} {told}, which interface 1 does not have")
}

/// Why a module is not accepted. A refusal displays as a sentence that says why.
#[derive(Clone, Debug, PartialEq, Eq, Hash)]
pub enum CheckError {
    /// It is refused, and this says where and why.
    Refused(Box<Explanation>),
    /// Memory was refused: the module may be of either kind.
    NoMemory,
}

impl CheckError {
    /// What is said of a module that is refused.
    #[must_use]
    pub fn explanation(&self) -> Option<&Explanation> {
        match self {
            CheckError::Refused(explanation) => Some(explanation),
            CheckError::NoMemory => None,
        }
    }

    /// The first reason to refuse it.
    pub fn refusal(&self) -> Option<Refusal> {
        self.explanation().and_then(Explanation::refusal)
    }

    /// The offset of the first byte that is refused, or where reading stopped.
    pub fn offset(&self) -> Option<u64> {
        self.explanation().and_then(Explanation::offset)
    }
}

impl fmt::Display for CheckError {
    fn fmt(&self, f: &mut fmt::Formatter<'_>) -> fmt::Result {
        match self {
            CheckError::Refused(explanation) => explanation.fmt(f),
            CheckError::NoMemory => NoMemory.fmt(f),
        }
    }
}

impl Error for CheckError {}

impl From<Explanation> for CheckError {
    fn from(explanation: Explanation) -> Self {
        CheckError::Refused(Box::new(explanation))
    }
}

impl From<NoMemory> for CheckError {
    fn from(_: NoMemory) -> Self {
        CheckError::NoMemory
    }
}

/// Why an [`Instance`](crate::Instance) is not made, or does not do what it is asked.
#[derive(Clone, Debug, PartialEq, Eq, Hash)]
pub enum InstanceError {
    /// There is no instance: none can be made, or its start function gave no values. The call says which, and what that cost.
    NoInstance(Call),
    /// The bytes do not lie in the memory. Nothing is read or written.
    Outside,
    /// No global is exported under the name.
    NoGlobal,
    /// Memory was refused. An instance whose call ran out of it runs nothing more until a reset.
    NoMemory,
}

impl fmt::Display for InstanceError {
    fn fmt(&self, f: &mut fmt::Formatter<'_>) -> fmt::Result {
        match self {
            InstanceError::NoInstance(call) => write!(f, "no instance: {call}"),
            InstanceError::Outside => f.write_str("the bytes do not lie in the memory"),
            InstanceError::NoGlobal => f.write_str("no global is exported under the name"),
            InstanceError::NoMemory => NoMemory.fmt(f),
        }
    }
}

impl Error for InstanceError {}

impl From<NoMemory> for InstanceError {
    fn from(_: NoMemory) -> Self {
        InstanceError::NoMemory
    }
}
