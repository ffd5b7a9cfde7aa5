//! A proved validator and sandbox for WebAssembly, over the library libgate.
//!
//! ```
//! use gate::{check, Module, Settings};
//!
//! let bytes = std::fs::read("../fold.wasm")?;
//! check(&bytes)?; // or where and why it is refused
//!
//! let module = Module::new(&bytes)?; // judged once, called often
//! let limits = Settings::new(100, 16, 1)?; // fuel, frames, pages of memory
//! let call = module.call("fold", &[0.into(), 10.into()], limits)?;
//! assert_eq!(call.to_string(), "values i32:385 fuel 31");
//! assert_eq!(module.call("stop", &[], limits)?.to_string(), "trap unreachable fuel 12");
//! # Ok::<(), Box<dyn std::error::Error>>(())
//! ```
//!
//! An [`Instance`] goes on from call to call, and a host hands it bytes through its memory.
//!
//! The library is proved; this crate is not: its `unsafe` blocks say what they rest on. Every function may be called from many
//! threads at once, and a [`SharedModule`] gives each thread a [`Module`] of its own. The library stops no process, and nothing
//! unwinds out of it. Fuel and pages bound a call; a check has no limit but the module's length, and nothing interrupts either.
mod call;
mod error;
mod explanation;
mod export;
mod instance;
mod module;
mod report;
mod settings;
mod value;
mod verdict;

use gate_sys as ffi;

pub use call::{Call, CallError, End, NotStarted, Trap};
pub use error::{CheckError, InstanceError, NoMemory};
pub use explanation::{explain, Explanation};
pub use export::{exports_text, Export, FunctionType, Import, Item, Measures, ValueType};
pub use instance::{Function, Instance};
pub use module::{Module, SharedModule};
pub use report::{run, Report, Status};
pub use settings::{Settings, SettingsError};
pub use value::{Value, ValueError, WidthError};
pub use verdict::{check, judge, BodyFault, Refusal, Verdict};

/// The number of the library's interface. This crate is written for 1.
#[must_use]
pub fn interface() -> u32 {
    // SAFETY: it takes and touches nothing.
    unsafe { ffi::gate_version() }
}

/// The number of what the library has beside its first functions. This crate wants 2 at least.
#[must_use]
pub fn revision() -> u32 {
    // SAFETY: it takes and touches nothing.
    unsafe { ffi::gate_revision() }
}

/// Which build the library is: `gate 0.2.0 (commit 0123456789ab, rattle-kit-13f)`.
///
/// # Errors
///
/// [`NoMemory`], where memory was refused.
pub fn build() -> Result<String, NoMemory> {
    let (mut text, mut length) = (error::zeros(64)?, 0);
    // SAFETY: `text` has the room that is told, and the two overlap nowhere.
    match unsafe { ffi::gate_build(text.as_mut_ptr(), text.len(), &mut length) } {
        ffi::GATE_OK => text.truncate(length),
        status => error::beyond_interface("status", status),
    }
    Ok(String::from_utf8(text).expect("the library writes ASCII"))
}
