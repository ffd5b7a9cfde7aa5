//! A host of plug-ins that take and give texts, as those of examples/guests do:
//!
//! ```text
//! $ cargo run --example plugin_host -- ../guests/upper.wasm 'hello, world' again
//! HELLO, WORLD
//! AGAIN
//! $ cargo run --example plugin_host -- ../guests/pick.wasm $'name\n{"name": "gate", "length": 17}'
//! gate
//! ```
//!
//! The plug-in exports its memory's `alloc(length)`, which gives the address of `length` free bytes, or 0; and
//! `handle(address, length)`, which gives the answer's address in the high 32 bits, and its length in the low ones.
use gate::{CallError, Instance, InstanceError, Module, Settings};
use std::env;
use std::error::Error;
use std::fmt;
use std::io::{self, Write};

/// Why a plug-in gives no answer.
#[derive(Debug)]
enum Failure {
    /// The text is longer than its memory can be, or it has no room for it.
    NoRoom,
    /// It gives -1, as `pick` does where there is no such key.
    NoAnswer,
    /// A call ended otherwise than the convention says: in a trap, out of fuel, without such an export.
    Call(CallError),
    /// What it tells does not lie in its memory, or memory ran out.
    Instance(InstanceError),
}

impl fmt::Display for Failure {
    fn fmt(&self, f: &mut fmt::Formatter<'_>) -> fmt::Result {
        match self {
            Failure::NoRoom => f.write_str("the plug-in has no room for the text"),
            Failure::NoAnswer => f.write_str("the plug-in gives no answer"),
            Failure::Call(error) => write!(f, "the plug-in failed: {error}"),
            Failure::Instance(error) => write!(f, "the plug-in failed: {error}"),
        }
    }
}

impl Error for Failure {}

impl From<CallError> for Failure {
    fn from(error: CallError) -> Self {
        Failure::Call(error)
    }
}

impl From<InstanceError> for Failure {
    fn from(error: InstanceError) -> Self {
        Failure::Instance(error)
    }
}

/// What a plug-in answers to a text. It may be hostile: whatever it tells, the host reads the plug-in's memory alone.
fn ask(plugin: &mut Instance<'_>, text: &[u8], limits: Settings) -> Result<Vec<u8>, Failure> {
    let length = u32::try_from(text.len()).map_err(|_| Failure::NoRoom)?;
    let address: u32 = plugin.call("alloc", &[length.into()], limits)?.value()?;
    if address == 0 {
        return Err(Failure::NoRoom);
    }
    plugin.write(address.into(), text)?;
    let answer: u64 = plugin.call("handle", &[address.into(), length.into()], limits)?.value()?;
    if answer == u64::MAX {
        return Err(Failure::NoAnswer);
    }
    Ok(plugin.read_vec(answer >> 32, answer & 0xFFFF_FFFF)?)
}

fn main() -> Result<(), Box<dyn Error>> {
    let mut words = env::args().skip(1);
    let path = words.next().ok_or("usage: plugin_host MODULE TEXT ..")?;
    let module = Module::from_vec(std::fs::read(path)?)?;
    let limits = Settings::new(1_000_000, 1_024, 64)?;
    let mut plugin = module.instance(limits)?;
    for text in words {
        match ask(&mut plugin, text.as_bytes(), limits) {
            Ok(answer) => io::stdout().write_all(&[&answer[..], b"\n"].concat())?,
            Err(failure) => eprintln!("plugin_host: {failure}"),
        }
        // The next text meets a fresh plug-in, with all its room.
        plugin.reset()?;
    }
    Ok(())
}
