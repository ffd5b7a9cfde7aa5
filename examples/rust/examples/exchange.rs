//! A host that a plug-in may ask for more, as examples/guests/greet.wasm does:
//!
//! ```text
//! $ cargo run --example exchange -- ../guests/greet.wasm Hello 1000 name=World
//! Hello World
//! ```
//!
//! An answer that begins with `?` is a wish: it names a key, and the plug-in is called again with the key's value. Any other is the last
//! one, and is printed without its first byte. All calls together have the fuel that is given.
use gate::{Call, Instance, Module, Settings, Value};
use std::collections::HashMap;
use std::env;
use std::error::Error;
use std::process::ExitCode;

const USAGE: &str = "usage: exchange MODULE TEXT FUEL [KEY=VALUE ..]";

/// A plug-in, and the limits of its next call.
struct Asked<'a> {
    plugin: Instance<'a>,
    limits: Settings,
}

impl Asked<'_> {
    /// A call of an export, whose cost is gone from the fuel.
    fn call(&mut self, name: &str, args: &[Value]) -> Result<Call, Box<dyn Error>> {
        let made = self.plugin.call(name, args, self.limits)?;
        self.limits = self.limits.with_fuel(self.limits.fuel() - made.fuel)?;
        Ok(made)
    }

    /// What the plug-in answers to a text.
    fn ask(&mut self, text: &[u8]) -> Result<Vec<u8>, Box<dyn Error>> {
        let length = u32::try_from(text.len())?;
        let address: u32 = self.call("alloc", &[length.into()])?.value()?;
        if address == 0 {
            return Err("no room".into());
        }
        self.plugin.write(address.into(), text)?;
        let answer: u64 = self.call("handle", &[address.into(), length.into()])?.value()?;
        Ok(self.plugin.read_vec(answer >> 32, answer & 0xFFFF_FFFF)?)
    }

    /// The last answer. There is no reset between the calls: the plug-in keeps in its memory how far it is.
    fn exchange(&mut self, text: &str, known: &HashMap<String, String>) -> Result<String, Box<dyn Error>> {
        let mut answer = String::from_utf8(self.ask(text.as_bytes())?)?;
        while let Some(key) = answer.strip_prefix('?') {
            let value = known.get(key).map_or("", String::as_str);
            answer = String::from_utf8(self.ask(value.as_bytes())?)?;
        }
        Ok(answer.chars().skip(1).collect())
    }
}

fn answer() -> Result<String, Box<dyn Error>> {
    let mut words = env::args().skip(1);
    let (Some(path), Some(text), Some(fuel)) = (words.next(), words.next(), words.next()) else {
        return Err(USAGE.into());
    };
    let known = words.filter_map(|word| word.split_once('=').map(|(key, value)| (key.to_owned(), value.to_owned())));
    let limits = Settings::default().with_fuel(fuel.parse()?)?;
    let plugin = Module::from_vec(std::fs::read(path)?)?.instance(limits)?;
    Asked { plugin, limits }.exchange(&text, &known.collect())
}

fn main() -> ExitCode {
    match answer() {
        Ok(text) => println!("{text}"),
        Err(error) => {
            eprintln!("exchange: {error}");
            return ExitCode::FAILURE;
        }
    }
    ExitCode::SUCCESS
}
