//! A host in small: it judges and runs modules by libgate, in its own process.
use gate::{judge, run, CheckError, Module, NoMemory, Settings, SettingsError, Value, Verdict};
use std::env;
use std::ffi::{OsStr, OsString};
use std::fmt;
use std::fs;
use std::io::{self, BufRead, Write};
use std::os::unix::ffi::OsStrExt;
use std::process::ExitCode;

const USAGE: &str = "usage: gate-host check -                              judges the files whose names come on standard input
       gate-host run MODULE CALLS FUEL FRAMES PAGES   runs the calls of a text
       gate-host call MODULE NAME [i32:N|i64:N ..]    calls an export";

/// Why there is no answer.
enum Failure {
    Usage(String),
    CannotRead(OsString),
    WriteFailed,
    NoMemory,
}

impl Failure {
    fn code(&self) -> u8 {
        match self {
            Failure::Usage(_) => 64,
            Failure::NoMemory => 70,
            Failure::CannotRead(_) | Failure::WriteFailed => 74,
        }
    }
}

impl fmt::Display for Failure {
    fn fmt(&self, f: &mut fmt::Formatter<'_>) -> fmt::Result {
        match self {
            Failure::Usage(reason) => f.write_str(reason),
            Failure::CannotRead(path) => write!(f, "gate-host: cannot read {}", path.to_string_lossy()),
            Failure::WriteFailed => f.write_str("gate-host: write failed"),
            Failure::NoMemory => f.write_str("gate-host: no memory"),
        }
    }
}

impl From<NoMemory> for Failure {
    fn from(_: NoMemory) -> Self {
        Failure::NoMemory
    }
}

impl From<SettingsError> for Failure {
    fn from(error: SettingsError) -> Self {
        Failure::Usage(format!("gate-host: {error}"))
    }
}

fn usage() -> Failure {
    Failure::Usage(USAGE.to_string())
}

fn read(path: &OsStr) -> Result<Vec<u8>, Failure> {
    fs::read(path).map_err(|_| Failure::CannotRead(path.to_os_string()))
}

fn print(text: impl fmt::Display) -> Result<(), Failure> {
    let mut out = io::stdout();
    write!(out, "{text}").and_then(|()| out.flush()).map_err(|_| Failure::WriteFailed)
}

/// A word that is UTF-8 and has the form that is wanted.
fn parsed<T: std::str::FromStr>(word: &OsStr) -> Result<T, Failure> {
    word.to_str().and_then(|word| word.parse().ok()).ok_or_else(usage)
}

/// Prints the verdict line of each file that is named on standard input, and goes on where there is none.
fn check() -> Result<u8, Failure> {
    let mut code = 0;
    for name in io::stdin().lock().split(b'\n') {
        let name = name.map_err(|_| Failure::CannotRead("standard input".into()))?;
        match verdict(OsStr::from_bytes(&name)) {
            Ok(verdict) => print(format_args!("{verdict}\n"))?,
            Err(failure) => {
                code = failure.code();
                print(if code == 70 { "no memory\n" } else { "cannot be read\n" })?;
            }
        }
    }
    Ok(code)
}

fn verdict(path: &OsStr) -> Result<Verdict, Failure> {
    Ok(judge(&read(path)?)?)
}

/// Prints the report of a text of calls.
fn report(module: &OsStr, calls: &OsStr, settings: Settings) -> Result<u8, Failure> {
    let (module, calls) = (read(module)?, read(calls)?);
    let report = run(&module, &calls, settings)?;
    print(&report)?;
    Ok(report.status().code())
}

/// Prints how a call ends, as a report has it.
fn call(module: &OsStr, name: &str, args: &[Value]) -> Result<u8, Failure> {
    let bytes = read(module)?;
    let module = match Module::new(&bytes) {
        Ok(module) => module,
        Err(CheckError::NoMemory) => return Err(Failure::NoMemory),
        Err(CheckError::Refused(found)) => return print(format_args!("{}\n", found.verdict())).map(|()| 2),
    };
    print(format_args!("{}\n", module.call(name, args, Settings::default())?))?;
    Ok(0)
}

fn answer(words: &[&OsStr]) -> Result<u8, Failure> {
    let (command, rest) = words.split_first().ok_or_else(usage)?;
    match (command.to_str(), rest) {
        (Some("check"), [dash]) if *dash == "-" => check(),
        (Some("run"), [module, calls, fuel, frames, pages]) => {
            report(module, calls, Settings::new(parsed(fuel)?, parsed(frames)?, parsed(pages)?)?)
        }
        (Some("call"), [module, name, args @ ..]) => {
            let args = args.iter().map(|word| parsed(word)).collect::<Result<Vec<Value>, Failure>>()?;
            call(module, &parsed::<String>(name)?, &args)
        }
        _ => Err(usage()),
    }
}

fn main() -> ExitCode {
    let words: Vec<OsString> = env::args_os().skip(1).collect();
    let words: Vec<&OsStr> = words.iter().map(OsString::as_os_str).collect();
    let code = answer(&words).unwrap_or_else(|failure| {
        // A message that cannot be written changes nothing.
        let _ = writeln!(io::stderr(), "{failure}");
        failure.code()
    });
    ExitCode::from(code)
}
