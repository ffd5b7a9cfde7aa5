//! What an instance answers where memory is refused. The limit is that of a process, so that no other test stands here.
mod common;

use common::{module, unsigned};
use gate::{Instance, InstanceError, Module, Settings};
use std::env;
use std::fs;
use std::process::Command;

#[repr(C)]
struct Limit {
    now: u64,
    most: u64,
}

/// The bytes of addresses of a process.
const RLIMIT_AS: i32 = 9;

extern "C" {
    fn getrlimit(resource: i32, limit: *mut Limit) -> i32;
    fn setrlimit(resource: i32, limit: *const Limit) -> i32;
}

/// What `act` gives where the process gets 16 megabytes more of addresses.
fn in_short_memory<T>(act: impl FnOnce() -> T) -> T {
    let mut usual = Limit { now: 0, most: 0 };
    let pages: u64 = fs::read_to_string("/proc/self/statm")
        .unwrap()
        .split(' ')
        .next()
        .unwrap()
        .parse()
        .unwrap();
    // SAFETY: the struct is that of x86-64 Linux.
    assert_eq!(unsafe { getrlimit(RLIMIT_AS, &mut usual) }, 0);
    let short = Limit {
        now: pages * 4096 + (16 << 20),
        most: usual.most,
    };
    // SAFETY: likewise.
    assert_eq!(unsafe { setrlimit(RLIMIT_AS, &short) }, 0);
    let given = act();
    // SAFETY: likewise.
    assert_eq!(unsafe { setrlimit(RLIMIT_AS, &usual) }, 0);
    given
}

/// Its start function enters itself `count` times, up to 8,191, with 50,000 locals each time. `grow` grows its memory, which has a page.
fn enters(count: u16) -> Vec<u8> {
    // `if (count) { count -= 1; start() }`, where `count` is a global.
    let locals = [&[1][..], &unsigned(50_000), &[0x7f]].concat();
    let code = [0x23, 0, 0x04, 0x40, 0x23, 0, 0x41, 0x7f, 0x6a, 0x24, 0, 0x10, 0, 0x0b, 0x0b];
    let body = [&locals[..], &code].concat();
    let grow = [6, 0, 0x20, 0, 0x40, 0, 0x0b];
    module(&[
        (1, &[2, 0x60, 0, 0, 0x60, 1, 0x7f, 1, 0x7f]),
        (3, &[2, 0, 1]),
        (5, &[1, 0, 1]),
        (6, &[1, 0x7f, 1, 0x41, 0x80 | count as u8, (count >> 7) as u8, 0x0b]),
        (7, b"\x01\x04grow\0\x01"),
        (8, &[0]),
        (10, &[&[2][..], &unsigned(body.len()), &body, &grow].concat()),
    ])
}

fn limits() -> Settings {
    Settings::new(1000, 1000, 1024).unwrap()
}

fn instance_of(bytes: Vec<u8>) -> Result<Instance<'static>, InstanceError> {
    Module::from_vec(bytes).unwrap().instance(limits())
}

fn grow(instance: &mut Instance<'_>, pages: i32) -> Result<String, InstanceError> {
    instance.call("grow", &[pages.into()], limits()).map(|call| call.to_string())
}

/// A call that runs short of memory, and each one after it.
fn in_a_call() {
    let mut instance = instance_of(enters(0)).unwrap();
    let short = in_short_memory(|| grow(&mut instance, 1023));
    assert_eq!(short, Err(InstanceError::NoMemory));
    assert_eq!(grow(&mut instance, 1), Err(InstanceError::NoMemory));
    instance.reset().unwrap();
    assert_eq!(grow(&mut instance, 1).unwrap(), "values i32:1 fuel 1");
}

/// A reset that makes no instance; another one does.
fn in_a_reset() {
    let mut instance = instance_of(enters(64)).unwrap();
    let short = in_short_memory(|| instance.reset());
    assert_eq!(short, Err(InstanceError::NoMemory));
    assert_eq!(grow(&mut instance, 1), Err(InstanceError::NoMemory));
    assert_eq!((instance.memory_size(), instance.start_fuel()), (0, 0));
    assert_eq!(instance.read_vec(0, 1), Err(InstanceError::Outside));
    instance.reset().unwrap();
    assert_eq!((instance.memory_size(), instance.start_fuel()), (65_536, 65));
    assert_eq!(grow(&mut instance, 1).unwrap(), "values i32:1 fuel 1");
}

/// Where malloc keeps nothing back of what was freed, and has no other place for large blocks.
const OF_MALLOC: [(&str, &str); 2] = [("MALLOC_MMAP_THRESHOLD_", "65536"), ("MALLOC_ARENA_MAX", "1")];

#[test]
fn no_memory() {
    if OF_MALLOC.iter().any(|(name, value)| env::var(name).as_deref() != Ok(value)) {
        let again = Command::new(env::current_exe().unwrap()).envs(OF_MALLOC).output().unwrap();
        assert!(again.status.success(), "{}", String::from_utf8_lossy(&again.stdout));
        return;
    }
    in_a_call();
    in_a_reset();
    let memory = module(&[(5, &[1, 0, 0x80, 8])]); // of 1,024 pages
    let short = in_short_memory(|| instance_of(memory).map(drop));
    assert_eq!(short, Err(InstanceError::NoMemory));
}
