//! Modules for tests, each of which takes some.
#![allow(dead_code)]
use std::fs;

pub const HEADER: &[u8] = b"\0asm\x01\0\0\0";

pub fn example(name: &str) -> Vec<u8> {
    fs::read(format!("{}/../{name}", env!("CARGO_MANIFEST_DIR"))).unwrap()
}

/// A module of these sections.
pub fn module(sections: &[(u8, &[u8])]) -> Vec<u8> {
    let mut bytes = HEADER.to_vec();
    for (id, contents) in sections {
        bytes.push(*id);
        bytes.extend(unsigned(contents.len()));
        bytes.extend(*contents);
    }
    bytes
}

/// LEB128.
pub fn unsigned(mut number: usize) -> Vec<u8> {
    let mut bytes = Vec::new();
    while number >= 0x80 {
        bytes.push(number as u8 | 0x80);
        number >>= 7;
    }
    bytes.push(number as u8);
    bytes
}

/// A module whose function `f`, without parameters, has that many results: 7 each.
pub fn sevens(count: usize) -> Vec<u8> {
    let types = [&[1, 0x60, 0][..], &unsigned(count), &vec![0x7f; count]].concat();
    let body = [&[0][..], &[0x41, 7].repeat(count), &[0x0b]].concat();
    let code = [&[1][..], &unsigned(body.len()), &body].concat();
    module(&[(1, &types), (3, &[1, 0]), (7, b"\x01\x01f\0\0"), (10, &code)])
}
