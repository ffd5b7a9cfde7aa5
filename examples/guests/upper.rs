//! Upper-cases the ASCII letters of a text, which stands in the memory of the module.
//!
//! A host calls `alloc(length)`, writes the text there, and calls `handle(address, length)`. The answer is where the text stands that
//! came of it: its address in the high 32 bits, its length in the low ones. Bytes that are no ASCII letters stay as they are.
//!
//! `upper` takes and gives a text of up to eight bytes as a number, the first byte lowest, with zeros behind the last byte. It shows by
//! `gate run` what a host gets that reaches the memory.
//!
//! Compiled by: make upper.wasm
#![no_std]
#![no_main]

use core::panic::PanicInfo;
use core::ptr::{addr_of_mut, null_mut};
use core::slice;

const ROOM: usize = 8192;

static mut TEXT: [u8; ROOM] = [0; ROOM];
static mut USED: usize = 0;

#[panic_handler]
fn panic(_: &PanicInfo) -> ! {
    core::arch::wasm32::unreachable()
}

/// The address of `length` free bytes; or 0, where there are fewer.
#[no_mangle]
pub extern "C" fn alloc(length: usize) -> *mut u8 {
    // SAFETY: the module has one thread, and no reference to `USED` outlives its statement.
    unsafe {
        if length > ROOM - USED {
            return null_mut();
        }
        USED += length;
        addr_of_mut!(TEXT).cast::<u8>().add(USED - length)
    }
}

/// Upper-cases the text where it stands.
///
/// # Safety
///
/// The bytes lie in room that `alloc` gave, and nothing else refers to them.
#[no_mangle]
pub unsafe extern "C" fn handle(address: *mut u8, length: usize) -> u64 {
    slice::from_raw_parts_mut(address, length).make_ascii_uppercase();
    (address as u64) << 32 | length as u64
}

/// Asks as a host would.
#[no_mangle]
pub extern "C" fn upper(text: u64) -> u64 {
    let address = alloc(8).cast::<u64>();
    if address.is_null() {
        return 0;
    }
    // SAFETY: `alloc` gave these eight bytes, and nothing else refers to them.
    unsafe {
        address.write_unaligned(text.to_le());
        handle(address.cast(), 8);
        u64::from_le(address.read_unaligned())
    }
}
