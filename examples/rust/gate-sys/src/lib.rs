//! The declarations of `gate.h`, of interface 1 and revision 2, and its archive. What a function answers, and what a caller owes, stands
//! in that header. The crate `gate` is the safe one.
#![no_std]
#![allow(non_camel_case_types)]
use core::ffi::c_void;
use core::mem::{align_of, size_of};

/// The module is accepted; the text, the report or the end is written.
pub const GATE_OK: u32 = 0;
/// The module is refused, and verdict or text say why.
pub const GATE_MODULE_REFUSED: u32 = 2;
/// The text of calls is refused, and the text says why.
pub const GATE_CALLS_REFUSED: u32 = 3;
/// There is no such export or function.
pub const GATE_NOTHING: u32 = 4;
/// A limit is out of its range, or numbers are of no verdict or value.
pub const GATE_BAD_ARGUMENT: u32 = 64;
/// A block was refused that the function cannot do without.
pub const GATE_NO_MEMORY: u32 = 70;
/// The buffer is short, and is as it was.
pub const GATE_SHORT_BUFFER: u32 = 75;
/// Bytes do not lie in the memory of an instance.
pub const GATE_OUTSIDE: u32 = 80;
/// There is no instance.
pub const GATE_NO_INSTANCE: u32 = 81;
/// No global is exported under the name.
pub const GATE_NO_GLOBAL: u32 = 82;

/// What is said of a module. Numbers that do not belong to the kind are 0.
#[repr(C)]
#[derive(Clone, Copy, Debug, Default)]
pub struct gate_verdict {
    /// `enum gate_kind`.
    pub kind: u32,
    /// The least broken rule, 2 to 13.
    pub rule: u32,
    /// The function whose body is refused, imported ones counted first.
    pub function: u32,
    /// The first token that no completion can save, from 0.
    pub token: u64,
}

/// A number of 64 bits that is not told.
pub const GATE_NONE: u64 = u64::MAX;
/// A number of 32 bits that is not told.
pub const GATE_NONE_32: u32 = u32::MAX;

/// Where and why a module is refused. Offsets count the bytes of the module.
#[repr(C)]
#[derive(Clone, Copy, Debug, Default)]
pub struct gate_explanation {
    /// That of `gate_check`.
    pub verdict: gate_verdict,
    /// `enum gate_why`.
    pub why: u32,
    /// The id of the section in which it stands.
    pub section: u32,
    /// The first byte of the token that is refused, or with which no token begins.
    pub opcode: u32,
    /// The place in the section, from 0.
    pub item: u64,
    /// The refused body, without its size.
    pub body_from: u64,
    /// The offset after it.
    pub body_to: u64,
    /// The token or the item, or where reading stopped.
    pub from: u64,
    /// The offset after it; the same where reading stopped.
    pub to: u64,
}

/// The limits of each call.
#[repr(C)]
#[derive(Clone, Copy, Debug, Default)]
pub struct gate_settings {
    /// At most 1,000,000,000.
    pub fuel: u32,
    /// 1 to 4,096.
    pub frames: u32,
    /// At most 1,024.
    pub pages: u32,
}

/// An answer that is kept because the buffer was short.
#[repr(C)]
#[derive(Clone, Copy, Debug)]
pub struct gate_report {
    /// The library's.
    pub at: *mut c_void,
}

/// An accepted module.
#[repr(C)]
#[derive(Clone, Copy, Debug)]
pub struct gate_module {
    /// The library's.
    pub at: *mut c_void,
}

/// An instance that goes on from call to call.
#[repr(C)]
#[derive(Clone, Copy, Debug)]
pub struct gate_instance {
    /// The library's.
    pub at: *mut c_void,
}

/// An argument or a result.
#[repr(C)]
#[derive(Clone, Copy, Debug, Default)]
pub struct gate_value {
    /// 32 or 64.
    pub width: u32,
    /// Of 32 bits: below 2^32.
    pub bits: u64,
}

/// How a call ended.
#[repr(C)]
#[derive(Clone, Copy, Debug, Default)]
pub struct gate_call {
    /// `enum gate_end`.
    pub end: u32,
    /// Of a trap and of a call that was not started, else 0.
    pub reason: u32,
    /// The number of the segment that lies outside, else 0.
    pub place: u32,
    /// What the call cost, the start function included; 0 where nothing ran.
    pub fuel: u32,
    /// How many values there are; as many are written as there is room for.
    pub results: u64,
}

/// What is exported.
#[repr(C)]
#[derive(Clone, Copy, Debug, Default)]
pub struct gate_export {
    /// `enum gate_export_kind`.
    pub kind: u32,
    /// Among those of its kind, imported ones counted first.
    pub index: u32,
    /// How many parameters a function has, else 0.
    pub params: u32,
    /// How many results a function has, else 0.
    pub results: u32,
}

/// What is imported.
#[repr(C)]
#[derive(Clone, Copy, Debug, Default)]
pub struct gate_import {
    /// `enum gate_export_kind`.
    pub kind: u32,
    /// How many parameters a function has, else 0.
    pub params: u32,
    /// How many results a function has, else 0.
    pub results: u32,
}

/// Numbers of a module by which a host may refuse it.
#[repr(C)]
#[derive(Clone, Copy, Debug, Default)]
pub struct gate_measures {
    /// Of the longest body.
    pub tokens: u64,
    /// The most of a function.
    pub locals: u64,
    /// The longest list of types.
    pub values: u64,
}

const fn is_laid_out<T>(size: usize, alignment: usize) -> bool {
    size_of::<T>() == size && align_of::<T>() == alignment
}

const _: () = assert!(is_laid_out::<gate_verdict>(24, 8) && is_laid_out::<gate_settings>(12, 4));
const _: () = assert!(is_laid_out::<gate_explanation>(80, 8));
const _: () = assert!(is_laid_out::<gate_report>(8, 8) && is_laid_out::<gate_module>(8, 8));
const _: () = assert!(is_laid_out::<gate_instance>(8, 8));
const _: () = assert!(is_laid_out::<gate_value>(16, 8) && is_laid_out::<gate_call>(24, 8));
const _: () = assert!(is_laid_out::<gate_export>(16, 4) && is_laid_out::<gate_import>(12, 4));
const _: () = assert!(is_laid_out::<gate_measures>(24, 8));

extern "C" {
    /// The number of the interface.
    pub fn gate_version() -> u32;

    /// Judges a module.
    pub fn gate_check(bytes: *const u8, bytes_length: usize, verdict: *mut gate_verdict) -> u32;

    /// Writes the line of a verdict.
    pub fn gate_verdict_line(verdict: *const gate_verdict, out: *mut u8, room: usize, length: *mut usize) -> u32;

    /// Judges a module, and says of a refusal where and why.
    pub fn gate_explain(bytes: *const u8, bytes_length: usize, explanation: *mut gate_explanation) -> u32;

    /// The same as a text.
    pub fn gate_explain_text(bytes: *const u8, bytes_length: usize, out: *mut u8, room: usize, length: *mut usize) -> u32;

    /// Judges a module, and writes what `gate exports` prints.
    pub fn gate_exports_text(
        bytes: *const u8,
        bytes_length: usize,
        settings: *const gate_settings,
        out: *mut u8,
        room: usize,
        length: *mut usize,
    ) -> u32;

    /// Judges a module, and runs the calls of a text.
    pub fn gate_run(
        module: *const u8,
        module_length: usize,
        calls: *const u8,
        calls_length: usize,
        settings: *const gate_settings,
        out: *mut u8,
        room: usize,
        length: *mut usize,
        kept: *mut gate_report,
    ) -> u32;

    /// Writes a kept answer.
    pub fn gate_report_read(report: gate_report, out: *mut u8, room: usize, length: *mut usize) -> u32;

    /// Frees a kept answer.
    pub fn gate_report_free(report: gate_report);

    /// Judges a module once for many calls.
    pub fn gate_module_new(bytes: *const u8, bytes_length: usize, verdict: *mut gate_verdict, module: *mut gate_module) -> u32;

    /// Runs the calls of a text on an accepted module.
    pub fn gate_module_run(
        module: gate_module,
        calls: *const u8,
        calls_length: usize,
        settings: *const gate_settings,
        out: *mut u8,
        room: usize,
        length: *mut usize,
        kept: *mut gate_report,
    ) -> u32;

    /// Calls an export on a fresh instance.
    pub fn gate_module_call(
        module: gate_module,
        name: *const u8,
        name_length: usize,
        args: *const gate_value,
        args_count: usize,
        settings: *const gate_settings,
        results: *mut gate_value,
        results_room: usize,
        ended: *mut gate_call,
    ) -> u32;

    /// Gives another handle of the same module.
    pub fn gate_module_share(module: gate_module, other: *mut gate_module) -> u32;

    /// Frees a handle, and with the last one the module.
    pub fn gate_module_free(module: gate_module);

    /// The number of what the library has beside the functions that came first.
    pub fn gate_revision() -> u32;

    /// Writes which build the library is.
    pub fn gate_build(out: *mut u8, room: usize, length: *mut usize) -> u32;

    /// How many bytes the lists of a module take.
    pub fn gate_module_size(module: gate_module) -> u64;

    /// How many exports there are.
    pub fn gate_module_export_count(module: gate_module) -> u64;

    /// Writes numbers by which a host may refuse a module.
    pub fn gate_module_measures(module: gate_module, measures: *mut gate_measures) -> u32;

    /// Tells an export by its number.
    pub fn gate_module_export(module: gate_module, number: u64, found: *mut gate_export) -> u32;

    /// Writes the name of an export by its number.
    pub fn gate_module_export_name(module: gate_module, number: u64, out: *mut u8, room: usize, length: *mut usize) -> u32;

    /// Tells an export by its name.
    pub fn gate_module_find(module: gate_module, name: *const u8, name_length: usize, found: *mut gate_export) -> u32;

    /// Writes the types of a function.
    pub fn gate_module_types(
        module: gate_module,
        function: u32,
        params: *mut u8,
        params_room: usize,
        results: *mut u8,
        results_room: usize,
    ) -> u32;

    /// How many imports there are.
    pub fn gate_module_import_count(module: gate_module) -> u64;

    /// Tells an import by its number.
    pub fn gate_module_import(module: gate_module, number: u64, found: *mut gate_import) -> u32;

    /// Writes the name of the module that an import is of.
    pub fn gate_module_import_module(module: gate_module, number: u64, out: *mut u8, room: usize, length: *mut usize) -> u32;

    /// Writes the name of an import in that module.
    pub fn gate_module_import_name(module: gate_module, number: u64, out: *mut u8, room: usize, length: *mut usize) -> u32;

    /// Says whether a call would have an instance.
    pub fn gate_module_starts(module: gate_module, settings: *const gate_settings, ended: *mut gate_call) -> u32;

    /// Makes an instance, and runs the start function.
    pub fn gate_instance_new(
        module: gate_module,
        settings: *const gate_settings,
        instance: *mut gate_instance,
        ended: *mut gate_call,
    ) -> u32;

    /// Calls an export on an instance as it is.
    pub fn gate_instance_call(
        instance: gate_instance,
        name: *const u8,
        name_length: usize,
        args: *const gate_value,
        args_count: usize,
        settings: *const gate_settings,
        results: *mut gate_value,
        results_room: usize,
        ended: *mut gate_call,
    ) -> u32;

    /// Finds an export by its name, and writes its number.
    pub fn gate_instance_find(instance: gate_instance, name: *const u8, name_length: usize, number: *mut u64) -> u32;

    /// Calls the export of that number on an instance as it is.
    pub fn gate_instance_call_at(
        instance: gate_instance,
        number: u64,
        args: *const gate_value,
        args_count: usize,
        settings: *const gate_settings,
        results: *mut gate_value,
        results_room: usize,
        ended: *mut gate_call,
    ) -> u32;

    /// Writes the number of bytes of the memory.
    pub fn gate_instance_memory_size(instance: gate_instance, size: *mut u64) -> u32;

    /// Copies bytes of the memory.
    pub fn gate_instance_read(instance: gate_instance, at: u64, out: *mut u8, length: usize) -> u32;

    /// Writes bytes to the memory.
    pub fn gate_instance_write(instance: gate_instance, at: u64, bytes: *const u8, length: usize) -> u32;

    /// Writes the value of an exported global.
    pub fn gate_instance_global(instance: gate_instance, name: *const u8, name_length: usize, value: *mut gate_value) -> u32;

    /// Makes a new instance in the memory of this one.
    pub fn gate_instance_reset(instance: gate_instance, ended: *mut gate_call) -> u32;

    /// Frees an instance.
    pub fn gate_instance_free(instance: gate_instance);
}
