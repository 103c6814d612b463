//! The exports of `naltvigo.h`. `scripts/header.py` compares numbers, structs and signatures with it.

use crate::options::Options;
use core::ffi::c_void;

pub const OK: u32 = 0;
pub const TOO_SMALL: u32 = 2;
pub const DIFFERENT: u32 = 6;
pub const EVENT: u32 = 7;
pub const MORE: u32 = 8;
pub const NOT_FOUND: u32 = 10;

pub const LEFT: u32 = 0;

pub const DEPTH_MAX: usize = 1024;

#[repr(C)]
#[derive(Clone, Copy, Debug, Default)]
pub struct Refusal {
    pub reason: u32,
    pub offset: u64,
    pub consumed: u64,
}

#[repr(C)]
#[derive(Clone, Copy, Debug, Default)]
pub struct Event {
    pub offset: u64,
    pub number: u64,
    pub kind: u32,
    pub width: u32,
}

#[repr(C)]
#[derive(Clone, Copy, Debug, Default)]
pub struct Item {
    pub number: u64,
    pub offset: u64,
    pub content: u64,
    pub end: u64,
    pub kind: u32,
    pub entries: u32,
}

#[repr(C)]
#[derive(Debug)]
pub struct Checker {
    pub memory: *mut c_void,
}

#[repr(C)]
#[derive(Clone, Debug)]
pub struct Machine {
    pub bytes: u64,
    pub consumed: u64,
    pub reported: u64,
    pub number: u64,
    pub offset: u64,
    pub depth: u16,
    pub open: u16,
    pub position: u8,
    pub kind: u8,
    pub width: u8,
    pub left: u8,
    pub chunk: u8,
    pub reason: u8,
    pub remaining: [u64; DEPTH_MAX],
    pub kinds: [u8; DEPTH_MAX],
}

impl Machine {
    pub fn new(options: &Options) -> Machine {
        let mut machine = Machine {
            bytes: 0,
            consumed: 0,
            reported: 0,
            number: 0,
            offset: 0,
            depth: 0,
            open: 0,
            position: 0,
            kind: 0,
            width: 0,
            left: 0,
            chunk: 0,
            reason: 0,
            remaining: [0; DEPTH_MAX],
            kinds: [0; DEPTH_MAX],
        };
        // SAFETY: the pointer points to a whole machine. The options are in range, so it returns OK.
        unsafe {
            naltvigo_machine_start_raw(options.depth().into(), options.bytes(), &mut machine)
        };
        machine
    }
}

extern "C" {
    pub fn naltvigo_version_raw() -> u32;
    pub fn naltvigo_canonicalise_raw(
        input: *const u8,
        input_length: usize,
        order: u32,
        keys: u32,
        depth: u32,
        bytes: u64,
        out: *mut u8,
        out_length: usize,
        needed: *mut usize,
        refusal: *mut Refusal,
    ) -> u32;
    pub fn naltvigo_check_canonical_raw(
        input: *const u8,
        input_length: usize,
        order: u32,
        keys: u32,
        depth: u32,
        bytes: u64,
        refusal: *mut Refusal,
    ) -> u32;
    pub fn naltvigo_check_valid_raw(
        input: *const u8,
        input_length: usize,
        keys: u32,
        depth: u32,
        bytes: u64,
        refusal: *mut Refusal,
    ) -> u32;
    pub fn naltvigo_next_valid_raw(
        input: *const u8,
        input_length: usize,
        keys: u32,
        depth: u32,
        bytes: u64,
        length: *mut u64,
        refusal: *mut Refusal,
    ) -> u32;
    pub fn naltvigo_next_canonical_raw(
        input: *const u8,
        input_length: usize,
        order: u32,
        keys: u32,
        depth: u32,
        bytes: u64,
        length: *mut u64,
        refusal: *mut Refusal,
    ) -> u32;
    pub fn naltvigo_compare_raw(
        left: *const u8,
        left_length: usize,
        right: *const u8,
        right_length: usize,
        keys: u32,
        depth: u32,
        bytes: u64,
        side: *mut u32,
        refusal: *mut Refusal,
    ) -> u32;
    pub fn naltvigo_diagnostic_raw(
        input: *const u8,
        input_length: usize,
        keys: u32,
        depth: u32,
        bytes: u64,
        out: *mut u8,
        out_length: usize,
        needed: *mut usize,
        refusal: *mut Refusal,
    ) -> u32;
    pub fn naltvigo_explain_raw(
        input: *const u8,
        input_length: usize,
        depth: u32,
        bytes: u64,
        reason: u32,
        offset: u64,
        out: *mut u8,
        out_length: usize,
        needed: *mut usize,
    ) -> u32;
    pub fn naltvigo_machine_start_raw(depth: u32, bytes: u64, machine: *mut Machine) -> u32;
    pub fn naltvigo_machine_feed_raw(
        machine: *mut Machine,
        input: *const u8,
        input_length: usize,
        used: *mut usize,
        events: *mut Event,
        events_length: usize,
        reported: *mut usize,
        refusal: *mut Refusal,
    ) -> u32;
    pub fn naltvigo_put_head_raw(
        kind: u32,
        number: u64,
        out: *mut u8,
        out_length: usize,
        needed: *mut usize,
    ) -> u32;
    pub fn naltvigo_index_raw(
        input: *const u8,
        input_length: usize,
        order: u32,
        keys: u32,
        depth: u32,
        bytes: u64,
        items: *mut Item,
        items_length: usize,
        needed: *mut usize,
        refusal: *mut Refusal,
    ) -> u32;
    pub fn naltvigo_item_at_raw(
        input: *const u8,
        input_length: usize,
        offset: u64,
        item: *mut Item,
    ) -> u32;
    pub fn naltvigo_find_raw(
        input: *const u8,
        input_length: usize,
        map: u64,
        key: *const u8,
        key_length: usize,
        value: *mut Item,
    ) -> u32;
    pub fn naltvigo_checker_new_raw(
        order: u32,
        keys: u32,
        depth: u32,
        bytes: u64,
        checker: *mut Checker,
    ) -> u32;
    pub fn naltvigo_checker_restart_raw(order: u32, checker: *mut Checker) -> u32;
    pub fn naltvigo_checker_feed_raw(
        checker: *mut Checker,
        input: *const u8,
        input_length: usize,
        used: *mut usize,
        refusal: *mut Refusal,
    ) -> u32;
    pub fn naltvigo_checker_end_raw(checker: *mut Checker, refusal: *mut Refusal) -> u32;
    pub fn naltvigo_checker_free_raw(checker: *mut Checker) -> u32;
}
