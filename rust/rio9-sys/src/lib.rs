//! The C library of rio9: its three functions and its numbers, as `include/rio9.h` has them. The crate `rio9` has a safe
//! type over them.
//!
//! What a caller has to keep is what the header says: a display is used by one thread at a time; each pointer has as many
//! bytes behind it as its length says, is not null, and input and output do not overlap.
#![no_std]
#![allow(non_camel_case_types)]

use core::marker::{PhantomData, PhantomPinned};

/// A display, behind a pointer.
#[repr(C)]
pub struct rio9 {
    _data: [u8; 0],
    _marker: PhantomData<(*mut u8, PhantomPinned)>,
}

/// An operation, and up to four numbers.
#[repr(C)]
#[derive(Clone, Copy, Debug, Default, PartialEq, Eq)]
pub struct rio9_request {
    pub operation: u32,
    pub a: u32,
    pub b: u32,
    pub c: u32,
    pub d: u32,
}

/// What a call gave.
#[repr(C)]
#[derive(Clone, Copy, Debug, Default, PartialEq, Eq)]
pub struct rio9_result {
    /// One of the statuses, `RIO9_DONE` and those behind it.
    pub status: u32,
    pub number: u64,
    pub other: u64,
    /// Other sessions that got replies: bit (session mod 64) for each.
    pub rings: u64,
    /// How many pixels a message wrote.
    pub pixels: u64,
    /// How many bytes the answer has.
    pub length: u64,
}

pub const RIO9_DONE: u32 = 0;
pub const RIO9_MEMORY: u32 = 1;
pub const RIO9_CROWDED: u32 = 2;
pub const RIO9_CLOSED: u32 = 3;
pub const RIO9_DUPLICATE: u32 = 4;
pub const RIO9_NOTHING: u32 = 5;
pub const RIO9_OVER: u32 = 6;
pub const RIO9_BAD_RECTANGLE: u32 = 7;
pub const RIO9_BAD_RECORD: u32 = 8;
pub const RIO9_LATE_RECORD: u32 = 9;
pub const RIO9_BAD_EVENT: u32 = 10;
pub const RIO9_FULL: u32 = 11;
pub const RIO9_BAD_OPERATION: u32 = 12;
pub const RIO9_BAD_SIZE: u32 = 13;
pub const RIO9_BAD_CHANNELS: u32 = 14;
pub const RIO9_NULL: u32 = 15;
pub const RIO9_SHORT: u32 = 16;

pub const RIO9_AGAIN: u32 = 0;
pub const RIO9_BEGIN: u32 = 1;
pub const RIO9_MESSAGE: u32 = 2;
pub const RIO9_TAKE: u32 = 3;
pub const RIO9_END: u32 = 4;
pub const RIO9_EXCHANGE: u32 = 5;
pub const RIO9_WAITING: u32 = 6;
pub const RIO9_SCREEN: u32 = 7;
pub const RIO9_ROWS: u32 = 8;
pub const RIO9_MARKS: u32 = 9;
pub const RIO9_CLEAR_MARKS: u32 = 10;
pub const RIO9_POINTER: u32 = 11;
pub const RIO9_SIZE: u32 = 12;
pub const RIO9_RECORD: u32 = 13;
pub const RIO9_FORGET: u32 = 14;
pub const RIO9_LOAD: u32 = 15;
pub const RIO9_ENTRIES: u32 = 16;
pub const RIO9_EVENT: u32 = 17;

extern "C" {
    /// Opens a display. If the status is `RIO9_DONE`, `*display` is the display, and else it is not written.
    ///
    /// # Safety
    /// `channels` has `length` bytes, and `display` can be written.
    pub fn rio9_open(width: u32, height: u32, channels: *const u8, length: usize, display: *mut *mut rio9) -> u32;

    /// Does what is asked, and puts the first bytes of the answer into `output`, as many as have room.
    ///
    /// # Safety
    /// The display is open, no other thread uses it, and the pointers have as many bytes as their lengths say.
    pub fn rio9_call(
        display: *mut rio9,
        request: *const rio9_request,
        input: *const u8,
        length: usize,
        output: *mut u8,
        room: usize,
    ) -> rio9_result;

    /// Frees a display.
    ///
    /// # Safety
    /// The display is open, and nobody uses it any more.
    pub fn rio9_close(display: *mut rio9);
}
