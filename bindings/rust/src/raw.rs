//! The library's symbols and its structs, as `bindings/c/cundarrix.h` has them. Nothing here is public.

use core::ffi::c_void;
use core::mem::{align_of, offset_of, size_of};
use core::ptr;

/// `cundarrix_session`.
#[repr(C)]
pub struct RawSession {
    pub open: bool,
    pub at: *mut c_void,
}

impl RawSession {
    pub const CLOSED: RawSession = RawSession { open: false, at: ptr::null_mut() };
}

/// `cundarrix_options`.
#[derive(Clone, Copy, Debug, PartialEq, Eq)]
#[repr(C)]
pub struct RawOptions {
    pub events: u64,
    pub size: u32,
    pub first_cmd_sn: u32,
    pub window: u32,
    pub units: u32,
    pub depth: u32,
    pub level: u32,
    pub own: u32,
    pub unwritten: u32,
    pub acknowledged: u8,
    pub shared: u8,
    pub reserved: [u8; 6],
}

/// `cundarrix_action`.
#[derive(Clone, Copy)]
#[repr(C)]
pub struct RawAction {
    pub ticket: u64,
    pub cookie: u64,
    pub cid: u16,
    pub unit: u16,
    pub kind: u8,
    pub attribute: u8,
    pub why: u8,
    pub function: u8,
}

impl RawAction {
    /// What the library writes an action over.
    pub const EMPTY: RawAction =
        RawAction { ticket: 0, cookie: 0, cid: 0, unit: 0, kind: 0, attribute: 0, why: 0, function: 0 };
}

/// `cundarrix_told`.
#[derive(Clone, Copy)]
#[repr(C)]
pub struct RawTold {
    pub count: u32,
    pub waiting: u32,
}

impl RawTold {
    /// What is so before a call, as not every answer writes it.
    pub const NONE: RawTold = RawTold { count: 0, waiting: 0 };
}

/// `cundarrix_pdu`.
#[repr(C)]
pub struct RawPdu {
    pub cookie: u64,
    pub kind: u8,
    pub has_cookie: u8,
    pub length: u8,
    pub reserved: [u8; 5],
}

impl RawPdu {
    pub const EMPTY: RawPdu = RawPdu { cookie: 0, kind: 0, has_cookie: 0, length: 0, reserved: [0; 5] };
}

/// `cundarrix_numbers`.
#[repr(C)]
pub struct RawNumbers {
    pub exp_cmd_sn: u32,
    pub max_cmd_sn: u32,
}

/// Looks that a struct has a size, an alignment and these fields at these places, as the library has them.
macro_rules! layout {
    ($raw:ty, $size:literal, $align:literal, $($field:ident at $place:literal),+) => {
        const _: () = {
            assert!(size_of::<$raw>() == $size && align_of::<$raw>() == $align);
            $(assert!(offset_of!($raw, $field) == $place);)+
        };
    };
}

layout!(RawSession, 16, 8, open at 0, at at 8);
layout!(
    RawOptions, 48, 8,
    events at 0, size at 8, first_cmd_sn at 12, window at 16, units at 20, depth at 24, level at 28, own at 32,
    unwritten at 36, acknowledged at 40, shared at 41, reserved at 42
);
layout!(
    RawAction, 24, 8,
    ticket at 0, cookie at 8, cid at 16, unit at 18, kind at 20, attribute at 21, why at 22, function at 23
);
layout!(RawTold, 8, 4, count at 0, waiting at 4);
layout!(RawPdu, 16, 8, cookie at 0, kind at 8, has_cookie at 9, length at 10, reserved at 11);
layout!(RawNumbers, 8, 4, exp_cmd_sn at 0, max_cmd_sn at 4);

#[rustfmt::skip]
extern "C" {
    pub fn iscsi_c_open(
        options: *const RawOptions, cids: *const u16, count: usize, session: *mut RawSession,
    ) -> u32;
    pub fn iscsi_c_arrive(
        session: *mut RawSession, cid: u16, header: *const u8, length: usize, cookie: u64,
        actions: *mut RawAction, room: usize, told: *mut RawTold,
    ) -> u32;
    pub fn iscsi_c_complete(
        session: *mut RawSession, ticket: u64, status: u8,
        actions: *mut RawAction, room: usize, told: *mut RawTold,
    ) -> u32;
    pub fn iscsi_c_stopped(
        session: *mut RawSession, ticket: u64,
        actions: *mut RawAction, room: usize, told: *mut RawTold,
    ) -> u32;
    pub fn iscsi_c_next(
        session: *mut RawSession, cid: u16, buffer: *mut u8, length: usize, pdu: *mut RawPdu,
        actions: *mut RawAction, room: usize, told: *mut RawTold,
    ) -> u32;
    pub fn iscsi_c_put(
        session: *mut RawSession, cid: u16, ticket: u64, header: *const u8, length: usize, cookie: u64,
        actions: *mut RawAction, room: usize, told: *mut RawTold,
    ) -> u32;
    pub fn iscsi_c_written(
        session: *mut RawSession, cid: u16,
        actions: *mut RawAction, room: usize, told: *mut RawTold,
    ) -> u32;
    pub fn iscsi_c_heard(
        session: *mut RawSession, cid: u16, header: *const u8, length: usize,
        actions: *mut RawAction, room: usize, told: *mut RawTold,
    ) -> u32;
    pub fn iscsi_c_join(
        session: *mut RawSession, cid: u16, stat_sn: u32,
        actions: *mut RawAction, room: usize, told: *mut RawTold,
    ) -> u32;
    pub fn iscsi_c_lose(
        session: *mut RawSession, cid: u16,
        actions: *mut RawAction, room: usize, told: *mut RawTold,
    ) -> u32;
    pub fn iscsi_c_clear(
        session: *mut RawSession, unit: u16,
        actions: *mut RawAction, room: usize, told: *mut RawTold,
    ) -> u32;
    pub fn iscsi_c_cleared(
        session: *mut RawSession, unit: u16,
        actions: *mut RawAction, room: usize, told: *mut RawTold,
    ) -> u32;
    pub fn iscsi_c_more(
        session: *mut RawSession,
        actions: *mut RawAction, room: usize, told: *mut RawTold,
    ) -> u32;
    pub fn iscsi_c_numbers(session: *mut RawSession, numbers: *mut RawNumbers) -> u32;
    pub fn iscsi_c_may_take(session: *mut RawSession) -> bool;
    pub fn iscsi_c_is_asked(session: *mut RawSession, cid: u16) -> bool;
    pub fn iscsi_c_may_join(session: *mut RawSession, cid: u16) -> bool;
    pub fn iscsi_c_close(session: *mut RawSession) -> u32;
}
