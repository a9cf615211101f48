//! The few names that ecn.rs takes from the `libc` crate, so that it compiles unchanged. No socket is ever opened.

#![allow(non_camel_case_types)]

pub type c_int = i32;
pub type socklen_t = u32;
pub use std::ffi::c_void;

pub const IPPROTO_IP: c_int = 0;
pub const IP_TOS: c_int = 1;
pub const IP_RECVTOS: c_int = 13;

/// Sets nothing.
///
/// # Safety
/// It reads none of its arguments.
pub unsafe fn setsockopt(_: c_int, _: c_int, _: c_int, _: *const c_void, _: socklen_t) -> c_int {
    -1
}
