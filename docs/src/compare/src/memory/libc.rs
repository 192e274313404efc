//! What the C library gives (x86-64 Linux).

use std::ffi::{c_int, c_void};

pub const PROT_NONE: c_int = 0;
pub const PROT_READ_WRITE: c_int = 3;
pub const MAP_PRIVATE_ANONYMOUS: c_int = 0x22;
pub const MAP_NORESERVE: c_int = 0x4000;
pub const MAP_FAILED: usize = usize::MAX;
pub const SIGSEGV: c_int = 11;
pub const SIG_DFL: usize = 0;
pub const SA_SIGINFO_ONSTACK: c_int = 0x0800_0004;

#[repr(C)]
pub struct SigInfo {
    pub numbers: [c_int; 4],
    pub address: usize,
}

#[repr(C)]
pub struct SigAction {
    pub handler: extern "C" fn(c_int, *const SigInfo, *mut c_void),
    pub mask: [u64; 16],
    pub flags: c_int,
    pub restorer: usize,
}

extern "C" {
    pub fn mmap(
        address: *mut c_void,
        length: usize,
        protection: c_int,
        flags: c_int,
        file: c_int,
        offset: i64,
    ) -> *mut c_void;
    pub fn munmap(address: *mut c_void, length: usize) -> c_int;
    pub fn mprotect(address: *mut c_void, length: usize, protection: c_int) -> c_int;
    pub fn sigaction(number: c_int, new: *const SigAction, old: *mut SigAction) -> c_int;
    pub fn signal(number: c_int, handler: usize) -> usize;
}

/// New memory of zeros that can be read and written.
pub fn map(length: usize, flags: c_int) -> *mut c_void {
    let flags = MAP_PRIVATE_ANONYMOUS | flags;
    // SAFETY: the mapping is new; it replaces none.
    let start = unsafe { mmap(std::ptr::null_mut(), length, PROT_READ_WRITE, flags, -1, 0) };
    assert!(start.addr() != MAP_FAILED, "{length} bytes cannot be mapped");
    start
}
