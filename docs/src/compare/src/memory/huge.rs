//! A buffer whose length does not fit in 32 bits.

#![allow(unsafe_code)]

use std::ffi::c_void;

use super::libc;

const WRAP: usize = 1 << 32;
const BEHIND: usize = 1 << 16;

/// A buffer of 4 GiB and a few bytes. It is mapped and hardly used, so it takes
/// only a few pages.
pub struct Huge(*mut c_void);

impl Huge {
    /// A buffer of zeros.
    pub fn new() -> Huge {
        Huge(libc::map(WRAP + BEHIND, libc::MAP_NORESERVE))
    }

    /// The buffer, 4 GiB longer than these bytes, which it starts with. They
    /// are at most 65,536.
    pub fn starting_with(&mut self, bytes: &[u8]) -> &mut [u8] {
        assert!(bytes.len() <= BEHIND);
        let length = WRAP + bytes.len();
        // SAFETY: so many bytes are mapped, and `self` is borrowed mutably.
        let buffer = unsafe { std::slice::from_raw_parts_mut(self.0.cast::<u8>(), length) };
        buffer[..bytes.len()].copy_from_slice(bytes);
        buffer
    }
}

impl Default for Huge {
    fn default() -> Self {
        Huge::new()
    }
}

impl Drop for Huge {
    fn drop(&mut self) {
        // SAFETY: it is what `new` mapped, and no slice of it is left.
        unsafe { libc::munmap(self.0, WRAP + BEHIND) };
    }
}
