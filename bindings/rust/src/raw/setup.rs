//! Setups, of numbers and packed.

use super::abi;

/// Makes `card` a fresh card and answers 0. `queues` has a queue count for each
/// member.
///
/// Answers 4 and fills `card` with zeros if a number is out of range, if
/// `queues` is not `members` bytes or `features` not 16, or if `card` is not
/// [`card_bytes`](super::card_bytes) long.
#[must_use]
pub fn setup(
    card: &mut [u8],
    members: u64,
    queues: &[u8],
    gets: u64,
    sets: u64,
    features: &[u8],
) -> u8 {
    // SAFETY: each pointer and length are those of one slice, which is
    // borrowed for the call (`card` mutably, so it overlaps no other).
    unsafe {
        abi::kajurnat_setup(
            card.as_mut_ptr(),
            card.len(),
            members,
            queues.as_ptr(),
            queues.len(),
            gets,
            sets,
            features.as_ptr(),
            features.len(),
        )
    }
}

/// Makes `card` a fresh card of a packed setup of either version and answers 0.
///
/// Answers 4 and fills `card` with zeros if `setup` is refused, or if `card` is
/// not [`card_bytes`](super::card_bytes) long.
#[must_use]
pub fn setup_from(card: &mut [u8], setup: &[u8]) -> u8 {
    // SAFETY: as in `setup`.
    unsafe { abi::kajurnat_setup_from(card.as_mut_ptr(), card.len(), setup.as_ptr(), setup.len()) }
}

/// Packs a setup at the start of `setup` and returns its length: version 1 if
/// all queue counts are equal, else version 2.
///
/// Returns 0, with nothing written, if a number is out of range, if `queues` is
/// not `members` bytes or `features` not 16, or if `setup` is too short.
#[must_use]
pub fn setup_write(
    setup: &mut [u8],
    members: u64,
    queues: &[u8],
    gets: u64,
    sets: u64,
    features: &[u8],
) -> usize {
    // SAFETY: as in `setup`.
    unsafe {
        abi::kajurnat_setup_write(
            setup.as_mut_ptr(),
            setup.len(),
            members,
            queues.as_ptr(),
            queues.len(),
            gets,
            sets,
            features.as_ptr(),
            features.len(),
        )
    }
}

/// Reads a packed setup of either version and answers 0. The queue counts of
/// members past the last are 0.
///
/// Answers 2, with nothing written, if it is refused, or if `queues` or
/// `features` is not 16 bytes.
#[must_use]
pub fn setup_read(
    setup: &[u8],
    members: &mut u8,
    queues: &mut [u8],
    gets: &mut u8,
    sets: &mut u8,
    features: &mut [u8],
) -> u8 {
    read(abi::kajurnat_setup_read, setup, members, queues, gets, sets, features)
}

/// The same for version 1 alone. Answers 1, with nothing written and before all
/// else, if the setup is of version 2.
#[must_use]
pub fn setup_read_v1(
    setup: &[u8],
    members: &mut u8,
    queues: &mut [u8],
    gets: &mut u8,
    sets: &mut u8,
    features: &mut [u8],
) -> u8 {
    read(abi::kajurnat_setup_read_v1, setup, members, queues, gets, sets, features)
}

/// A reader as the archive exports it.
type Reader = unsafe extern "C" fn(
    *const u8,
    usize,
    *mut u8,
    *mut u8,
    usize,
    *mut u8,
    *mut u8,
    *mut u8,
    usize,
) -> u8;

/// Reads a packed setup by one of the two readers.
fn read(
    reader: Reader,
    setup: &[u8],
    members: &mut u8,
    queues: &mut [u8],
    gets: &mut u8,
    sets: &mut u8,
    features: &mut [u8],
) -> u8 {
    // SAFETY: each pointer and length are those of one slice, and the other
    // pointers those of one number each; all are borrowed for the call (all but
    // `setup` mutably, so they overlap no other).
    unsafe {
        reader(
            setup.as_ptr(),
            setup.len(),
            members,
            queues.as_mut_ptr(),
            queues.len(),
            gets,
            sets,
            features.as_mut_ptr(),
            features.len(),
        )
    }
}
