//! What the card's own firmware reads of it. None of these changes the card.

use super::abi;

/// Copies one part of one member, running, stopped or marked, into a buffer of
/// the part's length.
///
/// `selector` is the eight selector bytes as a little-endian number. Answers
/// 0 done, 9 card not sound, 1 no such member, 2 no such part, 3 the buffer
/// has another length; refused, nothing is written.
#[must_use]
pub fn load(card: &[u8], member: u64, part_type: u16, selector: u64, value: &mut [u8]) -> u8 {
    // SAFETY: each pointer and length are those of one slice, which is
    // borrowed for the call (`value` mutably, so it overlaps no other).
    unsafe {
        abi::kajurnat_load(
            card.as_ptr(),
            card.len(),
            member,
            part_type,
            selector,
            value.as_mut_ptr(),
            value.len(),
        )
    }
}

/// Tells of a member its state (0 running, 1 stopped, 2 marked), its queue
/// count, its live get and set objects, and 0, or one more than the bytes in
/// its open holding place.
///
/// Answers 0 done, 9 card not sound, 1 no such member; refused, nothing is
/// written.
#[must_use]
pub fn member(
    card: &[u8],
    member: u64,
    state: &mut u8,
    queues: &mut u8,
    gets: &mut u8,
    sets: &mut u8,
    held: &mut u16,
) -> u8 {
    // SAFETY: pointer and length are those of one slice, and each other
    // pointer is that of one number, which is borrowed mutably for the call.
    unsafe {
        abi::kajurnat_member(card.as_ptr(), card.len(), member, state, queues, gets, sets, held)
    }
}

/// Copies the configuration of a member into 12 bytes, and its generation.
///
/// Answers 0 done, 9 card not sound, 1 no such member, 3 the buffer has
/// another length; refused, nothing is written.
#[must_use]
pub fn configuration(card: &[u8], member: u64, bytes: &mut [u8], generation: &mut u32) -> u8 {
    // SAFETY: each pointer and length are those of one slice, which is
    // borrowed for the call (`bytes` mutably, so it overlaps no other);
    // `generation` is one number, which is borrowed mutably.
    unsafe {
        abi::kajurnat_configuration(
            card.as_ptr(),
            card.len(),
            member,
            bytes.as_mut_ptr(),
            bytes.len(),
            generation,
        )
    }
}

/// Packs the setup of a card at the front of a buffer and returns its length;
/// 0, with nothing written, if the card is not sound or the buffer too short.
#[must_use]
pub fn setup_of(card: &[u8], setup: &mut [u8]) -> usize {
    // SAFETY: each pointer and length are those of one slice, which is
    // borrowed for the call (`setup` mutably, so it overlaps no other).
    unsafe { abi::kajurnat_setup_of(card.as_ptr(), card.len(), setup.as_mut_ptr(), setup.len()) }
}
