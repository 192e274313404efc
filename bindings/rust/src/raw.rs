//! The exported functions of the archive, one for one, on slices.
//!
//! Every function here is safe and total: it passes each slice as a pointer
//! and a length, and returns what the archive answers. Most users want
//! [`Card`](crate::Card) instead.
//!
//! All `unsafe` code of this package is in this module. It rests on two facts
//! that are proved of the archive: a call touches no byte outside the slices
//! that it is lent, and keeps no pointer to them. An empty slice is a pointer
//! that is not null and length 0.

#![allow(unsafe_code)]

mod abi;
mod host;
mod lists;
mod loads;
mod setup;

pub use host::{
    reply_read, request_create, request_destroy, request_get, request_list_query, request_list_use,
    request_metadata, request_mode, request_modify, request_query, request_set,
};
pub use lists::{difference_find, difference_merge, salvage};
pub use loads::{configuration, load, member, setup_of};
pub use setup::{setup, setup_from, setup_read, setup_read_v1, setup_write};

/// The version of a card's bytes. It is raised whenever they change their
/// meaning: bytes that were kept are a card for the same version only.
#[must_use]
pub fn version() -> u32 {
    // SAFETY: the call is lent no memory.
    unsafe { abi::kajurnat_version() }
}

/// Whether the bytes are a sound card: 1, or 0.
#[must_use]
pub fn is_sound(card: &[u8]) -> u8 {
    // SAFETY: pointer and length are those of one slice, which is borrowed
    // for the call.
    unsafe { abi::kajurnat_is_sound(card.as_ptr(), card.len()) }
}

/// The exact length of a card with this many members; 0 if `members` is not
/// 1 to 16.
#[must_use]
pub fn card_bytes(members: u64) -> usize {
    // SAFETY: the call is lent no memory.
    unsafe { abi::kajurnat_card_bytes(members) }
}

/// Carries out one command and returns the number of reply bytes written.
///
/// The bytes of `reply` past that number keep their values. Returns 0, with
/// nothing written, if `card` is not sound or `reply` is under 8 bytes.
#[must_use]
pub fn command(card: &mut [u8], request: &[u8], reply: &mut [u8]) -> usize {
    // SAFETY: each pointer and length are those of one slice, which is
    // borrowed for the call (`card` and `reply` mutably, so they overlap no
    // other).
    unsafe {
        abi::kajurnat_command(
            card.as_mut_ptr(),
            card.len(),
            request.as_ptr(),
            request.len(),
            reply.as_mut_ptr(),
            reply.len(),
        )
    }
}

/// Hears one virtio-msg request, which reads or writes the configuration of a
/// member, and returns the number of bytes of the response.
///
/// The bytes of `reply` past that number keep their values. Returns 0, the bus
/// outcome, with nothing written and nothing changed, if `card` is not sound,
/// the message is not one whole request of these two kinds for a device that
/// the card has and whose member is not marked, or `reply` is too short for the
/// response.
#[must_use]
pub fn message(card: &mut [u8], message: &[u8], reply: &mut [u8]) -> usize {
    // SAFETY: as in `command`.
    unsafe {
        abi::kajurnat_message(
            card.as_mut_ptr(),
            card.len(),
            message.as_ptr(),
            message.len(),
            reply.as_mut_ptr(),
            reply.len(),
        )
    }
}

/// Ends objects and holding place of one member, stops it and marks it: the
/// first half of its reset. Answers 0 done, 9 card not sound, 1 no such member,
/// 6 it is marked.
#[must_use]
pub fn hand_back(card: &mut [u8], member: u64) -> u8 {
    // SAFETY: pointer and length are those of one slice, which is borrowed
    // mutably for the call.
    unsafe { abi::kajurnat_hand_back(card.as_mut_ptr(), card.len(), member) }
}

/// Makes one member that is marked fresh, with this generation of its
/// configuration: the second half of its reset. Answers 0 done, 9 card not
/// sound, 1 no such member, 6 it is not marked.
#[must_use]
pub fn wipe(card: &mut [u8], member: u64, generation: u32) -> u8 {
    // SAFETY: pointer and length are those of one slice, which is borrowed
    // mutably for the call.
    unsafe { abi::kajurnat_wipe(card.as_mut_ptr(), card.len(), member, generation) }
}

/// Makes the whole card fresh, with this generation of the configuration of
/// every member. Answers 0 done, 9 card not sound.
#[must_use]
pub fn reset_card(card: &mut [u8], generation: u32) -> u8 {
    // SAFETY: pointer and length are those of one slice, which is borrowed
    // mutably for the call.
    unsafe { abi::kajurnat_reset_card(card.as_mut_ptr(), card.len(), generation) }
}

/// Sets one part of one member, as the data path does.
///
/// `selector` is the eight selector bytes as a little-endian number. Answers
/// 0 done, 9 card not sound, 1 no such member, 2 no such part (device
/// features count so), 3 wrong length, 5 a queue size that no ring has;
/// refused, nothing is changed.
#[must_use]
pub fn store(card: &mut [u8], member: u64, part_type: u16, selector: u64, value: &[u8]) -> u8 {
    // SAFETY: each pointer and length are those of one slice, which is
    // borrowed for the call (`card` mutably, so it overlaps no other).
    unsafe {
        abi::kajurnat_store(
            card.as_mut_ptr(),
            card.len(),
            member,
            part_type,
            selector,
            value.as_ptr(),
            value.len(),
        )
    }
}

/// Opens the holding place of a member, which then holds no bytes.
///
/// This and the three functions below answer a status and 65,536 times its
/// qualifier, the first that applies: 9 card not sound, 22/5 no such member,
/// 11/7 it is marked, then what stands there; 0 done.
///
/// Answers 17/1 if it is open.
#[must_use]
pub fn restore_begin(card: &mut [u8], member: u64) -> u32 {
    // SAFETY: pointer and length are those of one slice, which is borrowed
    // mutably for the call.
    unsafe { abi::kajurnat_restore_begin(card.as_mut_ptr(), card.len(), member) }
}

/// Adds a fragment to the bytes that the holding place of a member holds.
///
/// Answers 6/1 if it is not open; 22/1, and the holding place is dropped, if
/// the bytes are over 1,024 in all.
#[must_use]
pub fn restore_feed(card: &mut [u8], member: u64, fragment: &[u8]) -> u32 {
    // SAFETY: each pointer and length are those of one slice, which is
    // borrowed for the call (`card` mutably, so it overlaps no other).
    unsafe {
        abi::kajurnat_restore_feed(
            card.as_mut_ptr(),
            card.len(),
            member,
            fragment.as_ptr(),
            fragment.len(),
        )
    }
}

/// Does what one parts set of the bytes held would do, through the set object
/// of this id. The holding place is then gone, whatever the answer.
///
/// Answers 6/1 if it is not open, else what that command answers.
#[must_use]
pub fn restore_finish(card: &mut [u8], member: u64, id: u32) -> u32 {
    // SAFETY: as in `restore_begin`.
    unsafe { abi::kajurnat_restore_finish(card.as_mut_ptr(), card.len(), member, id) }
}

/// Drops the holding place of a member. Answers 6/1 if it is not open.
#[must_use]
pub fn restore_drop(card: &mut [u8], member: u64) -> u32 {
    // SAFETY: as in `restore_begin`.
    unsafe { abi::kajurnat_restore_drop(card.as_mut_ptr(), card.len(), member) }
}
