//! The fastest plain Rust over bytes, for the timing of a full capture and of a
//! parts set.
//!
//! Either of them that succeeds is carried out here, after every check that the
//! plain card makes, soundness of the whole card included. All else is left to
//! the plain card.

mod capture;
mod set;
mod sound;

use plain_card::bytes::{HEADER, IN_USE, OBJECTS, RECORD};
use plain_card::exported;
use plain_card::frame::{array_at, u16_at, u32_at, u64_at};
use plain_card::opcode::Opcode;

/// The same as [`exported::command`].
pub fn command(card: &mut [u8], request: &[u8], reply: &mut [u8]) -> usize {
    let done = capture::capture(card, request, reply);
    let done = done.or_else(|| set::set(card, request, reply));
    done.unwrap_or_else(|| exported::command(card, request, reply))
}

/// Where the record of the member that a request names starts, and where the
/// object stands in it, if the command is this one, in use, and the numbers are
/// in range. The request has 32 bytes or more.
fn named(header: &[u8; HEADER], request: &[u8], opcode: Opcode) -> Option<(usize, usize)> {
    let [members, gets, sets] = array_at(header, 0);
    let member = u64_at(request, 16).wrapping_sub(1);
    let id = u32_at(request, 28);
    let good = (u16_at(request, 0) == opcode as u16)
        & (u64_at(header, IN_USE) & opcode.bit() != 0)
        & (u16_at(request, 2) == 1)
        & (member < u64::from(members))
        & (u16_at(request, 24) == 0)
        & (id < u32::from(gets + sets));
    good.then_some((RECORD * member as usize, OBJECTS + id as usize))
}
