//! What the card's own firmware reads, over the card's bytes.

use crate::bytes::read;
use crate::card::Card;
use crate::loads::Summary;
use crate::status::{answer, EventError};

/// Copies a part of one member into a buffer of its length; `selector` is the
/// eight bytes as a little-endian number.
pub fn load(card: &[u8], member: u64, part_type: u16, selector: u64, value: &mut [u8]) -> u8 {
    tell(card, |card| card.load(member, part_type, selector.to_le_bytes(), value))
}

/// Tells a member in numbers.
pub fn member(card: &[u8], member: u64, summary: &mut Summary) -> u8 {
    tell(card, |card| card.summary(member).map(|told| *summary = told))
}

/// Copies the configuration of a member into 12 bytes, and its generation.
pub fn configuration(card: &[u8], member: u64, bytes: &mut [u8], generation: &mut u32) -> u8 {
    tell(card, |card| card.configuration(member, bytes, generation))
}

/// Writes the setup of the card; tells its bytes, or 0 if it is not sound or
/// there is no room.
pub fn setup_of(card: &[u8], setup: &mut [u8]) -> usize {
    read(card).map_or(0, |card| card.write_setup(setup))
}

fn tell(bytes: &[u8], act: impl FnOnce(&Card) -> Result<(), EventError>) -> u8 {
    answer(read(bytes).ok_or(EventError::NotSound).and_then(|card| act(&card)))
}
