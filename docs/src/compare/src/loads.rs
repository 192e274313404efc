//! Calls that only read the card, for its own firmware.

use std::fmt;

use crate::memory::{Place, Room};

/// A call that only reads the card.
#[derive(Clone, Debug, PartialEq, Eq)]
pub enum Load {
    /// A part of a member, into a buffer.
    Part { member: u64, part_type: u16, selector: u64, room: Room },
    /// A member in numbers.
    Member(u64),
    /// The configuration of a member, into a buffer.
    Configuration { member: u64, room: Room },
    /// The setup of the card, into a buffer.
    Setup(Room),
}

/// The length of a member's numbers, of which the last has two bytes.
pub const NUMBERS: usize = 6;

/// The length of a generation, which stands ahead of the configuration.
pub const GENERATION: usize = 4;

impl Load {
    /// The buffer that is written.
    pub fn room(&self) -> Room {
        match self {
            Load::Part { room, .. } | Load::Setup(room) => *room,
            Load::Member(_) => NUMBERS.into(),
            Load::Configuration { room, .. } => {
                Room { length: GENERATION + room.length, place: room.place }
            }
        }
    }

    /// Puts its buffer where it lies if nothing depends on it.
    pub fn put_at_usual_place(&mut self) {
        match self {
            Load::Part { room, .. } | Load::Setup(room) | Load::Configuration { room, .. } => {
                room.place = Place::USUAL;
            }
            Load::Member(_) => {}
        }
    }
}

impl fmt::Display for Load {
    fn fmt(&self, f: &mut fmt::Formatter) -> fmt::Result {
        match self {
            Load::Part { member, part_type, selector, room } => {
                write!(f, "load, member {member}, type {part_type:#x}, selector {selector:#x}")?;
                write!(f, ", in a buffer of {room}")
            }
            Load::Member(member) => write!(f, "member {member} in numbers"),
            Load::Configuration { member, room } => {
                write!(f, "configuration of member {member}, in a buffer of {room}")
            }
            Load::Setup(room) => write!(f, "setup of the card, in a buffer of {room}"),
        }
    }
}
