//! Calls on lists of parts under a packed setup.

use std::fmt;

use crate::memory::{Buffer, Place, Room};

/// A call on lists of parts of one member of a setup.
#[derive(Clone, Debug, PartialEq, Eq)]
pub struct OnLists {
    /// The bytes of the setup.
    pub setup: Buffer,
    /// The member, which the setup may have or not.
    pub member: u64,
    /// What is asked of the lists.
    pub asked: Asked,
}

/// What is asked of lists of parts.
#[derive(Clone, Debug, PartialEq, Eq)]
pub enum Asked {
    /// A part looked up in a full capture and a later list.
    Find { lists: [Buffer; 2], part_type: u16, selector: u64 },
    /// One list made of the two, in a buffer.
    Merge { lists: [Buffer; 2], room: Room },
    /// A damaged list salvaged, in a buffer; the lengths are those of the report's
    /// buffers for kept (bytes) and dropped (counts).
    Salvage { damaged: Buffer, room: Room, report: [usize; 2] },
}

/// The length of the three numbers that tell where a value was found: the list,
/// the start in it, and the length.
pub const FOUND: usize = 1 + 8 + 8;

impl OnLists {
    /// The buffer that is written.
    pub fn room(&self) -> Room {
        match &self.asked {
            Asked::Find { .. } => FOUND.into(),
            Asked::Merge { room, .. } => *room,
            // Bytes left over, dropped, kept, and the list.
            Asked::Salvage { room, report: [kept, dropped], .. } => {
                Room { length: 4 + 4 * dropped + kept + room.length, place: room.place }
            }
        }
    }

    /// The full capture and the later list, if the call is on these.
    pub fn pair(&self) -> Option<&[Buffer; 2]> {
        match &self.asked {
            Asked::Find { lists, .. } | Asked::Merge { lists, .. } => Some(lists),
            Asked::Salvage { .. } => None,
        }
    }

    /// The bytes that the call only reads, and what they are.
    pub fn inputs(&self) -> Vec<(&'static str, &Buffer)> {
        let setup = ("setup", &self.setup);
        match &self.asked {
            Asked::Find { lists: [full, later], .. }
            | Asked::Merge { lists: [full, later], .. } => {
                vec![setup, ("full capture", full), ("later list", later)]
            }
            Asked::Salvage { damaged, .. } => vec![setup, ("damaged list", damaged)],
        }
    }

    /// Puts its buffers where they lie if nothing depends on it.
    pub fn put_at_usual_places(&mut self) {
        self.setup.place = Place::USUAL;
        match &mut self.asked {
            Asked::Find { lists, .. } => lists.iter_mut().for_each(Buffer::put_at_usual_place),
            Asked::Merge { lists, room } => {
                lists.iter_mut().for_each(Buffer::put_at_usual_place);
                room.place = Place::USUAL;
            }
            Asked::Salvage { damaged, room, .. } => {
                damaged.put_at_usual_place();
                room.place = Place::USUAL;
            }
        }
    }
}

impl fmt::Display for OnLists {
    fn fmt(&self, f: &mut fmt::Formatter) -> fmt::Result {
        match &self.asked {
            Asked::Find { part_type, selector, .. } => {
                write!(f, "look up type {part_type:#x}, selector {selector:#x}")?;
            }
            Asked::Merge { room, .. } => write!(f, "make one list, in a buffer of {room}")?,
            Asked::Salvage { room, report: [kept, dropped], .. } => {
                write!(f, "salvage, in a buffer of {room}, report of {kept} and {dropped}")?;
            }
        }
        write!(f, ", member {}", self.member)?;
        let mut inputs = self.inputs().into_iter();
        inputs.try_for_each(|(name, bytes)| write!(f, ", {name} of {} bytes: {bytes}", bytes.len()))
    }
}
