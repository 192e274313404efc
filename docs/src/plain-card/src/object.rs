//! Resource objects of a member.

use crate::setup::Common;
use crate::status::Refusal;

/// The number of ids a member's table has room for: G + S at most.
pub const IDS: usize = 16;

/// What an object is for.
#[derive(Clone, Copy, Debug, PartialEq, Eq)]
pub enum Kind {
    /// It captures parts and their metadata.
    Get,
    /// It restores parts.
    Set,
}

impl Kind {
    /// The kind that a kind byte stands for.
    pub fn from_byte(byte: u8) -> Option<Kind> {
        match byte {
            0 => Some(Kind::Get),
            1 => Some(Kind::Set),
            _ => None,
        }
    }

    /// The kind byte.
    pub fn byte(self) -> u8 {
        match self {
            Kind::Get => 0,
            Kind::Set => 1,
        }
    }
}

/// The live objects of a member, by id.
#[derive(Clone, Debug, Default, PartialEq, Eq)]
pub struct Objects(pub [Option<Kind>; IDS]);

impl Objects {
    /// The kind of the object if it is live. The id is a valid one.
    pub fn find(&self, id: u32) -> Option<Kind> {
        self.0[id as usize]
    }

    /// The kind of an object that has to be live.
    pub fn live(&self, id: u32) -> Result<Kind, Refusal> {
        self.find(id).ok_or(Refusal::IdNotLive)
    }

    /// Adds the object, or gives it a new kind. The id is a valid one.
    pub fn put(&mut self, id: u32, kind: Kind) {
        self.0[id as usize] = Some(kind);
    }

    /// Removes the object; its id and room are free again.
    pub fn remove(&mut self, id: u32) {
        self.0[id as usize] = None;
    }

    /// The number of live objects of one kind.
    pub fn count(&self, kind: Kind) -> usize {
        self.0.iter().filter(|object| **object == Some(kind)).count()
    }

    /// Whether the ids are below G + S, with at most G get and S set objects.
    pub fn fit(&self, setup: &Common) -> bool {
        let valid = usize::from(setup.gets) + usize::from(setup.sets);
        self.0.iter().skip(valid).all(Option::is_none)
            && self.count(Kind::Get) <= usize::from(setup.gets)
            && self.count(Kind::Set) <= usize::from(setup.sets)
    }
}
