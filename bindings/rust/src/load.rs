//! What the card's own firmware reads of it: a part, a member, its
//! configuration. Nothing here changes the card.

use crate::{raw, Card, PartType};
use core::fmt;

/// The state of a member.
#[derive(Clone, Copy, Debug, PartialEq, Eq)]
pub enum State {
    /// Its data path works.
    Running,
    /// Its data path rests, until it is resumed.
    Stopped,
    /// It is handed back and not yet wiped: its data path lets go of the guest.
    Marked,
}

/// A member, as its card sees it.
#[derive(Clone, Copy, Debug, PartialEq, Eq)]
#[non_exhaustive]
pub struct Member {
    /// Whether it runs.
    pub state: State,
    /// How many queues it has.
    pub queues: u8,
    /// How many of its get objects are live.
    pub gets: u8,
    /// How many of its set objects are live.
    pub sets: u8,
    /// The bytes in its holding place, if a restore is under way.
    pub held: Option<u16>,
}

/// The configuration of a member.
#[derive(Clone, Copy, Debug, PartialEq, Eq)]
pub struct Configuration {
    /// Its bytes.
    pub bytes: [u8; 12],
    /// The generation that the next write is to be sent with.
    pub generation: u32,
}

impl<B: AsRef<[u8]>> Card<B> {
    /// Copies one part of one member, running, stopped or marked, into a
    /// buffer of the part's length. `part_type` and `selector` are as in
    /// [`Card::store`]; device features, which no store sets, are loaded too.
    ///
    /// ```
    /// use kajurnat::{Card, PartType, Setup};
    ///
    /// let mut card = Card::new(&Setup::alike(1, 1, 1, 1, [0; 16]))?;
    /// card.store(1, PartType::DEVICE_STATUS, 0, &[0x0f])?;
    ///
    /// let mut status = [0];
    /// card.load(1, PartType::DEVICE_STATUS, 0, &mut status)?;
    /// assert_eq!(status, [0x0f]);
    /// # Ok::<(), Box<dyn std::error::Error>>(())
    /// ```
    ///
    /// # Errors
    ///
    /// The first that applies of [`LoadError::NoSuchMember`],
    /// [`LoadError::NoSuchPart`] and [`LoadError::WrongLength`]; nothing is
    /// then written.
    pub fn load(
        &self,
        member: u64,
        part_type: PartType,
        selector: u64,
        value: &mut [u8],
    ) -> Result<(), LoadError> {
        let answer = raw::load(self.as_bytes(), member, part_type.0, selector, value);
        LoadError::from_answer(answer)
    }

    /// The state of a member, its queue count, its live objects, and what its
    /// holding place holds.
    ///
    /// # Errors
    ///
    /// [`LoadError::NoSuchMember`].
    pub fn member(&self, member: u64) -> Result<Member, LoadError> {
        let (mut state, mut queues, mut gets, mut sets, mut held) = (0, 0, 0, 0, 0);
        let answer = raw::member(
            self.as_bytes(),
            member,
            &mut state,
            &mut queues,
            &mut gets,
            &mut sets,
            &mut held,
        );
        LoadError::from_answer(answer)?;
        let state = match state {
            0 => State::Running,
            1 => State::Stopped,
            _ => State::Marked,
        };
        Ok(Member { state, queues, gets, sets, held: held.checked_sub(1) })
    }

    /// The configuration of a member and its generation.
    ///
    /// # Errors
    ///
    /// [`LoadError::NoSuchMember`].
    pub fn configuration(&self, member: u64) -> Result<Configuration, LoadError> {
        let mut bytes = [0; 12];
        let mut generation = 0;
        let answer = raw::configuration(self.as_bytes(), member, &mut bytes, &mut generation);
        LoadError::from_answer(answer)?;
        Ok(Configuration { bytes, generation })
    }
}

/// Why a part, a member or its configuration was not told. Nothing is then
/// written.
#[derive(Clone, Copy, Debug, PartialEq, Eq)]
#[non_exhaustive]
pub enum LoadError {
    /// The member is not 1 to the number of members.
    NoSuchMember,
    /// The member has no part of this type and selector.
    NoSuchPart,
    /// The part's value has another length than the buffer.
    WrongLength,
}

impl LoadError {
    /// Reads the archive's answer to a call that only reads a sound card.
    fn from_answer(answer: u8) -> Result<(), Self> {
        match answer {
            0 => Ok(()),
            1 => Err(Self::NoSuchMember),
            2 => Err(Self::NoSuchPart),
            3 => Err(Self::WrongLength),
            other => panic!("the archive answered {other} to a read of a sound card"),
        }
    }
}

impl fmt::Display for LoadError {
    fn fmt(&self, f: &mut fmt::Formatter<'_>) -> fmt::Result {
        f.write_str(match self {
            Self::NoSuchMember => "the card has no such member",
            Self::NoSuchPart => "the member has no such part",
            Self::WrongLength => "the part's value has another length than the buffer",
        })
    }
}

impl core::error::Error for LoadError {}
