//! What the card's own firmware reads: a part, a member and its configuration,
//! the setup. Nothing here changes the card.

use crate::card::Card;
use crate::member::{Member, Mode};
use crate::object::Kind;
use crate::part::Part;
use crate::setups;
use crate::status::EventError;

/// A member in numbers.
#[derive(Clone, Copy, Debug, PartialEq, Eq)]
pub struct Summary {
    /// 0 running, 1 stopped, 2 marked.
    pub state: u8,
    /// Its queue count.
    pub queues: u8,
    /// Its live get objects.
    pub gets: u8,
    /// Its live set objects.
    pub sets: u8,
    /// 0 if no holding place is open, else one more than the bytes held.
    pub held: u16,
}

impl Card {
    /// Copies a part of one member, running, stopped or marked, into a buffer of
    /// its length.
    pub fn load(
        &self,
        member: u64,
        part_type: u16,
        selector: [u8; 8],
        value: &mut [u8],
    ) -> Result<(), EventError> {
        let member = self.record(member)?;
        let part = Part::named(part_type, selector, member.queues).ok_or(EventError::NoPart)?;
        copy(member.values.get(part), value)
    }

    /// A member in numbers.
    pub fn summary(&self, member: u64) -> Result<Summary, EventError> {
        let Member { mode, marked, queues, objects, holding, .. } = self.record(member)?;
        Ok(Summary {
            state: match (marked, mode) {
                (true, _) => 2,
                (false, Mode::Stopped) => 1,
                (false, Mode::Running) => 0,
            },
            queues: *queues,
            gets: objects.count(Kind::Get) as u8,
            sets: objects.count(Kind::Set) as u8,
            held: holding.held.map_or(0, |held| held + 1),
        })
    }

    /// Copies the configuration of a member into 12 bytes, and its generation.
    pub fn configuration(
        &self,
        member: u64,
        bytes: &mut [u8],
        generation: &mut u32,
    ) -> Result<(), EventError> {
        let configuration = &self.record(member)?.configuration;
        copy(&configuration.bytes, bytes)?;
        *generation = configuration.generation;
        Ok(())
    }

    /// Writes the setup; tells its bytes, or 0 if the card is not sound or there
    /// is no room.
    pub fn write_setup(&self, buffer: &mut [u8]) -> usize {
        if !self.is_sound() {
            return 0;
        }
        let bytes = setups::write(&self.whole_setup());
        let Some(start) = buffer.get_mut(..bytes.len()) else { return 0 };
        start.copy_from_slice(&bytes);
        bytes.len()
    }

    /// The record of a member of a sound card.
    fn record(&self, member: u64) -> Result<&Member, EventError> {
        EventError::NotSound.unless(self.is_sound())?;
        EventError::NoMember.unless(self.setup.has_member(member))?;
        Ok(self.member(member))
    }
}

/// Copies a value into a buffer of its length.
fn copy(value: &[u8], buffer: &mut [u8]) -> Result<(), EventError> {
    EventError::WrongLength.unless(buffer.len() == value.len())?;
    buffer.copy_from_slice(value);
    Ok(())
}
