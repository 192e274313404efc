//! Card events: hand back and wipe, which together are the reset of a member
//! (request 10 of document 02), the reset of the whole card, and the card store.

use crate::card::Card;
use crate::member::Member;
use crate::part::Part;
use crate::status::EventError;

impl Card {
    /// Hand back of one member, which must not be marked: the first half of its
    /// reset.
    pub fn hand_back(&mut self, member: u64) -> Result<(), EventError> {
        EventError::WrongMark.unless(!self.half_of_reset(member)?.marked)?;
        self.member_mut(member).hand_back();
        Ok(())
    }

    /// Wipe of one member, which has to be marked: makes it fresh, with the
    /// generation to start from, and changes nothing else.
    pub fn wipe(&mut self, member: u64, generation: u32) -> Result<(), EventError> {
        EventError::WrongMark.unless(self.half_of_reset(member)?.marked)?;
        let queues = self.member(member).queues;
        *self.member_mut(member) = Member::fresh(&self.setup, queues, generation);
        Ok(())
    }

    /// The record of the member that hand back or wipe is for.
    fn half_of_reset(&self, member: u64) -> Result<&Member, EventError> {
        EventError::NotSound.unless(self.is_sound())?;
        EventError::NoMember.unless(self.setup.has_member(member))?;
        Ok(self.member(member))
    }

    /// Reset of the whole card: as fresh as after setup, marked members too,
    /// with one generation for all members to start from.
    pub fn reset(&mut self, generation: u32) -> Result<(), EventError> {
        EventError::NotSound.unless(self.is_sound())?;
        *self = Card::fresh(&self.whole_setup(), generation);
        Ok(())
    }

    /// Card store: the data path sets one part of one member, in either mode,
    /// marked or not.
    pub fn store(
        &mut self,
        member: u64,
        part_type: u16,
        selector: [u8; 8],
        value: &[u8],
    ) -> Result<(), EventError> {
        EventError::NotSound.unless(self.is_sound())?;
        EventError::NoMember.unless(self.setup.has_member(member))?;
        let part = stored_part(part_type, selector, self.member(member).queues)?;
        EventError::WrongLength.unless(value.len() == part.length() as usize)?;
        EventError::BadQueueSize.unless(part.allows(value))?;
        self.member_mut(member).values.get_mut(part).copy_from_slice(value);
        Ok(())
    }
}

/// The part that a store names on a member with `queues` queues; device features
/// count as no such part.
fn stored_part(part_type: u16, selector: [u8; 8], queues: u8) -> Result<Part, EventError> {
    Part::named(part_type, selector, queues)
        .filter(|part| *part != Part::DeviceFeatures)
        .ok_or(EventError::NoPart)
}
