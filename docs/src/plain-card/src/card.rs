//! The card.

use crate::member::Member;
use crate::opcode::{FRESH, SUPPORTED};
use crate::setup::{Common, Setup};

/// A card: what its setup says of all members, the list of commands in use and a
/// record for each member.
#[derive(Clone, Debug, PartialEq, Eq)]
pub struct Card {
    /// The setup, but for the queue counts.
    pub setup: Common,
    /// The list in use: bit n is set if the opcode n is in use.
    pub in_use: u64,
    /// The records; member m is at m - 1.
    pub members: Vec<Member>,
}

impl Card {
    /// A new card: fresh, with generation 0.
    pub fn new(setup: &Setup) -> Card {
        Card::fresh(setup, 0)
    }

    /// A fresh card: commands 0x0 and 0x1 in use, every member fresh with the
    /// one generation.
    pub fn fresh(setup: &Setup, generation: u32) -> Card {
        let fresh = |queues: &u8| Member::fresh(&setup.common, *queues, generation);
        let members = setup.queues.iter().map(fresh).collect();
        Card { setup: setup.common.clone(), in_use: FRESH, members }
    }

    /// The setup that the card was made with.
    pub fn whole_setup(&self) -> Setup {
        let queues = self.members.iter().map(|member| member.queues).collect();
        Setup { common: self.setup.clone(), queues }
    }

    /// Whether the card is sound: a setup in range, supported bits only in the
    /// list in use, and a sound record for each member.
    pub fn is_sound(&self) -> bool {
        self.setup.in_range()
            && self.in_use & !SUPPORTED == 0
            && self.members.len() == usize::from(self.setup.members)
            && self.members.iter().all(|member| member.is_sound(&self.setup))
    }

    /// The record of a member that the setup has.
    pub fn member(&self, member: u64) -> &Member {
        &self.members[member as usize - 1]
    }

    /// The record of a member that the setup has, to be changed.
    pub fn member_mut(&mut self, member: u64) -> &mut Member {
        &mut self.members[member as usize - 1]
    }
}
