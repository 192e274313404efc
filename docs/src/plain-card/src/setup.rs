//! The setup of a card.

use std::ops::RangeInclusive;

/// How many members a card may have.
pub const MEMBERS: RangeInclusive<u8> = 1..=16;
/// How many queues a member may have.
pub const QUEUES: RangeInclusive<u8> = 1..=4;
/// How many objects of one kind each member may have.
pub const OBJECTS: RangeInclusive<u8> = 0..=8;

/// A setup: what a card is made with.
#[derive(Clone, Debug, PartialEq, Eq)]
pub struct Setup {
    /// What holds for all members.
    pub common: Common,
    /// The queue count of each member, from member 1.
    pub queues: Vec<u8>,
}

/// What a setup says of all members alike. A card keeps it as it is; a queue
/// count stands in the record of its member.
#[derive(Clone, Debug, PartialEq, Eq)]
pub struct Common {
    /// N, the number of members; they are identified 1 to N.
    pub members: u8,
    /// G, the most get objects of each member.
    pub gets: u8,
    /// S, the most set objects of each member.
    pub sets: u8,
    /// The device features of every member.
    pub features: [u8; 16],
}

impl Setup {
    /// A setup, or nothing if a number is out of its range or there is not one
    /// queue count for each member.
    pub fn new(
        members: u64,
        queues: &[u8],
        gets: u64,
        sets: u64,
        features: [u8; 16],
    ) -> Option<Setup> {
        let common = Common {
            members: u8::try_from(members).ok()?,
            gets: u8::try_from(gets).ok()?,
            sets: u8::try_from(sets).ok()?,
            features,
        };
        if queues.len() != usize::from(common.members) {
            return None;
        }
        let setup = Setup { common, queues: queues.to_vec() };
        setup.in_range().then_some(setup)
    }

    /// The same with one queue count for all members.
    pub fn alike(
        members: u64,
        queues: u8,
        gets: u64,
        sets: u64,
        features: [u8; 16],
    ) -> Option<Setup> {
        let counts = vec![queues; usize::from(u8::try_from(members).ok()?)];
        Setup::new(members, &counts, gets, sets, features)
    }

    /// Whether every number is in its range.
    pub fn in_range(&self) -> bool {
        self.common.in_range()
            && self.queues.len() == usize::from(self.common.members)
            && self.queues.iter().all(|count| QUEUES.contains(count))
    }

    /// The queue count of a member, if it is 1 to N.
    pub fn queues_of(&self, member: u64) -> Option<u8> {
        let index = usize::try_from(member.checked_sub(1)?).ok()?;
        self.queues.get(index).copied()
    }
}

impl Common {
    /// Whether every number is in its range.
    pub fn in_range(&self) -> bool {
        MEMBERS.contains(&self.members)
            && OBJECTS.contains(&self.gets)
            && OBJECTS.contains(&self.sets)
    }

    /// Whether `member` identifies a member: 1 to N.
    pub fn has_member(&self, member: u64) -> bool {
        (1..=u64::from(self.members)).contains(&member)
    }

    /// Whether `id` is a valid object id: below G + S.
    pub fn has_id(&self, id: u32) -> bool {
        id < u32::from(self.gets) + u32::from(self.sets)
    }
}

#[cfg(test)]
mod tests {
    use super::*;

    fn accepted(members: u64, queues: &[u8], gets: u64, sets: u64) -> bool {
        Setup::new(members, queues, gets, sets, [0; 16]).is_some()
    }

    #[test]
    fn numbers_at_both_ends_of_their_ranges() {
        assert!(accepted(1, &[1], 0, 0) && accepted(16, &[4; 16], 8, 8));
        assert!(!accepted(0, &[], 1, 1) && !accepted(17, &[1; 17], 1, 1));
        assert!(!accepted(1, &[0], 1, 1) && !accepted(1, &[5], 1, 1));
        assert!(!accepted(1, &[1], 9, 1) && !accepted(1, &[1], 1, 9));
    }

    #[test]
    fn there_is_a_queue_count_for_each_member() {
        assert!(accepted(3, &[1, 4, 2], 1, 1));
        assert!(!accepted(3, &[1, 4], 1, 1) && !accepted(3, &[1, 4, 2, 1], 1, 1));
        for at in 0..3 {
            let mut queues = [2; 3];
            queues[at] = 5;
            assert!(!accepted(3, &queues, 1, 1));
        }
    }

    #[test]
    fn numbers_are_not_cut_to_eight_bits() {
        assert!(!accepted(257, &[1], 1, 1) && !accepted(258, &[1; 258], 1, 1));
        assert!(!accepted(1, &[1], 256, 1) && !accepted(1, &[1], 1, 1 << 63));
    }

    #[test]
    fn no_id_is_valid_without_objects() {
        let setup = Setup::alike(1, 1, 0, 0, [0; 16]).unwrap();
        assert!(!setup.common.has_id(0));
    }
}
