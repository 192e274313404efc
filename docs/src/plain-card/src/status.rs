//! The numbers of the answers.

/// Why a command is refused, by the step of the status table that refuses it.
#[derive(Clone, Copy, Debug, PartialEq, Eq)]
pub enum Refusal {
    /// Step 2: request under 24 or over 4,096 bytes.
    RequestLength,
    /// Step 3: group type not 1.
    GroupType,
    /// Step 4: opcode not supported, or not in use.
    Opcode,
    /// Step 5: member not 1 to N.
    Member,
    /// Right after step 5: the member is handed back.
    Marked,
    /// Step 7: a field has a value that is not allowed.
    Field,
    /// Step 8: create on a live id.
    IdLive,
    /// Step 8: another command on an id that is not live.
    IdNotLive,
    /// Step 8: more than G get or S set objects.
    TooManyObjects,
    /// Step 8: object of the wrong kind.
    WrongKind,
    /// Step 9: parts set on a running member.
    Running,
    /// Step 10: a bad list, asked or given.
    BadList,
    /// Step 11: 8 + result longer than the reply buffer.
    ReplyTooShort,
}

impl Refusal {
    /// Status and qualifier.
    pub fn numbers(self) -> (u16, u16) {
        match self {
            Refusal::RequestLength => (22, 1),
            Refusal::GroupType => (22, 4),
            Refusal::Opcode => (22, 2),
            Refusal::Member => (22, 5),
            Refusal::Marked => (11, 7),
            Refusal::Field => (22, 3),
            Refusal::IdLive => (17, 1),
            Refusal::IdNotLive => (6, 1),
            Refusal::TooManyObjects => (28, 1),
            Refusal::WrongKind => (22, 3),
            Refusal::Running => (11, 7),
            Refusal::BadList => (22, 3),
            Refusal::ReplyTooShort => (12, 6),
        }
    }

    /// Refuses unless all is good.
    pub fn unless(self, good: bool) -> Result<(), Refusal> {
        if good {
            Ok(())
        } else {
            Err(self)
        }
    }

    /// The reply of a refusal: status, qualifier and four zero bytes.
    pub fn reply(self) -> [u8; 8] {
        let (status, qualifier) = self.numbers();
        let [s0, s1] = status.to_le_bytes();
        let [q0, q1] = qualifier.to_le_bytes();
        [s0, s1, q0, q1, 0, 0, 0, 0]
    }
}

/// Why a card event or a setup is refused, with the number it answers.
#[derive(Clone, Copy, Debug, PartialEq, Eq)]
#[repr(u8)]
pub enum EventError {
    /// The card is not sound.
    NotSound = 9,
    /// The card has no such member.
    NoMember = 1,
    /// The member has no such part, or the part is device features.
    NoPart = 2,
    /// The value has another length than the part.
    WrongLength = 3,
    /// The setup is out of range.
    BadSetup = 4,
    /// The value of a queue part has a size that no ring has.
    BadQueueSize = 5,
    /// Hand back of a marked member, or wipe of one that is not marked.
    WrongMark = 6,
}

impl EventError {
    /// Refuses unless all is good.
    pub fn unless(self, good: bool) -> Result<(), EventError> {
        if good {
            Ok(())
        } else {
            Err(self)
        }
    }
}

/// The number that a card event or a setup answers: 0 is done.
pub fn answer(outcome: Result<(), EventError>) -> u8 {
    match outcome {
        Ok(()) => 0,
        Err(error) => error as u8,
    }
}

/// Why a call of a restore in fragments is refused.
#[derive(Clone, Copy, Debug, PartialEq, Eq)]
pub enum RestoreError {
    /// The card is not sound.
    NotSound,
    /// Member not 1 to N.
    NoMember,
    /// The member is handed back.
    Marked,
    /// Begin while a holding place is open.
    AlreadyBegun,
    /// Another call while none is open.
    NothingBegun,
    /// A feed past 1,024 bytes in all.
    TooLong,
    /// Finish: what parts set is refused for.
    Set(Refusal),
}

impl RestoreError {
    /// Refuses unless all is good.
    pub fn unless(self, good: bool) -> Result<(), RestoreError> {
        if good {
            Ok(())
        } else {
            Err(self)
        }
    }

    /// Status and qualifier, of all but a card that is not sound.
    pub fn numbers(self) -> Option<(u16, u16)> {
        match self {
            RestoreError::NotSound => None,
            RestoreError::NoMember => Some((22, 5)),
            RestoreError::Marked => Some((11, 7)),
            RestoreError::AlreadyBegun => Some((17, 1)),
            RestoreError::NothingBegun => Some((6, 1)),
            RestoreError::TooLong => Some((22, 1)),
            RestoreError::Set(refusal) => Some(refusal.numbers()),
        }
    }
}

/// The number that a call of a restore in fragments answers: status and 65,536
/// times the qualifier, or 9 for a card that is not sound.
pub fn restore_answer(outcome: Result<(), RestoreError>) -> u32 {
    match outcome.map_err(RestoreError::numbers) {
        Ok(()) => 0,
        Err(None) => EventError::NotSound as u32,
        Err(Some((status, qualifier))) => u32::from(status) | u32::from(qualifier) << 16,
    }
}
