//! The ten commands and their rows of the command table.

/// The mask of the ten supported opcodes.
pub const SUPPORTED: u64 = 0x3FC03;
/// The list in use of a fresh card: list query and list use.
pub const FRESH: u64 = 0b11;
/// The longest fixed fields: those of create and modify.
pub const FIXED_MAX: usize = 24;

/// A supported opcode.
#[derive(Clone, Copy, Debug, PartialEq, Eq)]
#[repr(u16)]
pub enum Opcode {
    /// List query.
    ListQuery = 0x00,
    /// List use.
    ListUse = 0x01,
    /// Object create.
    Create = 0x0a,
    /// Object modify.
    Modify = 0x0b,
    /// Object query.
    Query = 0x0c,
    /// Object destroy.
    Destroy = 0x0d,
    /// Parts metadata.
    Metadata = 0x0e,
    /// Parts get.
    PartsGet = 0x0f,
    /// Parts set.
    PartsSet = 0x10,
    /// Mode set.
    ModeSet = 0x11,
}

impl Opcode {
    /// The ten opcodes.
    pub const ALL: [Opcode; 10] = [
        Opcode::ListQuery,
        Opcode::ListUse,
        Opcode::Create,
        Opcode::Modify,
        Opcode::Query,
        Opcode::Destroy,
        Opcode::Metadata,
        Opcode::PartsGet,
        Opcode::PartsSet,
        Opcode::ModeSet,
    ];

    /// The supported opcode with this number.
    pub fn from_number(number: u16) -> Option<Opcode> {
        Opcode::ALL.into_iter().find(|opcode| *opcode as u16 == number)
    }

    /// Its bit in a list of commands.
    pub fn bit(self) -> u64 {
        1 << self as u16
    }

    /// Whether the command names a member: all but the two list commands.
    pub fn names_member(self) -> bool {
        !matches!(self, Opcode::ListQuery | Opcode::ListUse)
    }

    /// The length of the fixed fields at the start of the data. A list of
    /// parts follows them in parts get and parts set.
    pub fn fixed_length(self) -> usize {
        match self {
            Opcode::ListQuery => 0,
            Opcode::ListUse => 8,
            Opcode::Create | Opcode::Modify => 24,
            Opcode::Query => 16,
            Opcode::Destroy => 8,
            Opcode::Metadata => 16,
            Opcode::PartsGet => 16,
            Opcode::PartsSet => 8,
            Opcode::ModeSet => 1,
        }
    }
}

#[cfg(test)]
mod tests {
    use super::*;

    #[test]
    fn the_mask_has_the_ten_opcodes() {
        let mask = Opcode::ALL.into_iter().fold(0, |mask, opcode| mask | opcode.bit());
        assert_eq!(mask, SUPPORTED);
        for number in 0..=u16::MAX {
            let supported = number < 64 && SUPPORTED >> number & 1 == 1;
            assert_eq!(Opcode::from_number(number).is_some(), supported);
        }
    }

    #[test]
    fn fixed_lengths_are_those_of_the_table() {
        let lengths = Opcode::ALL.map(Opcode::fixed_length);
        assert_eq!(lengths, [0, 8, 24, 24, 16, 8, 16, 16, 8, 1]);
        assert!(lengths.iter().all(|length| *length <= FIXED_MAX));
    }
}
