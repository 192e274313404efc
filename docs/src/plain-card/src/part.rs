//! The parts of a member.

use crate::queue;

/// The most queues a member can have; values are kept for so many.
pub const MAX_QUEUES: u8 = 4;
/// The length of a part's header.
pub const HEADER: usize = 16;
/// The optional bit of a header's flags.
pub const OPTIONAL: u8 = 1;
/// Types from here on are reserved.
pub const RESERVED_TYPES: u16 = 0x600;

/// A field of the PCI common configuration that is a part.
#[derive(Clone, Copy, Debug, PartialEq, Eq, PartialOrd, Ord)]
pub enum PciField {
    /// Offset 0.
    DeviceFeatureSelect,
    /// Offset 8.
    DriverFeatureSelect,
    /// Offset 16.
    ConfigVector,
    /// Offset 22.
    QueueSelect,
}

/// A part, named by type and selector. Variants stand in the table's order.
#[derive(Clone, Copy, Debug, PartialEq, Eq, PartialOrd, Ord)]
pub enum Part {
    /// 0x100.
    DeviceFeatures,
    /// 0x101.
    DriverFeatures,
    /// 0x102, selected by the offset of the field.
    PciCommon(PciField),
    /// 0x103.
    DeviceStatus,
    /// 0x104, selected by the index of the queue.
    Queue(u8),
    /// 0x105, selected by the index of the queue.
    QueueNotify(u8),
}

/// What can be wrong with the value of a part.
#[derive(Clone, Copy, Debug, PartialEq, Eq)]
pub enum Wrong {
    /// It has not the length of the table.
    Length,
    /// It is that of a queue, with a size that no ring has.
    QueueSize,
    /// It is device features, and not those of the member.
    Features,
}

/// Every part of a member with four queues, in the table's order.
const TABLE: [Part; 15] = [
    Part::DeviceFeatures,
    Part::DriverFeatures,
    Part::PciCommon(PciField::DeviceFeatureSelect),
    Part::PciCommon(PciField::DriverFeatureSelect),
    Part::PciCommon(PciField::ConfigVector),
    Part::PciCommon(PciField::QueueSelect),
    Part::DeviceStatus,
    Part::Queue(0),
    Part::Queue(1),
    Part::Queue(2),
    Part::Queue(3),
    Part::QueueNotify(0),
    Part::QueueNotify(1),
    Part::QueueNotify(2),
    Part::QueueNotify(3),
];

/// The parts of a member with `queues` queues, by type, then selector.
pub fn inventory(queues: u8) -> impl Iterator<Item = Part> {
    TABLE.into_iter().filter(move |part| part.exists(queues))
}

impl Part {
    /// The part that type and selector name on a member with `queues` queues.
    /// Selector bytes that the type does not use are ignored.
    pub fn named(part_type: u16, selector: [u8; 8], queues: u8) -> Option<Part> {
        let [a, b, c, d, ..] = selector;
        let queue = u8::try_from(u16::from_le_bytes([a, b])).ok();
        let part = match part_type {
            0x100 => Part::DeviceFeatures,
            0x101 => Part::DriverFeatures,
            0x102 => Part::PciCommon(PciField::at(u32::from_le_bytes([a, b, c, d]))?),
            0x103 => Part::DeviceStatus,
            0x104 => Part::Queue(queue?),
            0x105 => Part::QueueNotify(queue?),
            _ => return None,
        };
        part.exists(queues).then_some(part)
    }

    /// Whether a member with `queues` queues has the part.
    fn exists(self, queues: u8) -> bool {
        match self {
            Part::Queue(index) | Part::QueueNotify(index) => index < queues,
            _ => true,
        }
    }

    /// The type.
    pub fn part_type(self) -> u16 {
        match self {
            Part::DeviceFeatures => 0x100,
            Part::DriverFeatures => 0x101,
            Part::PciCommon(_) => 0x102,
            Part::DeviceStatus => 0x103,
            Part::Queue(_) => 0x104,
            Part::QueueNotify(_) => 0x105,
        }
    }

    /// The selector; bytes not named are zero.
    pub fn selector(self) -> [u8; 8] {
        let number = match self {
            Part::PciCommon(field) => field.offset(),
            Part::Queue(index) | Part::QueueNotify(index) => u32::from(index),
            _ => 0,
        };
        u64::from(number).to_le_bytes()
    }

    /// The flags: only device features has the optional bit.
    pub fn flags(self) -> u8 {
        if self == Part::DeviceFeatures {
            OPTIONAL
        } else {
            0
        }
    }

    /// The length of the value.
    pub fn length(self) -> u32 {
        match self {
            Part::DeviceFeatures | Part::DriverFeatures => 16,
            Part::PciCommon(field) => field.length(),
            Part::DeviceStatus => 1,
            Part::Queue(_) => 32,
            Part::QueueNotify(_) => 8,
        }
    }

    /// Whether the part may have this value, which has its length: a queue
    /// part has a size that a ring can have.
    pub fn allows(self, value: &[u8]) -> bool {
        match self {
            Part::Queue(_) => queue::allowed(value),
            _ => true,
        }
    }

    /// What is wrong with a value that a list gives the part of a member with
    /// these device features. Only one of the right length is looked at.
    pub fn wrong(self, value: &[u8], features: &[u8; 16]) -> Option<Wrong> {
        if value.len() != self.length() as usize {
            Some(Wrong::Length)
        } else if !self.allows(value) {
            Some(Wrong::QueueSize)
        } else if self == Part::DeviceFeatures && value != features {
            Some(Wrong::Features)
        } else {
            None
        }
    }

    /// The header as the card writes it.
    pub fn header(self) -> [u8; HEADER] {
        let [t0, t1] = self.part_type().to_le_bytes();
        let mut header = [0; HEADER];
        header[..4].copy_from_slice(&[t0, t1, self.flags(), 0]);
        header[4..12].copy_from_slice(&self.selector());
        header[12..].copy_from_slice(&self.length().to_le_bytes());
        header
    }

    /// The length of header and value.
    pub fn size(self) -> usize {
        HEADER + self.length() as usize
    }
}

impl PciField {
    /// The field at an offset, if it is a part.
    fn at(offset: u32) -> Option<PciField> {
        match offset {
            0 => Some(PciField::DeviceFeatureSelect),
            8 => Some(PciField::DriverFeatureSelect),
            16 => Some(PciField::ConfigVector),
            22 => Some(PciField::QueueSelect),
            _ => None,
        }
    }

    fn offset(self) -> u32 {
        match self {
            PciField::DeviceFeatureSelect => 0,
            PciField::DriverFeatureSelect => 8,
            PciField::ConfigVector => 16,
            PciField::QueueSelect => 22,
        }
    }

    fn length(self) -> u32 {
        match self {
            PciField::DeviceFeatureSelect | PciField::DriverFeatureSelect => 4,
            PciField::ConfigVector | PciField::QueueSelect => 2,
        }
    }
}

#[cfg(test)]
mod tests {
    use super::*;

    #[test]
    fn inventory_has_the_counts_and_sizes_of_document_01() {
        for queues in 1..=MAX_QUEUES {
            let parts: Vec<Part> = inventory(queues).collect();
            assert_eq!(parts.len(), 7 + 2 * usize::from(queues));
            let size: usize = parts.iter().map(|part| part.size()).sum();
            assert_eq!(size, 157 + 72 * usize::from(queues));
            assert!(parts.is_sorted());
        }
    }

    #[test]
    fn a_part_is_named_by_its_own_type_and_selector() {
        for queues in 1..=MAX_QUEUES {
            for part in inventory(MAX_QUEUES) {
                let named = Part::named(part.part_type(), part.selector(), queues);
                assert_eq!(named, part.exists(queues).then_some(part));
            }
        }
    }

    #[test]
    fn selector_bytes_not_named_are_ignored() {
        let status = Part::named(0x103, [9; 8], 1);
        assert_eq!(status, Some(Part::DeviceStatus));
        let queue = Part::named(0x104, [0, 0, 1, 0, 0, 0, 0, 0], 1);
        assert_eq!(queue, Some(Part::Queue(0)));
        let field = Part::named(0x102, [8, 0, 0, 0, 1, 2, 3, 4], 1);
        assert_eq!(field, Some(Part::PciCommon(PciField::DriverFeatureSelect)));
    }

    #[test]
    fn selector_bytes_named_are_all_read() {
        assert_eq!(Part::named(0x104, [0, 1, 0, 0, 0, 0, 0, 0], 4), None);
        assert_eq!(Part::named(0x105, [1, 1, 0, 0, 0, 0, 0, 0], 4), None);
        assert_eq!(Part::named(0x102, [8, 0, 1, 0, 0, 0, 0, 0], 4), None);
        assert_eq!(Part::named(0x102, [8, 0, 0, 1, 0, 0, 0, 0], 4), None);
        assert_eq!(Part::named(0x102, [4, 0, 0, 0, 0, 0, 0, 0], 4), None);
    }
}
