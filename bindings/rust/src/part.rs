//! The types of a member's parts, how many it has and how long they are.

use crate::number::wire_number;

wire_number! {
    /// The type of a device part. Beside it a selector says which one, where
    /// a member has several of a type.
    PartType, "{:#05x}",
    /// Device features: 16 bytes, never set, only compared.
    DEV_FEATURES = 0x100,
    /// Driver features: 16 bytes.
    DRV_FEATURES = 0x101,
    /// A field of the PCI common configuration. The selector is its offset:
    /// 0 and 8 have 4 bytes, 16 and 22 have 2.
    PCI_COMMON_CFG = 0x102,
    /// Device status: 1 byte.
    DEVICE_STATUS = 0x103,
    /// The configuration of a queue: 32 bytes. The selector is the queue's
    /// index. Its size is a power of two, or 0 while it is not enabled.
    VQ_CFG = 0x104,
    /// The notification configuration of a queue: 8 bytes. The selector is
    /// the queue's index.
    VQ_NOTIFY_CFG = 0x105,
}

/// How many parts a member with this queue count has.
#[must_use]
pub const fn part_count(queues: u8) -> usize {
    7 + 2 * queues as usize
}

/// The length of a full capture of a member with this queue count, without the
/// head of the reply: each part's header and value.
///
/// ```
/// use kajurnat::{capture_bytes, Reply};
///
/// assert_eq!(Reply::MAX, Reply::HEAD + capture_bytes(4));
/// ```
#[must_use]
pub const fn capture_bytes(queues: u8) -> usize {
    157 + 72 * queues as usize
}
