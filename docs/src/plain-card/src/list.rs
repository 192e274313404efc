//! Lists of parts, asked and given: step 10 of the status table.

use std::collections::BTreeSet;

use crate::frame::{array_at, u16_at, u32_at};
use crate::part::{Part, HEADER, OPTIONAL, RESERVED_TYPES};
use crate::status::Refusal;
use crate::values::Values;

/// The longest list that a request can give.
pub const LONGEST: usize = 4_064;

/// The known parts of a given list, with their new values.
pub type Given<'a> = Vec<(Part, &'a [u8])>;

/// The parts that an asked list names. It is refused if its last header is
/// incomplete, a header names a part that the member has not got, or a part is
/// named twice.
pub fn asked(headers: &[u8], queues: u8) -> Result<BTreeSet<Part>, Refusal> {
    let mut parts = BTreeSet::new();
    for bytes in headers.chunks(HEADER) {
        Refusal::BadList.unless(bytes.len() == HEADER)?; // not incomplete
        let part = Header::read(bytes).part(queues).ok_or(Refusal::BadList)?;
        Refusal::BadList.unless(parts.insert(part))?; // not named twice
    }
    Ok(parts)
}

/// A known part of a given list.
#[derive(Clone, Copy, Debug, PartialEq, Eq)]
pub struct Known<'a> {
    /// The part.
    pub part: Part,
    /// Where its value starts in the list.
    pub at: usize,
    /// Its value.
    pub value: &'a [u8],
}

/// The parts that a given list sets on a member with these values. Device
/// features are compared and never set, so they are not among them.
pub fn given<'a>(list: &'a [u8], values: &Values, queues: u8) -> Result<Given<'a>, Refusal> {
    let known = known(list, &values.device_features, queues)?;
    let set = known.into_iter().filter(|known| known.part != Part::DeviceFeatures);
    Ok(set.map(|known| (known.part, known.value)).collect())
}

/// The known parts of a given list, on a member with these device features and
/// so many queues.
pub fn known<'a>(
    list: &'a [u8],
    features: &[u8; 16],
    queues: u8,
) -> Result<Vec<Known<'a>>, Refusal> {
    let mut named = BTreeSet::new();
    let mut all = vec![];
    let mut rest = list;
    while !rest.is_empty() {
        let (header, value) = take_part(&mut rest)?;
        let Some(part) = header.part(queues) else {
            Refusal::BadList.unless(header.is_skipped())?;
            continue;
        };
        Refusal::BadList.unless(named.insert(part))?; // not named twice
        Refusal::BadList.unless(part.wrong(value, features).is_none())?;
        all.push(Known { part, at: list.len() - rest.len() - value.len(), value });
    }
    Ok(all)
}

/// The next part of a given list: neither header nor value runs past the end.
/// One that does stays in `rest`.
pub fn take_part<'a>(rest: &mut &'a [u8]) -> Result<(Header, &'a [u8]), Refusal> {
    let (bytes, behind) = rest.split_at_checked(HEADER).ok_or(Refusal::BadList)?;
    let header = Header::read(bytes);
    let length = usize::try_from(header.length).map_err(|_| Refusal::BadList)?;
    let (value, behind) = behind.split_at_checked(length).ok_or(Refusal::BadList)?;
    *rest = behind;
    Ok((header, value))
}

/// A part's header as it is read; the reserved byte is not.
pub struct Header {
    /// The type.
    pub part_type: u16,
    /// The flags, read only of a part that the member has not got.
    pub flags: u8,
    /// The selector.
    pub selector: [u8; 8],
    /// The length of the value, read only of a given part.
    pub length: u32,
}

impl Header {
    /// The header in these 16 bytes.
    pub fn read(bytes: &[u8]) -> Header {
        Header {
            part_type: u16_at(bytes, 0),
            flags: bytes[2],
            selector: array_at(bytes, 4),
            length: u32_at(bytes, 12),
        }
    }

    /// The part that it names on a member with `queues` queues.
    pub fn part(&self, queues: u8) -> Option<Part> {
        Part::named(self.part_type, self.selector, queues)
    }

    /// Whether a part that the member has not got is skipped: it has the
    /// optional bit and a type that is not reserved.
    pub fn is_skipped(&self) -> bool {
        self.flags & OPTIONAL != 0 && self.part_type < RESERVED_TYPES
    }
}
