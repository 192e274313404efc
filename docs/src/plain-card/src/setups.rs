//! Setups as bytes (request 9 of document 02), packed most significant bit
//! first.
//!
//! | bits | version 1 | version 2 |
//! |---|---|---|
//! | 4 | 1 | 2 |
//! | 4 | N - 1 | N - 1 |
//! | 2 | Q - 1 | zero |
//! | 4 | G | G |
//! | 4 | S | S |
//! | 6 | zero | zero |
//! | 2 for each member | | its queue count less one |
//! | to a whole byte | | zero |
//! | 128 | device features | device features |

use crate::setup::{Common, Setup};

/// The length of the device features.
const FEATURES: usize = 16;

/// Why bytes are not read as a setup.
#[derive(Clone, Copy, Debug, PartialEq, Eq)]
pub enum Unread {
    /// The reader of version 1 was given version 2.
    Version2,
    /// They are no setup.
    Refused,
}

/// Reads a setup of version 1. Version 2, which the first four bits tell, is
/// refused by name before all else.
pub fn read_v1(bytes: &[u8]) -> Result<Setup, Unread> {
    match version(bytes) {
        Some(2) => Err(Unread::Version2),
        Some(1) => read(bytes),
        _ => Err(Unread::Refused),
    }
}

/// Reads a setup of either version.
pub fn read(bytes: &[u8]) -> Result<Setup, Unread> {
    unpack(bytes).filter(Setup::in_range).ok_or(Unread::Refused)
}

/// The version that the first four bits tell.
fn version(bytes: &[u8]) -> Option<u8> {
    bytes.first().map(|byte| byte >> 4)
}

/// The setup in these bytes, in range or not; none if they are too few or too
/// many, or a bit is set that has to be zero.
fn unpack(bytes: &[u8]) -> Option<Setup> {
    let (numbers, features) = bytes.split_at_checked(bytes.len().checked_sub(FEATURES)?)?;
    let mut bits = Bits { bytes: numbers, at: 0 };
    let version = bits.take(4)?;
    let members = bits.take(4)? + 1;
    let queues = bits.take(2)?;
    let (gets, sets) = (bits.take(4)?, bits.take(4)?);
    let mut zero = bits.take(6)? == 0;
    let queues = match version {
        1 => vec![queues + 1; members.into()],
        2 => {
            zero &= queues == 0;
            (0..members).map(|_| Some(bits.take(2)? + 1)).collect::<Option<_>>()?
        }
        _ => return None,
    };
    zero &= bits.rest_of_byte()? == 0 && bits.at == 8 * numbers.len();
    let features = features.try_into().expect("there are 16");
    zero.then_some(Setup { common: Common { members, gets, sets, features }, queues })
}

/// The bytes of a setup, which is in range: version 1 if all members have the
/// same queue count, else version 2.
pub fn write(setup: &Setup) -> Vec<u8> {
    let Setup { common: Common { members, gets, sets, features }, queues } = setup;
    let alike = queues.iter().all(|count| *count == queues[0]);
    let (version, count) = if alike { (1, queues[0] - 1) } else { (2, 0) };
    let mut fields =
        vec![(version, 4), (members - 1, 4), (count, 2), (*gets, 4), (*sets, 4), (0, 6)];
    if !alike {
        fields.extend(queues.iter().map(|count| (count - 1, 2)));
    }
    let mut bytes = pack(&fields);
    bytes.extend(features);
    bytes
}

/// Numbers of some bits each, one behind the other, with zero bits to a whole
/// byte.
fn pack(fields: &[(u8, u32)]) -> Vec<u8> {
    let bits: Vec<u8> = fields
        .iter()
        .flat_map(|(number, width)| (0..*width).rev().map(move |bit| number >> bit & 1))
        .collect();
    let byte = |bits: &[u8]| bits.iter().zip(0..).fold(0, |byte, (bit, at)| byte | bit << (7 - at));
    bits.chunks(8).map(byte).collect()
}

/// Bits to be read, and where the next one stands.
struct Bits<'a> {
    bytes: &'a [u8],
    at: usize,
}

impl Bits<'_> {
    /// The next bits as a number, the first of them the most significant.
    fn take(&mut self, width: usize) -> Option<u8> {
        (0..width).try_fold(0, |number, _| {
            let bit = self.bytes.get(self.at / 8)? >> (7 - self.at % 8) & 1;
            self.at += 1;
            Some(number << 1 | bit)
        })
    }

    /// The bits up to the end of a byte that is begun.
    fn rest_of_byte(&mut self) -> Option<u8> {
        self.take(self.at.next_multiple_of(8) - self.at)
    }
}
