//! The frame of a request: steps 2 to 5 of the status table.

use crate::opcode::{Opcode, FIXED_MAX};
use crate::setup::Common;
use crate::status::Refusal;

/// The longest request.
pub const LONGEST: usize = 4096;
/// The length of the frame; data starts behind it.
pub const DATA: usize = 24;
/// The only group type.
pub const GROUP: u16 = 1;

/// A request taken apart.
#[derive(Clone, Copy, Debug)]
pub struct Frame<'a> {
    /// The opcode, supported or not.
    pub opcode: u16,
    /// The group type.
    pub group_type: u16,
    /// The member field.
    pub member: u64,
    /// What follows the frame.
    pub data: &'a [u8],
}

impl<'a> Frame<'a> {
    /// Step 2: the frame, of a request of 24 to 4,096 bytes.
    pub fn read(request: &'a [u8]) -> Result<Frame<'a>, Refusal> {
        Refusal::RequestLength.unless(request.len() <= LONGEST)?;
        let (frame, data) = request.split_first_chunk::<DATA>().ok_or(Refusal::RequestLength)?;
        Ok(Frame {
            opcode: u16_at(frame, 0),
            group_type: u16_at(frame, 2),
            member: u64_at(frame, 16),
            data,
        })
    }

    /// Step 3: the group type is 1.
    pub fn check_group_type(&self) -> Result<(), Refusal> {
        Refusal::GroupType.unless(self.group_type == GROUP)
    }

    /// Step 4: the opcode is supported and in use.
    pub fn opcode_in_use(&self, in_use: u64) -> Result<Opcode, Refusal> {
        Opcode::from_number(self.opcode)
            .filter(|opcode| in_use & opcode.bit() != 0)
            .ok_or(Refusal::Opcode)
    }

    /// Step 5: the member exists, if the command names one.
    pub fn check_member(&self, opcode: Opcode, setup: &Common) -> Result<(), Refusal> {
        Refusal::Member.unless(!opcode.names_member() || setup.has_member(self.member))
    }
}

/// The fixed fields at the start of the data. Bytes that are missing are zero,
/// also those of a field of which some are there (document 02, request 2).
pub fn fixed_fields(data: &[u8]) -> [u8; FIXED_MAX] {
    let mut fields = [0; FIXED_MAX];
    let given = data.len().min(FIXED_MAX);
    fields[..given].copy_from_slice(&data[..given]);
    fields
}

/// What follows so many bytes of the data; nothing if it is not longer.
pub fn behind(data: &[u8], fixed: usize) -> &[u8] {
    data.get(fixed..).unwrap_or_default()
}

/// The 2-byte number at `at`, which lies in `bytes`.
#[inline]
pub fn u16_at(bytes: &[u8], at: usize) -> u16 {
    u16::from_le_bytes(array_at(bytes, at))
}

/// The 4-byte number at `at`, which lies in `bytes`.
#[inline]
pub fn u32_at(bytes: &[u8], at: usize) -> u32 {
    u32::from_le_bytes(array_at(bytes, at))
}

/// The 8-byte number at `at`, which lies in `bytes`.
#[inline]
pub fn u64_at(bytes: &[u8], at: usize) -> u64 {
    u64::from_le_bytes(array_at(bytes, at))
}

/// The `L` bytes at `at`, which lie in `bytes`.
pub fn array_at<const L: usize>(bytes: &[u8], at: usize) -> [u8; L] {
    bytes[at..at + L].try_into().expect("the slice has L bytes")
}
