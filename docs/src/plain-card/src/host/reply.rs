//! Replies read as the answer to the command sent.

use std::ops::RangeInclusive;

use crate::command::HEAD;
use crate::frame::{u16_at, u32_at};
use crate::opcode::Opcode;
use crate::part::HEADER;

/// The statuses of source 001 and of document 01's table.
const STATUSES: [u16; 7] = [0, 6, 11, 12, 17, 22, 28];
/// What another status is handled as.
const OTHER_STATUS: u16 = 22;
/// The qualifiers of source 001, which has all of document 01's.
const QUALIFIERS: RangeInclusive<u16> = 0..=7;
/// What another qualifier is handled as.
const OTHER_QUALIFIER: u16 = 1;
/// The type byte of a metadata list.
const LIST: u8 = 2;

/// What a reply says.
#[derive(Clone, Copy, Debug, PartialEq, Eq)]
pub struct Answer<'a> {
    /// The status to act on.
    pub status: u16,
    /// The qualifier to act on.
    pub qualifier: u16,
    /// The status as it was sent.
    pub sent_status: u16,
    /// The qualifier as it was sent.
    pub sent_qualifier: u16,
    /// What follows the head.
    pub result: &'a [u8],
}

/// Reads a reply to a command; `what` is the type byte of a metadata command
/// and is not read for another. Refused is a reply under 8 bytes or of the
/// wrong length for its command and status.
pub fn read(opcode: Opcode, what: u8, reply: &[u8]) -> Option<Answer<'_>> {
    let (head, result) = reply.split_at_checked(HEAD)?;
    let (sent_status, sent_qualifier) = (u16_at(head, 0), u16_at(head, 2));
    let right = match sent_status {
        0 => is_result(opcode, what, result),
        _ => result.is_empty(),
    };
    right.then(|| Answer {
        status: known(sent_status, STATUSES.contains(&sent_status), OTHER_STATUS),
        qualifier: known(sent_qualifier, QUALIFIERS.contains(&sent_qualifier), OTHER_QUALIFIER),
        sent_status,
        sent_qualifier,
        result,
    })
}

/// A number that is known, or what another one is handled as.
fn known(sent: u16, is_known: bool, other: u16) -> u16 {
    if is_known {
        sent
    } else {
        other
    }
}

/// Whether the result of a command that succeeded has a right length.
fn is_result(opcode: Opcode, what: u8, result: &[u8]) -> bool {
    match opcode {
        Opcode::ListQuery | Opcode::Query => result.len() == 8,
        Opcode::Metadata if what == LIST => is_header_list(result),
        Opcode::Metadata => result.len() == 8,
        Opcode::PartsGet => are_whole_parts(result),
        _ => result.is_empty(),
    }
}

/// Whether there are as many headers as the count says: 8 bytes, of which the
/// first four are the count, and 16 for each.
fn is_header_list(result: &[u8]) -> bool {
    let Some((count, headers)) = result.split_at_checked(8) else { return false };
    let expected = u64::from(u32_at(count, 0)) * HEADER as u64;
    headers.len() as u64 == expected
}

/// Whether the parts, by the lengths in their headers, end with the result.
fn are_whole_parts(mut rest: &[u8]) -> bool {
    while !rest.is_empty() {
        let Some((header, behind)) = rest.split_at_checked(HEADER) else { return false };
        let length = u64::from(u32_at(header, 12));
        if length > behind.len() as u64 {
            return false;
        }
        rest = &behind[length as usize..];
    }
    true
}
