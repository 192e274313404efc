//! Faults of built requests and of the reader of replies (request 1 of
//! document 02).

use plain_card::frame::{u16_at, u32_at, DATA, LONGEST};
use plain_card::opcode::Opcode;
use plain_card::part::HEADER;

use super::{breaking, fault, Fault, Outcome, Plant, Property};
use crate::call::Call;
use crate::fields::Fields;
use crate::memory::{pattern, Buffer};

/// The result of a reply starts here.
const RESULT: usize = 8;
const HALVES: &[Property] = &[Property::Halves];

pub const FAULTS: &[Fault] = &[
    breaking(HALVES, "build: group type left out", Plant::Leave(|o| put(o, 2, &[0]))),
    fault("build: a reserved byte not zero", Plant::Leave(|o| put(o, 15, &[1]))),
    fault("build: list commands carry a member", Plant::Leave(list_member)),
    fault("build: member cut to 32 bits", Plant::Replace(|c| fields(c, member_cut))),
    fault("build: id cut to 16 bits", Plant::Replace(|c| fields(c, |f| f.id &= 0xffff))),
    fault("build: mask kept to supported bits", Plant::Replace(|c| fields(c, mask_kept))),
    fault("build: mode byte cut to bit 0", Plant::Replace(|c| fields(c, mode_cut))),
    fault("build: kind over 1 refused", Plant::Leave(kind_refused)),
    breaking(HALVES, "build: kind at the flags", Plant::Leave(kind_at_flags)),
    breaking(HALVES, "build: list ahead of the id", Plant::Leave(list_ahead)),
    fault("build: headers with get-all left out", Plant::Replace(|c| list(c, headers_left_out))),
    fault("build: an incomplete header left out", Plant::Replace(|c| list(c, whole_headers))),
    fault("build: list cut to 16 bits", Plant::Replace(|c| list(c, list_cut))),
    fault("build: 4,096 bytes refused", Plant::Leave(longest_refused)),
    fault("build: over 4,096 bytes built", Plant::Leave(over_longest)),
    fault("build: a short buffer written in part", Plant::Leave(in_part)),
    fault("build: a byte too many asked for", Plant::Leave(exact_refused)),
    fault("build: rest of the buffer cleared", Plant::Leave(rest_cleared)),
    fault("read: unknown status passed on", Plant::Leave(|o| number(o, 0, |n| n[2]))),
    fault("read: unknown qualifier passed on", Plant::Leave(|o| number(o, 1, |n| n[3]))),
    fault("read: sent status not shown", Plant::Leave(|o| number(o, 2, |n| n[0]))),
    fault("read: sent qualifier not shown", Plant::Leave(|o| number(o, 3, |n| n[1]))),
    fault("read: qualifier of a success passed on", Plant::Leave(success_qualifier)),
    breaking(HALVES, "read: statuses 6, 17 and 28 unknown", Plant::Leave(statuses_of_001)),
    fault("read: status cut to 8 bits", Plant::Replace(status_cut)),
    fault("read: refusal of any length", Plant::Replace(long_refusal)),
    fault("read: unknown status of any length", Plant::Replace(long_unknown)),
    fault("read: bytes past a fixed result ignored", Plant::Replace(past_result)),
    fault("read: count of a list not looked at", Plant::Replace(|c| count(c, |_, there| there))),
    fault("read: length of a list in 32 bits", Plant::Replace(|c| count(c, |n, _| n << 4 >> 4))),
    fault("read: count of a list cut to 8 bits", Plant::Replace(|c| count(c, |n, _| n & 0xff))),
    fault("read: parts not walked", Plant::Replace(not_walked)),
    fault("read: last value may be cut", Plant::Replace(last_cut)),
    fault("read: length of a part cut to 16 bits", Plant::Replace(part_cut)),
    breaking(HALVES, "read: no part at all refused", Plant::Leave(no_part)),
    breaking(HALVES, "read: list of headers refused", Plant::Leave(headers_refused)),
    fault("read: type byte over 2 refused", Plant::Leave(type_refused)),
    fault("read: type byte read of every command", Plant::Replace(type_of_all)),
    fault("read: reserved bytes looked at", Plant::Leave(reserved_read)),
    fault("read: opcode cut to 8 bits", Plant::Replace(opcode_cut)),
    fault("read: unknown opcode taken", Plant::Replace(opcode_taken)),
    fault("read: numbers cleared if refused", Plant::Leave(numbers_cleared)),
];

// Built requests.

/// Changes the fields of a request to build.
fn fields(call: &mut Call, change: fn(&mut Fields)) {
    if let Call::Build { fields, .. } = call {
        change(fields);
    }
}

/// Changes the list of a request to build.
fn list(call: &mut Call, change: fn(&Fields, &mut Vec<u8>)) {
    if let Call::Build { fields, list, .. } = call {
        change(fields, &mut list.bytes);
    }
}

/// The fields of a request that was built.
fn built(outcome: &Outcome) -> Option<Fields> {
    match outcome.call {
        Call::Build { fields, .. } if *outcome.answer > 0 => Some(*fields),
        _ => None,
    }
}

/// The bytes of a request that was not built.
fn not_built(outcome: &Outcome) -> Option<Vec<u8>> {
    match outcome.call {
        Call::Build { fields, list, .. } if *outcome.answer == 0 => {
            Some(fields.request(list).bytes())
        }
        _ => None,
    }
}

/// Refuses what was built.
fn refuse(outcome: &mut Outcome) {
    *outcome.answer = 0;
    outcome.reply.iter_mut().enumerate().for_each(|(at, byte)| *byte = pattern(at));
}

/// Puts bytes in a request that was built.
fn put(outcome: &mut Outcome, at: usize, bytes: &[u8]) {
    if built(outcome).is_some() {
        outcome.reply[at..at + bytes.len()].copy_from_slice(bytes);
    }
}

fn list_member(outcome: &mut Outcome) {
    if let Some(fields) = built(outcome).filter(|fields| !fields.opcode.names_member()) {
        put(outcome, 16, &fields.member.to_le_bytes());
    }
}

fn member_cut(fields: &mut Fields) {
    fields.member &= u64::from(u32::MAX);
}

fn mask_kept(fields: &mut Fields) {
    fields.mask &= plain_card::opcode::SUPPORTED;
}

fn mode_cut(fields: &mut Fields) {
    if fields.opcode == Opcode::ModeSet {
        fields.byte &= 1;
    }
}

/// The fields of a create or modify that was built.
fn with_kind(outcome: &Outcome) -> Option<Fields> {
    built(outcome).filter(|fields| matches!(fields.opcode, Opcode::Create | Opcode::Modify))
}

fn kind_refused(outcome: &mut Outcome) {
    if with_kind(outcome).is_some_and(|fields| fields.byte > 1) {
        refuse(outcome);
    }
}

fn kind_at_flags(outcome: &mut Outcome) {
    if with_kind(outcome).is_some() {
        outcome.reply.swap(DATA + 8, DATA + 16);
    }
}

fn list_ahead(outcome: &mut Outcome) {
    if built(outcome).is_some_and(|fields| fields.opcode == Opcode::PartsSet) {
        outcome.reply[DATA..*outcome.answer].rotate_left(8);
    }
}

fn headers_left_out(fields: &Fields, list: &mut Vec<u8>) {
    if fields.opcode == Opcode::PartsGet && fields.byte == 1 {
        list.clear();
    }
}

fn whole_headers(fields: &Fields, list: &mut Vec<u8>) {
    if fields.opcode == Opcode::PartsGet {
        list.truncate(list.len() / HEADER * HEADER);
    }
}

fn list_cut(_: &Fields, list: &mut Vec<u8>) {
    list.truncate(list.len() % (1 << 16));
}

fn longest_refused(outcome: &mut Outcome) {
    if built(outcome).is_some() && *outcome.answer == LONGEST {
        refuse(outcome);
    }
}

fn over_longest(outcome: &mut Outcome) {
    let Some(bytes) = not_built(outcome) else { return };
    if let Some(start) = outcome.reply.get_mut(..bytes.len()) {
        start.copy_from_slice(&bytes);
        *outcome.answer = bytes.len();
    }
}

fn in_part(outcome: &mut Outcome) {
    if let Some(bytes) = not_built(outcome).filter(|bytes| bytes.len() <= LONGEST) {
        outcome.reply.iter_mut().zip(bytes).for_each(|(place, byte)| *place = byte);
    }
}

fn exact_refused(outcome: &mut Outcome) {
    if built(outcome).is_some() && *outcome.answer == outcome.reply.len() {
        refuse(outcome);
    }
}

fn rest_cleared(outcome: &mut Outcome) {
    if built(outcome).is_some() {
        outcome.reply[*outcome.answer..].fill(0);
    }
}

// Replies that are read.

/// The four numbers of a reply that was read.
fn read(outcome: &Outcome) -> Option<[u16; 4]> {
    match outcome.call {
        Call::Read { .. } if *outcome.answer == 0 => {
            Some(std::array::from_fn(|index| u16_at(outcome.reply, 2 * index)))
        }
        _ => None,
    }
}

/// Puts another number in the place of one that was read.
fn number(outcome: &mut Outcome, index: usize, other: fn([u16; 4]) -> u16) {
    if let Some(numbers) = read(outcome) {
        let place = &mut outcome.reply[2 * index..2 * index + 2];
        place.copy_from_slice(&other(numbers).to_le_bytes());
    }
}

fn success_qualifier(outcome: &mut Outcome) {
    if read(outcome).is_some_and(|numbers| numbers[0] == 0) {
        number(outcome, 1, |numbers| numbers[3]);
    }
}

fn statuses_of_001(outcome: &mut Outcome) {
    number(outcome, 0, |numbers| match numbers[0] {
        6 | 17 | 28 => 22,
        status => status,
    });
}

/// Refuses a reply that was read.
fn unread(outcome: &mut Outcome) {
    *outcome.answer = 1;
    outcome.reply.iter_mut().enumerate().for_each(|(at, byte)| *byte = pattern(at));
}

/// Opcode, type byte and bytes of a reply that was read.
fn reply<'a>(outcome: &Outcome<'a>) -> Option<(u16, u8, &'a [u8])> {
    match outcome.call {
        Call::Read { opcode, what, reply } if *outcome.answer == 0 => Some((*opcode, *what, reply)),
        _ => None,
    }
}

/// Whether a reply that was read is a success of the command.
fn success_of(outcome: &Outcome, command: Opcode) -> bool {
    reply(outcome)
        .is_some_and(|(opcode, _, reply)| opcode == command as u16 && reply.starts_with(&[0, 0]))
}

fn no_part(outcome: &mut Outcome) {
    let empty = reply(outcome).is_some_and(|(_, _, reply)| reply.len() == RESULT);
    if empty && success_of(outcome, Opcode::PartsGet) {
        unread(outcome);
    }
}

fn headers_refused(outcome: &mut Outcome) {
    let longer = reply(outcome).is_some_and(|(_, _, reply)| reply.len() > RESULT + 8);
    if longer && success_of(outcome, Opcode::Metadata) {
        unread(outcome);
    }
}

fn type_refused(outcome: &mut Outcome) {
    let over = reply(outcome).is_some_and(|(_, what, _)| what > 2);
    if over && success_of(outcome, Opcode::Metadata) {
        unread(outcome);
    }
}

fn reserved_read(outcome: &mut Outcome) {
    if reply(outcome).is_some_and(|(_, _, reply)| reply[4..8] != [0; 4]) {
        unread(outcome);
    }
}

fn numbers_cleared(outcome: &mut Outcome) {
    if matches!(outcome.call, Call::Read { .. }) && *outcome.answer == 1 {
        outcome.reply.fill(0);
    }
}

/// The status and bytes of a reply to read that has a head, to be changed.
fn to_read(call: &mut Call) -> Option<(Opcode, u8, u16, &mut Buffer)> {
    let Call::Read { opcode, what, reply } = call else { return None };
    let status = (reply.len() >= RESULT).then(|| u16_at(reply, 0))?;
    Some((Opcode::from_number(*opcode)?, *what, status, reply))
}

fn status_cut(call: &mut Call) {
    if let Some((_, _, _, reply)) = to_read(call) {
        reply.bytes[1] = 0;
    }
}

fn long_refusal(call: &mut Call) {
    if let Some((_, _, 1.., reply)) = to_read(call) {
        reply.bytes.truncate(RESULT);
    }
}

fn long_unknown(call: &mut Call) {
    if let Some((_, _, status, reply)) = to_read(call) {
        if ![0, 6, 11, 12, 17, 22, 28].contains(&status) {
            reply.bytes.truncate(RESULT);
        }
    }
}

fn past_result(call: &mut Call) {
    if let Some((Opcode::ListQuery | Opcode::Query, _, 0, reply)) = to_read(call) {
        reply.bytes.truncate(RESULT + 8);
    }
}

/// Changes the count of a list of headers; besides it stands how many are there.
fn count(call: &mut Call, other: fn(u32, u32) -> u32) {
    if let Some((Opcode::Metadata, 2, 0, reply)) = to_read(call) {
        if let Some(headers) = reply.len().checked_sub(RESULT + 8) {
            let changed = other(u32_at(reply, RESULT), (headers / HEADER) as u32);
            reply.bytes[RESULT..RESULT + 4].copy_from_slice(&changed.to_le_bytes());
        }
    }
}

fn not_walked(call: &mut Call) {
    if let Some((Opcode::PartsGet, _, 0, reply)) = to_read(call) {
        reply.bytes.truncate(RESULT);
    }
}

/// Where the headers of a parts list in a reply start, up to the first whose
/// value runs past the end.
fn headers(reply: &[u8]) -> Vec<usize> {
    let mut headers = vec![];
    let mut at = RESULT;
    while at + HEADER <= reply.len() {
        headers.push(at);
        at += HEADER + u32_at(reply, at + 12) as usize;
    }
    headers
}

fn last_cut(call: &mut Call) {
    if let Some((Opcode::PartsGet, _, 0, reply)) = to_read(call) {
        if let Some(last) = headers(reply).pop() {
            let there = (reply.len() - last - HEADER) as u32;
            let length = u32_at(reply, last + 12).min(there);
            reply.bytes[last + 12..last + 16].copy_from_slice(&length.to_le_bytes());
        }
    }
}

fn part_cut(call: &mut Call) {
    if let Some((Opcode::PartsGet, _, 0, reply)) = to_read(call) {
        let mut at = RESULT;
        while at + HEADER <= reply.len() {
            reply.bytes[at + 14..at + 16].fill(0);
            at += HEADER + u32_at(reply, at + 12) as usize;
        }
    }
}

/// With type byte 2 every result of 8 bytes is taken for a count.
fn type_of_all(call: &mut Call) {
    if let Some((Opcode::ListQuery | Opcode::Query, 2, 0, _)) = to_read(call) {
        if let Call::Read { opcode, .. } = call {
            *opcode = Opcode::Metadata as u16;
        }
    }
}

fn opcode_cut(call: &mut Call) {
    if let Call::Read { opcode, .. } = call {
        *opcode &= 0xff;
    }
}

fn opcode_taken(call: &mut Call) {
    if let Call::Read { opcode, .. } = call {
        if Opcode::from_number(*opcode).is_none() {
            *opcode = Opcode::ModeSet as u16;
        }
    }
}
