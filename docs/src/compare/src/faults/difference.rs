//! Faults of a full capture and a later list (request 7 of document 02).

use plain_card::difference::Refused;
use plain_card::list::{self, Known};
use plain_card::part::{inventory, Part, HEADER};
use plain_card::{setups, Setup};

use super::{fault, Fault, Outcome, Plant};
use crate::call::Call;
use crate::device::Plain;
use crate::lists::{Asked, OnLists, FOUND};
use crate::memory::{pattern, Buffer};
use crate::part_bytes::part;

pub const FAULTS: &[Fault] = &[
    fault("pair: the full capture's value", Plant::Leave(full_value)),
    fault("pair: first part of the later list for all", Plant::Leave(first_of_later)),
    fault("pair: the lists told the wrong way round", Plant::Leave(lists_swapped)),
    fault("pair: header handed back with the value", Plant::Leave(with_header)),
    fault("pair: place of the header", Plant::Leave(place_of_header)),
    fault("pair: headers of the later list kept", Plant::Leave(headers_of_later)),
    fault("pair: headers of the full capture kept", Plant::Leave(headers_of_full)),
    fault("pair: order of the full capture kept", Plant::Leave(order_of_full)),
    fault("pair: skipped parts in the made list", Plant::Leave(skipped_kept)),
    fault("pair: rest of the buffer made zero", Plant::Leave(rest_cleared)),
    fault("pair: a short buffer written in part", Plant::Leave(written_in_part)),
    fault("pair: a refusal writes a byte", Plant::Leave(refusal_writes)),
    fault("pair: a refusal leaves the numbers", Plant::Leave(numbers_left)),
    fault("pair: later list judged before full", Plant::Leave(later_first)),
    fault("pair: lacking before a bad later list", Plant::Leave(lacking_first)),
    fault("pair: part asked before lacking", Plant::Leave(asked_first)),
    fault("pair: buffer before lacking", Plant::Leave(buffer_before_lacking)),
    fault("pair: buffer before bad lists", Plant::Leave(buffer_first)),
    fault("pair: lacking goes by the part asked", Plant::Leave(lacking_asked)),
    fault("pair: later list fills what is lacking", Plant::Leave(later_fills)),
    fault("pair: device features may be lacking", Plant::Leave(features_lacking)),
    fault("pair: fewer queues not lacking", Plant::Leave(queues_lacking)),
    fault("pair: full capture over 4,064 refused", Plant::Leave(long_full)),
    fault("pair: later list over 4,064 refused", Plant::Leave(long_later)),
    fault("pair: empty later list refused", Plant::Leave(empty_later)),
    fault("pair: queue sizes of the later list unread", Plant::Leave(sizes_unread)),
    fault("pair: member cut to 32 bits", Plant::Replace(member_32)),
    fault("pair: member cut to 8 bits", Plant::Replace(member_8)),
    fault("pair: member counted from 0", Plant::Replace(member_0)),
    fault("pair: parts of member 1", Plant::Replace(member_1)),
    fault("pair: version 2 of a setup refused", Plant::Leave(version_2)),
    fault("pair: unnamed selector bytes compared", Plant::Leave(unnamed_compared)),
    fault("pair: selector cut to 8 bits", Plant::Replace(selector_8)),
    fault("pair: an exact buffer refused", Plant::Leave(exact_refused)),
    fault("pair: room for four queues wanted", Plant::Leave(four_queues)),
];

/// A call on a pair of lists, and what it says.
struct Called<'a> {
    call: &'a OnLists,
    lists: [&'a [u8]; 2],
    setup: Setup,
    queues: u8,
}

/// The call, if it is on a pair of lists of a member that the setup has.
fn called<'a>(outcome: &Outcome<'a>) -> Option<Called<'a>> {
    let Call::Lists(call) = outcome.call else { return None };
    let [full, later] = call.pair()?;
    let setup = setups::read(&call.setup).ok()?;
    let queues = setup.queues_of(call.member)?;
    Some(Called { call, lists: [full, later], setup, queues })
}

impl<'a> Called<'a> {
    /// The known parts of the full capture (0) or the later list (1).
    fn known(&self, list: usize) -> Option<Vec<Known<'a>>> {
        list::known(self.lists[list], &self.setup.common.features, self.queues).ok()
    }

    /// Whether the full capture lacks a part.
    fn lacks(&self) -> bool {
        self.known(0).is_some_and(|known| known.len() < inventory(self.queues).count())
    }

    /// The part asked, if the member has it.
    fn part(&self) -> Option<Part> {
        match self.call.asked {
            Asked::Find { part_type, selector, .. } => {
                Part::named(part_type, selector.to_le_bytes(), self.queues)
            }
            _ => None,
        }
    }

    /// Whether a list is to be made and its buffer is too short.
    fn short(&self) -> bool {
        let need = 157 + 72 * usize::from(self.queues);
        matches!(self.call.asked, Asked::Merge { room, .. } if room.length < need)
    }

    fn finds(&self) -> bool {
        matches!(self.call.asked, Asked::Find { .. })
    }
}

/// The call, if a part was found.
fn found<'a>(outcome: &Outcome<'a>) -> Option<Called<'a>> {
    called(outcome).filter(|called| called.finds() && *outcome.answer == 0)
}

/// The call, if a list was made, and the length of that.
fn made<'a>(outcome: &Outcome<'a>) -> Option<(Called<'a>, usize)> {
    let called = called(outcome).filter(|called| !called.finds())?;
    (*outcome.answer % 256 == 0).then_some((called, *outcome.answer / 256))
}

/// The call, if it was refused so.
fn refused<'a>(outcome: &Outcome<'a>, why: Refused) -> Option<Called<'a>> {
    called(outcome).filter(|_| *outcome.answer % 256 == why as usize)
}

/// The call, if it was not refused.
fn accepted<'a>(outcome: &Outcome<'a>) -> Option<Called<'a>> {
    called(outcome).filter(|_| *outcome.answer % 256 == 0)
}

/// Refuses the call.
fn refuse(outcome: &mut Outcome, why: Refused) {
    outcome.reply.iter_mut().enumerate().for_each(|(at, byte)| *byte = pattern(at));
    if called(outcome).is_some_and(|called| called.finds()) {
        outcome.reply[..FOUND].fill(0);
    }
    *outcome.answer = why as usize;
}

/// Hears another call on the lists.
fn hear(outcome: &mut Outcome, change: impl FnOnce(&mut [Buffer; 2])) {
    let Call::Lists(call) = outcome.call else { return };
    let mut call = call.clone();
    match &mut call.asked {
        Asked::Find { lists, .. } | Asked::Merge { lists, .. } => change(lists),
        Asked::Salvage { .. } => return,
    }
    outcome.reply.iter_mut().enumerate().for_each(|(at, byte)| *byte = pattern(at));
    *outcome.answer = Plain::default().hear(&Call::Lists(call), outcome.reply);
}

/// Tells where a value was found.
fn tell(outcome: &mut Outcome, list: u8, at: usize, length: usize) {
    outcome.reply[0] = list;
    outcome.reply[1..9].copy_from_slice(&(at as u64).to_le_bytes());
    outcome.reply[9..FOUND].copy_from_slice(&(length as u64).to_le_bytes());
}

/// Where a value was found.
fn told(outcome: &Outcome) -> (u8, usize, usize) {
    let number = |at: usize| {
        u64::from_le_bytes(outcome.reply[at..at + 8].try_into().expect("there are 8 bytes"))
    };
    (outcome.reply[0], number(1) as usize, number(9) as usize)
}

fn full_value(outcome: &mut Outcome) {
    if accepted(outcome).is_some() {
        hear(outcome, |[_, later]| later.bytes.clear());
    }
}

fn first_of_later(outcome: &mut Outcome) {
    let Some(called) = found(outcome) else { return };
    let first = called.known(1).and_then(|known| known.first().copied());
    if let (Some(known), (1, ..)) = (first, told(outcome)) {
        tell(outcome, 1, known.at, known.value.len());
    }
}

fn lists_swapped(outcome: &mut Outcome) {
    if found(outcome).is_some() {
        outcome.reply[0] ^= 1;
    }
}

fn with_header(outcome: &mut Outcome) {
    if found(outcome).is_some() {
        let (list, at, length) = told(outcome);
        tell(outcome, list, at - HEADER, length + HEADER);
    }
}

fn place_of_header(outcome: &mut Outcome) {
    if found(outcome).is_some() {
        let (list, at, length) = told(outcome);
        tell(outcome, list, at - HEADER, length);
    }
}

/// The made list has the headers of this list, where it has the part.
fn headers_of(outcome: &mut Outcome, list: usize) {
    let Some((called, length)) = made(outcome) else { return };
    for Known { part, at, .. } in called.known(list).unwrap_or_default() {
        let header = part.header();
        let mut headers = outcome.reply[..length].windows(HEADER);
        let place = headers.position(|bytes| bytes == header).expect("each part is there");
        let ours = &called.lists[list][at - HEADER..at];
        outcome.reply[place..place + HEADER].copy_from_slice(ours);
    }
}

fn headers_of_later(outcome: &mut Outcome) {
    headers_of(outcome, 1);
}

fn headers_of_full(outcome: &mut Outcome) {
    headers_of(outcome, 0);
}

fn order_of_full(outcome: &mut Outcome) {
    let Some((called, length)) = made(outcome) else { return };
    let (Some(full), Some(later)) = (called.known(0), called.known(1)) else { return };
    let value = |name| later.iter().chain(&full).find(|it| it.part == name).map(|it| it.value);
    let parts = full.iter().map(|known| part(known.part, value(known.part).unwrap_or_default()));
    let list: Vec<u8> = parts.flatten().collect();
    outcome.reply[..length].copy_from_slice(&list);
}

/// What the full capture has behind its last known part comes behind the list.
fn skipped_kept(outcome: &mut Outcome) {
    let Some((called, length)) = made(outcome) else { return };
    let ends = called.known(0).unwrap_or_default().into_iter().map(|it| it.at + it.value.len());
    let skipped = &called.lists[0][ends.max().unwrap_or(0)..];
    if let Some(room) = outcome.reply.get_mut(length..length + skipped.len()) {
        room.copy_from_slice(skipped);
        *outcome.answer += 256 * skipped.len();
    }
}

fn rest_cleared(outcome: &mut Outcome) {
    if let Some((_, length)) = made(outcome) {
        outcome.reply[length..].fill(0);
    }
}

fn written_in_part(outcome: &mut Outcome) {
    let Some(called) = refused(outcome, Refused::Buffer) else { return };
    let full = called.known(0).unwrap_or_default();
    for (byte, ours) in outcome.reply.iter_mut().zip(full.iter().flat_map(|it| it.part.header())) {
        *byte = ours;
    }
}

fn refusal_writes(outcome: &mut Outcome) {
    let refused = refused(outcome, Refused::Lacking).filter(|called| !called.finds());
    if let (Some(_), Some(byte)) = (refused, outcome.reply.first_mut()) {
        *byte = 0;
    }
}

fn numbers_left(outcome: &mut Outcome) {
    let Some(called) = called(outcome).filter(|_| *outcome.answer % 256 != 0) else { return };
    match called.finds() {
        true => tell(outcome, 0, 1, 0),
        false => *outcome.answer += 256,
    }
}

fn later_first(outcome: &mut Outcome) {
    if refused(outcome, Refused::Full).is_some_and(|called| called.known(1).is_none()) {
        refuse(outcome, Refused::Later);
    }
}

fn lacking_first(outcome: &mut Outcome) {
    if refused(outcome, Refused::Later).is_some_and(|called| called.lacks()) {
        refuse(outcome, Refused::Lacking);
    }
}

fn asked_first(outcome: &mut Outcome) {
    let lacking = refused(outcome, Refused::Lacking);
    if lacking.is_some_and(|called| called.finds() && called.part().is_none()) {
        refuse(outcome, Refused::Part);
    }
}

fn buffer_before_lacking(outcome: &mut Outcome) {
    if refused(outcome, Refused::Lacking).is_some_and(|called| called.short()) {
        refuse(outcome, Refused::Buffer);
    }
}

fn buffer_first(outcome: &mut Outcome) {
    if called(outcome).is_some_and(|called| called.short()) {
        refuse(outcome, Refused::Buffer);
    }
}

/// Hears the call with these parts behind the full capture.
fn with_parts(outcome: &mut Outcome, parts: Vec<Vec<u8>>) {
    hear(outcome, |[full, _]| full.bytes.extend(parts.concat()));
}

/// The parts that the full capture lacks.
fn lacking(called: &Called) -> Vec<Part> {
    let full = called.known(0).unwrap_or_default();
    inventory(called.queues).filter(|part| !full.iter().any(|it| it.part == *part)).collect()
}

/// Parts with zeros for values.
fn zeros(called: &Called, parts: &[Part]) -> Vec<Vec<u8>> {
    let value = |name: &Part| match name {
        Part::DeviceFeatures => called.setup.common.features.to_vec(),
        name => vec![0; name.length() as usize],
    };
    parts.iter().map(|name| part(*name, &value(name))).collect()
}

fn lacking_asked(outcome: &mut Outcome) {
    let Some(called) = refused(outcome, Refused::Lacking) else { return };
    let lacking = lacking(&called);
    if called.part().is_some_and(|part| !lacking.contains(&part)) {
        with_parts(outcome, zeros(&called, &lacking));
    }
}

fn later_fills(outcome: &mut Outcome) {
    let Some(called) = refused(outcome, Refused::Lacking) else { return };
    let (lacking, later) = (lacking(&called), called.known(1).unwrap_or_default());
    if lacking.iter().all(|part| later.iter().any(|it| it.part == *part)) {
        with_parts(outcome, zeros(&called, &lacking));
    }
}

fn features_lacking(outcome: &mut Outcome) {
    let Some(called) = refused(outcome, Refused::Lacking) else { return };
    let lacking = lacking(&called);
    if lacking == [Part::DeviceFeatures] {
        with_parts(outcome, zeros(&called, &lacking));
    }
}

fn queues_lacking(outcome: &mut Outcome) {
    let Some(called) = refused(outcome, Refused::Lacking) else { return };
    let lacking = lacking(&called);
    if lacking.iter().all(|part| matches!(part, Part::Queue(_) | Part::QueueNotify(_))) {
        with_parts(outcome, zeros(&called, &lacking));
    }
}

fn long_full(outcome: &mut Outcome) {
    if called(outcome).is_some_and(|called| called.lists[0].len() > 4_064) {
        refuse(outcome, Refused::Full);
    }
}

fn long_later(outcome: &mut Outcome) {
    if accepted(outcome).is_some_and(|called| called.lists[1].len() > 4_064) {
        refuse(outcome, Refused::Later);
    }
}

fn empty_later(outcome: &mut Outcome) {
    if accepted(outcome).is_some_and(|called| called.lists[1].is_empty()) {
        refuse(outcome, Refused::Later);
    }
}

/// A later list whose known queue parts have any size is taken.
fn sizes_unread(outcome: &mut Outcome) {
    let Some(called) = refused(outcome, Refused::Later) else { return };
    hear(outcome, |[_, later]| {
        let mut at = 0;
        while let Some(header) = later.bytes.get(at..at + HEADER) {
            let header = list::Header::read(header);
            let value = at + HEADER;
            at = value + header.length as usize;
            let queue = matches!(header.part(called.queues), Some(Part::Queue(_)));
            if let (true, Some(size)) = (queue, later.bytes.get_mut(value..value + 2)) {
                size.copy_from_slice(&[1, 0]);
            }
        }
    });
}

/// Changes the call, if it is on a pair of lists.
fn change(call: &mut Call, change: impl FnOnce(&mut OnLists)) {
    match call {
        Call::Lists(call) if call.pair().is_some() => change(call),
        _ => {}
    }
}

fn member_32(call: &mut Call) {
    change(call, |call| call.member &= 0xffff_ffff);
}

fn member_8(call: &mut Call) {
    change(call, |call| call.member &= 0xff);
}

fn member_0(call: &mut Call) {
    change(call, |call| call.member = call.member.wrapping_add(1));
}

fn member_1(call: &mut Call) {
    change(call, |call| call.member = call.member.min(1));
}

fn version_2(outcome: &mut Outcome) {
    if called(outcome).is_some_and(|called| called.call.setup[0] >> 4 == 2) {
        refuse(outcome, Refused::Setup);
    }
}

fn unnamed_compared(outcome: &mut Outcome) {
    let Some(called) = found(outcome) else { return };
    let Asked::Find { selector, .. } = called.call.asked else { return };
    if called.part().is_some_and(|part| part.selector() != selector.to_le_bytes()) {
        refuse(outcome, Refused::Part);
    }
}

fn selector_8(call: &mut Call) {
    change(call, |call| {
        if let Asked::Find { selector, .. } = &mut call.asked {
            *selector &= 0xff;
        }
    });
}

fn exact_refused(outcome: &mut Outcome) {
    if made(outcome).is_some_and(|(_, length)| outcome.reply.len() == length) {
        refuse(outcome, Refused::Buffer);
    }
}

fn four_queues(outcome: &mut Outcome) {
    if made(outcome).is_some() && outcome.reply.len() < 157 + 72 * 4 {
        refuse(outcome, Refused::Buffer);
    }
}
