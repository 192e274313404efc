//! Faults of setups as bytes, and of members that differ in their queues
//! (request 9 of document 02).

use plain_card::effect::Effect;
use plain_card::operation::{About, Operation};
use plain_card::part::Part;
use plain_card::setups::{self, Unread};
use plain_card::status::Refusal;
use plain_card::Card;

use super::tools::operation;
use super::{fault, Fault, Outcome, Plant};
use crate::call::{Call, COUNTS};
use crate::memory::pattern;

pub const FAULTS: &[Fault] = &[
    fault("setup: least significant bit first", Plant::Leave(bits_reversed)),
    fault("setup: a count written, not less one", Plant::Leave(count_written)),
    fault("setup: a count read one too low", Plant::Leave(count_read)),
    fault("setup: members counted from 0", Plant::Leave(members_read)),
    fault("setup: equal counts written as version 2", Plant::Leave(written_as_2)),
    fault("setup: only two members compared", Plant::Leave(two_compared)),
    fault("setup: counts past N not made zero", Plant::Leave(counts_past)),
    fault("setup: a refused reader writes members", Plant::Leave(members_written)),
    fault("setup: a short buffer written in part", Plant::Leave(written_in_part)),
    fault("setup: six bits of padding not looked at", Plant::Replace(padding_unread)),
    fault("setup: padding of counts not looked at", Plant::Replace(counts_padding)),
    fault("setup: Q field of version 2 not looked at", Plant::Replace(field_unread)),
    fault("setup: bytes past the end ignored", Plant::Replace(end_ignored)),
    fault("setup: version 3 read as 1", Plant::Replace(version_3)),
    fault("setup: G over 8 read as 8", Plant::Replace(gets_over)),
    fault("setup: version 2 with equal counts refused", Plant::Leave(equal_refused)),
    fault("setup: version 1 reader reads version 2", Plant::Replace(reader_of_both)),
    fault("setup: length before version 2 by name", Plant::Leave(length_first)),
    fault("setup: buffers before version 2 by name", Plant::Leave(buffers_first)),
    fault("setup: new reader names version 2", Plant::Leave(named_by_new)),
    fault("setup: no bytes named version 2", Plant::Leave(nothing_named)),
    fault("setup: counts past N ignored", Plant::Replace(counts_ignored)),
    fault("setup: missing counts are 1", Plant::Replace(counts_filled)),
    fault("setup: counts cut to 3 bits", Plant::Replace(counts_cut)),
    fault("queues: a wipe gives member 1's count", Plant::Leave(wipe_count)),
    fault("queues: a card reset gives one count", Plant::Leave(reset_count)),
    fault("queues: metadata by member 1's count", Plant::Leave(metadata_first)),
    fault("queues: asked by member 1's count", Plant::Refuse(asked_first)),
    fault("queues: set by member 1's count", Plant::Refuse(set_first)),
    fault("queues: store by member 1's count", Plant::Leave(store_first)),
];

/// The bytes of a setup that a call has written, ahead of its features.
fn written<'a>(outcome: &'a mut Outcome) -> Option<&'a mut [u8]> {
    let features = outcome.answer.checked_sub(16)?;
    matches!(outcome.call, Call::WriteSetup { .. }).then(|| &mut outcome.reply[..features])
}

/// The numbers that a setup has been read into.
fn read<'a>(outcome: &'a mut Outcome) -> Option<&'a mut [u8]> {
    let done = matches!(outcome.call, Call::ReadSetup { .. }) && *outcome.answer == 0;
    done.then_some(&mut *outcome.reply)
}

/// The bytes of a setup that a call reads, to be changed.
fn packed(call: &mut Call) -> Option<&mut Vec<u8>> {
    match call {
        Call::SetupFrom { setup, .. } | Call::ReadSetup { setup, .. } => Some(&mut setup.bytes),
        _ => None,
    }
}

fn bits_reversed(outcome: &mut Outcome) {
    if let Some(bytes) = written(outcome) {
        bytes.iter_mut().for_each(|byte| *byte = byte.reverse_bits());
    }
}

/// The Q field of version 1 has the count itself, 4 as 0.
fn count_written(outcome: &mut Outcome) {
    if let Some(bytes @ [0x10..=0x1f, ..]) = written(outcome) {
        bytes[1] = bytes[1].wrapping_add(0x40);
    }
}

fn count_read(outcome: &mut Outcome) {
    if let Some(numbers) = read(outcome) {
        numbers[COUNTS] -= 1;
    }
}

fn members_read(outcome: &mut Outcome) {
    if let Some(numbers) = read(outcome) {
        numbers[0] -= 1;
    }
}

/// The bytes of version 1 as version 2, if there is room for them.
fn written_as_2(outcome: &mut Outcome) {
    let Some(&[first @ 0x10..=0x1f, second, third]) = written(outcome).as_deref() else { return };
    let members = usize::from(first & 0xf) + 1;
    let counts = vec![(second >> 6) * 0x55; members.div_ceil(4)];
    let features = outcome.reply[3..19].to_vec();
    let bytes = [&[first ^ 0x30, second & 0x3f, third], &counts[..], &features].concat();
    if let Some(start) = outcome.reply.get_mut(..bytes.len()) {
        start.copy_from_slice(&bytes);
        *outcome.answer = bytes.len();
    }
}

/// Version 1 is written if the first two members are alike.
fn two_compared(outcome: &mut Outcome) {
    let Call::WriteSetup { queues, .. } = outcome.call else { return };
    let alike = queues.len() > 2 && queues[0] == queues[1];
    if let Some(bytes @ [0x20..=0x2f, ..]) = written(outcome).filter(|_| alike) {
        bytes[0] ^= 0x30;
        bytes[1] |= (queues[0] - 1) << 6;
    }
}

fn counts_past(outcome: &mut Outcome) {
    if let Some(numbers) = read(outcome) {
        for at in COUNTS + usize::from(numbers[0])..COUNTS + 16 {
            numbers[at] = pattern(at);
        }
    }
}

fn members_written(outcome: &mut Outcome) {
    if let (Call::ReadSetup { setup, .. }, 1 | 2) = (outcome.call, *outcome.answer) {
        if let Some(byte) = setup.first() {
            outcome.reply[0] = (byte & 0xf) + 1;
        }
    }
}

fn written_in_part(outcome: &mut Outcome) {
    let (Call::WriteSetup { numbers, queues, features, .. }, 0) = (outcome.call, *outcome.answer)
    else {
        return;
    };
    let mut whole = [0; 23];
    let [members, gets, sets] = *numbers;
    let written =
        plain_card::exported::setup_write(&mut whole, members, queues, gets, sets, features);
    if written > 0 {
        let room = outcome.reply.len();
        outcome.reply.copy_from_slice(&whole[..room]);
    }
}

fn padding_unread(call: &mut Call) {
    if let Some([_, _, byte, ..]) = packed(call).map(|setup| &mut setup[..]) {
        *byte &= 0xc0;
    }
}

/// The last byte of the counts of version 2 keeps those of members alone.
fn counts_padding(call: &mut Call) {
    if let Some([first @ 0x20..=0x2f, rest @ ..]) = packed(call).map(|setup| &mut setup[..]) {
        let members = usize::from(*first & 0xf) + 1;
        if let Some(last) = rest.get_mut(1 + members.div_ceil(4)) {
            *last &= match members % 4 {
                0 => 0xff,
                few => !(0xff >> (2 * few)),
            };
        }
    }
}

fn field_unread(call: &mut Call) {
    if let Some([0x20..=0x2f, byte, ..]) = packed(call).map(|setup| &mut setup[..]) {
        *byte &= 0x3f;
    }
}

fn end_ignored(call: &mut Call) {
    if let Some(setup) = packed(call) {
        if let Some(0x10..=0x1f) = setup.first() {
            setup.truncate(19);
        }
    }
}

fn version_3(call: &mut Call) {
    if let Some([first @ 0x30..=0x3f, ..]) = packed(call).map(|setup| &mut setup[..]) {
        *first ^= 0x20;
    }
}

fn gets_over(call: &mut Call) {
    if let Some([_, byte, ..]) = packed(call).map(|setup| &mut setup[..]) {
        if *byte >> 2 & 0xf > 8 {
            *byte = *byte & 0xc3 | 8 << 2;
        }
    }
}

fn equal_refused(outcome: &mut Outcome) {
    let Call::ReadSetup { setup, .. } = outcome.call else { return };
    let equal = setups::read(setup).is_ok_and(|it| setups::write(&it)[0] >> 4 == 1);
    if *outcome.answer == 0 && setup[0] >> 4 == 2 && equal {
        outcome.reply.iter_mut().enumerate().for_each(|(at, byte)| *byte = pattern(at));
        *outcome.answer = 2;
    }
}

fn reader_of_both(call: &mut Call) {
    if let Call::ReadSetup { first, .. } = call {
        *first = false;
    }
}

fn length_first(outcome: &mut Outcome) {
    let (Call::ReadSetup { setup, .. }, 1) = (outcome.call, *outcome.answer) else { return };
    if setup.len() < 19 {
        *outcome.answer = 2;
    }
}

fn buffers_first(outcome: &mut Outcome) {
    let (Call::ReadSetup { lengths, .. }, 1) = (outcome.call, *outcome.answer) else { return };
    if *lengths != [16; 2] {
        *outcome.answer = 2;
    }
}

fn named_by_new(outcome: &mut Outcome) {
    let (Call::ReadSetup { first: false, setup, .. }, 2) = (outcome.call, *outcome.answer) else {
        return;
    };
    if setups::read_v1(setup) == Err(Unread::Version2) {
        *outcome.answer = 1;
    }
}

fn nothing_named(outcome: &mut Outcome) {
    let (Call::ReadSetup { first: true, setup, .. }, 2) = (outcome.call, *outcome.answer) else {
        return;
    };
    if setup.is_empty() {
        *outcome.answer = 1;
    }
}

/// Changes the counts that a card is made of.
fn counts(call: &mut Call, change: impl Fn(usize, &mut Vec<u8>)) {
    if let Call::Setup { numbers, queues, .. } | Call::WriteSetup { numbers, queues, .. } = call {
        if (1..=16).contains(&numbers[0]) {
            change(numbers[0] as usize, &mut queues.bytes);
        }
    }
}

fn counts_ignored(call: &mut Call) {
    counts(call, |members, queues| queues.truncate(members));
}

fn counts_filled(call: &mut Call) {
    counts(call, |members, queues| {
        if queues.len() < members {
            queues.resize(members, 1);
        }
    });
}

fn counts_cut(call: &mut Call) {
    counts(call, |_, queues| queues.iter_mut().for_each(|count| *count &= 7));
}

fn wipe_count(outcome: &mut Outcome) {
    if let Some((before, after, member)) = outcome.wiped() {
        after.member_mut(member).queues = before.members[0].queues;
    }
}

fn reset_count(outcome: &mut Outcome) {
    if let Some((before, after)) = outcome.card_reset() {
        after.members.iter_mut().for_each(|record| record.queues = before.members[0].queues);
    }
}

/// Size and count are those of member 1.
fn metadata_first(outcome: &mut Outcome) {
    let Some((_, Operation::Metadata(_, about))) = outcome.operation() else { return };
    let about = match about {
        About::List => return,
        about => about,
    };
    if let (true, Some((before, _))) = (outcome.succeeded(), outcome.cards()) {
        let mut first = before.members[0].clone();
        let mut result = [0; 8];
        Effect::TellAbout(about).perform(&mut first, &mut result);
        outcome.reply[8..16].copy_from_slice(&result);
    }
}

/// A part that member 1 has not got is refused.
fn asked_first(card: &Card, request: &[u8], _: usize) -> Option<Refusal> {
    let (_, Operation::GetSelected(_, headers)) = operation(card, request)? else { return None };
    by_first(card, request, plain_card::list::asked(headers, card.members[0].queues).err())
}

fn set_first(card: &Card, request: &[u8], _: usize) -> Option<Refusal> {
    let (member, Operation::PartsSet(_, list)) = operation(card, request)? else { return None };
    let values = &card.member(member).values;
    by_first(card, request, plain_card::list::given(list, values, card.members[0].queues).err())
}

/// The refusal by the count of member 1, of a request that succeeds.
fn by_first(card: &Card, request: &[u8], refusal: Option<Refusal>) -> Option<Refusal> {
    let mut reply = [1; 453];
    plain_card::command(&mut card.clone(), request, &mut reply);
    refusal.filter(|_| reply.starts_with(&[0; 8]))
}

fn store_first(outcome: &mut Outcome) {
    let Call::Store { part_type, selector, .. } = *outcome.call else { return };
    let Some((before, _)) = outcome.cards() else { return };
    let Some(first) = before.members.first() else { return };
    let part = Part::named(part_type, selector.to_le_bytes(), first.queues);
    if outcome.done() && part.is_none() {
        *outcome.after = outcome.before.clone();
        *outcome.answer = 2;
    }
}
