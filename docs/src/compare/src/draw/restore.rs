//! Random calls of a restore in fragments, and holding places.

use plain_card::frame::u32_at;
use plain_card::holding::{Holding, ROOM};
use plain_card::list::Header;
use plain_card::member::{Member, Mode};
use plain_card::object::Kind;
use plain_card::part::{inventory, Part, HEADER, OPTIONAL};
use plain_card::Card;

use super::{any_member, length, list, member, placed, queues_of, spoil, value, Favoured};
use crate::call::Call;
use crate::part_bytes::{any_part, part};
use crate::random::Random;

/// What a list goes by: the queue count of its member, and the device
/// features.
#[derive(Clone, Copy)]
pub struct Target<'a> {
    pub queues: u8,
    pub features: &'a [u8; 16],
}

impl<'a> Target<'a> {
    fn of(card: &'a Card, member: u64) -> Target<'a> {
        Target { queues: queues_of(card, member), features: &card.setup.features }
    }
}

/// A call of a restore; mostly one that goes on with what is begun.
pub fn restore(random: &mut Random, card: &Card, favoured: Favoured) -> Call {
    let member = match random.chance(90) {
        true => member_to_restore(random, card, favoured),
        false => any_member(random, card, favoured),
    };
    let held = record(card, member).and_then(|record| record.holding.bytes());
    let weights = match held {
        None => [80, 8, 8, 4],
        Some(_) => [8, 60, 28, 4],
    };
    match random.weighted(&weights) {
        0 => Call::Begin(member),
        1 => {
            let fragment = fragment(random, card, member, held.unwrap_or_default());
            Call::Feed { member, fragment: placed(random, fragment) }
        }
        2 => Call::Finish { member, id: set_id(random, card, member) },
        _ => Call::Drop(member),
    }
}

/// The record of a member, if the card has it and no more is held than fits.
fn record(card: &Card, member: u64) -> Option<&Member> {
    let at = usize::try_from(member.checked_sub(1)?).ok()?;
    card.members.get(at).filter(|record| record.holding.fits())
}

/// A member, more often one with an open holding place, and of these one whose
/// parts can be set.
fn member_to_restore(random: &mut Random, card: &Card, favoured: Favoured) -> u64 {
    let open = |member: &u64| card.members[*member as usize - 1].holding.held.is_some();
    let begun: Vec<u64> = (1..).take(card.members.len()).filter(open).collect();
    let ready = |member: &u64| {
        let record = &card.members[*member as usize - 1];
        record.mode == Mode::Stopped && record.objects.count(Kind::Set) > 0
    };
    let ready: Vec<u64> = begun.iter().copied().filter(ready).collect();
    match random.weighted(&[40, 20, 40]) {
        1 if !begun.is_empty() => random.pick(&begun),
        2 if !ready.is_empty() => random.pick(&ready),
        _ => member(random, card, favoured),
    }
}

/// An id for finish: mostly that of a set object.
pub fn set_id(random: &mut Random, card: &Card, member: u64) -> u32 {
    let record = record(card, member);
    let is_set = |id: &u32| record.is_some_and(|it| it.objects.find(*id) == Some(Kind::Set));
    let sets: Vec<u32> = (0..16).filter(is_set).collect();
    match sets.is_empty() || random.chance(15) {
        true => spoil::id(random, card),
        false => random.pick(&sets),
    }
}

/// A list of at most 1,024 bytes for a member, good or not.
pub fn list_to_restore(random: &mut Random, card: &Card, member: u64) -> Vec<u8> {
    let mut list = vec![];
    for _ in 0..1 + random.below(4) {
        let more = fragment(random, card, member, &list);
        if list.len() + more.len() <= ROOM {
            list.extend(more);
        }
    }
    let rest = rest_of_part(random, Target::of(card, member), &list);
    if list.len() + rest.len() <= ROOM && random.chance(70) {
        list.extend(rest);
    }
    list
}

/// A fragment behind the bytes held: empty, what is left of a list or a piece
/// of it cut anywhere, to the end of the room or a byte past it, or longer.
fn fragment(random: &mut Random, card: &Card, member: u64, held: &[u8]) -> Vec<u8> {
    let target = Target::of(card, member);
    let room = ROOM.saturating_sub(held.len());
    let mut rest = rest_of_part(random, target, held);
    match random.weighted(&[10, 68, 6, 4, 8, 4]) {
        0 => rest.clear(),
        1 => {
            rest.extend(more_parts(random, card, target, &[held, &rest].concat()));
            if random.chance(60) {
                rest.truncate(random.below(rest.len() + 1));
            }
        }
        2 => fill_up(&mut rest, room),
        3 => fill_up(&mut rest, room + 1),
        4 => {
            let length = random.pick(&[room.saturating_sub(1), room, room + 1]);
            rest = random.bytes(length);
        }
        _ => {
            let valid = random.below(room + 1);
            rest.resize(length::wrong(random, valid), 0);
        }
    }
    rest
}

/// Brings what is left of a list to this length, by a part that is skipped if
/// there is room for its header.
fn fill_up(rest: &mut Vec<u8>, length: usize) {
    match length.checked_sub(rest.len() + HEADER) {
        Some(value) => rest.extend(any_part(0x5ff, OPTIONAL, 0, &vec![3; value])),
        None => rest.resize(length, 0),
    }
}

/// More parts for a list: some that it has not named, or any list.
fn more_parts(random: &mut Random, card: &Card, target: Target, list: &[u8]) -> Vec<u8> {
    let queues = target.queues;
    if random.chance(40) {
        return list::given(random, card, queues);
    }
    let (parts, _) = whole_parts(list);
    let named: Vec<Part> =
        parts.iter().filter_map(|part| Header::read(&part[..HEADER]).part(queues)).collect();
    let mut others: Vec<Part> = inventory(queues).filter(|part| !named.contains(part)).collect();
    random.shuffle(&mut others);
    others.truncate(random.below(4));
    others.iter().flat_map(|part| random_part(random, target, &[*part])).collect()
}

/// The parts of a list up to the first that is cut, and what is behind them.
fn whole_parts(list: &[u8]) -> (Vec<&[u8]>, &[u8]) {
    let (mut parts, mut rest) = (vec![], list);
    while let Some(end) = header_length(rest).map(|value| HEADER + value) {
        let Some((part, behind)) = rest.split_at_checked(end) else { break };
        parts.push(part);
        rest = behind;
    }
    (parts, rest)
}

/// What is missing of the last part of a list that is cut: nothing if it is not
/// cut, or not in a part that members have.
fn rest_of_part(random: &mut Random, target: Target, list: &[u8]) -> Vec<u8> {
    let (_, last) = whole_parts(list);
    match header_length(last) {
        Some(value) if value <= ROOM => rest_of_value(random, target.queues, last, value),
        Some(_) => vec![],
        None if last.is_empty() => vec![],
        None => {
            let fits = |part: &Part| part.header().starts_with(last);
            let parts: Vec<Part> = inventory(target.queues).filter(fits).collect();
            if parts.is_empty() {
                return vec![];
            }
            let whole = random_part(random, target, &parts);
            whole[last.len()..].to_vec()
        }
    }
}

/// What is missing of the value, of this length, of a part whose header is
/// whole.
fn rest_of_value(random: &mut Random, queues: u8, last: &[u8], length: usize) -> Vec<u8> {
    let (header, start) = last.split_at(HEADER);
    match Header::read(header).part(queues) {
        Some(part) if part.length() as usize == length => value::rest(random, part, start),
        _ => random.bytes(length - start.len()),
    }
}

/// The length of the value by the header that the bytes start with, if it is
/// whole.
fn header_length(bytes: &[u8]) -> Option<usize> {
    (bytes.len() >= HEADER).then(|| u32_at(bytes, 12) as usize)
}

/// One of the parts with a random value; device features are the setup's.
fn random_part(random: &mut Random, target: Target, parts: &[Part]) -> Vec<u8> {
    match random.pick(parts) {
        name @ Part::DeviceFeatures => part(name, target.features),
        name => value::good_part(random, name),
    }
}

/// The first bytes, so many, of a list of all parts in any order and one more that
/// is skipped.
fn start_of_list(random: &mut Random, target: Target, length: usize) -> Vec<u8> {
    let mut parts: Vec<Part> = inventory(target.queues).collect();
    random.shuffle(&mut parts);
    let mut list = Vec::with_capacity(ROOM);
    while let Some(part) = parts.pop().filter(|_| list.len() < length) {
        list.extend_from_slice(&random_part(random, target, &[part]));
    }
    fill_up(&mut list, ROOM);
    list.truncate(length);
    list
}

/// A holding place: open with the start of a list or any bytes, often at an end
/// of its room, or none; now and then with bytes that are not held.
pub fn holding(random: &mut Random, target: Target) -> Holding {
    let mut holding = Holding::default();
    if random.chance(90) {
        let length = match random.weighted(&[60, 20, 20]) {
            0 => random.below(300),
            1 => random.below(ROOM + 1),
            _ => random.pick(&[0, 0, 1, ROOM - 1, ROOM]),
        };
        holding.held = Some(length as u16);
        let held = &mut holding.room[..length];
        match random.chance(20) {
            true => random.fill(held),
            false => held.copy_from_slice(&start_of_list(random, target, length)),
        }
    }
    if random.chance(10) {
        let held = usize::from(holding.held.unwrap_or(0));
        random.fill(&mut holding.room[held..]);
    }
    holding
}

#[cfg(test)]
mod tests {
    use super::*;
    use crate::draw::sound_card;
    use crate::trial::apply;
    use plain_card::opcode::SUPPORTED;

    /// A stopped member with a set object, on a card with all commands in use.
    fn ready(random: &mut Random) -> Card {
        loop {
            let mut card = sound_card(random);
            card.in_use = SUPPORTED;
            card.members[0].mode = Mode::Stopped;
            card.members[0].holding = Holding::default();
            if card.members[0].objects.count(Kind::Set) > 0 {
                return card;
            }
        }
    }

    #[test]
    fn lists_cut_in_several_fragments_are_often_good() {
        let mut good = [0; 12];
        for index in 0..4_000 {
            let mut random = Random::new(1, index);
            let mut card = ready(&mut random);
            let favoured = Favoured::members(1, 1);
            let mut feeds = 0;
            for _ in 0..40 {
                let before = card.clone();
                let call = restore(&mut random, &card, favoured);
                apply(&mut card, &call);
                match call {
                    Call::Feed { member: 1, .. } if card.members[0].holding.held.is_some() => {
                        feeds += 1;
                    }
                    Call::Finish { member: 1, .. }
                        if before.member(1).values != card.member(1).values =>
                    {
                        good[feeds.min(11)] += 1;
                        feeds = 0;
                    }
                    _ if card.members[0].holding.held.is_none() => feeds = 0,
                    _ => {}
                }
            }
        }
        assert!(good[1..6].iter().all(|count| *count > 20), "{good:?}");
    }

    #[test]
    fn every_place_of_a_list_and_both_ends_of_the_room_are_cut() {
        let mut random = Random::new(1, 0);
        let mut held = [false; ROOM + 1];
        let mut long = 0;
        for _ in 0..4_000 {
            let card = ready(&mut random);
            for _ in 0..25 {
                let fragment = fragment(&mut random, &card, 1, &[]);
                long += usize::from(fragment.len() > 1 << 16);
                held.iter_mut().skip(fragment.len()).take(1).for_each(|seen| *seen = true);
            }
        }
        assert!(held[..300].iter().all(|seen| *seen));
        assert!(held[ROOM - 1] && held[ROOM] && long > 100);
    }

    #[test]
    fn a_cut_part_is_completed() {
        let mut random = Random::new(1, 0);
        for _ in 0..1_000 {
            let card = ready(&mut random);
            let target = Target::of(&card, 1);
            let queues = target.queues;
            let parts: Vec<Part> = inventory(queues).collect();
            let whole = random_part(&mut random, target, &parts);
            let cut = 1 + random.below(whole.len() - 1);
            let rest = rest_of_part(&mut random, target, &whole[..cut]);
            let list = [&whole[..cut], &rest].concat();
            let features = cut >= HEADER && whole[..2] == [0, 1];
            assert!(
                features || plain_card::list::given(&list, &card.members[0].values, queues).is_ok()
            );
        }
    }
}
