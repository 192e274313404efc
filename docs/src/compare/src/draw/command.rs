//! Random commands.

use plain_card::host::Request;
use plain_card::member::Mode;
use plain_card::object::{Kind, IDS};
use plain_card::opcode::{Opcode, SUPPORTED};
use plain_card::Card;

use super::{length, list, member, place, placed, queues_of, spoil, Favoured};
use crate::call::Call;
use crate::memory::Room;
use crate::random::Random;

/// Room for any reply.
const LARGE: usize = 480;

/// A command: a good request, its data of another length now and then, spoiled
/// at no, one or a few places.
pub fn command(random: &mut Random, card: &Card, favoured: Favoured) -> Call {
    let mut request = match random.chance(1) {
        true => any_request(random),
        false => good(random, card, favoured),
    };
    if random.chance(15) {
        length::other_data(random, &mut request);
    }
    for _ in 0..random.weighted(&[66, 20, 9, 5]) {
        spoil::spoil(random, card, favoured, &mut request);
    }
    let length = room(random, card, &request);
    let request = placed(random, request);
    Call::Command { request, room: Room { length, place: place(random) } }
}

/// Random bytes.
fn any_request(random: &mut Random) -> Vec<u8> {
    let length = random.pick(&[0, 1, 8, 23, 24, 25, 32, 48, 64, 4096, 4097]);
    random.bytes(length)
}

/// The length of the reply buffer: often exactly what is needed, or a byte
/// more or less.
fn room(random: &mut Random, card: &Card, request: &[u8]) -> usize {
    let need = || plain_card::command(&mut card.clone(), request, &mut [0; LARGE]);
    match random.weighted(&[59, 20, 20, 1]) {
        0 => LARGE,
        1 => random.pick(&[0, 7, 8, 9, 15, 16, 17, 24, 100, 160]),
        2 => {
            let need = need();
            random.pick(&[need, need.saturating_sub(1), need + 1])
        }
        _ => length::long_room(random, need()),
    }
}

/// A request that is likely to succeed.
fn good(random: &mut Random, card: &Card, favoured: Favoured) -> Vec<u8> {
    match opcode(random, card) {
        Opcode::ListQuery => with_member_unread(random, Request::ListQuery),
        Opcode::ListUse => {
            let mask = mask(random);
            with_member_unread(random, Request::ListUse(mask))
        }
        Opcode::ModeSet => {
            let stop = u8::from(random.chance(65));
            Request::Mode(member(random, card, favoured), stop).bytes()
        }
        opcode => on_object(random, card, favoured, opcode),
    }
}

/// A request for an object that is as the command needs it.
fn on_object(random: &mut Random, card: &Card, favoured: Favoured, opcode: Opcode) -> Vec<u8> {
    let kind = random.pick(&[Kind::Get, Kind::Set]);
    let wanted = match opcode {
        Opcode::Create => None,
        Opcode::Metadata | Opcode::PartsGet => Some(Kind::Get),
        Opcode::PartsSet => Some(Kind::Set),
        _ => Some(kind),
    };
    let stopped = opcode == Opcode::PartsSet;
    let (member, id) = member_and_id(random, card, favoured, wanted, stopped);
    let queues = queues_of(card, member);
    match opcode {
        Opcode::Create => Request::Create(member, id, random.below(2) as u8).bytes(),
        Opcode::Query => Request::Query(member, id).bytes(),
        Opcode::Destroy => Request::Destroy(member, id).bytes(),
        Opcode::Metadata => Request::Metadata(member, id, random.below(3) as u8).bytes(),
        Opcode::PartsGet if random.chance(33) => Request::Get(member, id, 1, &[]).bytes(),
        Opcode::PartsGet => Request::Get(member, id, 0, &list::asked(random, queues)).bytes(),
        Opcode::PartsSet => Request::Set(member, id, &list::given(random, card, queues)).bytes(),
        _ => Request::Modify(member, id, random.below(2) as u8).bytes(),
    }
}

/// An opcode; a list that lacks some is likely to be widened.
fn opcode(random: &mut Random, card: &Card) -> Opcode {
    if card.in_use != SUPPORTED && random.chance(30) {
        return Opcode::ListUse;
    }
    const WEIGHTS: [usize; 10] = [2, 3, 13, 10, 6, 7, 10, 18, 23, 8];
    Opcode::ALL[random.weighted(&WEIGHTS)]
}

/// One of the two commands that do not read the member field, with any there.
fn with_member_unread(random: &mut Random, request: Request) -> Vec<u8> {
    let member: u64 = random.pick(&[0, 0, 1, u64::MAX]);
    let mut request = request.bytes();
    request[16..24].copy_from_slice(&member.to_le_bytes());
    request
}

/// A mask for list use, with supported bits only.
fn mask(random: &mut Random) -> u64 {
    match random.weighted(&[75, 13, 8, 4]) {
        0 => SUPPORTED,
        1 => random.bits() & SUPPORTED | 0b11,
        2 => random.bits() & SUPPORTED,
        _ => 0,
    }
}

/// A member that is not handed back and an id that is free, or live and of a
/// kind, on it; and the member stopped, if that is asked; more often a favoured
/// one. Sometimes, or if there is none, any.
fn member_and_id(
    random: &mut Random,
    card: &Card,
    favoured: Favoured,
    wanted: Option<Kind>,
    stopped: bool,
) -> (u64, u32) {
    let valid = u32::from(card.setup.gets) + u32::from(card.setup.sets);
    let mut fitting = vec![];
    for (member, record) in (1..).zip(&card.members) {
        if !record.marked && (!stopped || record.mode == Mode::Stopped) {
            let ids = (0..valid.min(IDS as u32)).filter(|id| record.objects.find(*id) == wanted);
            fitting.extend(ids.map(|id| (member, id)));
        }
    }
    if random.chance(60) && fitting.iter().any(|(member, _)| favoured.has(*member, card)) {
        fitting.retain(|(member, _)| favoured.has(*member, card));
    }
    if fitting.is_empty() || random.chance(20) {
        (member(random, card, favoured), random.below(valid as usize + 1) as u32)
    } else {
        random.pick(&fitting)
    }
}
