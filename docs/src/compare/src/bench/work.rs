//! What is timed: the calls that a host or a data path makes often, for every
//! member of a card in turn.

use plain_card::configuration::LENGTH;
use plain_card::host::Request;
use plain_card::member::{Member, Mode};
use plain_card::message::{FIELDS, HEADER, SET_CONFIG};
use plain_card::object::Kind;
use plain_card::opcode::SUPPORTED;
use plain_card::part::{inventory, Part};
use plain_card::{Card, Setup};

use super::program::Which;
use crate::call::Call;
use crate::draw::good_value;
use crate::loads::Load;
use crate::random::Random;

/// The id of a get object of each member.
pub const GET_ID: u32 = 0;
/// The id of a set object of each member.
pub const SET_ID: u32 = 8;
/// The longest reply: a full capture of four queues.
pub const REPLY: usize = 8 + 157 + 72 * 4;
/// The fragments that a list is restored in.
const FRAGMENTS: usize = 4;

/// Calls to time. All of them succeed, and as often as they are repeated.
pub struct Work {
    /// What a member is made to do.
    pub name: String,
    /// The card at the start.
    pub card: Card,
    /// The calls of all members; as many for each.
    pub calls: Vec<Call>,
    /// The programs, the archive first.
    pub programs: &'static [Which],
    /// How often the calls are made in a turn.
    pub rounds: usize,
}

impl Work {
    /// Work for each member of a card, by the archive and by the plain card.
    pub fn new(name: &str, card: Card, calls: impl Fn(&Card, u64) -> Vec<Call>) -> Work {
        let members = 1..=u64::from(card.setup.members);
        let calls = members.flat_map(|member| calls(&card, member)).collect();
        let programs = &[Which::Archive, Which::Plain];
        Work { name: name.into(), card, calls, programs, rounds: 20 }
    }

    /// The same by the fastest plain Rust too.
    pub fn and_fastest(self) -> Work {
        Work { programs: &[Which::Archive, Which::Plain, Which::Fastest], ..self }
    }

    /// How often a round does what the name says: once for each member.
    pub fn times(&self) -> usize {
        self.card.members.len()
    }
}

/// A full capture of sixteen members of four queues: ten thousand of each
/// member in the hundred turns of a run.
pub fn capture() -> Work {
    let work = Work::new("parts get of all parts", full_card(16, 4), captures);
    Work { rounds: 100, ..work.and_fastest() }
}

/// Each call that is made often, a capture first.
pub fn all() -> Vec<Work> {
    let work = |name, calls: fn(&Card, u64) -> Vec<Call>| Work::new(name, full_card(16, 4), calls);
    vec![
        capture(),
        work("parts get of two parts", |_, member| selected_get(member, &TWO)),
        work("parts set of a full capture", |card, member| vec![set(member, &list(card, member))])
            .and_fastest(),
        work("mode set, resume and stop", modes),
        work("object destroy and create", destroy_and_create),
        work("card store of a queue", store),
        work("load of a queue", load),
        work("message that writes 12 bytes", write),
        work("restore in 4 fragments: begin, feeds, finish", fragments),
        work("hand back and wipe", |_, member| {
            vec![Call::HandBack(member), Call::Wipe { member, generation: 7 }]
        }),
    ]
}

/// Two parts of different types.
const TWO: [Part; 2] = [Part::DeviceStatus, Part::Queue(1)];

/// A get of all parts.
pub fn captures(_: &Card, member: u64) -> Vec<Call> {
    vec![command(Request::Get(member, GET_ID, 1, &[]))]
}

/// A get of these parts.
pub fn selected_get(member: u64, parts: &[Part]) -> Vec<Call> {
    let headers: Vec<u8> = parts.iter().flat_map(|part| part.header()).collect();
    vec![command(Request::Get(member, GET_ID, 0, &headers))]
}

/// A set of a list.
pub fn set(member: u64, list: &[u8]) -> Call {
    command(Request::Set(member, SET_ID, list))
}

fn modes(_: &Card, member: u64) -> Vec<Call> {
    [0, 1].map(|mode| command(Request::Mode(member, mode))).to_vec()
}

fn destroy_and_create(_: &Card, member: u64) -> Vec<Call> {
    let create = Request::Create(member, GET_ID, 0);
    [Request::Destroy(member, GET_ID), create].map(command).to_vec()
}

fn store(card: &Card, member: u64) -> Vec<Call> {
    let part = Part::Queue(1);
    let value = card.member(member).values.get(part).to_vec().into();
    let selector = u64::from_le_bytes(part.selector());
    vec![Call::Store { member, part_type: part.part_type(), selector, value }]
}

fn load(_: &Card, member: u64) -> Vec<Call> {
    let part = Part::Queue(1);
    let (selector, room) = (u64::from_le_bytes(part.selector()), part.length() as usize);
    let part_type = part.part_type();
    vec![Call::Load(Load::Part { member, part_type, selector, room: room.into() })]
}

/// A message that writes the whole configuration.
fn write(card: &Card, member: u64) -> Vec<Call> {
    let size = HEADER + FIELDS + LENGTH;
    let mut message = vec![0, SET_CONFIG];
    message.extend((member as u16 - 1).to_le_bytes());
    message.extend([0; 2]);
    message.extend((size as u16).to_le_bytes());
    message.extend(card.member(member).configuration.generation.to_le_bytes());
    message.extend(0u32.to_le_bytes());
    message.extend((LENGTH as u32).to_le_bytes());
    message.extend([0x5a; LENGTH]);
    vec![Call::Message { message: message.into(), room: size.into() }]
}

/// A restore of a full capture in fragments.
fn fragments(card: &Card, member: u64) -> Vec<Call> {
    let list = list(card, member);
    let feed = |fragment: &[u8]| Call::Feed { member, fragment: fragment.to_vec().into() };
    let mut calls = vec![Call::Begin(member)];
    calls.extend(list.chunks(list.len().div_ceil(FRAGMENTS)).map(feed));
    calls.push(Call::Finish { member, id: SET_ID });
    calls
}

fn command(request: Request) -> Call {
    Call::Command { request: request.bytes().into(), room: REPLY.into() }
}

/// All parts of a member.
pub fn list(card: &Card, member: u64) -> Vec<u8> {
    let member = card.member(member);
    inventory(member.queues)
        .flat_map(|part| [&part.header(), member.values.get(part)].concat())
        .collect()
}

/// A card whose members are stopped and have all objects they may have, the
/// first half get objects, random parts, and queues that are in use: each has a
/// size.
pub fn full_card(members: u64, queues: u8) -> Card {
    let mut random = Random::new(1, 0);
    let setup = Setup::alike(members, queues, 8, 8, [3; 16]).expect("it is in range");
    let mut card = Card::new(&setup);
    card.in_use = SUPPORTED;
    for member in &mut card.members {
        fill(&mut random, member);
    }
    assert!(card.is_sound());
    card
}

/// A value that the part may have, of a queue one with a size.
fn in_use(random: &mut Random, part: Part) -> Vec<u8> {
    loop {
        let value = good_value(random, part);
        if !matches!(part, Part::Queue(_)) || value[..2] != [0, 0] {
            return value;
        }
    }
}

fn fill(random: &mut Random, member: &mut Member) {
    member.mode = Mode::Stopped;
    for id in 0..16 {
        member.objects.put(id, if id < SET_ID { Kind::Get } else { Kind::Set });
    }
    for part in inventory(member.queues).filter(|part| *part != Part::DeviceFeatures) {
        let value = in_use(random, part);
        member.values.get_mut(part).copy_from_slice(&value);
    }
}
