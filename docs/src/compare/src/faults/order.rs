//! Steps of the status table in another order.

use plain_card::command::check_objects;
use plain_card::frame::{fixed_fields, u32_at, Frame};
use plain_card::list;
use plain_card::member::Mode;
use plain_card::object::{Kind, Objects};
use plain_card::opcode::Opcode;
use plain_card::operation::Operation;
use plain_card::setup::Common;
use plain_card::status::Refusal;
use plain_card::Card;

use super::tools::{framed, operation};
use super::{fault, Fault, Plant};

pub const FAULTS: &[Fault] = &[
    fault("trade: bad opcode ahead of bad group", Plant::Refuse(opcode_before_group)),
    fault("order: member before opcode", Plant::Refuse(member_before_opcode)),
    fault("order: objects before fields", Plant::Refuse(objects_before_fields)),
    fault("order: limit before live id", Plant::Refuse(limit_before_live)),
    fault("order: running before object", Plant::Refuse(running_before_object)),
    fault("order: list before running", Plant::Refuse(list_before_running)),
    fault("order: room before list", Plant::Refuse(room_before_list)),
];

fn opcode_before_group(card: &Card, request: &[u8], _: usize) -> Option<Refusal> {
    Frame::read(request).ok()?.opcode_in_use(card.in_use).err()
}

fn member_before_opcode(card: &Card, request: &[u8], _: usize) -> Option<Refusal> {
    let frame = Frame::read(request).ok()?;
    frame.check_group_type().ok()?;
    frame.check_member(Opcode::from_number(frame.opcode)?, &card.setup).err()
}

/// A live id is found out before flags and kind are looked at.
fn objects_before_fields(card: &Card, request: &[u8], _: usize) -> Option<Refusal> {
    let (frame, opcode) = framed(card, request)?;
    let id = (opcode == Opcode::Create).then(|| u32_at(&fixed_fields(frame.data), 4))?;
    let live = card.setup.has_id(id) && card.member(frame.member).objects.find(id).is_some();
    live.then_some(Refusal::IdLive)
}

fn limit_before_live(card: &Card, request: &[u8], _: usize) -> Option<Refusal> {
    let (member, Operation::Create(_, kind)) = operation(card, request)? else { return None };
    full(&card.member(member).objects, kind, &card.setup).then_some(Refusal::TooManyObjects)
}

/// Whether there are as many objects of the kind as there may be.
pub fn full(objects: &Objects, kind: Kind, setup: &Common) -> bool {
    let limit = match kind {
        Kind::Get => setup.gets,
        Kind::Set => setup.sets,
    };
    objects.count(kind) >= usize::from(limit)
}

fn running_before_object(card: &Card, request: &[u8], _: usize) -> Option<Refusal> {
    let (member, Operation::PartsSet(..)) = operation(card, request)? else { return None };
    (card.member(member).mode == Mode::Running).then_some(Refusal::Running)
}

fn list_before_running(card: &Card, request: &[u8], _: usize) -> Option<Refusal> {
    let (member, operation) = operation(card, request)?;
    let Operation::PartsSet(_, given) = operation else { return None };
    let record = card.member(member);
    check_objects(operation, &record.objects, &card.setup).ok()?;
    list::given(given, &record.values, record.queues).err()
}

/// Room for the headers asked is wanted before they are read.
fn room_before_list(card: &Card, request: &[u8], room: usize) -> Option<Refusal> {
    let (member, operation) = operation(card, request)?;
    let Operation::GetSelected(_, headers) = operation else { return None };
    check_objects(operation, &card.member(member).objects, &card.setup).ok()?;
    (8 + headers.len() > room).then_some(Refusal::ReplyTooShort)
}
