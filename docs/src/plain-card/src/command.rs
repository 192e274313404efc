//! The steps of the status table, one line each, in its order. Step 6, exact
//! lengths of the data, went with request 2 of document 02.

use crate::card::Card;
use crate::effect::{put, Effect};
use crate::frame::Frame;
use crate::member::{Member, Mode};
use crate::object::{Kind, Objects};
use crate::opcode::{Opcode, SUPPORTED};
use crate::operation::{Command, Operation};
use crate::setup::Common;
use crate::status::Refusal;

/// The length of a reply's head; the result starts behind it.
pub const HEAD: usize = 8;

/// Hears a command and answers in `reply`. The number is that of the bytes
/// written; bytes of `reply` past those keep their values.
pub fn command(card: &mut Card, request: &[u8], reply: &mut [u8]) -> usize {
    // Step 1: card not sound, or reply buffer under 8 bytes.
    if !card.is_sound() || reply.len() < HEAD {
        return 0;
    }
    let (head, result) = reply.split_at_mut(HEAD);
    match answer(card, request, result) {
        Ok(length) => {
            head.fill(0);
            HEAD + length
        }
        Err(refusal) => {
            head.copy_from_slice(&refusal.reply());
            HEAD
        }
    }
}

/// Steps 2 to 12: writes the result and tells its length, or refuses.
pub(crate) fn answer(card: &mut Card, request: &[u8], result: &mut [u8]) -> Result<usize, Refusal> {
    let frame = Frame::read(request)?; // step 2
    frame.check_group_type()?; // step 3
    let opcode = frame.opcode_in_use(card.in_use)?; // step 4
    frame.check_member(opcode, &card.setup)?; // step 5
    check_mark(card, &frame, opcode)?; // right after step 5
    let command = Command::read(opcode, frame.data, &card.setup)?; // step 7
    match command {
        Command::ListQuery => {
            check_room(SUPPORTED.to_le_bytes().len(), result)?; // step 11
            Ok(put(result, 0, &SUPPORTED.to_le_bytes())) // step 12
        }
        Command::ListUse(mask) => {
            card.in_use = mask; // step 12
            Ok(0)
        }
        Command::OnMember(operation) => {
            let member = &mut card.members[frame.member as usize - 1];
            operate(operation, member, &card.setup, result)
        }
    }
}

/// Request 10 of document 02: the member that the command names is not handed
/// back.
pub fn check_mark(card: &Card, frame: &Frame, opcode: Opcode) -> Result<(), Refusal> {
    let marked = opcode.names_member() && card.member(frame.member).marked;
    Refusal::Marked.unless(!marked)
}

/// Steps 8 to 12, for a command that names a member.
fn operate(
    operation: Operation,
    member: &mut Member,
    setup: &Common,
    result: &mut [u8],
) -> Result<usize, Refusal> {
    check_objects(operation, &member.objects, setup)?; // step 8
    check_stopped(operation, member.mode)?; // step 9
    let effect = Effect::of(operation, member)?; // step 10
    check_room(effect.result_length(member.queues), result)?; // step 11
    Ok(effect.perform(member, result)) // step 12
}

/// Step 8: the object is free or live as the command needs it, there is room
/// for it, and it is of the right kind, tried in this order.
pub fn check_objects(
    operation: Operation,
    objects: &Objects,
    setup: &Common,
) -> Result<(), Refusal> {
    match operation {
        Operation::Create(id, _) if objects.find(id).is_some() => Err(Refusal::IdLive),
        Operation::Create(id, kind) => check_limit(objects, id, kind, setup),
        Operation::Modify(id, kind) => {
            objects.live(id)?;
            check_limit(objects, id, kind, setup)
        }
        Operation::Query(id) | Operation::Destroy(id) => objects.live(id).map(|_| ()),
        Operation::Metadata(id, _) | Operation::GetSelected(id, _) | Operation::GetAll(id) => {
            check_kind(objects.live(id)?, Kind::Get)
        }
        Operation::PartsSet(id, _) => check_kind(objects.live(id)?, Kind::Set),
        Operation::ModeSet(_) => Ok(()),
    }
}

/// With the object put there are no more than G get or S set objects. An
/// object that keeps its kind takes no new room.
fn check_limit(objects: &Objects, id: u32, kind: Kind, setup: &Common) -> Result<(), Refusal> {
    let mut after = objects.clone();
    after.put(id, kind);
    Refusal::TooManyObjects.unless(after.fit(setup))
}

/// The object is of the kind that the command needs.
fn check_kind(kind: Kind, needed: Kind) -> Result<(), Refusal> {
    Refusal::WrongKind.unless(kind == needed)
}

/// Step 9: parts are set on a stopped member only.
fn check_stopped(operation: Operation, mode: Mode) -> Result<(), Refusal> {
    let sets = matches!(operation, Operation::PartsSet(..));
    Refusal::Running.unless(!sets || mode == Mode::Stopped)
}

/// Step 11: the result fits in the reply buffer behind the head.
fn check_room(length: usize, result: &[u8]) -> Result<(), Refusal> {
    Refusal::ReplyTooShort.unless(length <= result.len())
}
