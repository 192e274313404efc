//! Faults of data that is shorter or longer than a command's fixed fields
//! (request 2 of document 02).

use plain_card::command::check_objects;
use plain_card::frame::{behind, DATA};
use plain_card::member::Mode;
use plain_card::opcode::Opcode;
use plain_card::operation::Operation;
use plain_card::part::HEADER;
use plain_card::status::Refusal;
use plain_card::Card;

use super::tools::{framed, operation};
use super::{fault, Fault, Outcome, Plant};
use crate::call::Call;

/// The length of a request that has the fixed fields of parts get and no more.
const GET: usize = DATA + 16;
/// The length of a word of the mask of list use.
const WORD: usize = 8;

pub const FAULTS: &[Fault] = &[
    fault("data: exact lengths asked for", Plant::Refuse(exact_lengths)),
    fault("data: short of a field refused", Plant::Refuse(short_refused)),
    fault("data: past the fixed fields refused", Plant::Refuse(long_refused)),
    fault("data: past the fixed fields read", Plant::Refuse(past_read)),
    fault("data: a cut field read as zero whole", Plant::Mishear(cut_whole)),
    fault("data: a cut field filled with ones", Plant::Mishear(cut_ones)),
    fault("data: missing bytes read off the member", Plant::Mishear(off_member)),
    fault("data: missing bytes left of the last request", Plant::Leave(stale_mode)),
    fault("data: empty mode set stops", Plant::Mishear(empty_stops)),
    fault("data: empty list use keeps the list", Plant::Leave(empty_keeps)),
    fault("list use: bits past 63 ignored", Plant::Mishear(|c, r| mask_read(c, r, WORD))),
    fault("list use: bits past 127 ignored", Plant::Mishear(|c, r| mask_read(c, r, 2 * WORD))),
    fault("list use: incomplete last word ignored", Plant::Mishear(mask_rest)),
    fault("list use: words more refused", Plant::Refuse(mask_words)),
    fault("get: incomplete header ignored", Plant::Mishear(header_ignored)),
    fault("get: incomplete header filled up", Plant::Mishear(header_filled)),
    fault("get: incomplete header refused at step 7", Plant::Refuse(header_early)),
    fault("get: incomplete header after step 11", Plant::Refuse(header_late)),
    fault("get: what follows get-all ignored", Plant::Mishear(all_ignores)),
    fault("get: under a header with get-all ignored", Plant::Mishear(all_ignores_few)),
    fault("get: zeros with get-all ignored", Plant::Mishear(all_ignores_zeros)),
    fault("get: headers with get-all refused at step 10", Plant::Refuse(all_late)),
];

/// Opcode and data of a request that steps 2 to 5 let pass.
fn data<'a>(card: &Card, request: &'a [u8]) -> Option<(Opcode, &'a [u8])> {
    framed(card, request).map(|(frame, opcode)| (opcode, frame.data))
}

/// Whether bytes past the fixed fields are a list of parts.
fn has_list(opcode: Opcode) -> bool {
    matches!(opcode, Opcode::PartsGet | Opcode::PartsSet)
}

/// Step 6 of document 01.
fn exact_lengths(card: &Card, request: &[u8], _: usize) -> Option<Refusal> {
    let (opcode, data) = data(card, request)?;
    let more = data.len().checked_sub(opcode.fixed_length());
    let exact = more.is_some_and(|more| match opcode {
        Opcode::PartsGet => more % HEADER == 0,
        Opcode::PartsSet => true,
        _ => more == 0,
    });
    (!exact).then_some(Refusal::RequestLength)
}

fn short_refused(card: &Card, request: &[u8], _: usize) -> Option<Refusal> {
    let (opcode, data) = data(card, request)?;
    (data.len() < opcode.fixed_length()).then_some(Refusal::RequestLength)
}

fn long_refused(card: &Card, request: &[u8], _: usize) -> Option<Refusal> {
    let (opcode, data) = data(card, request)?;
    let long = !has_list(opcode) && data.len() > opcode.fixed_length();
    long.then_some(Refusal::RequestLength)
}

/// Bytes that are ignored count as reserved ones that have to be zero.
fn past_read(card: &Card, request: &[u8], _: usize) -> Option<Refusal> {
    let (opcode, data) = data(card, request)?;
    let past = behind(data, opcode.fixed_length());
    let read = !has_list(opcode) && past.iter().any(|byte| *byte != 0);
    read.then_some(Refusal::Field)
}

/// Where the field starts that the data ends in, if it ends in one.
fn cut_field(card: &Card, request: &[u8]) -> Option<usize> {
    let (opcode, data) = data(card, request)?;
    let fields: &[(usize, usize)] = match opcode {
        Opcode::ListUse => &[(0, 8)],
        Opcode::Create | Opcode::Modify | Opcode::Query => &[(0, 2), (4, 8), (8, 16)],
        Opcode::ListQuery | Opcode::ModeSet => &[],
        _ => &[(0, 2), (4, 8)],
    };
    let cut = |(start, end): &&(usize, usize)| *start < data.len() && data.len() < *end;
    fields.iter().find(cut).map(|(start, _)| DATA + start)
}

fn cut_whole(card: &Card, request: &mut Vec<u8>) {
    if let Some(start) = cut_field(card, request) {
        request.truncate(start);
    }
}

fn cut_ones(card: &Card, request: &mut Vec<u8>) {
    if cut_field(card, request).is_some() {
        request.push(0xff);
    }
}

/// Missing bytes are those at the same place of the words of the member field.
fn off_member(card: &Card, request: &mut Vec<u8>) {
    let Some((opcode, data)) = data(card, request) else { return };
    let missing = data.len()..opcode.fixed_length();
    let member: Vec<u8> = missing.map(|at| request[16 + at % 8]).collect();
    request.extend(member);
}

/// A mode set without data takes the mode that was set last on any member.
fn stale_mode(outcome: &mut Outcome) {
    let Some((member, Operation::ModeSet(mode))) = outcome.operation() else { return };
    let Call::Command { request, .. } = outcome.call else { return };
    if request.len() > DATA {
        outcome.memory.stopped = mode == Mode::Stopped;
    } else if let (true, Some((_, after))) = (outcome.memory.stopped, outcome.cards()) {
        after.member_mut(member).mode = Mode::Stopped;
    }
}

fn empty_stops(card: &Card, request: &mut Vec<u8>) {
    if let Some((Opcode::ModeSet, [])) = data(card, request) {
        request.push(1);
    }
}

fn empty_keeps(outcome: &mut Outcome) {
    let Call::Command { request, .. } = outcome.call else { return };
    let Some((before, after)) = outcome.cards() else { return };
    if let Some((Opcode::ListUse, [])) = data(before, request) {
        after.in_use = before.in_use;
    }
}

/// So many bytes of the mask are read.
fn mask_read(card: &Card, request: &mut Vec<u8>, bytes: usize) {
    if let Some((Opcode::ListUse, _)) = data(card, request) {
        request.truncate(DATA + bytes);
    }
}

fn mask_rest(card: &Card, request: &mut Vec<u8>) {
    if let Some((Opcode::ListUse, data)) = data(card, request) {
        request.truncate(DATA + data.len() / WORD * WORD);
    }
}

fn mask_words(card: &Card, request: &[u8], _: usize) -> Option<Refusal> {
    let (opcode, data) = data(card, request)?;
    (opcode == Opcode::ListUse && data.len() > WORD).then_some(Refusal::Field)
}

/// How many bytes of an incomplete header a selected get ends with.
fn incomplete(card: &Card, request: &[u8]) -> Option<usize> {
    let (_, Operation::GetSelected(_, headers)) = operation(card, request)? else { return None };
    Some(headers.len() % HEADER).filter(|rest| *rest > 0)
}

fn header_ignored(card: &Card, request: &mut Vec<u8>) {
    if let Some(rest) = incomplete(card, request) {
        request.truncate(request.len() - rest);
    }
}

fn header_filled(card: &Card, request: &mut Vec<u8>) {
    if let Some(rest) = incomplete(card, request) {
        request.resize(request.len() + HEADER - rest, 0);
    }
}

fn header_early(card: &Card, request: &[u8], _: usize) -> Option<Refusal> {
    incomplete(card, request).map(|_| Refusal::Field)
}

/// Room for the whole headers is wanted before the last one is looked at.
fn header_late(card: &Card, request: &[u8], room: usize) -> Option<Refusal> {
    let (member, operation) = operation(card, request)?;
    check_objects(operation, &card.member(member).objects, &card.setup).ok()?;
    let rest = incomplete(card, request)?;
    (8 + request.len() - rest - GET > room).then_some(Refusal::ReplyTooShort)
}

/// The request without what follows its fixed fields, if it is a get-all then.
fn bare_all(card: &Card, request: &[u8]) -> Option<Vec<u8>> {
    let bare = request.get(..GET)?.to_vec();
    let all = matches!(operation(card, &bare), Some((_, Operation::GetAll(_))));
    all.then_some(bare)
}

fn all_ignores(card: &Card, request: &mut Vec<u8>) {
    if let Some(bare) = bare_all(card, request) {
        *request = bare;
    }
}

fn all_ignores_few(card: &Card, request: &mut Vec<u8>) {
    if request.len() < GET + HEADER {
        all_ignores(card, request);
    }
}

fn all_ignores_zeros(card: &Card, request: &mut Vec<u8>) {
    if behind(request, GET).iter().all(|byte| *byte == 0) {
        all_ignores(card, request);
    }
}

/// The object is looked at before the headers that a get-all is given.
fn all_late(card: &Card, request: &[u8], _: usize) -> Option<Refusal> {
    let bare = bare_all(card, request)?;
    let (member, operation) = operation(card, &bare)?;
    check_objects(operation, &card.member(member).objects, &card.setup).err()
}
