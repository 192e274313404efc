//! What the planted faults have in common.

use std::ops::Range;

use plain_card::command::{check_mark, command};
use plain_card::frame::{u32_at, Frame, DATA};
use plain_card::list::Header;
use plain_card::member::Member;
use plain_card::opcode::Opcode;
use plain_card::operation::{Command, Operation};
use plain_card::part::{Part, HEADER};
use plain_card::Card;

use super::Outcome;
use crate::call::Call;
use crate::device::Plain;

/// Frame and opcode of a request that steps 2 to 4 let pass.
pub fn opcode<'a>(card: &Card, request: &'a [u8]) -> Option<(Frame<'a>, Opcode)> {
    let frame = Frame::read(request).ok()?;
    frame.check_group_type().ok()?;
    let opcode = frame.opcode_in_use(card.in_use).ok()?;
    Some((frame, opcode))
}

/// Frame and opcode of a request that steps 2 to 5 let pass, for a member that
/// is not handed back.
pub fn framed<'a>(card: &Card, request: &'a [u8]) -> Option<(Frame<'a>, Opcode)> {
    let (frame, opcode) = opcode(card, request)?;
    frame.check_member(opcode, &card.setup).ok()?;
    check_mark(card, &frame, opcode).ok()?;
    Some((frame, opcode))
}

/// Member and operation of a request that steps 2 to 7 let pass.
pub fn operation<'a>(card: &Card, request: &'a [u8]) -> Option<(u64, Operation<'a>)> {
    let (frame, opcode) = framed(card, request)?;
    match Command::read(opcode, frame.data, &card.setup).ok()? {
        Command::OnMember(operation) => Some((frame.member, operation)),
        _ => None,
    }
}

/// Where the list of a parts get or parts set starts in the request.
pub fn list_start(operation: Operation) -> Option<usize> {
    match operation {
        Operation::GetSelected(..) => Some(DATA + 16),
        Operation::PartsSet(..) => Some(DATA + 8),
        _ => None,
    }
}

/// Where the parts, or asked headers, of a request stand: those up to the
/// first that runs past the end.
pub fn parts(card: &Card, request: &[u8]) -> Vec<Range<usize>> {
    let Some((_, operation)) = operation(card, request) else { return vec![] };
    let Some(mut at) = list_start(operation) else { return vec![] };
    let mut parts = vec![];
    while at + HEADER <= request.len() {
        let length = match operation {
            Operation::PartsSet(..) => u32_at(request, at + 12) as usize,
            _ => 0,
        };
        let end = at + HEADER + length;
        if end > request.len() {
            break;
        }
        parts.push(at..end);
        at = end;
    }
    parts
}

/// The parts of a set command that succeeds.
pub fn given<'a>(card: &Card, request: &'a [u8]) -> Option<Vec<&'a [u8]>> {
    let mut copy = card.clone();
    let mut reply = [0; 8];
    command(&mut copy, request, &mut reply);
    let set = matches!(operation(card, request)?, (_, Operation::PartsSet(..)));
    let parts = parts(card, request).into_iter().map(|range| &request[range]).collect();
    (set && reply == [0; 8]).then_some(parts)
}

/// The part that a header names on a member with `queues` queues.
pub fn named(queues: u8, part: &[u8]) -> Option<Part> {
    Header::read(&part[..HEADER]).part(queues)
}

/// The queue count of the member that a request names, if the card has it.
pub fn queues(card: &Card, request: &[u8]) -> u8 {
    framed(card, request).map_or(0, |(frame, opcode)| match opcode.names_member() {
        true => card.member(frame.member).queues,
        false => 0,
    })
}

/// Changes each part, or asked header, of a request.
pub fn each_part(card: &Card, request: &mut [u8], change: impl Fn(&mut [u8])) {
    for range in parts(card, request) {
        change(&mut request[range]);
    }
}

impl Outcome<'_> {
    /// The cards before and after, if both are cards.
    pub fn cards(&mut self) -> Option<(&Card, &mut Card)> {
        match (self.before, &mut *self.after) {
            (Plain::Card(before), Plain::Card(after)) => Some((before, after)),
            _ => None,
        }
    }

    /// The records of a member before and after its hand back, if that was done.
    pub fn handed_back(&mut self) -> Option<(&Member, &mut Member)> {
        let Call::HandBack(member) = *self.call else { return None };
        let done = self.done();
        let (before, after) = self.cards().filter(|_| done)?;
        Some((before.member(member), after.member_mut(member)))
    }

    /// The cards before and after a wipe that was done, and the member.
    pub fn wiped(&mut self) -> Option<(&Card, &mut Card, u64)> {
        let Call::Wipe { member, .. } = *self.call else { return None };
        let done = self.done();
        self.cards().filter(|_| done).map(|(before, after)| (before, after, member))
    }

    /// The cards before and after a reset of the whole card that was done.
    pub fn card_reset(&mut self) -> Option<(&Card, &mut Card)> {
        let done = matches!(self.call, Call::ResetCard(_)) && self.done();
        self.cards().filter(|_| done)
    }

    /// Member and operation, if the call is a command that steps 1 to 7 let
    /// pass.
    pub fn operation(&self) -> Option<(u64, Operation<'_>)> {
        match (self.call, self.before) {
            (Call::Command { request, .. }, Plain::Card(card)) if *self.answer > 0 => {
                operation(card, request)
            }
            _ => None,
        }
    }

    /// Status and qualifier, if the call is a command that is answered.
    pub fn status(&self) -> Option<(u16, u16)> {
        let answered = matches!(self.call, Call::Command { .. }) && *self.answer >= 8;
        let number = |at| u16::from_le_bytes([self.reply[at], self.reply[at + 1]]);
        answered.then(|| (number(0), number(2)))
    }

    /// Whether the call is a command that succeeded.
    pub fn succeeded(&self) -> bool {
        self.status() == Some((0, 0))
    }

    /// Whether the call is an event that was done.
    pub fn done(&self) -> bool {
        let half = matches!(self.call, Call::HandBack(_) | Call::Wipe { .. });
        let event = half || matches!(self.call, Call::ResetCard(_) | Call::Store { .. });
        event && *self.answer == 0
    }
}
