//! The round trip of demand 2, tried on random cards.
//!
//! A full capture of one member, set in a stopped member of a sound card with
//! the same setup and the same queue count, is accepted, and a capture there gives
//! the same bytes. Neither is handed back.

use std::fmt;

use plain_card::bytes;
use plain_card::host::Request;
use plain_card::member::Mode;
use plain_card::object::Kind;
use plain_card::opcode::Opcode;
use plain_card::Card;

use crate::call::Call;
use crate::device::Make;
use crate::draw;
use crate::memory::{Buffer, Place, Room};
use crate::random::Random;
use crate::show::CardBytes;
use crate::trial::{Side, Trial};

/// A source with a live get object and a target with a live object of each
/// kind, which is stopped. The ids are those of the live objects.
pub struct RoundTrip {
    source: Card,
    from: u64,
    source_get: u32,
    target: Card,
    to: u64,
    target_get: u32,
    target_set: u32,
}

impl Trial for RoundTrip {
    fn draw(random: &mut Random) -> RoundTrip {
        let mut source = card_with_objects(random);
        source.in_use |= Opcode::PartsGet.bit();
        let mut target = source.clone();
        target.in_use = source.in_use | Opcode::PartsSet.bit();
        let from = 1 + random.below(source.members.len()) as u64;
        let to = 1 + random.below(target.members.len()) as u64;
        target.member_mut(to).queues = source.member(from).queues;
        for record in &mut target.members {
            *record = draw::other_record(random, &source.setup, record.queues);
        }
        let source_get = live(random, &mut source, from, Kind::Get);
        let target_get = live(random, &mut target, to, Kind::Get);
        let target_set = live(random, &mut target, to, Kind::Set);
        target.member_mut(to).mode = Mode::Stopped;
        source.member_mut(from).marked = false;
        target.member_mut(to).marked = false;
        RoundTrip { source, from, source_get, target, to, target_get, target_set }
    }

    fn failure(&self, make: Make) -> Option<String> {
        let mut source = Side::new(make, &self.source);
        let mut target = Side::new(make, &self.target);
        let (length, captured) = source.reply(&capture(self.from, self.source_get));
        if captured.get(..8) != Some(&[0; 8]) {
            return Some("the capture is refused".into());
        }
        let set = command(Request::Set(self.to, self.target_set, &captured[8..]), 8);
        if target.reply(&set) != (8, vec![0; 8]) {
            return Some("the captured parts are not accepted".into());
        }
        if target.reply(&capture(self.to, self.target_get)) != (length, captured) {
            return Some("another capture after the parts are set".into());
        }
        source.violations().or(target.violations())
    }
}

/// A sound card that has room for an object of each kind.
fn card_with_objects(random: &mut Random) -> Card {
    loop {
        let card = draw::sound_card(random);
        if card.setup.gets > 0 && card.setup.sets > 0 {
            return card;
        }
    }
}

/// The id of a live object of the kind; one is made if there is none.
fn live(random: &mut Random, card: &mut Card, member: u64, kind: Kind) -> u32 {
    let ids: Vec<u32> = (0..u32::from(card.setup.gets + card.setup.sets)).collect();
    let objects = &mut card.member_mut(member).objects;
    let of = |wanted| ids.iter().copied().filter(|id| objects.find(*id) == wanted).collect();
    let live: Vec<u32> = of(Some(kind));
    if !live.is_empty() {
        return random.pick(&live);
    }
    // There are at most as many objects of the other kind as may be, so an id
    // is free.
    let free: Vec<u32> = of(None);
    let id = random.pick(&free);
    objects.put(id, kind);
    id
}

/// A full capture, with a buffer long enough for four queues.
fn capture(member: u64, id: u32) -> Call {
    command(Request::Get(member, id, 1, &[]), 8 + 157 + 72 * 4)
}

/// A command whose buffers lie right before guard pages.
fn command(request: Request, length: usize) -> Call {
    let place = Place::BeforePage;
    let request = Buffer { bytes: request.bytes(), place };
    Call::Command { request, room: Room { length, place } }
}

impl fmt::Display for RoundTrip {
    fn fmt(&self, f: &mut fmt::Formatter) -> fmt::Result {
        let RoundTrip { from, source_get, to, target_get, target_set, .. } = self;
        writeln!(f, "from member {from}, get object {source_get}")?;
        writeln!(f, "  {}", CardBytes(&bytes::write(&self.source)))?;
        writeln!(f, "to member {to}, get object {target_get}, set object {target_set}")?;
        writeln!(f, "  {}", CardBytes(&bytes::write(&self.target)))
    }
}
