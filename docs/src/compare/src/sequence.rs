//! The comparison: random sequences of calls on the plain card and on another
//! device, with everything that a call shows compared after each.

use std::fmt;

use plain_card::bytes::{
    self, CONFIGURATION, GENERATION, HEADER, HELD, HOLDING, MARK, OBJECTS, QUEUES, RECORD, VALUES,
};
use plain_card::Card;

use crate::agreed::Agreed;
use crate::call::Call;
use crate::coverage::Coverage;
use crate::device::{see, Device, Make, Seen};
use crate::draw::{self, Favoured};
use crate::faults::{Fault, Faulty};
use crate::limit::Limit;
use crate::memory::Buffer;
use crate::random::Random;
use crate::shrink::{shrink, simplify};

/// A difference between plain card and device.
pub struct Difference {
    /// The number of the sequence under its seed.
    pub sequence: u64,
    /// The shortest sequence found that shows a difference.
    pub calls: Vec<Call>,
    /// What differs after the last call.
    pub what: String,
}

/// What a comparison tells.
#[derive(Default)]
pub struct Comparison {
    /// The number of calls made.
    pub calls: u64,
    /// What the device answered to them.
    pub coverage: Coverage,
    /// The first difference.
    pub difference: Option<Difference>,
}

/// Compares the plain card, with a fault or without, with a device.
pub fn compare(seed: u64, limit: Limit, fault: Option<&'static Fault>, make: Make) -> Comparison {
    let mut comparison = Comparison::default();
    for index in 0.. {
        if limit.reached(comparison.calls) || comparison.difference.is_some() {
            break;
        }
        let mut pair = Pair::new(fault, make);
        pair.run(&mut Random::new(seed, index), |call, seen| {
            comparison.calls += 1;
            comparison.coverage.note(call, seen);
        });
        if pair.difference.is_some() {
            let mut calls = vec![];
            let mut random = Random::new(seed, index);
            Pair::new(fault, make).run(&mut random, |call, _| calls.push(call.clone()));
            comparison.difference = Some(Difference::shortest(index, calls, fault, make));
        }
    }
    comparison
}

impl Difference {
    fn shortest(
        sequence: u64,
        calls: Vec<Call>,
        fault: Option<&'static Fault>,
        make: Make,
    ) -> Difference {
        let difference = |calls: &[Call]| Pair::new(fault, make).replay(calls);
        let shows = |calls: &[Call]| difference(calls).is_some();
        let mut calls = shrink(calls, shows);
        for at in 0..calls.len() {
            calls[at] = at_usual_places(&calls, at, shows);
            calls[at] = with_simpler_card(&calls, at, shows);
        }
        let what = difference(&calls).unwrap_or_default();
        Difference { sequence, calls, what }
    }
}

/// The calls with another one at `at`.
fn with(calls: &[Call], at: usize, call: Call) -> Vec<Call> {
    let mut calls = calls.to_vec();
    calls[at] = call;
    calls
}

/// The call at `at` with its buffers at the usual places, if that still shows
/// it.
fn at_usual_places(calls: &[Call], at: usize, shows: impl Fn(&[Call]) -> bool) -> Call {
    let usual = calls[at].at_usual_places();
    if shows(&with(calls, at, usual.clone())) {
        usual
    } else {
        calls[at].clone()
    }
}

/// The call at `at`; if it is a sound card, with as much of it fresh as still
/// shows it.
fn with_simpler_card(calls: &[Call], at: usize, shows: impl Fn(&[Call]) -> bool) -> Call {
    let Call::Card(Buffer { bytes, place }) = &calls[at] else { return calls[at].clone() };
    let Some(card) = bytes::read(bytes).filter(Card::is_sound) else { return calls[at].clone() };
    let call = |card: &Card| Call::Card(Buffer { bytes: bytes::write(card), place: *place });
    call(&simplify(card, |card| shows(&with(calls, at, call(card)))))
}

/// The plain card and the device it is compared with.
struct Pair {
    plain: Faulty,
    device: Box<dyn Device>,
    agreed: Agreed,
    difference: Option<String>,
}

impl Pair {
    fn new(fault: Option<&'static Fault>, make: Make) -> Pair {
        let agreed = Agreed::default();
        Pair { plain: Faulty::new(fault), device: make(), agreed, difference: None }
    }

    /// Makes random calls up to the first difference and tells each.
    fn run(&mut self, random: &mut Random, mut tell: impl FnMut(&Call, &Seen)) {
        let length = 1 + random.below(80);
        let favoured = Favoured::draw(random);
        let mut call = draw::first(random);
        for left in (0..length).rev() {
            let seen = self.make(&call);
            tell(&call, &seen);
            if self.difference.is_some() || left == 0 {
                return;
            }
            call = draw::next(random, self.plain.plain.card(), seen.sound == 1, favoured);
        }
    }

    /// Makes these calls up to the first difference and tells it.
    fn replay(mut self, calls: &[Call]) -> Option<String> {
        for call in calls {
            self.make(call);
            if self.difference.is_some() {
                break;
            }
        }
        self.difference
    }

    /// Makes a call on both and notes a difference. Tells what is seen of the
    /// device.
    fn make(&mut self, call: &Call) -> Seen {
        let expected = see(&mut self.plain, call);
        let seen = see(self.device.as_mut(), call);
        let agree = self.agreed.on(&self.plain.plain, self.device.card());
        if expected != seen || !agree {
            self.difference = Some(self.difference(&expected, &seen));
        }
        seen
    }

    /// What differs.
    fn difference(&mut self, expected: &Seen, seen: &Seen) -> String {
        let answer = differs("answer or bytes written", expected.answer, seen.answer);
        let reply = first_difference("reply", expected.reply.bytes(), seen.reply.bytes());
        let card = first_difference("card", self.plain.card(), self.device.card());
        let sound = differs("is sound", expected.sound, seen.sound);
        let violations = seen.violations.iter().map(|what| format!("  {what}\n")).collect();
        let all = [answer, reply, card, sound, violations].concat();
        if all.is_empty() {
            return "  the card read from the bytes differs\n".into();
        }
        all
    }
}

fn differs<T: PartialEq + fmt::Display>(what: &str, plain: T, device: T) -> String {
    if plain == device {
        String::new()
    } else {
        format!("  {what}: plain {plain}, archive {device}\n")
    }
}

/// The first byte that differs, and where it stands.
fn first_difference(what: &str, plain: &[u8], device: &[u8]) -> String {
    let length = differs(&format!("length of the {what}"), plain.len(), device.len());
    let at = plain.iter().zip(device).position(|(plain, device)| plain != device);
    let byte = at.map_or(String::new(), |at| {
        let place = if what == "card" { place(at) } else { String::new() };
        differs(&format!("{what} byte {at}{place}"), plain[at], device[at])
    });
    length + &byte
}

/// What a byte of the card is.
fn place(at: usize) -> String {
    let Some(at) = at.checked_sub(HEADER) else { return " (header)".into() };
    let member = 1 + at / RECORD;
    match at % RECORD {
        at @ HOLDING.. => format!(" (byte {} held for member {member})", at - HOLDING),
        GENERATION.. => format!(" (generation of member {member})"),
        at @ CONFIGURATION.. => {
            format!(" (configuration byte {} of member {member})", at - CONFIGURATION)
        }
        at @ VALUES.. => format!(" (value byte {} of member {member})", at - VALUES),
        HELD.. => format!(" (length held for member {member})"),
        at @ OBJECTS.. => format!(" (object {} of member {member})", at - OBJECTS),
        QUEUES.. => format!(" (queue count of member {member})"),
        MARK.. => format!(" (mark of member {member})"),
        _ => format!(" (mode of member {member})"),
    }
}

impl fmt::Display for Difference {
    fn fmt(&self, f: &mut fmt::Formatter) -> fmt::Result {
        let count = self.calls.len();
        let calls = if count == 1 { "call" } else { "calls" };
        writeln!(f, "sequence {}, shortened to {count} {calls}:", self.sequence)?;
        for call in &self.calls {
            writeln!(f, "  {call}")?;
        }
        write!(f, "after the last of them:\n{}", self.what)
    }
}
