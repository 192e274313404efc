//! Properties that are tried on one device, by random trials.

use std::fmt;

use plain_card::{bytes, Card};

use crate::call::Call;
use crate::device::{see, Device, Make, Plain, Seen};
use crate::draw::{self, Favoured};
use crate::limit::Limit;
use crate::memory::{Buffer, Place};
use crate::random::Random;

/// A trial of a property.
pub trait Trial: fmt::Display + Sized {
    /// A random trial.
    fn draw(random: &mut Random) -> Self;

    /// What the device does against the property, if anything.
    fn failure(&self, make: Make) -> Option<String>;

    /// A trial that fails, with as little in it as still fails.
    fn shorten(self, _: Make) -> Self {
        self
    }
}

/// A trial that failed.
pub struct Failure<T> {
    /// The trial, shortened.
    pub trial: T,
    /// What the device did.
    pub what: String,
}

impl<T: Trial> fmt::Display for Failure<T> {
    fn fmt(&self, f: &mut fmt::Formatter) -> fmt::Result {
        writeln!(f, "{}{}", self.trial, self.what)
    }
}

/// Tries a property on a device. Tells how often, and the first failure.
pub fn check<T: Trial>(seed: u64, limit: Limit, make: Make) -> (u64, Option<Failure<T>>) {
    for index in 0.. {
        if limit.reached(index) {
            return (index, None);
        }
        let trial = T::draw(&mut Random::new(seed, index));
        if trial.failure(make).is_some() {
            let trial = trial.shorten(make);
            let what = trial.failure(make).unwrap_or_default();
            return (index + 1, Some(Failure { trial, what }));
        }
    }
    unreachable!("the indices do not end")
}

/// Calls drawn one after the other on a card, fewer than `most`.
pub fn draw_calls(
    random: &mut Random,
    card: &mut Card,
    favoured: Favoured,
    most: usize,
) -> Vec<Call> {
    (0..random.below(most))
        .map(|_| {
            let call = draw::on_card(random, card, favoured);
            apply(card, &call);
            call
        })
        .collect()
}

/// Makes a call on a plain card, for the calls that are drawn next.
pub fn apply(card: &mut Card, call: &Call) {
    let Card { setup, in_use, members } = card;
    let taken = Card { setup: setup.clone(), in_use: *in_use, members: std::mem::take(members) };
    let mut plain = Plain::Card(taken);
    plain.hear(call, &mut vec![0; call.room().length]);
    let Plain::Card(after) = plain else { unreachable!("no such call is drawn on a card") };
    *card = after;
}

/// A device in a trial, with a card of its own.
pub struct Side {
    device: Box<dyn Device>,
    violations: Vec<String>,
}

impl Side {
    /// A new device with this card, right before a guard page.
    pub fn new(make: Make, card: &Card) -> Side {
        let mut side = Side { device: make(), violations: vec![] };
        let card = Buffer { bytes: bytes::write(card), place: Place::BeforePage };
        side.see(&Call::Card(card));
        side
    }

    /// What a call shows, with the reply read over the bytes written.
    pub fn see(&mut self, call: &Call) -> Seen {
        let mut seen = see(self.device.as_mut(), call);
        if let Call::Command { .. } | Call::Message { .. } = call {
            seen.reply.truncate(seen.answer);
        }
        self.violations.append(&mut seen.violations);
        seen
    }

    /// The reply alone.
    pub fn reply(&mut self, call: &Call) -> (usize, Vec<u8>) {
        let seen = self.see(call);
        (seen.answer, seen.reply.bytes().to_vec())
    }

    /// The card.
    pub fn card(&mut self) -> &[u8] {
        self.device.card()
    }

    /// What the calls did to memory that may not be accessed or changed.
    pub fn violations(&self) -> Option<String> {
        (!self.violations.is_empty()).then(|| self.violations.join("; "))
    }
}
