//! Demand 3, tried on random pairs of sequences.
//!
//! Two sound cards differ in member m's record at most, and not in its mark and
//! its queue count. A wipe of m that answers 0, or a reset of the whole card,
//! is its reset. Up to that the two sequences are the same but for calls that name
//! m, which hand backs and wipes do not; from the reset on they are the same. The
//! calls before the reset that do not name m must give the same replies, and from
//! the reset on all calls the same replies and the same card.

use std::fmt;

use plain_card::member::Member;
use plain_card::{bytes, Card};

use crate::call::Call;
use crate::device::Make;
use crate::draw::{self, Favoured};
use crate::random::Random;
use crate::show::CardBytes;
use crate::shrink::{shrink, simplify};
use crate::trial::{apply, draw_calls, Side, Trial};

/// A call before the reset, and which of the two sequences have it.
#[derive(Clone, Debug)]
struct Turn {
    call: Call,
    left: bool,
    right: bool,
}

/// A pair of cards and sequences.
#[derive(Clone, Debug)]
pub struct Pair {
    member: u64,
    left: Card,
    right: Card,
    before: Vec<Turn>,
    reset: Call,
    after: Vec<Call>,
}

impl Trial for Pair {
    /// A pair whose calls are drawn with the plain card at hand.
    fn draw(random: &mut Random) -> Pair {
        let card = draw::sound_card(random);
        let [member, other_member] = [(); 2].map(|()| 1 + random.below(card.members.len()) as u64);
        let favoured = Favoured::members(member, other_member);
        let mut other = card.clone();
        let Member { queues, marked, .. } = *card.member(member);
        *other.member_mut(member) = draw::record(random, &card.setup, queues, marked);
        let (left, right) = (card.clone(), other.clone());
        let mut cards = [card, other];
        let mut before: Vec<Turn> = (0..random.below(40))
            .map(|_| Turn::draw(random, &mut cards, member, favoured))
            .collect();
        let generation = draw::generation(random);
        let reset = match random.chance(75) {
            true => {
                hand_back(&mut before, &mut cards, member);
                for _ in 0..random.below(12) {
                    before.push(Turn::draw(random, &mut cards, member, favoured));
                }
                // One of these may have been a reset.
                hand_back(&mut before, &mut cards, member);
                Call::Wipe { member, generation }
            }
            false => Call::ResetCard(generation),
        };
        apply(&mut cards[0], &reset);
        let after = draw_calls(random, &mut cards[0], favoured, 40);
        Pair { member, left, right, before, reset, after }
    }

    fn failure(&self, make: Make) -> Option<String> {
        let mut left = Side::new(make, &self.left);
        let mut right = Side::new(make, &self.right);
        for turn in &self.before {
            let seen = turn.left.then(|| left.reply(&turn.call));
            let other = turn.right.then(|| right.reply(&turn.call));
            if turn.left && turn.right && seen != other {
                return Some(format!("different replies before the reset: {}", turn.call));
            }
        }
        let (reset, other) = (left.see(&self.reset), right.see(&self.reset));
        if reset.answer != 0 {
            return None; // no reset
        }
        if reset != other || left.card() != right.card() {
            return Some(format!("different replies or cards of the reset: {}", self.reset));
        }
        for call in &self.after {
            if left.see(call) != right.see(call) || left.card() != right.card() {
                return Some(format!("different replies or cards after the reset: {call}"));
            }
        }
        left.violations().or(right.violations())
    }

    fn shorten(mut self, make: Make) -> Pair {
        let with = |before: &[Turn], after: &[Call]| Pair {
            before: before.to_vec(),
            after: after.to_vec(),
            ..self.clone()
        };
        let fails = |pair: Pair| pair.failure(make).is_some();
        let before = shrink(self.before.clone(), |turns| fails(with(turns, &self.after)));
        let after = shrink(self.after.clone(), |calls| fails(with(&before, calls)));
        self.before = before;
        self.after = after;
        let left = simplify(self.left.clone(), |left| fails(self.with_cards(left)));
        self.with_cards(&left)
    }
}

impl Pair {
    /// The pair with another left card; the right one differs from it in the
    /// member's record alone, and not in its mark.
    fn with_cards(&self, left: &Card) -> Pair {
        let mut right = left.clone();
        let record = right.member_mut(self.member);
        *record = self.right.member(self.member).clone();
        record.marked = left.member(self.member).marked;
        Pair { left: left.clone(), right, ..self.clone() }
    }
}

/// Hands the member back in both sequences, if it is not.
fn hand_back(before: &mut Vec<Turn>, cards: &mut [Card; 2], member: u64) {
    if !cards[0].member(member).marked {
        let call = Call::HandBack(member);
        cards.iter_mut().for_each(|card| apply(card, &call));
        before.push(Turn { call, left: true, right: true });
    }
}

impl Turn {
    /// A call drawn on one of the cards. One that names m goes to that card
    /// alone, any other to both.
    fn draw(random: &mut Random, cards: &mut [Card; 2], member: u64, favoured: Favoured) -> Turn {
        let side = random.below(2);
        let call = draw::on_card(random, &cards[side], favoured);
        let names = call.named() == Some(member);
        let turn = Turn { left: !names || side == 0, right: !names || side == 1, call };
        for (card, hears) in cards.iter_mut().zip([turn.left, turn.right]) {
            if hears {
                apply(card, &turn.call);
            }
        }
        turn
    }
}

impl fmt::Display for Pair {
    fn fmt(&self, f: &mut fmt::Formatter) -> fmt::Result {
        writeln!(f, "member {}", self.member)?;
        writeln!(f, "  left {}", CardBytes(&bytes::write(&self.left)))?;
        writeln!(f, "  right {}", CardBytes(&bytes::write(&self.right)))?;
        for turn in &self.before {
            let side = match (turn.left, turn.right) {
                (true, true) => "both",
                (true, false) => "left",
                _ => "right",
            };
            writeln!(f, "  {side}: {}", turn.call)?;
        }
        for call in std::iter::once(&self.reset).chain(&self.after) {
            writeln!(f, "  both: {call}")?;
        }
        Ok(())
    }
}

#[cfg(test)]
mod tests {
    use super::*;

    #[test]
    fn every_member_is_tried_and_named_on_both_sides() {
        let mut tried = [[false; 16]; 2];
        for index in 0..2_000 {
            let pair = Pair::draw(&mut Random::new(1, index));
            for turn in pair.before.iter().filter(|turn| turn.left != turn.right) {
                tried[usize::from(turn.right)][pair.member as usize - 1] = true;
            }
        }
        assert_eq!(tried, [[true; 16]; 2]);
    }

    #[test]
    fn stores_of_one_side_stand_between_hand_back_and_wipe() {
        let between = |pair: &Pair| {
            let handed_back = Call::HandBack(pair.member);
            let at = pair.before.iter().rposition(|turn| turn.call == handed_back);
            let rest = &pair.before[at.map_or(0, |at| at + 1)..];
            let store = |turn: &Turn| matches!(turn.call, Call::Store { .. });
            at.is_some() && rest.iter().any(|turn| store(turn) && turn.left != turn.right)
        };
        let pairs = (0..2_000).map(|index| Pair::draw(&mut Random::new(1, index)));
        let wiped = pairs.filter(|pair| matches!(pair.reset, Call::Wipe { .. }));
        let stored = wiped.filter(between).count();
        assert!(stored > 200, "{stored}");
    }
}
