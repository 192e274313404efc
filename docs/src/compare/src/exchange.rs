//! Two neighbouring calls that name different members change places.
//!
//! Somewhere in a sequence stand two commands, messages, card stores or calls of
//! a restore that name different members, one right behind the other. In the
//! other order each must get the reply it got, all other calls the same replies,
//! and the card at the end is the same.

use std::fmt;

use plain_card::{bytes, Card};

use crate::call::Call;
use crate::device::Make;
use crate::draw::{self, Favoured};
use crate::random::Random;
use crate::show::CardBytes;
use crate::shrink::{shrink, simplify};
use crate::trial::{apply, draw_calls, Side, Trial};

/// A card and a sequence with two neighbours that change places.
#[derive(Clone, Debug)]
pub struct Exchange {
    card: Card,
    before: Vec<Call>,
    neighbours: [Call; 2],
    after: Vec<Call>,
}

impl Trial for Exchange {
    fn draw(random: &mut Random) -> Exchange {
        let card = several_members(random);
        let first = random.below(card.members.len());
        let second = (first + 1 + random.below(card.members.len() - 1)) % card.members.len();
        let favoured = Favoured::members(first as u64 + 1, second as u64 + 1);
        let mut now = card.clone();
        let before = draw_calls(random, &mut now, favoured, 20);
        let neighbours = neighbours(random, &now, favoured);
        neighbours.iter().for_each(|call| apply(&mut now, call));
        let after = draw_calls(random, &mut now, favoured, 20);
        Exchange { card, before, neighbours, after }
    }

    fn failure(&self, make: Make) -> Option<String> {
        let [first, second] = &self.neighbours;
        let mut one = Side::new(make, &self.card);
        let mut other = Side::new(make, &self.card);
        for call in &self.before {
            one.see(call);
            other.see(call);
        }
        let (first_one, second_one) = (one.reply(first), one.reply(second));
        let (second_other, first_other) = (other.reply(second), other.reply(first));
        if first_one != first_other {
            return Some(format!("another reply in the other order: {first}"));
        }
        if second_one != second_other {
            return Some(format!("another reply in the other order: {second}"));
        }
        for call in &self.after {
            if one.reply(call) != other.reply(call) {
                return Some(format!("another reply after the other order: {call}"));
            }
        }
        if one.card() != other.card() {
            return Some("another card at the end".into());
        }
        one.violations().or(other.violations())
    }

    fn shorten(mut self, make: Make) -> Exchange {
        let with = |before: &[Call], after: &[Call]| Exchange {
            before: before.to_vec(),
            after: after.to_vec(),
            ..self.clone()
        };
        let fails = |exchange: Exchange| exchange.failure(make).is_some();
        let before = shrink(self.before.clone(), |calls| fails(with(calls, &self.after)));
        let after = shrink(self.after.clone(), |calls| fails(with(&before, calls)));
        self.before = before;
        self.after = after;
        let with_card = |card: &Card| Exchange { card: card.clone(), ..self.clone() };
        let card = simplify(self.card.clone(), |card| fails(with_card(card)));
        with_card(&card)
    }
}

/// A sound card with two members or more.
fn several_members(random: &mut Random) -> Card {
    loop {
        let card = draw::sound_card(random);
        if card.members.len() > 1 {
            return card;
        }
    }
}

/// Two calls that name different members, drawn on the same card.
fn neighbours(random: &mut Random, card: &Card, favoured: Favoured) -> [Call; 2] {
    let first = neighbour(random, card, favoured, None);
    let second = neighbour(random, card, favoured, first.named());
    [first, second]
}

/// A call that names a member, but not this one; more often a call that changes
/// the card, if a few draws give one.
fn neighbour(random: &mut Random, card: &Card, favoured: Favoured, not: Option<u64>) -> Call {
    let mut draws = if random.chance(70) { 20 } else { 0 };
    loop {
        let call = draw::on_card(random, card, favoured);
        if call.named().is_some_and(|member| Some(member) != not) {
            if draws == 0 || changes(card, &call) {
                return call;
            }
            draws -= 1;
        }
    }
}

/// Whether the call changes the card.
fn changes(card: &Card, call: &Call) -> bool {
    let mut after = card.clone();
    apply(&mut after, call);
    after != *card
}

impl fmt::Display for Exchange {
    fn fmt(&self, f: &mut fmt::Formatter) -> fmt::Result {
        writeln!(f, "  {}", CardBytes(&bytes::write(&self.card)))?;
        self.before.iter().try_for_each(|call| writeln!(f, "  {call}"))?;
        for call in &self.neighbours {
            writeln!(f, "  in either order: {call}")?;
        }
        self.after.iter().try_for_each(|call| writeln!(f, "  {call}"))
    }
}

#[cfg(test)]
mod tests {
    use super::*;
    use plain_card::opcode::Opcode;
    use std::collections::BTreeSet;

    /// Whether each of the two calls changes the card if it comes first.
    fn both_change(exchange: &Exchange) -> bool {
        let mut now = exchange.card.clone();
        exchange.before.iter().for_each(|call| apply(&mut now, call));
        exchange.neighbours.iter().all(|call| changes(&now, call))
    }

    #[test]
    fn both_neighbours_often_change_the_card() {
        let trials = (0..2_000).map(|index| Exchange::draw(&mut Random::new(1, index)));
        let changing = trials.filter(both_change).count();
        assert!(changing > 600, "{changing} of 2,000");
    }

    #[test]
    fn neighbours_name_different_members_in_every_pair_of_kinds() {
        let kind = |call: &Call| match call {
            Call::Command { request, .. } => u16::from_le_bytes([request[0], request[1]]),
            Call::Begin(_) => 1,
            Call::Feed { .. } => 2,
            Call::Finish { .. } => 3,
            Call::Drop(_) => 4,
            Call::Message { .. } => 5,
            _ => 0,
        };
        let mut kinds = BTreeSet::new();
        let mut random = Random::new(1, 0);
        for _ in 0..60_000 {
            let card = several_members(&mut random);
            let neighbours = neighbours(&mut random, &card, Favoured::members(1, 2));
            assert!(neighbours[0].named().is_some() && neighbours[1].named().is_some());
            assert_ne!(neighbours[0].named(), neighbours[1].named());
            kinds.insert(neighbours.each_ref().map(kind));
        }
        let members = Opcode::ALL.into_iter().filter(|opcode| opcode.names_member());
        let all: Vec<u16> = members.map(|opcode| opcode as u16).chain(0..6).collect();
        for first in &all {
            for second in &all {
                assert!(kinds.contains(&[*first, *second]), "{first:#x} {second:#x}");
            }
        }
    }
}
