//! A restore in fragments is one parts set, however its list is cut (request 6
//! of document 02), tried on random cards.
//!
//! With nothing open at the start and no other call between, begin, feeds of a
//! list cut in two ways, and finish answer the same and leave the same card:
//! what one parts set of the list answers, and its card with no holding place.

use std::fmt;

use plain_card::frame::u32_at;
use plain_card::holding::Holding;
use plain_card::host::Request;
use plain_card::member::Mode;
use plain_card::opcode::Opcode;
use plain_card::{bytes, Card};

use crate::call::Call;
use crate::device::Make;
use crate::draw;
use crate::memory::{Buffer, Place, Room};
use crate::random::Random;
use crate::show::{CardBytes, Hex};
use crate::shrink::{shrink, simplify};
use crate::trial::{Side, Trial};

/// A card, a list for one of its members, and two ways to cut the list.
#[derive(Clone, Debug)]
pub struct Fragments {
    card: Card,
    member: u64,
    id: u32,
    list: Vec<u8>,
    /// Where the list is cut, in order; twice at a place is an empty fragment.
    cuts: [Vec<usize>; 2],
}

impl Trial for Fragments {
    fn draw(random: &mut Random) -> Fragments {
        let mut card = draw::sound_card(random);
        if random.chance(80) {
            card.in_use |= Opcode::PartsSet.bit();
        }
        let member = 1 + random.below(card.members.len()) as u64;
        let record = card.member_mut(member);
        record.holding.held = None;
        record.marked = false;
        if random.chance(70) {
            record.mode = Mode::Stopped;
        }
        let id = draw::set_id(random, &card, member);
        let list = draw::list_to_restore(random, &card, member);
        let cuts = [(); 2].map(|()| cuts(random, list.len()));
        Fragments { card, member, id, list, cuts }
    }

    fn failure(&self, make: Make) -> Option<String> {
        let mut side = Side::new(make, &self.card);
        let place = Place::BeforePage;
        let request = Buffer { bytes: self.parts_set(), place };
        let (_, reply) = side.reply(&Call::Command { request, room: Room { length: 8, place } });
        let expected = (u32_at(&reply, 0) as usize, self.without_place(side.card()));
        for (way, cuts) in ["first", "second"].iter().zip(&self.cuts) {
            let mut side = Side::new(make, &self.card);
            if side.reply(&Call::Begin(self.member)).0 != 0 {
                return Some("begin is refused".into());
            }
            for fragment in self.fragments(cuts) {
                if side.reply(&fragment).0 != 0 {
                    return Some(format!("a fragment is refused, the {way} way"));
                }
            }
            let (answer, _) = side.reply(&Call::Finish { member: self.member, id: self.id });
            if answer != expected.0 {
                return Some(format!("finish answers another status, the {way} way"));
            }
            if side.card() != expected.1 {
                return Some(format!("finish leaves another card, the {way} way"));
            }
            if let Some(violations) = side.violations() {
                return Some(violations);
            }
        }
        side.violations()
    }

    fn shorten(mut self, make: Make) -> Fragments {
        let fails = |trial: &Fragments| trial.failure(make).is_some();
        for way in 0..2 {
            let cuts = shrink(self.cuts[way].clone(), |cuts| {
                let mut fewer = self.clone();
                fewer.cuts[way] = cuts.to_vec();
                fails(&fewer)
            });
            self.cuts[way] = cuts;
        }
        let with = |card: &Card| Fragments { card: card.clone(), ..self.clone() };
        let card = simplify(self.card.clone(), |card| fails(&with(card)));
        with(&card)
    }
}

/// Places of a list of this length, in order: a few, or each of them.
fn cuts(random: &mut Random, length: usize) -> Vec<usize> {
    if random.chance(2) {
        return (0..length).collect();
    }
    let mut cuts: Vec<usize> = (0..random.below(9)).map(|_| random.below(length + 1)).collect();
    cuts.sort_unstable();
    cuts
}

impl Fragments {
    /// The feeds of the list cut at these places.
    fn fragments<'a>(&'a self, cuts: &'a [usize]) -> impl Iterator<Item = Call> + 'a {
        let starts = std::iter::once(0).chain(cuts.iter().copied());
        let ends = cuts.iter().copied().chain([self.list.len()]);
        starts.zip(ends).map(|(start, end)| {
            let bytes = self.list[start..end].to_vec();
            let fragment = Buffer { bytes, place: Place::BeforePage };
            Call::Feed { member: self.member, fragment }
        })
    }

    /// One parts set of the list.
    fn parts_set(&self) -> Vec<u8> {
        Request::Set(self.member, self.id, &self.list).bytes()
    }

    /// A card's bytes, with no holding place of the member.
    fn without_place(&self, card: &[u8]) -> Vec<u8> {
        bytes::read(card).map_or_else(Vec::new, |mut card| {
            card.member_mut(self.member).holding = Holding::default();
            bytes::write(&card)
        })
    }
}

impl fmt::Display for Fragments {
    fn fmt(&self, f: &mut fmt::Formatter) -> fmt::Result {
        let Fragments { card, member, id, list, cuts: [first, second] } = self;
        writeln!(f, "  {}", CardBytes(&bytes::write(card)))?;
        writeln!(f, "  member {member}, object {id}, list of {} bytes: {}", list.len(), Hex(list))?;
        writeln!(f, "  cut at {first:?} and at {second:?}")
    }
}

#[cfg(test)]
mod tests {
    use super::*;
    use plain_card::holding::ROOM;

    /// Whether a parts set of the list is accepted.
    fn accepted(trial: &Fragments) -> bool {
        let mut card = trial.card.clone();
        let mut reply = [1; 8];
        plain_card::command(&mut card, &trial.parts_set(), &mut reply);
        reply == [0; 8]
    }

    #[test]
    fn lists_of_every_length_are_cut_and_many_are_good() {
        let trials: Vec<Fragments> =
            (0..4_000).map(|index| Fragments::draw(&mut Random::new(1, index))).collect();
        assert!(trials.iter().all(|trial| trial.list.len() <= ROOM));
        let good = trials.iter().filter(|trial| accepted(trial)).count();
        assert!(good > 600, "{good} of 4,000");
        let long = trials.iter().filter(|trial| accepted(trial) && trial.list.len() == ROOM);
        assert!(long.count() > 20);
    }
}
