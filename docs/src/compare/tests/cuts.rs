//! Lists cut at every place: the archive beside the plain card, after each call.

use kajurnat::raw;
use plain_card::member::Mode;
use plain_card::object::Kind;
use plain_card::opcode::SUPPORTED;
use plain_card::part::{inventory, OPTIONAL};
use plain_card::{bytes, exported, Card, Setup};

use compare::part_bytes::{any_part, part};

const MEMBER: u64 = 2;
const SET: u32 = 1;

/// A card with member 2 stopped and its set object live.
fn card() -> Card {
    let mut card = Card::new(&Setup::alike(3, 4, 1, 1, [3; 16]).unwrap());
    card.in_use = SUPPORTED;
    card.member_mut(MEMBER).mode = Mode::Stopped;
    card.member_mut(MEMBER).objects.put(SET, Kind::Set);
    card
}

/// All parts of a member, each with a value of its own.
fn full_list() -> Vec<u8> {
    let values = inventory(4).zip(7..).map(|(name, byte)| match name.part_type() {
        0x100 => part(name, &[3; 16]),
        // Size 2048, and all bytes behind it the same.
        0x104 => part(name, &[&[0, 8], &[byte; 30][..]].concat()),
        _ => part(name, &vec![byte; name.length() as usize]),
    });
    values.flatten().collect()
}

/// Both cards, which have the same bytes.
struct Both {
    archive: Vec<u8>,
    plain: Vec<u8>,
}

impl Both {
    fn new() -> Both {
        let card = bytes::write(&card());
        Both { archive: card.clone(), plain: card }
    }

    /// The answer that both give.
    fn call(
        &mut self,
        archive: impl Fn(&mut [u8]) -> u32,
        plain: impl Fn(&mut [u8]) -> u32,
    ) -> u32 {
        let answer = archive(&mut self.archive);
        assert_eq!(answer, plain(&mut self.plain));
        assert!(self.archive == self.plain);
        answer
    }

    /// The answer of finish, after these fragments.
    fn restore(&mut self, fragments: &[&[u8]]) -> u32 {
        let begin = |card: &mut [u8]| raw::restore_begin(card, MEMBER);
        assert_eq!(self.call(begin, |card| exported::restore_begin(card, MEMBER)), 0);
        for fragment in fragments {
            let feed = |card: &mut [u8]| raw::restore_feed(card, MEMBER, fragment);
            assert_eq!(self.call(feed, |card| exported::restore_feed(card, MEMBER, fragment)), 0);
        }
        let finish = |card: &mut [u8]| raw::restore_finish(card, MEMBER, SET);
        self.call(finish, |card| exported::restore_finish(card, MEMBER, SET))
    }
}

/// Finish answers this and leaves the same card for each way to cut the list.
fn same_for_each_cut(list: &[u8], expected: u32) {
    let mut whole = Both::new();
    assert_eq!(whole.restore(&[list]), expected);
    for at in 0..=list.len() {
        let mut both = Both::new();
        assert_eq!(both.restore(&[&list[..at], &list[at..]]), expected);
        assert!(both.archive == whole.archive, "cut at {at}");
    }
    let mut bytewise = Both::new();
    assert_eq!(bytewise.restore(&list.chunks(1).collect::<Vec<_>>()), expected);
    assert!(bytewise.archive == whole.archive);
}

#[test]
fn a_full_list() {
    same_for_each_cut(&full_list(), 0);
}

#[test]
fn a_list_of_1024_bytes() {
    let mut list = full_list();
    list.extend(any_part(0x5ff, OPTIONAL, 0, &vec![5; 1024 - 16 - list.len()]));
    assert_eq!(list.len(), 1024);
    same_for_each_cut(&list, 0);
}

#[test]
fn a_bad_list() {
    let mut list = full_list();
    list.pop();
    same_for_each_cut(&list, 22 + 65_536 * 3);
}

#[test]
fn each_pair_of_places() {
    // The first four parts.
    let list = &full_list()[..104];
    let mut whole = Both::new();
    assert_eq!(whole.restore(&[list]), 0);
    for first in 0..=list.len() {
        for second in first..=list.len() {
            let mut both = Both::new();
            let fragments = [&list[..first], &list[first..second], &list[second..]];
            assert_eq!(both.restore(&fragments), 0);
            assert!(both.archive == whole.archive, "cut at {first} and {second}");
        }
    }
}
