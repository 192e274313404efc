//! Buffers lent to a card, where what a call does beside them shows.
//!
//! A call must access nothing that it was not lent (demand 1). A buffer lies
//! between two guard pages: right behind the first, right ahead of the second,
//! or away from both at any offset. Bytes of the buffer's own pages that lie
//! beside it hold a pattern, which is looked at after the call.

mod huge;
#[allow(unsafe_code)]
mod libc;
mod pages;

pub use huge::Huge;

use std::ops::{Deref, Range};

use pages::{Pages, ROOM};

/// How many bytes on each side of a buffer are looked at.
const GUARD: usize = 64;
/// The longest buffer that can be lent.
pub const LONGEST: usize = ROOM - 2 * GUARD - 16;

/// What byte `at` of a buffer holds before it is written.
pub const fn pattern(at: usize) -> u8 {
    0xa5 ^ (at as u8).wrapping_mul(29)
}

/// After so many bytes the pattern is the same again.
const PERIOD: usize = 256;
/// The pattern from byte 0 on, twice.
static PATTERN: [u8; 2 * PERIOD] = {
    let mut bytes = [0; 2 * PERIOD];
    let mut at = 0;
    while at < bytes.len() {
        bytes[at] = pattern(at);
        at += 1;
    }
    bytes
};

/// Whether the bytes are the same. A few are compared one by one: `memcmp` may read
/// 32 with a mask, which takes long where some of them are a guard page's.
fn same(these: &[u8], those: &[u8]) -> bool {
    if these.len() > 32 {
        return these == those;
    }
    these.len() == those.len() && these.iter().zip(those).all(|(this, that)| this == that)
}

/// Where a buffer lies.
#[derive(Clone, Copy, Debug, PartialEq, Eq)]
pub enum Place {
    /// Away from both guard pages, so many bytes behind a multiple of 16.
    Offset(usize),
    /// Right behind a guard page.
    AfterPage,
    /// Right ahead of a guard page.
    BeforePage,
}

impl Place {
    /// Where a buffer lies if nothing depends on it.
    pub const USUAL: Place = Place::Offset(0);

    /// Where a buffer of this length starts and ends.
    fn range(self, length: usize) -> Range<usize> {
        assert!(length <= LONGEST, "a buffer of {length} bytes is too long to be lent");
        let start = match self {
            Place::Offset(offset) => GUARD + offset % 16,
            Place::AfterPage => 0,
            Place::BeforePage => ROOM - length,
        };
        start..start + length
    }
}

/// Bytes to be lent, and where they are to lie.
#[derive(Clone, Debug, PartialEq, Eq)]
pub struct Buffer {
    /// The bytes.
    pub bytes: Vec<u8>,
    /// Where they lie.
    pub place: Place,
}

impl Buffer {
    /// Puts it where it lies if nothing depends on it.
    pub fn put_at_usual_place(&mut self) {
        self.place = Place::USUAL;
    }
}

impl From<Vec<u8>> for Buffer {
    fn from(bytes: Vec<u8>) -> Buffer {
        Buffer { bytes, place: Place::USUAL }
    }
}

impl Deref for Buffer {
    type Target = [u8];

    fn deref(&self) -> &[u8] {
        &self.bytes
    }
}

/// The length of a buffer to be written, and where it is to lie.
#[derive(Clone, Copy, Debug, PartialEq, Eq)]
pub struct Room {
    /// The length.
    pub length: usize,
    /// Where it lies.
    pub place: Place,
}

impl From<usize> for Room {
    fn from(length: usize) -> Room {
        Room { length, place: Place::USUAL }
    }
}

/// A buffer between two guard pages.
pub struct Lent {
    pages: Pages,
    range: Range<usize>,
}

impl Lent {
    /// A buffer that holds the pattern.
    pub fn patterned(room: Room) -> Lent {
        let mut lent = Lent { pages: Pages::take(), range: room.place.range(room.length) };
        lent.fill(lent.before().start..lent.behind().end);
        lent
    }

    /// A buffer that holds these bytes.
    pub fn holding(buffer: &Buffer) -> Lent {
        let mut lent = Lent { pages: Pages::take(), range: buffer.place.range(buffer.len()) };
        lent.fill(lent.before());
        lent.bytes_mut().copy_from_slice(buffer);
        lent.fill(lent.behind());
        lent
    }

    /// Whether the buffer holds these bytes.
    pub fn holds(&self, bytes: &[u8]) -> bool {
        same(self.bytes(), bytes)
    }

    /// The buffer.
    pub fn bytes(&self) -> &[u8] {
        &self.pages.bytes()[self.range.clone()]
    }

    /// The buffer, to be lent.
    pub fn bytes_mut(&mut self) -> &mut [u8] {
        let range = self.range.clone();
        &mut self.pages.bytes_mut()[range]
    }

    /// Leaves off what is behind the first so many bytes of the buffer.
    pub fn truncate(&mut self, length: usize) {
        self.range.end = self.range.end.min(self.range.start + length);
    }

    /// Reads a byte by its distance from the buffer's start, as a wrong
    /// program would: it may lie beside the buffer.
    pub fn read_beside(&self, at: isize) -> u8 {
        self.pages.read(self.range.start as isize + at)
    }

    /// Writes a byte by its distance from the buffer's start, as a wrong
    /// program would: it may lie beside the buffer.
    pub fn write_beside(&mut self, at: isize, byte: u8) {
        self.pages.write(self.range.start as isize + at, byte);
    }

    /// How far the buffer starts behind a multiple of 16.
    pub fn offset(&self) -> usize {
        self.range.start % 16
    }

    /// What was done beside the buffer, which has this name, since it was lent
    /// or last asked.
    pub fn violations(&mut self, name: &str) -> Vec<String> {
        let mut violations = vec![];
        for (side, range) in [("ahead of", self.before()), ("behind", self.behind())] {
            if !self.stands(range) {
                violations.push(format!("bytes {side} the {name} were written"));
            }
        }
        if self.pages.accessed() {
            violations.push(format!("a guard page beside the {name} was accessed"));
        }
        violations
    }

    /// The bytes ahead of the buffer that are looked at.
    fn before(&self) -> Range<usize> {
        self.range.start.saturating_sub(GUARD)..self.range.start
    }

    /// The bytes behind the buffer that are looked at.
    fn behind(&self) -> Range<usize> {
        self.range.end..(self.range.end + GUARD).min(ROOM)
    }

    /// The pattern of bytes in and beside the buffer, from `start` on: a period of
    /// it.
    fn pattern(&self, start: usize) -> &'static [u8] {
        let at = start.wrapping_sub(self.range.start) % PERIOD;
        &PATTERN[at..at + PERIOD]
    }

    /// Puts the pattern in bytes in and beside the buffer.
    fn fill(&mut self, range: Range<usize>) {
        let pattern = self.pattern(range.start);
        for piece in self.pages.bytes_mut()[range].chunks_mut(PERIOD) {
            piece.copy_from_slice(&pattern[..piece.len()]);
        }
    }

    /// Whether bytes beside the buffer hold the pattern.
    fn stands(&self, range: Range<usize>) -> bool {
        let pattern = &self.pattern(range.start)[..range.len()];
        same(&self.pages.bytes()[range], pattern)
    }
}

impl PartialEq for Lent {
    /// Whether the bytes are the same, wherever they lie.
    fn eq(&self, other: &Lent) -> bool {
        same(self.bytes(), other.bytes())
    }
}

impl Eq for Lent {}

#[cfg(test)]
mod tests {
    use super::*;

    const LENGTHS: [usize; 6] = [0, 1, 24, 4095, 70_000, LONGEST];

    fn places() -> impl Iterator<Item = Place> {
        (0..16).map(Place::Offset).chain([Place::AfterPage, Place::BeforePage])
    }

    fn lent(length: usize, place: Place) -> Lent {
        Lent::patterned(Room { length, place })
    }

    #[test]
    fn a_buffer_that_is_used_as_lent_shows_no_violation() {
        for (length, place) in LENGTHS.into_iter().flat_map(|l| places().map(move |p| (l, p))) {
            let mut lent = lent(length, place);
            assert!(lent.bytes().iter().zip(0..).all(|(byte, at)| *byte == pattern(at)));
            lent.bytes_mut().fill(7);
            assert!(lent.bytes().iter().all(|byte| *byte == 7));
            assert_eq!(lent.bytes().len(), length);
            assert_eq!(lent.violations("buffer"), [""; 0]);
        }
    }

    #[test]
    fn a_byte_written_beside_a_buffer_shows_everywhere() {
        for (length, place) in LENGTHS.into_iter().flat_map(|l| places().map(move |p| (l, p))) {
            for at in [-1, length as isize] {
                let mut lent = lent(length, place);
                lent.write_beside(at, !lent.read_beside(at));
                assert_eq!(lent.violations("buffer").len(), 1, "{length} {place:?} {at}");
            }
        }
    }

    #[test]
    fn a_byte_read_beside_a_buffer_shows_where_a_page_is() {
        for length in LENGTHS {
            let mut after = lent(length, Place::AfterPage);
            after.read_beside(-1);
            assert_eq!(after.violations("buffer"), ["a guard page beside the buffer was accessed"]);
            assert_eq!(after.violations("buffer"), [""; 0]);
            let mut before = lent(length, Place::BeforePage);
            before.read_beside(length as isize);
            assert_eq!(
                before.violations("buffer"),
                ["a guard page beside the buffer was accessed"]
            );
            before.read_beside(length as isize + 4095);
            assert_eq!(before.violations("buffer").len(), 1);
        }
    }

    #[test]
    fn offsets_are_those_asked() {
        for offset in 0..16 {
            assert_eq!(lent(10, Place::Offset(offset)).offset(), offset);
        }
    }
}
