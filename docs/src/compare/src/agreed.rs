//! Whether the plain card and a device's bytes are the same card.

use plain_card::bytes::{self, HEADER, RECORD};
use plain_card::member::Member;
use plain_card::Card;

use crate::device::Plain;

/// The card on which both agreed last, and its bytes.
#[derive(Default)]
pub struct Agreed {
    plain: Plain,
    bytes: Vec<u8>,
    written: Vec<u8>,
}

impl Agreed {
    /// Whether these are the bytes of the plain card and it is the card that they
    /// say. If so they are what both agreed on last. A record that is the same on
    /// both sides as it was then is not written and read again.
    pub fn on(&mut self, plain: &Plain, bytes: &[u8]) -> bool {
        if let (Plain::Card(before), Plain::Card(after)) = (&mut self.plain, plain) {
            if same_head(before, after) && same_header(&self.bytes, bytes) {
                let before = before.members.iter_mut().zip(records_mut(&mut self.bytes));
                let mut after = after.members.iter().zip(bytes[HEADER..].chunks_exact(RECORD));
                let written = &mut self.written;
                return before.zip(&mut after).all(|(before, (member, record))| {
                    (*before.0 == *member && before.1 == record)
                        || record_agrees(before, member, record, written)
                });
            }
        }
        plain.write_to(&mut self.written);
        let agree = self.written == bytes && Plain::from_bytes(bytes) == *plain;
        self.plain.clone_from(plain);
        std::mem::swap(&mut self.bytes, &mut self.written);
        agree
    }
}

/// Whether all but the records is the same, and their number.
fn same_head(before: &Card, after: &Card) -> bool {
    before.setup == after.setup
        && before.in_use == after.in_use
        && before.members.len() == after.members.len()
}

/// Whether the bytes are as many and have the same header.
fn same_header(before: &[u8], after: &[u8]) -> bool {
    before.len() == after.len() && before[..HEADER] == after[..HEADER]
}

fn records_mut(bytes: &mut [u8]) -> impl Iterator<Item = &mut [u8]> {
    bytes[HEADER..].chunks_exact_mut(RECORD)
}

/// Whether the record is what the member is written as, and says it.
fn record_agrees(
    (before, before_record): (&mut Member, &mut [u8]),
    member: &Member,
    record: &[u8],
    written: &mut Vec<u8>,
) -> bool {
    written.clear();
    bytes::write_record(written, member);
    before.clone_from(member);
    before_record.copy_from_slice(record);
    written == record && bytes::read_record(record).as_ref() == Some(member)
}

#[cfg(test)]
mod tests {
    use super::*;
    use crate::draw;
    use crate::random::Random;

    /// What is said of a card does not depend on what was agreed on before.
    #[test]
    fn each_byte_is_compared_whatever_was_agreed_on() {
        let mut random = Random::new(1, 0);
        for _ in 0..300 {
            let mut bytes = draw::any_bytes(&mut random);
            let mut agreed = Agreed::default();
            for _ in 0..8 {
                let plain = Plain::from_bytes(&bytes);
                assert!(agreed.on(&plain, &bytes));
                assert!(agreed.on(&plain, &bytes));
                if bytes.is_empty() {
                    break;
                }
                let at = random.below(bytes.len());
                let near = random.below(bytes.len().min(HEADER + 20));
                let before = bytes.clone();
                bytes[random.pick(&[at, near])] ^= 1 << random.below(3);
                // One side alone has changed, then the other alone.
                assert!(!follow(&plain, &before).on(&plain, &bytes));
                assert!(!follow(&plain, &before).on(&Plain::from_bytes(&bytes), &before));
            }
        }
    }

    /// Both agreed on this card.
    fn follow(plain: &Plain, bytes: &[u8]) -> Agreed {
        let mut agreed = Agreed::default();
        assert!(agreed.on(plain, bytes));
        agreed
    }
}
