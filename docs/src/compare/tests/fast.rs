//! The fast card of the timing gives what the plain card gives.

use compare::call::Call;
use compare::device::{Device, Plain};
use compare::fast;
use compare::limit::Limit;
use compare::memory::Lent;
use compare::sequence::compare;
use plain_card::exported;

/// The fast card over its bytes.
#[derive(Default)]
struct Fast(Vec<u8>);

impl Device for Fast {
    fn call(&mut self, call: &Call, reply: &mut Lent) -> usize {
        let card = &mut self.0;
        match call {
            Call::CardBytes(members) => exported::card_bytes(*members),
            Call::Setup { numbers: [n, g, s], queues, features, card: room } => {
                card.resize(room.length, 0);
                exported::setup(card, *n, queues, *g, *s, features).into()
            }
            Call::SetupFrom { setup, card: room } => {
                card.resize(room.length, 0);
                exported::setup_from(card, setup).into()
            }
            Call::Card(bytes) => {
                card.clone_from(&bytes.bytes);
                0
            }
            Call::Command { request, .. } => fast::command(card, request, reply.bytes_mut()),
            Call::Message { message, .. } => exported::message(card, message, reply.bytes_mut()),
            Call::HandBack(member) => exported::hand_back(card, *member).into(),
            Call::Wipe { member, generation } => exported::wipe(card, *member, *generation).into(),
            Call::ResetCard(generation) => exported::reset_card(card, *generation).into(),
            Call::Store { member, part_type, selector, value } => {
                exported::store(card, *member, *part_type, *selector, value).into()
            }
            Call::Begin(member) => exported::restore_begin(card, *member) as usize,
            Call::Feed { member, fragment } => {
                exported::restore_feed(card, *member, fragment) as usize
            }
            Call::Finish { member, id } => exported::restore_finish(card, *member, *id) as usize,
            Call::Drop(member) => exported::restore_drop(card, *member) as usize,
            // The host's half and setups as bytes have no fast form.
            Call::Build { .. }
            | Call::Read { .. }
            | Call::WriteSetup { .. }
            | Call::ReadSetup { .. }
            | Call::Lists(_) => Plain::default().hear(call, reply.bytes_mut()),
            // Nor has what only reads: the plain card of these bytes answers.
            Call::Load(_) => Plain::from_bytes(card).hear(call, reply.bytes_mut()),
        }
    }

    fn card(&mut self) -> &[u8] {
        &self.0
    }

    fn is_sound(&mut self) -> u8 {
        exported::is_sound(&self.0)
    }
}

#[test]
fn fast_and_plain_are_alike() {
    let limit = Limit { count: 100_000, until: None };
    let comparison = compare(7, limit, None, &|| Box::new(Fast::default()));
    if let Some(difference) = comparison.difference {
        panic!("{difference}");
    }
}
