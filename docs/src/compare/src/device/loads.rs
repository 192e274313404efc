//! Calls that only read the card, by the archive and by the plain card.

use kajurnat::raw;
use plain_card::frame::{u16_at, u32_at};
use plain_card::loads::Summary;
use plain_card::status::{answer, EventError};
use plain_card::Card;

use crate::loads::{Load, GENERATION, NUMBERS};

/// The answer of the archive.
pub fn archive(call: &Load, card: &[u8], buffer: &mut [u8]) -> usize {
    match call {
        Load::Part { member, part_type, selector, .. } => {
            raw::load(card, *member, *part_type, *selector, buffer).into()
        }
        Load::Member(member) => numbers_into(buffer, |summary| {
            let Summary { state, queues, gets, sets, held } = summary;
            raw::member(card, *member, state, queues, gets, sets, held)
        }),
        Load::Configuration { member, .. } => configuration_into(buffer, |bytes, generation| {
            raw::configuration(card, *member, bytes, generation)
        }),
        Load::Setup(_) => raw::setup_of(card, buffer),
    }
}

/// The answer of the plain card, if there is one.
pub fn plain(call: &Load, card: Option<&Card>, buffer: &mut [u8]) -> usize {
    let sound = card.ok_or(EventError::NotSound);
    match call {
        Load::Part { member, part_type, selector, .. } => {
            let selector = selector.to_le_bytes();
            answer(sound.and_then(|card| card.load(*member, *part_type, selector, buffer))).into()
        }
        Load::Member(member) => numbers_into(buffer, |summary| {
            let told = sound.and_then(|card| card.summary(*member));
            answer(told.map(|told| *summary = told))
        }),
        Load::Configuration { member, .. } => configuration_into(buffer, |bytes, generation| {
            answer(sound.and_then(|card| card.configuration(*member, bytes, generation)))
        }),
        Load::Setup(_) => card.map_or(0, |card| card.write_setup(buffer)),
    }
}

/// Tells a member in the numbers that stand in a buffer.
fn numbers_into(buffer: &mut [u8], tell: impl FnOnce(&mut Summary) -> u8) -> usize {
    let [state, queues, gets, sets] = std::array::from_fn(|at| buffer[at]);
    let mut summary = Summary { state, queues, gets, sets, held: u16_at(buffer, 4) };
    let answer = tell(&mut summary);
    let Summary { state, queues, gets, sets, held } = summary;
    let [low, high] = held.to_le_bytes();
    buffer[..NUMBERS].copy_from_slice(&[state, queues, gets, sets, low, high]);
    answer.into()
}

/// Tells a configuration in a buffer that has the generation first.
fn configuration_into(buffer: &mut [u8], tell: impl FnOnce(&mut [u8], &mut u32) -> u8) -> usize {
    let (number, bytes) = buffer.split_at_mut(GENERATION);
    let mut generation = u32_at(number, 0);
    let answer = tell(bytes, &mut generation);
    number.copy_from_slice(&generation.to_le_bytes());
    answer.into()
}
