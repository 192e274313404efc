//! What is compared: the archive and the plain card, each with its own card.

mod archive;
mod lists;
mod loads;
mod plain;

pub use archive::{Archive, Lending, Misuse};
pub use plain::Plain;

use plain_card::frame::u16_at;

use crate::call::{Call, COUNTS, NUMBERS};
use crate::memory::Lent;

/// A card that hears calls.
pub trait Device {
    /// Hears a call and tells the bytes written, or the answer.
    fn call(&mut self, call: &Call, reply: &mut Lent) -> usize;

    /// The card's bytes.
    fn card(&mut self) -> &[u8];

    /// 1 if it says that the card is sound, 0 if not.
    fn is_sound(&mut self) -> u8;

    /// What it did since last asked to memory that it may not access or change.
    fn violations(&mut self) -> Vec<String> {
        vec![]
    }
}

/// Makes a device that has no card yet.
pub type Make<'a> = &'a dyn Fn() -> Box<dyn Device>;

/// Everything that a call shows but the card.
#[derive(PartialEq, Eq)]
pub struct Seen {
    /// The bytes written, or the answer.
    pub answer: usize,
    /// The whole buffer that is written besides the card.
    pub reply: Lent,
    /// 1 if the device says that the card after the call is sound, 0 if not.
    pub sound: u8,
    /// What was done to memory that may not be accessed or changed.
    pub violations: Vec<String>,
}

/// Reads a reply into the four numbers that stand in a buffer.
fn read_into(buffer: &mut [u8], read: impl FnOnce(&mut [u16; 4]) -> u8) -> usize {
    let mut numbers: [u16; 4] = std::array::from_fn(|index| u16_at(buffer, 2 * index));
    let answer = read(&mut numbers);
    for (place, number) in buffer[..NUMBERS].chunks_exact_mut(2).zip(numbers) {
        place.copy_from_slice(&number.to_le_bytes());
    }
    answer.into()
}

/// Reads a setup into three numbers, queues and features that stand in a buffer.
fn read_setup_into(
    buffer: &mut [u8],
    queues: usize,
    read: impl FnOnce(&mut [u8; COUNTS], &mut [u8], &mut [u8]) -> u8,
) -> usize {
    let (counts, rest) = buffer.split_first_chunk_mut().expect("there is room for them");
    let (queues, features) = rest.split_at_mut(queues);
    read(counts, queues, features).into()
}

/// Makes a call with a reply buffer that holds the pattern.
pub fn see(device: &mut dyn Device, call: &Call) -> Seen {
    let mut reply = Lent::patterned(call.room());
    let answer = device.call(call, &mut reply);
    let sound = device.is_sound();
    let mut violations = device.violations();
    violations.extend(reply.violations("reply buffer"));
    Seen { answer, reply, sound, violations }
}
