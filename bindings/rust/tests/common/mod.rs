//! The commands that the tests send, and a card to send them to.

// No test sends all of them.
#![allow(dead_code)]

use kajurnat::{Card, Kind, Opcode, Refusal, Request, Setup};

/// The ids of the objects of a member.
pub const GET: u32 = 0;
pub const SET: u32 = 1;

/// Two members, one queue, one get and one set object, no device features.
pub const SETUP: Setup = Setup::alike(2, 1, 1, 1, [0; 16]);

/// The value of a queue of size 128.
pub const QUEUE: [u8; 32] = {
    let mut value = [0xa5; 32];
    value[0] = 128;
    value[1] = 0;
    value
};

pub fn fresh_card() -> Card {
    Card::new(&SETUP).expect("the setup is in range")
}

/// A fresh card with every command in use, and both objects of both members
/// live.
pub fn ready_card() -> Card {
    let mut card = fresh_card();
    make_ready(&mut card).expect("there is room for the objects");
    card
}

pub fn make_ready<B: AsMut<[u8]>>(card: &mut Card<B>) -> Result<(), Refusal> {
    use_all(card)?;
    for member in 1..=2 {
        card.send(Request::create(member, GET, Kind::Get))?;
        card.send(Request::create(member, SET, Kind::Set))?;
    }
    Ok(())
}

pub fn use_all<B: AsMut<[u8]>>(card: &mut Card<B>) -> Result<Vec<u8>, Refusal> {
    card.send(Request::list_use(Opcode::SUPPORTED))
}

pub fn stop<B: AsMut<[u8]>>(card: &mut Card<B>, member: u64) -> Result<Vec<u8>, Refusal> {
    card.send(Request::stop(member))
}

pub fn capture<B: AsMut<[u8]>>(card: &mut Card<B>, member: u64) -> Result<Vec<u8>, Refusal> {
    card.send(Request::capture(member, GET))
}

pub fn restore<B: AsMut<[u8]>>(
    card: &mut Card<B>,
    member: u64,
    parts: &[u8],
) -> Result<Vec<u8>, Refusal> {
    card.send(Request::set(member, SET, parts).expect("the parts are not too long"))
}
