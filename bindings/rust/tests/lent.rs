//! A lent card is used as an owned one is.

mod common;

use common::{capture, fresh_card, make_ready, ready_card, restore, stop, GET, QUEUE, SETUP};
use kajurnat::{Card, NotSound, PartType, Reply, Request, Setup, SetupError};
use std::error::Error;

/// Every call that changes a card, on a fresh one.
fn use_card<B: AsMut<[u8]>>(card: &mut Card<B>) -> Result<(), Box<dyn Error>> {
    make_ready(card)?;
    card.store(1, PartType::VQ_CFG, 0, &QUEUE)?;
    stop(card, 1)?;
    stop(card, 2)?;
    let parts = capture(card, 1)?;
    restore(card, 2, &parts)?;
    card.hand_back(1)?;
    card.wipe(1, 0)?;
    card.command(Request::capture(2, GET), &mut [0; Reply::MAX])?;
    Ok(())
}

#[test]
fn a_card_is_the_same_in_any_memory() -> Result<(), Box<dyn Error>> {
    let mut owned = fresh_card();
    use_card(&mut owned)?;

    let mut memory = [0xee; SETUP.card_bytes()];
    let mut lent = Card::new_in(&SETUP, &mut memory[..])?;
    assert_eq!(lent, fresh_card());
    use_card(&mut lent)?;
    assert_eq!(lent, owned);
    assert_eq!(lent.setup(), owned.setup());
    assert_eq!(memory, owned.as_bytes());

    let mut array = Card::new_in(&SETUP, [0xee; SETUP.card_bytes()])?;
    use_card(&mut array)?;
    assert_eq!(array, owned);

    let mut boxed = Card::from_bytes(fresh_card().into_bytes().into_boxed_slice())?;
    use_card(&mut boxed)?;
    assert_eq!(boxed, owned);

    boxed.reset(0);
    assert_eq!(boxed, fresh_card());
    Ok(())
}

#[test]
fn a_lent_card_is_taken_up_again() -> Result<(), Box<dyn Error>> {
    let mut memory = fresh_card().into_bytes();
    make_ready(&mut Card::from_bytes(&mut memory)?)?;
    assert_eq!(memory, ready_card().as_bytes());
    Card::from_bytes(&mut memory[..])?.reset(0);
    assert_eq!(memory, fresh_card().as_bytes());
    Ok(())
}

#[test]
fn bytes_lent_to_be_read_tell_their_setup() {
    let kept = ready_card().into_bytes();
    assert_eq!(Card::from_bytes(&kept[..]).unwrap().setup(), SETUP);
}

#[test]
fn lent_bytes_that_are_no_card_are_left_alone() {
    let mut bytes = fresh_card().into_bytes();
    bytes[0] = 17;
    let before = bytes.clone();
    assert_eq!(Card::from_bytes(&mut bytes[..]).unwrap_err(), NotSound);
    assert_eq!(bytes, before);
}

#[test]
fn memory_has_the_length_of_the_card() {
    let card = SETUP.card_bytes();
    for memory in [0, card - 1, card + 1] {
        let mut bytes = vec![0xee; memory];
        let error = Card::new_in(&SETUP, &mut bytes[..]).unwrap_err();
        assert_eq!(error, SetupError::Length { memory, card });
        assert!(bytes.iter().all(|&byte| byte == 0));
    }
}

#[test]
fn a_refused_setup_leaves_zeros() {
    let setup = Setup { queues: [5; 16], ..SETUP };
    let mut memory = ready_card().into_bytes();
    let error = Card::new_in(&setup, &mut memory[..]).unwrap_err();
    assert_eq!(error, SetupError::Queues { member: 1, queues: 5 });
    assert!(memory.iter().all(|&byte| byte == 0));
}

/// Memory that gives a sound card to be read and zeros to be written.
struct TwoMemories {
    read: Vec<u8>,
    written: Vec<u8>,
}

impl AsRef<[u8]> for TwoMemories {
    fn as_ref(&self) -> &[u8] {
        &self.read
    }
}

impl AsMut<[u8]> for TwoMemories {
    fn as_mut(&mut self) -> &mut [u8] {
        &mut self.written
    }
}

#[test]
#[should_panic(expected = "a sound card replies to every command")]
fn memory_that_gives_other_bytes_is_found_out() {
    let read = fresh_card().into_bytes();
    let written = vec![0; read.len()];
    let mut card = Card::from_bytes(TwoMemories { read, written }).unwrap();
    let _ = card.send(Request::list_query());
}
