//! What the card's own firmware reads.

use kajurnat::{
    raw, Card, Configuration, Kind, LoadError, Message, Opcode, PartType, Request, Setup, State,
};

/// Two members, of one and of two queues.
fn setup() -> Setup {
    let mut setup = Setup::alike(2, 1, 1, 1, [3; 16]);
    setup.queues[1] = 2;
    setup
}

#[test]
fn a_load_gives_what_was_stored_in_every_state() {
    let mut card = Card::new(&setup()).unwrap();
    let mut queue = [0xaa; 32];
    queue[..2].copy_from_slice(&[64, 0]);
    card.store(2, PartType::VQ_CFG, 1, &queue).unwrap();
    let loaded = |card: &Card| {
        let mut value = [0; 32];
        card.load(2, PartType::VQ_CFG, 1, &mut value).map(|()| value)
    };
    assert_eq!(loaded(&card), Ok(queue));
    card.send(Request::list_use(Opcode::SUPPORTED)).unwrap();
    card.send(Request::stop(2)).unwrap();
    assert_eq!(loaded(&card), Ok(queue));
    card.hand_back(2).unwrap();
    assert_eq!(loaded(&card), Ok(queue));
    card.wipe(2, 0).unwrap();
    assert_eq!(loaded(&card), Ok([0; 32]));
}

#[test]
fn a_refused_load_writes_nothing() {
    let card = Card::new(&setup()).unwrap();
    let mut value = [0xee; 31];
    let mut refused = |member, part_type, selector| {
        card.load(member, part_type, selector, &mut value).unwrap_err()
    };
    assert_eq!(refused(3, PartType(0x106), 0), LoadError::NoSuchMember);
    assert_eq!(refused(1, PartType(0x106), 0), LoadError::NoSuchPart);
    assert_eq!(refused(1, PartType::VQ_CFG, 1), LoadError::NoSuchPart);
    assert_eq!(refused(2, PartType::VQ_CFG, 1), LoadError::WrongLength);
    assert_eq!(value, [0xee; 31]);
    assert_eq!(raw::load(&[], 1, 0x103, 0, &mut value), 9);
    let mut features = [0; 16];
    card.load(1, PartType::DEV_FEATURES, 0, &mut features).unwrap();
    assert_eq!(features, [3; 16]);
}

#[test]
fn a_member_is_told_in_numbers() {
    let mut card = Card::new(&setup()).unwrap();
    let fresh = card.member(2).unwrap();
    assert_eq!((fresh.state, fresh.queues), (State::Running, 2));
    assert_eq!((fresh.gets, fresh.sets, fresh.held), (0, 0, None));
    card.send(Request::list_use(Opcode::SUPPORTED)).unwrap();
    card.send(Request::create(2, 0, Kind::Get)).unwrap();
    card.send(Request::stop(2)).unwrap();
    let stopped = card.member(2).unwrap();
    assert_eq!((stopped.state, stopped.gets, stopped.sets), (State::Stopped, 1, 0));
    card.hand_back(2).unwrap();
    let marked = card.member(2).unwrap();
    assert_eq!((marked.state, marked.gets), (State::Marked, 0));
    assert_eq!(card.member(0), Err(LoadError::NoSuchMember));
}

#[test]
fn bytes_held_are_told() {
    let mut bytes = Card::new(&setup()).unwrap().into_bytes();
    assert_eq!(raw::restore_begin(&mut bytes, 1), 0);
    assert_eq!(Card::from_bytes(&bytes[..]).unwrap().member(1).unwrap().held, Some(0));
    assert_eq!(raw::restore_feed(&mut bytes, 1, &[1, 2, 3]), 0);
    assert_eq!(Card::from_bytes(&bytes[..]).unwrap().member(1).unwrap().held, Some(3));
}

#[test]
fn a_configuration_is_told_as_a_message_wrote_it() {
    let mut card = Card::new(&setup()).unwrap();
    card.reset(9);
    let message = Message::set_config(1, 9, 4, &[7; 4]).unwrap();
    card.message(message, &mut [0; 32]).unwrap();
    let mut bytes = [0; 12];
    bytes[4..8].fill(7);
    assert_eq!(card.configuration(2), Ok(Configuration { bytes, generation: 10 }));
    assert_eq!(card.configuration(3), Err(LoadError::NoSuchMember));
}

#[test]
fn the_setup_of_a_card_is_told() {
    let card = Card::new(&setup()).unwrap();
    assert_eq!(card.setup(), setup());
    let mut packed = [0xee; Setup::BYTES_MAX];
    assert_eq!(raw::setup_of(card.as_bytes(), &mut packed[..19]), 0);
    assert_eq!(packed, [0xee; Setup::BYTES_MAX]);
    let length = raw::setup_of(card.as_bytes(), &mut packed);
    assert_eq!(packed[..length], setup().to_bytes().unwrap());
    assert_eq!(Card::from_setup(&packed[..length]).unwrap(), card);
}
