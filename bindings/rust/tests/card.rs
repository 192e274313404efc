//! The safe card, from setup to reset.

mod common;

use common::{capture, fresh_card, ready_card, restore, stop, use_all, GET, QUEUE, SET, SETUP};
use kajurnat::{
    Card, EventError, Kind, NotSound, Opcode, PartType, Qualifier, Refusal, Reply, ReplyTooShort,
    Request, Setup, SetupError, Status,
};

/// A refusal by its two numbers, which are known.
fn refused<T>(status: Status, qualifier: Qualifier) -> Result<T, Refusal> {
    Err(Refusal { status, qualifier, sent_status: status, sent_qualifier: qualifier })
}

#[test]
fn a_card_of_any_setup_is_sound_and_tells_it() {
    let features = *b"sixteen features";
    for members in Setup::MEMBERS {
        for queues in Setup::QUEUES {
            for gets in Setup::OBJECTS {
                for sets in Setup::OBJECTS {
                    let setup = Setup::alike(members, queues, gets, sets, features);
                    let card = Card::new(&setup).unwrap();
                    assert_eq!(card.setup(), setup);
                    assert!(Card::from_bytes(card.as_bytes()).is_ok());
                }
            }
        }
    }
}

#[test]
fn a_card_in_use_tells_its_setup() {
    let mut card = ready_card();
    card.store(1, PartType::DRV_FEATURES, 0, &[0x5a; 16]).unwrap();
    stop(&mut card, 2).unwrap();
    assert_eq!(card.setup(), SETUP);
    assert_eq!(Card::from_bytes(card.into_bytes()).unwrap().setup(), SETUP);
}

#[test]
fn the_first_number_out_of_range_is_named() {
    let error = |members, queues, gets, sets| {
        let setup = Setup::alike(members, queues, gets, sets, [0; 16]);
        Card::new(&setup).unwrap_err()
    };
    assert_eq!(error(0, 1, 0, 0), SetupError::Members(0));
    assert_eq!(error(17, 5, 9, 9), SetupError::Members(17));
    assert_eq!(error(255, 1, 0, 0), SetupError::Members(255));
    assert_eq!(error(1, 0, 0, 0), SetupError::Queues { member: 1, queues: 0 });
    assert_eq!(error(1, 5, 9, 9), SetupError::Queues { member: 1, queues: 5 });
    assert_eq!(error(1, 1, 9, 9), SetupError::Gets(9));
    assert_eq!(error(1, 1, 8, 9), SetupError::Sets(9));
}

#[test]
fn a_fresh_card_lists_its_commands() {
    let mask = fresh_card().send(Request::list_query());
    assert_eq!(mask.unwrap(), Opcode::SUPPORTED.to_le_bytes());
}

#[test]
fn a_command_has_to_be_in_use() {
    let mut card = fresh_card();
    let create = Request::create(1, 0, Kind::Get);
    let unused = refused(Status::EINVAL, Qualifier::INVALID_OPCODE);
    assert_eq!(card.send(&create), unused);
    use_all(&mut card).unwrap();
    assert_eq!(card.send(&create), Ok(Vec::new()));
}

#[test]
fn each_refusal_is_read_by_its_numbers() {
    let mut card = ready_card();
    let before = card.clone();
    let bad_member = refused(Status::EINVAL, Qualifier::INVALID_MEMBER);
    assert_eq!(stop(&mut card, 0), bad_member);
    assert_eq!(stop(&mut card, 3), bad_member);
    let live = refused(Status::EEXIST, Qualifier::INVALID_COMMAND);
    assert_eq!(card.send(Request::create(1, GET, Kind::Get)), live);
    let bad_id = refused(Status::EINVAL, Qualifier::INVALID_FIELD);
    assert_eq!(card.send(Request::create(1, 2, Kind::Get)), bad_id);
    let running = refused(Status::EAGAIN, Qualifier::TRYAGAIN);
    assert_eq!(restore(&mut card, 1, &[]), running);
    assert_eq!(card, before);
}

#[test]
fn any_bytes_are_a_request() {
    let mut card = fresh_card();
    let mut reply = |request: &[u8]| {
        let mut buffer = [0xee; Reply::MAX];
        card.command(request, &mut buffer).unwrap().to_vec()
    };
    let bad_length = [22, 0, 1, 0, 0, 0, 0, 0];
    assert_eq!(reply(b"no request"), bad_length);
    assert_eq!(reply(&[]), bad_length);
    assert_eq!(reply(&[0; Request::MAX + 1]), bad_length);
    let bad_group = [22, 0, 4, 0, 0, 0, 0, 0];
    assert_eq!(reply(&[0; 24]), bad_group);
    assert_eq!(reply(&[0; Request::MAX]), bad_group);
}

#[test]
fn a_request_sent_gives_the_result_in_the_reply() {
    let mut card = ready_card();
    let mut other = card.clone();
    let mut buffer = [0; Reply::MAX];
    for request in [Request::stop(1), Request::capture(1, GET), Request::capture(3, GET)] {
        let result = card.send(&request);
        let reply = other.command(&request, &mut buffer).unwrap();
        assert_eq!(request.read(reply).unwrap().result().map(<[u8]>::to_vec), result);
        assert_eq!(other, card);
    }
}

#[test]
fn a_reply_buffer_may_be_as_long_as_the_reply() {
    let mut card = ready_card();
    let mut buffer = [0xee; 237];
    let capture = Request::capture(1, GET);

    let reply = card.command(&capture, &mut buffer[..236]).unwrap();
    let short = refused(Status::ENOMEM, Qualifier::NORESOURCE);
    assert_eq!(capture.read(reply).unwrap().result(), short);
    assert!(buffer[Reply::HEAD..].iter().all(|&byte| byte == 0xee));

    let reply = card.command(&capture, &mut buffer).unwrap();
    assert_eq!(capture.read(reply).unwrap().result().unwrap().len(), 229);
}

#[test]
fn the_longest_reply_is_a_capture_of_four_queues() {
    let setup = Setup { queues: [4; 16], ..SETUP };
    let mut card = Card::new(&setup).unwrap();
    use_all(&mut card).unwrap();
    card.send(Request::create(1, GET, Kind::Get)).unwrap();
    let parts = capture(&mut card, 1).unwrap();
    assert_eq!(Reply::HEAD + parts.len(), Reply::MAX);
}

#[test]
fn a_reply_buffer_without_room_for_a_head_is_not_written() {
    let mut card = fresh_card();
    let before = card.clone();
    let request = Request::list_use(0);
    for length in 0..Reply::HEAD {
        let mut buffer = vec![0xee; length];
        let answer = card.command(&request, &mut buffer);
        assert_eq!(answer, Err(ReplyTooShort { buffer: length }));
        assert!(buffer.iter().all(|&byte| byte == 0xee));
    }
    assert_eq!(card, before);
}

#[test]
fn no_address_of_a_guest_is_shown() {
    let mut card = ready_card();
    let mut buffer = [0; Reply::MAX];
    let shown = |card: &mut Card, buffer: &mut [u8]| {
        let capture = Request::capture(1, GET);
        let reply = capture.read(card.command(&capture, buffer).unwrap()).unwrap();
        let restore = Request::set(1, SET, reply.result().unwrap()).unwrap();
        format!("{reply:?} {restore:?} {card:?}")
    };
    let fresh = shown(&mut card, &mut buffer);
    card.store(1, PartType::VQ_CFG, 0, &QUEUE).unwrap();
    assert_eq!(shown(&mut card, &mut buffer), fresh);
}

#[test]
fn a_member_moves_to_another_card() {
    let mut source = ready_card();
    source.store(1, PartType::DRV_FEATURES, 0, &[0x5a; 16]).unwrap();
    source.store(1, PartType::VQ_CFG, 0, &QUEUE).unwrap();
    stop(&mut source, 1).unwrap();
    let parts = capture(&mut source, 1).unwrap();

    let mut destination = ready_card();
    stop(&mut destination, 2).unwrap();
    restore(&mut destination, 2, &parts).unwrap();
    assert_eq!(capture(&mut destination, 2).unwrap(), parts);
}

#[test]
fn a_reset_leaves_nothing_of_a_member() {
    let mut card = ready_card();
    let fresh = capture(&mut card, 1).unwrap();
    card.store(1, PartType::VQ_CFG, 0, &QUEUE).unwrap();
    assert_ne!(capture(&mut card, 1).unwrap(), fresh);

    card.hand_back(1).unwrap();
    let later = refused(Status::EAGAIN, Qualifier::TRYAGAIN);
    assert_eq!(capture(&mut card, 1), later);
    card.store(1, PartType::DEVICE_STATUS, 0, &[0]).unwrap();
    card.wipe(1, 0).unwrap();
    let ended = refused(Status::ENXIO, Qualifier::INVALID_COMMAND);
    assert_eq!(capture(&mut card, 1), ended);
    card.send(Request::create(1, GET, Kind::Get)).unwrap();
    assert_eq!(capture(&mut card, 1).unwrap(), fresh);
}

#[test]
fn a_reset_of_the_card_makes_it_fresh() {
    let mut card = ready_card();
    card.store(2, PartType::DEVICE_STATUS, 0, &[4]).unwrap();
    card.reset(0);
    assert_eq!(card, fresh_card());
}

#[test]
fn a_bad_event_is_named_and_changes_nothing() {
    let mut card = ready_card();
    let before = card.clone();
    let no_member = Err(EventError::NoSuchMember);
    assert_eq!((card.hand_back(0), card.wipe(0, 1)), (no_member, no_member));
    assert_eq!(card.hand_back(u64::MAX), no_member);
    assert_eq!(card.wipe(1, 1), Err(EventError::WrongMark));
    assert_eq!(card.store(3, PartType::VQ_CFG, 9, &[]), no_member);
    let no_part = Err(EventError::NoSuchPart);
    assert_eq!(card.store(1, PartType::VQ_CFG, 1, &[0; 32]), no_part);
    assert_eq!(card.store(1, PartType::PCI_COMMON_CFG, 4, &[0; 4]), no_part);
    assert_eq!(card.store(1, PartType::DEV_FEATURES, 0, &[0; 16]), no_part);
    assert_eq!(card.store(1, PartType(0x106), 0, &[]), no_part);
    let wrong = Err(EventError::WrongLength);
    assert_eq!(card.store(1, PartType::VQ_CFG, 0, &[0; 31]), wrong);
    assert_eq!(card.store(1, PartType::VQ_CFG, 0, &[0; 33]), wrong);
    assert_eq!(card.store(1, PartType::DEVICE_STATUS, 0, &[]), wrong);
    let bad_size = Err(EventError::BadQueueSize);
    assert_eq!(card.store(1, PartType::VQ_CFG, 0, &[0xa5; 32]), bad_size);
    let enabled: [u8; 32] = core::array::from_fn(|at| u8::from(at == 5));
    assert_eq!(card.store(1, PartType::VQ_CFG, 0, &enabled), bad_size);
    assert_eq!(card, before);
}

#[test]
fn a_card_is_kept_as_bytes() {
    let mut card = ready_card();
    stop(&mut card, 2).unwrap();
    let kept = card.as_bytes().to_vec();
    assert_eq!(Card::from_bytes(kept).unwrap(), card);
}

#[test]
fn bytes_that_are_no_card_are_refused() {
    let sound = ready_card().into_bytes();
    let cut = sound[..sound.len() - 1].to_vec();
    let zeros = vec![0; sound.len()];
    let mut damaged = sound;
    damaged[0] = 17;
    for bytes in [Vec::new(), cut, zeros, damaged] {
        assert_eq!(Card::from_bytes(bytes).unwrap_err(), NotSound);
    }
}
