//! The typed requests, and replies read as their answers.

mod common;

use common::{ready_card, GET, SET};
use kajurnat::{
    BadReply, Kind, Metadata, Opcode, PartType, Qualifier, Reply, Request, RequestTooLong, Status,
};

const MEMBER: u64 = 0x0102_0304_0506_0708;
const ID: u32 = 0x0a0b_0c0d;

/// A request by its opcode, member and data.
fn bytes(opcode: u8, member: u64, data: &[u8]) -> Vec<u8> {
    let head = [opcode, 0, 1, 0, 0, 0, 0, 0, 0, 0, 0, 0, 0, 0, 0, 0];
    [&head[..], &member.to_le_bytes(), data].concat()
}

#[test]
fn every_command_is_built_from_its_fields() {
    let object = [0, 0, 0, 0, 0x0d, 0x0c, 0x0b, 0x0a];
    let zero = [0; 8];
    let byte = |byte| [byte, 0, 0, 0, 0, 0, 0, 0];
    let with = |byte| [object, byte].concat();
    let of_kind = |kind| [object, zero, byte(kind)].concat();
    let list = [7, 8, 9];
    let built = [
        (Request::list_query(), bytes(0x00, 0, &[])),
        (Request::list_use(MEMBER), bytes(0x01, 0, &MEMBER.to_le_bytes())),
        (Request::create(MEMBER, ID, Kind::Get), bytes(0x0a, MEMBER, &of_kind(0))),
        (Request::create(MEMBER, ID, Kind::Set), bytes(0x0a, MEMBER, &of_kind(1))),
        (Request::modify(MEMBER, ID, Kind::Get), bytes(0x0b, MEMBER, &of_kind(0))),
        (Request::modify(MEMBER, ID, Kind::Set), bytes(0x0b, MEMBER, &of_kind(1))),
        (Request::query(MEMBER, ID), bytes(0x0c, MEMBER, &with(zero))),
        (Request::destroy(MEMBER, ID), bytes(0x0d, MEMBER, &object)),
        (Request::metadata(MEMBER, ID, Metadata::Size), bytes(0x0e, MEMBER, &with(byte(0)))),
        (Request::metadata(MEMBER, ID, Metadata::Count), bytes(0x0e, MEMBER, &with(byte(1)))),
        (Request::metadata(MEMBER, ID, Metadata::List), bytes(0x0e, MEMBER, &with(byte(2)))),
        (Request::capture(MEMBER, ID), bytes(0x0f, MEMBER, &with(byte(1)))),
        (
            Request::get(MEMBER, ID, &list).unwrap(),
            bytes(0x0f, MEMBER, &[&with(zero)[..], &list].concat()),
        ),
        (
            Request::set(MEMBER, ID, &list).unwrap(),
            bytes(0x10, MEMBER, &[&object[..], &list].concat()),
        ),
        (Request::stop(MEMBER), bytes(0x11, MEMBER, &[1])),
        (Request::resume(MEMBER), bytes(0x11, MEMBER, &[0])),
    ];
    for (request, expected) in built {
        assert_eq!(request.as_bytes(), expected, "{request:?}");
        assert_eq!(request.opcode(), Opcode(u16::from(expected[0])));
    }
}

#[test]
fn a_request_has_room_for_long_lists() {
    let list = [0; 4096];
    for (length, get, set) in [(4056, true, true), (4057, false, true), (4064, false, true)] {
        assert_eq!(Request::get(1, 0, &list[..length]).is_ok(), get);
        assert_eq!(Request::set(1, 0, &list[..length]).is_ok(), set);
    }
    assert_eq!(Request::get(1, 0, &list[..4057]), Err(RequestTooLong { list: 4057 }));
    assert_eq!(Request::set(1, 0, &list[..4065]), Err(RequestTooLong { list: 4065 }));
    let longest = Request::set(1, 0, &list[..4064]).unwrap();
    assert_eq!(longest.as_bytes().len(), Request::MAX);
}

#[test]
fn every_command_is_carried_out() {
    let mut card = ready_card();
    card.store(1, PartType::DEVICE_STATUS, 0, &[7]).unwrap();
    let status = [3, 1, 0, 0, 0, 0, 0, 0, 0, 0, 0, 0, 1, 0, 0, 0];
    let results = [
        (Request::list_query(), Opcode::SUPPORTED.to_le_bytes().to_vec()),
        (Request::query(1, SET), vec![1, 0, 0, 0, 0, 0, 0, 0]),
        (Request::metadata(1, GET, Metadata::Size), vec![229, 0, 0, 0, 0, 0, 0, 0]),
        (Request::metadata(1, GET, Metadata::Count), vec![9, 0, 0, 0, 0, 0, 0, 0]),
        (Request::get(1, GET, &status).unwrap(), [&status[..], &[7]].concat()),
        (Request::modify(1, GET, Kind::Get), vec![]),
        (Request::stop(1), vec![]),
        (Request::set(1, SET, &[&status[..], &[8]].concat()).unwrap(), vec![]),
        (Request::resume(1), vec![]),
        (Request::destroy(1, SET), vec![]),
    ];
    for (request, result) in results {
        assert_eq!(card.send(&request), Ok(result), "{request:?}");
    }
    let list = card.send(Request::metadata(1, GET, Metadata::List)).unwrap();
    assert_eq!(list.len(), 8 + 9 * 16);
    let parts = card.send(Request::capture(1, GET)).unwrap();
    assert_eq!(parts.len(), 229);
}

#[test]
fn a_reply_is_read_as_the_answer_to_its_request() {
    let query = Request::list_query();
    let stop = Request::stop(1);
    let mut reply = [0; 16];
    reply[8] = 3;
    assert_eq!(query.read(&reply).unwrap().result(), Ok(&reply[8..]));
    assert_eq!(query.read(&reply[..8]), Err(BadReply { length: 8 }));
    assert_eq!(stop.read(&reply), Err(BadReply { length: 16 }));
    assert_eq!(stop.read(&reply[..8]).unwrap().result(), Ok(&[][..]));

    // Three headers are told and none is there.
    assert!(Request::metadata(1, GET, Metadata::Count).read(&reply).is_ok());
    let list = Request::metadata(1, GET, Metadata::List);
    assert_eq!(list.read(&reply), Err(BadReply { length: 16 }));
    reply[8] = 0;
    assert!(list.read(&reply).is_ok());
}

#[test]
fn numbers_that_are_not_known_are_handled_and_shown() {
    let stop = Request::stop(1);
    let reply = stop.read(&[0xe7, 3, 0xff, 0xff, 0, 0, 0, 0]).unwrap();
    assert_eq!((reply.status(), reply.qualifier()), (Status::EINVAL, Qualifier::INVALID_COMMAND));
    assert_eq!((reply.sent_status(), reply.sent_qualifier()), (Status(999), Qualifier(0xffff)));
    let reply = stop.read(&[0, 0, 8, 0, 0, 0, 0, 0]).unwrap();
    assert_eq!((reply.status(), reply.qualifier()), (Status::OK, Qualifier::INVALID_COMMAND));
    assert_eq!(reply.result(), Ok(&[][..]));
}

#[test]
fn bytes_under_a_head_are_no_reply() {
    for length in 0..Reply::HEAD {
        let answer = Request::stop(1).read(&[0; Reply::HEAD][..length]);
        assert_eq!(answer, Err(BadReply { length }));
    }
}
