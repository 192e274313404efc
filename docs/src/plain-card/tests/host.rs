//! Request 1 of document 02: the host's half, by itself and with the card.

mod common;

use common::*;
use plain_card::exported::reply_read;
use plain_card::frame::Frame;
use plain_card::host::{read, Answer, Request};
use plain_card::member::Mode;
use plain_card::object::Kind;
use plain_card::opcode::Opcode;
use plain_card::operation::{About, Command, Operation};
use plain_card::Setup;

const MEMBER: u64 = 0x0102_0304_0506_0708;
const ID: u32 = 0x0a0b_0c0d;
const LIST: [u8; 3] = [0x77, 0x88, 0x99];

/// Each command with fields whose bytes all differ, and the bytes wanted
/// behind the head.
fn all() -> [(Request<'static>, u16, u64, Vec<u8>); 10] {
    let id = [0, 0, 0, 0, 0x0d, 0x0c, 0x0b, 0x0a];
    let byte = [0xfe, 0, 0, 0, 0, 0, 0, 0];
    let with_flags = [id, [0; 8]].concat();
    let with_byte = [id, byte].concat();
    let of_kind = [id, [0; 8], byte].concat();
    [
        (Request::ListQuery, 0x00, 0, vec![]),
        (Request::ListUse(MEMBER), 0x01, 0, vec![8, 7, 6, 5, 4, 3, 2, 1]),
        (Request::Create(MEMBER, ID, 0xfe), 0x0a, MEMBER, of_kind.clone()),
        (Request::Modify(MEMBER, ID, 0xfe), 0x0b, MEMBER, of_kind),
        (Request::Query(MEMBER, ID), 0x0c, MEMBER, with_flags),
        (Request::Destroy(MEMBER, ID), 0x0d, MEMBER, id.to_vec()),
        (Request::Metadata(MEMBER, ID, 0xfe), 0x0e, MEMBER, with_byte.clone()),
        (Request::Get(MEMBER, ID, 0xfe, &LIST), 0x0f, MEMBER, [&with_byte[..], &LIST].concat()),
        (Request::Set(MEMBER, ID, &LIST), 0x10, MEMBER, [&id[..], &LIST].concat()),
        (Request::Mode(MEMBER, 0xfe), 0x11, MEMBER, vec![0xfe]),
    ]
}

#[test]
fn fields_go_in_as_given_and_all_else_is_zero() {
    for (request, opcode, member, data) in all() {
        assert_eq!(request.bytes(), common::request(opcode, member, &data), "{request:?}");
    }
}

#[test]
fn a_request_stands_at_the_start_of_its_buffer() {
    for (request, ..) in all() {
        let bytes = request.bytes();
        for more in [0, 1, 100, 5000] {
            let mut buffer = vec![PATTERN; bytes.len() + more];
            assert_eq!(request.build(&mut buffer), Some(bytes.len()));
            assert_eq!(buffer, [bytes.clone(), vec![PATTERN; more]].concat());
        }
    }
}

#[test]
fn a_short_buffer_is_not_written() {
    for (request, ..) in all() {
        for length in 0..request.bytes().len() {
            let mut buffer = vec![PATTERN; length];
            assert_eq!(request.build(&mut buffer), None);
            assert_eq!(buffer, vec![PATTERN; length]);
        }
    }
}

#[test]
fn lists_fill_a_request_up_to_4096_bytes() {
    let list = vec![3; 70_000];
    let mut buffer = vec![PATTERN; 80_000];
    let mut length = |request: Request| {
        buffer.fill(PATTERN);
        let length = request.build(&mut buffer);
        assert!(buffer[length.unwrap_or(0)..].iter().all(|byte| *byte == PATTERN));
        length
    };
    assert_eq!(length(Request::Get(1, 0, 0, &list[..4056])), Some(4096));
    assert_eq!(length(Request::Set(1, 0, &list[..4064])), Some(4096));
    for long in [4057, 4065, 65_536 - 40, 65_536, 70_000] {
        assert_eq!(length(Request::Get(1, 0, 0, &list[..long])), None);
    }
    for long in [4065, 65_536 - 32, 65_536, 70_000] {
        assert_eq!(length(Request::Set(1, 0, &list[..long])), None);
    }
}

#[test]
fn a_built_request_is_taken_as_that_command_with_those_fields() {
    let setup = Setup::alike(3, 1, 2, 2, [0; 16]).unwrap().common;
    let headers = [header(0x103, 0, 0), header(0x106, 9, 7)].concat();
    let taken = [
        (Request::ListQuery, Command::ListQuery),
        (Request::ListUse(0x3c01), Command::ListUse(0x3c01)),
        (Request::Create(2, 3, 1), on(Operation::Create(3, Kind::Set))),
        (Request::Modify(2, 3, 0), on(Operation::Modify(3, Kind::Get))),
        (Request::Query(2, 1), on(Operation::Query(1))),
        (Request::Destroy(2, 0), on(Operation::Destroy(0))),
        (Request::Metadata(2, 1, 2), on(Operation::Metadata(1, About::List))),
        (Request::Get(2, 1, 0, &headers), on(Operation::GetSelected(1, &headers))),
        (Request::Get(2, 1, 1, &[]), on(Operation::GetAll(1))),
        (Request::Set(2, 1, &LIST), on(Operation::PartsSet(1, &LIST))),
        (Request::Mode(2, 1), on(Operation::ModeSet(Mode::Stopped))),
    ];
    for (request, command) in taken {
        let bytes = request.bytes();
        let frame = Frame::read(&bytes).unwrap();
        frame.check_group_type().unwrap();
        let opcode = frame.opcode_in_use(ALL).unwrap();
        assert_eq!(frame.member, if opcode.names_member() { 2 } else { 0 });
        assert_eq!(Command::read(opcode, frame.data, &setup).unwrap(), command);
    }
}

fn on(operation: Operation) -> Command {
    Command::OnMember(operation)
}

/// A reply with this head and result.
fn reply_of(status: u16, qualifier: u16, result: &[u8]) -> Vec<u8> {
    let mut reply = [status.to_le_bytes(), qualifier.to_le_bytes()].concat();
    reply.extend([0; 4]);
    reply.extend(result);
    reply
}

/// Whether a result of a command that succeeded is read.
fn is_read(opcode: Opcode, what: u8, result: &[u8]) -> bool {
    let reply = reply_of(0, 0, result);
    let answer = read(opcode, what, &reply);
    assert!(answer.is_none_or(|answer| answer.result == result && answer.status == 0));
    answer.is_some()
}

#[test]
fn a_reply_has_a_head() {
    for opcode in Opcode::ALL {
        for length in 0..8 {
            assert_eq!(read(opcode, 0, &[0; 8][..length]), None);
            assert_eq!(read(opcode, 0, &reply_of(22, 1, &[])[..length]), None);
        }
    }
}

#[test]
fn a_refusal_is_exactly_a_head() {
    for opcode in Opcode::ALL {
        for status in [6, 11, 12, 17, 22, 28, 1, 256, 65_535] {
            assert!(read(opcode, 2, &reply_of(status, 1, &[])).is_some());
            for length in [1, 8, 16, 24] {
                assert_eq!(read(opcode, 2, &reply_of(status, 1, &vec![0; length])), None);
            }
        }
    }
}

#[test]
fn results_have_the_length_of_their_command() {
    for length in 0..40 {
        let result = vec![0; length];
        for opcode in Opcode::ALL {
            let right = match opcode {
                Opcode::ListQuery | Opcode::Query | Opcode::Metadata => length == 8,
                Opcode::PartsGet => length % 16 == 0,
                _ => length == 0,
            };
            for what in [0, 1, 2, 3, 255] {
                assert_eq!(is_read(opcode, what, &result), right, "{opcode:?}, {length} bytes");
            }
        }
    }
}

#[test]
fn a_metadata_list_goes_by_its_count() {
    let list = |count: u32, headers: usize| {
        let mut result = [count.to_le_bytes(), [0xff; 4]].concat();
        result.resize(8 + headers, 0xff);
        is_read(Opcode::Metadata, 2, &result)
    };
    for count in 0..20 {
        assert!(list(count, 16 * count as usize));
        assert!(!list(count, 16 * count as usize + 1));
        assert!(!list(count, 16 * count as usize + 16));
        assert!(count == 0 || !list(count, 16 * count as usize - 1));
    }
    // 16 times the count does not wrap.
    assert!(!list(1 << 28, 0) && !list((1 << 28) + 1, 16) && !list(u32::MAX, 0));
    assert!(!list(1 << 12, 0) && list(1 << 12, 1 << 16));
    // Asked for a number, the count says nothing.
    assert!(is_read(Opcode::Metadata, 1, &[9, 0, 0, 0, 0, 0, 0, 0]));
    assert!(!is_read(Opcode::Metadata, 2, &[9, 0, 0, 0, 0, 0, 0, 0]));
}

#[test]
fn parts_are_whole_up_to_the_end() {
    let parts = [part(0x600, 0, &[]), part(0x101, 0, &[1; 16]), part(0xffff, 9, &[2; 5])].concat();
    for length in 0..=parts.len() {
        let whole = [0, 16, 48, 69].contains(&length);
        assert_eq!(is_read(Opcode::PartsGet, 0, &parts[..length]), whole, "{length} bytes");
    }
    for length in [1, 0xffff_fff0, u32::MAX] {
        assert!(!is_read(Opcode::PartsGet, 0, &header(0x101, 0, length)));
    }
}

#[test]
fn unknown_numbers_are_handled_as_22_and_1_and_still_shown() {
    for sent_status in (0..100).chain([256, 278, 65_535]) {
        for sent_qualifier in [0, 1, 5, 7, 8, 9, 255, 256, 65_535] {
            let known = [0, 6, 11, 12, 17, 22, 28].contains(&sent_status);
            let status = if known { sent_status } else { 22 };
            let qualifier = if sent_qualifier <= 7 { sent_qualifier } else { 1 };
            let answer = Answer { status, qualifier, sent_status, sent_qualifier, result: &[] };
            let reply = reply_of(sent_status, sent_qualifier, &[]);
            assert_eq!(read(Opcode::ModeSet, 0, &reply), Some(answer));
        }
    }
}

#[test]
fn reserved_bytes_of_a_reply_are_not_looked_at() {
    let mut reply = reply_of(0, 0, &[0xff; 8]);
    reply[4..8].fill(0xff);
    assert_eq!(read(Opcode::Query, 0, &reply).unwrap().result, [0xff; 8]);
}

#[test]
fn an_opcode_that_is_none_of_the_ten_is_refused() {
    for opcode in (0..=u16::MAX).filter(|opcode| Opcode::from_number(*opcode).is_none()) {
        let mut numbers = [7; 4];
        assert_eq!(reply_read(opcode, 0, &reply_of(22, 2, &[]), &mut numbers), 1);
        assert_eq!(numbers, [7; 4]);
    }
    let mut numbers = [7; 4];
    assert_eq!(reply_read(0x0a, 0, &reply_of(99, 9, &[]), &mut numbers), 0);
    assert_eq!(numbers, [22, 1, 99, 9]);
}

#[test]
fn whatever_the_card_answers_is_read() {
    let headers = header(0x103, 0, 0);
    for id in 0..4 {
        for room in [8, 16, 100, 300] {
            let mut card = stopped(card(2, 1, 1, 1));
            for request in [
                Request::ListQuery,
                Request::Query(1, id),
                Request::Metadata(1, id, 0),
                Request::Metadata(1, id, 1),
                Request::Metadata(1, id, 2),
                Request::Metadata(1, id, 3),
                Request::Get(1, id, 0, &headers),
                Request::Get(1, id, 0, &LIST),
                Request::Get(1, id, 1, &[]),
                Request::Set(1, id, &[]),
                Request::Set(1, id, &LIST),
                Request::Mode(3, 1),
                Request::Mode(2, 1),
                Request::Modify(1, id, 0),
                Request::Create(2, id, 1),
                Request::Destroy(1, id),
                Request::ListUse(1 << 2),
                Request::ListUse(ALL),
            ] {
                let reply = reply_in(&mut card, &request.bytes(), room);
                let what = if let Request::Metadata(_, _, what) = request { what } else { 0 };
                let answer = read(request.opcode(), what, &reply).expect("it is read");
                let Answer { status, qualifier, sent_status, sent_qualifier, result } = answer;
                assert_eq!((status, qualifier), (sent_status, sent_qualifier));
                assert_eq!(reply, reply_of(status, qualifier, result));
            }
        }
    }
}
