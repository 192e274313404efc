//! Setups as bytes, and members that differ in their queues.

use kajurnat::{BadSetup, Card, Kind, Metadata, Opcode, Request, Setup, SetupError};

/// Three members with 4, 1 and 2 queues.
fn differing() -> Setup {
    let mut setup = Setup::alike(3, 4, 1, 1, [7; 16]);
    setup.queues[1] = 1;
    setup.queues[2] = 2;
    setup
}

#[test]
fn a_card_tells_the_setup_it_was_made_with() {
    for setup in
        [differing(), Setup::alike(1, 1, 0, 0, [0; 16]), Setup::alike(16, 4, 8, 8, [1; 16])]
    {
        let mut card = Card::new(&setup).unwrap();
        assert_eq!(card.setup(), setup);
        card.reset(0);
        assert_eq!(card.setup(), setup);
    }
}

#[test]
fn each_member_has_the_parts_of_its_queues() {
    let mut card = Card::new(&differing()).unwrap();
    card.send(Request::list_use(Opcode::SUPPORTED)).unwrap();
    for (member, queues) in [(1, 4), (2, 1), (3, 2)] {
        card.send(Request::create(member, 0, Kind::Get)).unwrap();
        let count = card.send(Request::metadata(member, 0, Metadata::Count)).unwrap();
        assert_eq!(count[0], 7 + 2 * queues);
    }
}

#[test]
fn a_setup_reads_back_from_its_bytes() {
    let alike = Setup::alike(16, 3, 8, 0, [9; 16]);
    let bytes = alike.to_bytes().unwrap();
    assert_eq!((bytes.len(), bytes[0]), (19, 0x1f));
    assert_eq!(Setup::from_bytes(&bytes), Ok(alike));
    assert_eq!(Setup::from_bytes_v1(&bytes), Ok(alike));

    let bytes = differing().to_bytes().unwrap();
    assert_eq!((bytes.len(), &bytes[..4]), (20, &[0x22, 0x04, 0x40, 0b1100_0100][..]));
    assert_eq!(Setup::from_bytes(&bytes), Ok(differing()));
    assert_eq!(Setup::from_bytes_v1(&bytes), Err(BadSetup::Version2));
}

#[test]
fn a_card_is_made_of_the_bytes() {
    let bytes = differing().to_bytes().unwrap();
    assert_eq!(Card::from_setup(&bytes).unwrap(), Card::new(&differing()).unwrap());
    assert_eq!(Card::from_setup(&bytes[1..]).unwrap_err(), BadSetup::Refused);
}

#[test]
fn other_bytes_are_no_setup() {
    let bytes = differing().to_bytes().unwrap();
    for length in 0..bytes.len() {
        assert_eq!(Setup::from_bytes(&bytes[..length]), Err(BadSetup::Refused));
    }
    assert_eq!(Setup::from_bytes_v1(&[]), Err(BadSetup::Refused));
    assert_eq!(Setup::from_bytes_v1(&bytes[..1]), Err(BadSetup::Version2));
}

#[test]
fn a_number_out_of_range_is_named() {
    let setup = differing();
    let mut no_queues = setup;
    no_queues.queues[2] = 0;
    for (setup, error) in [
        (Setup { members: 0, ..setup }, SetupError::Members(0)),
        (Setup { members: 200, ..setup }, SetupError::Members(200)),
        (no_queues, SetupError::Queues { member: 3, queues: 0 }),
        (Setup { members: 4, ..setup }, SetupError::Queues { member: 4, queues: 0 }),
        (Setup { gets: 9, ..setup }, SetupError::Gets(9)),
        (Setup { sets: 9, ..setup }, SetupError::Sets(9)),
    ] {
        assert_eq!(setup.to_bytes(), Err(error));
        assert_eq!(Card::new(&setup), Err(error));
    }
}
