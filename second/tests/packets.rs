//! The packet reader and writer.

use second::maker::Dice;
use second::packet::{Field, Kind, Message};
use second::refusal::Refusal;

/// The IDs of the paper's field table.
const TABLED: [u8; 12] = [0, 1, 2, 3, 4, 5, 6, 8, 10, 12, 13, 14];

/// A packet with a length word that tells the truth.
fn packet(first: u8, fields: &[u8]) -> Vec<u8> {
    let mut packet = vec![first, 204, 0, 0, 0, 0, 0, 1];
    packet.extend(b"MCPT");
    packet.extend(fields);
    let words = (packet.len() / 4 - 1) as u16;
    packet[2..4].copy_from_slice(&words.to_be_bytes());
    packet
}

fn refused(packet: &[u8]) -> u8 {
    Message::read(packet).map_or_else(Refusal::number, |_| 0)
}

/// A field and its padding.
fn field(id: u8, content: &[u8]) -> Vec<u8> {
    let mut octets = vec![id, content.len() as u8];
    octets.extend(content);
    while octets.len() % 4 != 0 {
        octets.push(0xee);
    }
    octets
}

/// A field that is in order, whatever its ID below 192.
fn sound(id: u8) -> Vec<u8> {
    match id {
        14 => field(id, &[0, 0, 0, 101, 0xee, 0xee]),
        _ => field(id, &[0, 1]),
    }
}

/// What a Request with just these fields is answered.
fn request(fields: &[Vec<u8>]) -> u8 {
    refused(&packet(0x80, &fields.concat()))
}

#[test]
fn deny_7_of_the_paper() {
    let deny = [
        0x83, 0xcc, 0x00, 0x03, 0x00, 0x00, 0x00, 0x01, 0x4d, 0x43, 0x50, 0x54, 0x02, 0x02, 0x00,
        0x07,
    ];
    let phrase = &[];
    let mut message = Message::new(Kind::Deny, 1).with(Field::Cause { cause: 7, phrase });
    assert_eq!(message.to_octets(), Ok(deny.to_vec()));
    assert_eq!(Message::read(&deny), Ok(message));
    message.wants_ack = true;
    let octets = message.to_octets().expect("octets");
    assert_eq!(octets[0], 0x93);
    assert_eq!(octets[1..], deny[1..]);
    assert_eq!(Message::read(&octets), Ok(message));
}

#[test]
fn checks_of_the_header() {
    let good = packet(0x80, &[]);
    assert_eq!(refused(&good), 0);
    for length in 0..12 {
        assert_eq!(refused(&good[..length]), 1);
    }
    let changed = |place: usize, octet: u8| {
        let mut packet = good.clone();
        packet[place] = octet;
        refused(&packet)
    };
    for version in [0x00, 0x40, 0xc0] {
        assert_eq!(changed(0, version), 3);
    }
    assert_eq!(changed(0, 0xa0), 4);
    assert_eq!(changed(1, 203), 5);
    assert_eq!(changed(3, 3), 6);
    assert_eq!(changed(3, 12), 6);
    assert_eq!(changed(11, b'C'), 7);
    for kind in [7, 11, 12, 13, 14, 15] {
        assert_eq!(changed(0, 0x80 | kind), 8);
        assert_eq!(changed(0, 0x90 | kind), 8);
    }
    // A longer tail than the length word says.
    assert_eq!(refused(&[&good[..], &[0]].concat()), 6);
    assert_eq!(refused(&[&good[..], &good].concat()), 6);
}

#[test]
fn the_first_check_that_applies_is_given() {
    // Everything is wrong from some check on, and is mended one by one.
    let mut bad = vec![0x27; 1025];
    bad.truncate(11);
    assert_eq!(refused(&bad), 1);
    bad.resize(1028, 0x27);
    assert_eq!(refused(&bad), 2);
    bad.truncate(16);
    assert_eq!(refused(&bad), 3);
    bad[0] = 0xa7;
    assert_eq!(refused(&bad), 4);
    bad[0] = 0x87;
    assert_eq!(refused(&bad), 5);
    bad[1] = 204;
    assert_eq!(refused(&bad), 6);
    bad[2..4].copy_from_slice(&[0, 3]);
    assert_eq!(refused(&bad), 7);
    bad[8..12].copy_from_slice(b"MCPT");
    assert_eq!(refused(&bad), 8);
    bad[0] = 0x81;
    bad[12..14].copy_from_slice(&[1, 3]);
    assert_eq!(refused(&bad), 9);
    bad[13] = 1;
    assert_eq!(refused(&bad), 10);
    bad[12..14].copy_from_slice(&[0, 2]);
    assert_eq!(refused(&bad), 11);
    bad[12] = 1;
    assert_eq!(refused(&bad), 0);
}

#[test]
fn sizes_of_12_and_1024_octets_and_one_more() {
    let filled = |octets: usize| {
        let mut fields = Vec::new();
        while fields.len() + 12 + 256 <= octets {
            fields.extend(field(100, &[7; 254]));
        }
        let left = octets - 12 - fields.len();
        fields.extend(field(191, &vec![7; left - 2]));
        packet(0x80, &fields)
    };
    assert_eq!(refused(&packet(0x80, &[])), 0);
    let longest = filled(1024);
    assert_eq!(longest.len(), 1024);
    assert_eq!(refused(&longest), 0);
    assert_eq!(refused(&filled(1028)), 2);
    assert_eq!(refused(&[&longest[..], &[0]].concat()), 2);
    assert_eq!(refused(&longest[..1020]), 6);
}

#[test]
fn fields_that_run_past_the_end() {
    // Four octets of field, then claims of more.
    for length in 3..=255 {
        assert_eq!(refused(&packet(0x80, &[0, length, 0, 0])), 9);
        assert_eq!(refused(&packet(0x80, &[7, length, 0, 0])), 9);
        // So high an ID is at fault first.
        assert_eq!(refused(&packet(0x80, &[192, length, 0, 0])), 10);
    }
    // The field fits, and its padding alone does not: the packet can only end at a word.
    assert_eq!(refused(&packet(0x80, &[7, 3, 0, 0])), 9);
    assert_eq!(refused(&packet(0x80, &[7, 0, 9, 9])), 0);
}

#[test]
fn lengths_against_the_table() {
    let lengths: [(u8, usize, usize); 12] = [
        (0, 2, 2),
        (1, 2, 2),
        (2, 2, 255),
        (3, 2, 2),
        (4, 1, 62),
        (5, 2, 2),
        (6, 1, 62),
        (8, 2, 2),
        (10, 2, 2),
        (12, 2, 2),
        (13, 2, 2),
        (14, 6, 6),
    ];
    for id in 0..=255u8 {
        let known = lengths.iter().find(|(known, ..)| *known == id);
        for length in 0..=255 {
            let wanted = match known {
                Some(&(_, least, most)) if (least..=most).contains(&length) => 0,
                None if id < 192 => 0,
                _ => 10,
            };
            let fields = field(id, &vec![0; length]);
            assert_eq!(
                refused(&packet(0x80, &fields)),
                wanted,
                "ID {id}, L {length}"
            );
        }
    }
}

#[test]
fn content_can_be_at_fault_at_5_and_10_only() {
    for number in 0..=65_535u16 {
        let content = number.to_be_bytes();
        for id in [0, 1, 2, 3, 4, 6, 8, 12, 13] {
            assert_eq!(refused(&packet(0x80, &field(id, &content))), 0);
        }
        let wanted = |most: u16| if number <= most { 0 } else { 10 };
        assert_eq!(refused(&packet(0x80, &field(5, &content))), wanted(1));
        assert_eq!(refused(&packet(0x80, &field(10, &content))), wanted(3));
    }
}

#[test]
fn required_fields() {
    let complete: [(u8, Vec<Vec<u8>>); 10] = [
        (0, vec![]),
        (1, vec![field(1, &[0, 30])]),
        (2, vec![field(4, b"a")]),
        (3, vec![field(2, &[0, 1])]),
        (4, vec![]),
        (5, vec![field(8, &[0, 1])]),
        (6, vec![field(2, &[0, 1])]),
        (8, vec![]),
        (9, vec![field(3, &[1, 1])]),
        (10, vec![field(10, &[0, 1]), field(12, &[3, 0])]),
    ];
    for (kind, fields) in complete {
        assert_eq!(refused(&packet(0x80 | kind, &fields.concat())), 0);
        for missing in 0..fields.len() {
            let mut fewer = fields.clone();
            fewer.remove(missing);
            fewer.push(field(100, &[]));
            assert_eq!(refused(&packet(0x80 | kind, &fewer.concat())), 11);
        }
    }
    // A fault of any field comes before one that is missing.
    assert_eq!(refused(&packet(0x81, &field(5, &[1, 0]))), 10);
}

#[test]
fn a_second_field_of_each_of_the_tables_ids_whatever_the_type() {
    for kind in Kind::ALL {
        for id in TABLED {
            let read = |fields: &[Vec<u8>]| {
                let first = 0x80 | kind.number();
                let mut fields = fields.concat();
                // All that the type requires, but for the ID that is tried.
                for &needed in kind.required() {
                    if needed != id {
                        fields.extend(sound(needed));
                    }
                }
                refused(&packet(first, &fields))
            };
            assert_eq!(read(&[sound(id)]), 0, "type {kind:?}, ID {id}");
            let skipped = field(7, b"skip");
            for fields in [
                vec![sound(id), sound(id)],
                vec![sound(id), skipped.clone(), sound(id)],
                vec![skipped.clone(), sound(id), sound(id), skipped],
                vec![sound(id), sound(id), sound(id)],
            ] {
                assert_eq!(read(&fields), 14, "type {kind:?}, ID {id}");
            }
        }
    }
}

#[test]
fn a_second_field_need_not_be_the_same_nor_stand_beside_the_first() {
    for (first, second) in [([5, 0], [5, 0]), ([5, 0], [6, 0]), ([0, 0], [255, 255])] {
        let mut fields = vec![field(0, &first)];
        for id in TABLED.into_iter().skip(1) {
            fields.push(sound(id));
        }
        assert_eq!(request(&fields), 0);
        fields.push(field(0, &second));
        assert_eq!(request(&fields), 14);
    }
    // The first and the last field of the longest packet there is.
    let longest = |last: u8| {
        let filler = field(100, &[7; 254]);
        let mut fields = vec![sound(4), filler.clone(), filler.clone(), filler];
        fields.push(field(191, &[7; 174]));
        fields.push(field(last, &[7; 62]));
        let packet = packet(0x80, &fields.concat());
        assert_eq!(packet.len(), 1024);
        refused(&packet)
    };
    assert_eq!(longest(6), 0);
    assert_eq!(longest(4), 14);
}

#[test]
fn skipped_fields_repeat_freely() {
    for id in (0..192).filter(|id| !TABLED.contains(id)) {
        for times in 2..=4 {
            let mut fields = vec![sound(0)];
            for time in 0..times {
                fields.push(field(id, &vec![time; usize::from(time)]));
            }
            assert_eq!(request(&fields), 0, "ID {id}");
            let octets = packet(0x80, &fields.concat());
            let message = Message::new(Kind::Request, 1).with(Field::Priority(0));
            assert_eq!(Message::read(&octets), Ok(message), "ID {id}");
            // They are no cover for one that may not repeat.
            fields.push(sound(0));
            assert_eq!(request(&fields), 14, "ID {id}");
        }
    }
}

#[test]
fn ids_that_look_alike_are_not_the_same() {
    // One who keeps marks for IDs in a word of 16, 32, 64 or 128 bits may mix these up.
    for id in TABLED {
        for alike in [16, 32, 64, 128].map(|more| id + more) {
            assert_eq!(request(&[sound(id), field(alike, &[0, 1])]), 0);
            assert_eq!(request(&[field(alike, &[0, 1]), sound(id)]), 0);
        }
        for other in TABLED.into_iter().filter(|&other| other != id) {
            assert_eq!(request(&[sound(id), sound(other)]), 0);
        }
        // In the content of another field there are no fields.
        let inside = [vec![0xee, 0xee], sound(id)].concat();
        assert_eq!(request(&[sound(id), field(7, &inside)]), 0);
        assert_eq!(request(&[sound(id), field(7, &inside), sound(id)]), 14);
    }
}

#[test]
fn at_a_second_field_9_comes_before_14_and_14_before_10() {
    for id in TABLED {
        for length in 0..=255 {
            // Four octets are left for it.
            let wanted = if length > 2 { 9 } else { 14 };
            let cut = vec![id, length, 0, 1];
            assert_eq!(request(&[sound(id), cut]), wanted, "ID {id}, L {length}");
            // All its octets are there, whatever the table says of their number.
            let whole = field(id, &vec![0xff; length.into()]);
            assert_eq!(request(&[sound(id), whole]), 14, "ID {id}, L {length}");
        }
    }
    for number in 0..=65_535u16 {
        for id in [5, 10] {
            let second = field(id, &number.to_be_bytes());
            assert_eq!(request(&[sound(id), second]), 14, "ID {id}, {number}");
        }
    }
}

/// Fields that get 10 wherever they stand, none of them with the ID that is tried.
fn faults_beside(id: u8) -> Vec<Vec<u8>> {
    let faults = [
        field(0, &[1]),
        field(2, &[1]),
        field(4, &[]),
        field(5, &[0, 2]),
        field(6, &[b'x'; 63]),
        field(10, &[0, 4]),
        field(14, &[0; 5]),
        field(192, &[0, 1]),
        field(255, &[]),
        // Too high an ID is at fault before its length is looked at.
        vec![192, 255, 0, 0],
    ];
    faults.into_iter().filter(|fault| fault[0] != id).collect()
}

#[test]
fn an_earlier_fault_comes_before_a_second_field() {
    for id in TABLED {
        for fault in faults_beside(id) {
            let fields = [fault.clone(), sound(id), sound(id)];
            assert_eq!(request(&fields), 10, "ID {id}, {fault:?}");
            let fields = [sound(id), fault.clone(), sound(id)];
            assert_eq!(request(&fields), 10, "ID {id}, {fault:?}");
        }
        // One that runs past the end, and octets behind it that would be the second.
        for other in [id, 7] {
            let past = vec![other, 255, 0, 0];
            assert_eq!(request(&[sound(id), past.clone(), sound(id)]), 9);
            assert_eq!(request(&[past, sound(id), sound(id)]), 9);
        }
        // The first of them is at fault itself.
        let long = field(id, &[0; 255]);
        let first = if id == 2 { field(id, &[0]) } else { long };
        assert_eq!(request(&[first, sound(id)]), 10, "ID {id}");
    }
    for (id, content) in [(5, [0, 2]), (10, [0, 4])] {
        assert_eq!(request(&[field(id, &content), sound(id)]), 10);
    }
}

#[test]
fn a_second_field_comes_before_later_faults_and_a_missing_field() {
    for id in TABLED {
        for fault in faults_beside(id) {
            let fields = [sound(id), sound(id), fault.clone()];
            assert_eq!(request(&fields), 14, "ID {id}, {fault:?}");
        }
        for other in [id, 7] {
            let past = vec![other, 255, 0, 0];
            assert_eq!(request(&[sound(id), sound(id), past]), 14);
        }
        for third in [sound(id), field(id, &[]), field(id, &[0; 255])] {
            assert_eq!(request(&[sound(id), sound(id), third]), 14);
        }
        for kind in Kind::ALL {
            let twice = [sound(id), sound(id)].concat();
            assert_eq!(refused(&packet(0x80 | kind.number(), &twice)), 14);
        }
    }
    // Of the two that an Ack requires one is there twice, and that is no help.
    let twice = [sound(10), sound(10)].concat();
    assert_eq!(refused(&packet(0x8a, &twice)), 14);
    assert_eq!(refused(&packet(0x8a, &sound(10))), 11);
    // One that is skipped and there twice is no fault, and the others come as ever.
    let skipped = field(7, &[0, 1]);
    let twice = [skipped.clone(), skipped].concat();
    assert_eq!(refused(&packet(0x81, &twice)), 11);
    assert_eq!(
        refused(&packet(0x81, &[&twice[..], &[7, 3, 0, 0]].concat())),
        9
    );
    assert_eq!(
        refused(&packet(0x81, &[&twice[..], &[0, 1, 0, 0]].concat())),
        10
    );
}

#[test]
fn an_id_of_192_or_above_gets_10_the_first_time() {
    for id in 192..=255 {
        let high = field(id, &[0, 1]);
        assert_eq!(request(&[high.clone(), high.clone()]), 10);
        assert_eq!(request(&[sound(0), high.clone()]), 10);
        assert_eq!(request(&[sound(0), vec![id, 255, 0, 0]]), 10);
        assert_eq!(request(&[sound(0), high.clone(), sound(0)]), 10);
        assert_eq!(request(&[sound(0), sound(0), high]), 14);
    }
}

#[test]
fn the_header_comes_before_a_second_field() {
    let mut bad = packet(0x80, &[sound(0), sound(0)].concat());
    assert_eq!(refused(&bad), 14);
    bad[0] = 0x87;
    assert_eq!(refused(&bad), 8);
    bad[8] = b'm';
    assert_eq!(refused(&bad), 7);
    bad[3] = 0;
    assert_eq!(refused(&bad), 6);
}

#[test]
fn a_message_has_one_field_of_an_id() {
    let message = Message::new(Kind::Request, 1).with(Field::Priority(9));
    let other = message.with(Field::Priority(8));
    assert_eq!(other.fields().count(), 1);
    assert_eq!((message.asked(), other.asked()), (Some(9), Some(8)));
    let octets = other.to_octets().expect("octets");
    assert_eq!(Message::read(&octets), Ok(other));
}

#[test]
fn an_identity_is_a_part_of_the_lent_packet() {
    let octets = packet(0x82, &field(4, b"test10"));
    let message = Message::read(&octets).expect("a message");
    let identity = match message.field(4) {
        Some(&Field::GrantedParty(identity)) => identity,
        other => panic!("{other:?}"),
    };
    assert_eq!(identity.as_ptr(), octets[14..].as_ptr());
    assert_eq!(identity, b"test10");
}

#[test]
fn what_cannot_be_written() {
    let write = |message: Message<'_>| message.write(&mut [0; 1024]);
    let no = Err(Refusal::NoReaderWouldAccept);
    let request = Message::new(Kind::Request, 1);
    for length in [0, 1, 61, 62, 63, 300] {
        let identity = vec![b'x'; length];
        let writable = (1..=62).contains(&length);
        assert_eq!(
            write(request.with(Field::User(&identity))).is_ok(),
            writable
        );
        assert_eq!(
            write(request.with(Field::GrantedParty(&identity))).is_ok(),
            writable
        );
    }
    for (length, writable) in [
        (0, true),
        (252, true),
        (253, true),
        (254, false),
        (300, false),
    ] {
        let phrase = &vec![b'p'; length][..];
        let message = request.with(Field::Cause { cause: 1, phrase });
        assert_eq!(write(message).is_ok(), writable);
    }
    assert_eq!(write(request.with(Field::Permission(2))), no);
    assert_eq!(write(request.with(Field::Permission(256))), no);
    assert_eq!(write(request.with(Field::Source(4))), no);
    for kind in Kind::ALL {
        let bare = Message::new(kind, 1);
        assert_eq!(write(bare).is_ok(), kind.required().is_empty());
    }
    // 12 before 13.
    assert_eq!(Message::new(Kind::Idle, 1).write(&mut []), no);
}

#[test]
fn room_for_the_whole_result_and_no_more() {
    let message = Message::new(Kind::Idle, 1).with(Field::Sequence(1));
    for length in 0..16 {
        let mut room = vec![0x55; length];
        assert_eq!(message.write(&mut room), Err(Refusal::RoomTooShort));
        assert_eq!(room, vec![0x55; length]);
    }
    let mut room = [0x55; 20];
    assert_eq!(message.write(&mut room), Ok(16));
    assert_eq!(room[..16], message.to_octets().expect("octets"));
    assert_eq!(room[16..], [0x55; 4]);
}

/// A random field; identities and phrases are parts of `pool`.
fn random_field<'a>(dice: &mut Dice, id: u8, pool: &'a [u8]) -> Option<Field<'a>> {
    let number = dice.roll() as u16;
    let octet = dice.octet();
    Some(match id {
        0 => Field::Priority(octet),
        1 => Field::Duration(number),
        2 => Field::Cause {
            cause: number,
            phrase: &pool[..dice.between(0, 253)],
        },
        3 => Field::Queue {
            position: octet,
            priority: dice.octet(),
        },
        4 => Field::GrantedParty(&pool[..dice.between(1, 62)]),
        5 => Field::Permission(number % 2),
        6 => Field::User(&pool[..dice.between(1, 62)]),
        8 => Field::Sequence(number),
        10 => Field::Source(number % 4),
        12 => Field::MessageType(octet),
        13 => Field::Indicator(number),
        14 => Field::Ssrc(dice.roll() as u32),
        _ => return None,
    })
}

#[test]
fn what_is_written_is_read_again() {
    let mut dice = Dice::new(11);
    let mut longest = 0;
    for _ in 0..20_000 {
        let pool = dice.octets(255);
        let kind = dice.any_of(Kind::ALL);
        let mut message = Message::new(kind, dice.roll() as u32);
        message.wants_ack = dice.chance(50);
        let keep = dice.any_of([0, 20, 50, 100]);
        for id in 0..15 {
            if kind.required().contains(&id) || dice.chance(keep) {
                message = random_field(&mut dice, id, &pool)
                    .into_iter()
                    .fold(message, Message::with);
            }
        }
        let octets = message.to_octets().expect("octets");
        longest = longest.max(octets.len());
        assert_eq!(Message::read(&octets), Ok(message));
    }
    assert!((300..=440).contains(&longest), "{longest}");
}

#[test]
fn the_longest_message() {
    let mut message = Message::new(Kind::Ack, 1);
    let pool = [b'x'; 255];
    for id in 0..15 {
        let field = match id {
            2 => Some(Field::Cause {
                cause: 1,
                phrase: &pool[..253],
            }),
            4 => Some(Field::GrantedParty(&pool[..62])),
            6 => Some(Field::User(&pool[..62])),
            _ => random_field(&mut Dice::new(1), id, &pool),
        };
        message = field.into_iter().fold(message, Message::with);
    }
    assert_eq!(message.to_octets().expect("octets").len(), 440);
}
