//! The sheet.

mod common;

use common::{ask, desk, person, started, wishes, with_seats};
use second::desk::{Desk, Event, Phase};
use second::refusal::Refusal;
use second::settings::Wishes;
use second::sheet;

fn refused(octets: &[u8]) -> u8 {
    sheet::load(octets).map_or_else(|refusal| refusal.number(), |_| 0)
}

fn saved(desk: &Desk) -> Vec<u8> {
    sheet::save(desk).expect("a sheet")
}

fn saved_with(seats: usize) -> Vec<u8> {
    saved(&with_seats(desk(wishes()), seats))
}

#[test]
fn a_sheet_octet_by_octet() {
    let mut desk = desk(Wishes {
        ssrc: 0x0102_0304,
        duration: 0x1234,
        ..wishes()
    });
    let mut newcomer = person("ab", 0x0506_0708);
    newcomer.receive_only = true;
    newcomer.highest = 9;
    desk.step(Event::Join(newcomer));
    let expected = [
        3, 9, 5, 6, 7, 8, 2, b'a', b'b', // the seat
        1, 2, 3, 4, 200, 2, 2, 2, 0x12, 0x34, 0, 0, // the settings
        0, 9, 0, 0, 1, 1, b'F', b'S', // the trailer
    ];
    assert_eq!(saved(&desk), expected);
}

#[test]
fn loaded_and_saved_again() {
    for seats in 0..=16 {
        let octets = saved_with(seats);
        let loaded = sheet::load(&octets).expect("a desk");
        assert_eq!(loaded, with_seats(desk(wishes()), seats));
        assert_eq!(saved(&loaded), octets);
    }
    assert_eq!(saved_with(0).len(), 20);
}

#[test]
fn no_sheet_is_longer_than_that_of_sixteen_long_identities() {
    let mut desk = desk(wishes());
    for seat in 0..16u8 {
        let identity = format!("{}{}", "x".repeat(61), char::from(b'a' + seat));
        desk.step(Event::Join(person(&identity, 100 + u32::from(seat))));
    }
    assert_eq!(saved(&desk).len(), 1_124);
    assert_eq!(sheet::LONGEST_SHEET, 1_124);
}

#[test]
fn a_loaded_desk_is_fresh_and_its_seats_stand_together() {
    let mut desk = started(wishes(), 4);
    ask(&mut desk, 2, 5);
    ask(&mut desk, 3, 5);
    desk.step(Event::Leave(1));
    let loaded = sheet::load(&saved(&desk)).expect("a desk");
    assert_eq!(loaded.phase(), Phase::Stopped);
    assert_eq!((loaded.sequence(), loaded.c7(), loaded.c20()), (0, 0, 0));
    let names: Vec<_> = loaded
        .seats()
        .taken()
        .map(|(_, seat)| &seat.identity[..])
        .collect();
    assert_eq!(names, [b"s0", b"s2", b"s3"]);
    assert_eq!(loaded.seats().everyone().mask(), 0b111);
}

#[test]
fn room_for_a_sheet() {
    let desk = with_seats(desk(wishes()), 2);
    let octets = saved(&desk);
    let mut room = vec![0x55; octets.len() - 1];
    assert_eq!(sheet::save_in(&desk, &mut room), Err(Refusal::RoomTooShort));
    assert!(room.iter().all(|&octet| octet == 0x55));
    let mut room = vec![0x55; octets.len() + 3];
    assert_eq!(sheet::save_in(&desk, &mut room), Ok(octets.len()));
    assert_eq!(room, [&octets[..], &[0x55; 3]].concat());
}

#[test]
fn refusals_of_the_trailer() {
    let good = saved_with(2);
    let end = good.len();
    let changed = |back: usize, octet: u8| {
        let mut octets = good.clone();
        octets[end - back] = octet;
        refused(&octets)
    };
    for length in 0..20 {
        assert_eq!(refused(&good[end - length..]), 41);
    }
    assert_eq!(changed(1, b's'), 41);
    assert_eq!(changed(2, b'f'), 41);
    assert_eq!(changed(3, 0), 42);
    assert_eq!(changed(3, 2), 42);
    assert_eq!(changed(4, 17), 43);
    assert_eq!(changed(4, 255), 43);
    assert_eq!(changed(5, 1), 43);
    assert_eq!(changed(6, 1), 43);
    assert_eq!(changed(7, good[end - 7] + 1), 43);
    assert_eq!(changed(8, 1), 43);
    // Form before count.
    let mut octets = good.clone();
    octets[end - 4] = 17;
    octets[end - 3] = 2;
    assert_eq!(refused(&octets), 42);
    // An offset that does not fit 16 bits points nowhere.
    assert_eq!(refused(&[vec![0; 65_536], saved_with(0)].concat()), 43);
}

#[test]
fn refusals_of_the_settings() {
    let good = saved_with(2);
    let settings = good.len() - 20;
    for (place, octet, wanted) in [
        (4, 0, 44),
        (4, 1, 0),
        (4, 255, 0),
        (5, 0, 0),
        (5, 15, 0),
        (5, 16, 44),
        (6, 0, 44),
        (6, 255, 0),
        (7, 0, 44),
        (7, 255, 0),
        (9, 0, 44),
        (9, 1, 0),
        (10, 1, 44),
        (10, 100, 44),
        (10, 255, 44),
        (11, 1, 44),
        (11, 100, 44),
        (11, 255, 44),
    ] {
        let mut octets = good.clone();
        octets[settings + place] = octet;
        assert_eq!(refused(&octets), wanted, "{place} {octet}");
        // 44 before any 45.
        octets[0] = 4;
        assert_eq!(refused(&octets), if wanted == 44 { 44 } else { 45 });
    }
}

#[test]
fn refusals_of_the_seats() {
    // Two seats of nine octets: s0 and s1.
    let good = saved_with(2);
    let end = good.len();
    let mend = |seats: &[u8], count: u8| {
        let mut octets = [seats, &good[end - 20..]].concat();
        let end = octets.len();
        octets[end - 8..end - 6].copy_from_slice(&(seats.len() as u16).to_be_bytes());
        octets[end - 4] = count;
        refused(&octets)
    };
    let seats = &good[..18];
    let changed = |place: usize, octet: u8| {
        let mut seats = seats.to_vec();
        seats[place] = octet;
        mend(&seats, 2)
    };
    assert_eq!(mend(seats, 2), 0);
    assert_eq!(mend(seats, 1), 45);
    assert_eq!(mend(seats, 3), 45);
    assert_eq!(mend(&[], 0), 0);
    assert_eq!(mend(&[], 1), 45);
    assert_eq!(mend(&[0], 0), 45);
    for bit in 2..8 {
        assert_eq!(changed(0, 1 << bit), 45);
    }
    assert_eq!(changed(0, 3), 0);
    // Identity length, identity present, SSRC present, the desk's SSRC.
    assert_eq!(changed(6, 0), 45);
    assert_eq!(changed(15, 3), 45);
    assert_eq!(changed(15, 1), 45);
    assert_eq!(changed(17, b'0'), 45);
    assert_eq!(changed(14, good[5]), 45);
    assert_eq!(changed(14, 1), 45);
    for (length, wanted) in [(61, 0), (62, 0), (63, 45)] {
        let long = [
            &[1, 255, 0, 0, 0, 9, length][..],
            &vec![b'x'; length.into()],
        ]
        .concat();
        assert_eq!(mend(&long, 1), wanted);
    }
}
