//! The normal level (document 02, #101): what a request without a Floor Priority field counts
//! as, and that no sheet holds the level.

mod common;

use common::{ask, desk, order, person, refusal, send, ssrc, wishes};
use second::desk::{Desk, Event, Phase};
use second::hex::{self, Hex};
use second::line::Entry;
use second::maker::{Maker, Order};
use second::packet::{Kind, Message};
use second::refusal::Refusal;
use second::report::{How, Notice, Report};
use second::script::Player;
use second::seats::SeatSet;
use second::settings::Wishes;
use second::sheet;

/// The pre-emptive level of these tests.
const LEVEL: u8 = 200;

/// A call at this normal level, with a seat for each of these highest priorities.
fn call(normal_level: u8, highest: &[u8]) -> Desk {
    let mut desk = desk(Wishes {
        level: LEVEL.into(),
        line_limit: 15,
        normal_level: normal_level.into(),
        ..wishes()
    });
    for (seat, &highest) in highest.iter().enumerate() {
        let mut newcomer = person(&format!("s{seat}"), ssrc(seat));
        newcomer.highest = highest;
        assert_eq!(desk.step(Event::Join(newcomer)), Report::done());
    }
    assert_eq!(desk.step(Event::Start).number(), 0);
    desk
}

/// Asks with a Floor Priority field, or without one.
fn request(desk: &mut Desk, seat: usize, field: Option<u8>) -> Report {
    match field {
        Some(priority) => ask(desk, seat, priority),
        None => send(desk, seat, Kind::Request),
    }
}

fn line(desk: &Desk) -> Vec<(usize, u8)> {
    let entries = desk.line().iter();
    entries.map(|entry| (entry.seat, entry.priority)).collect()
}

fn notices(report: &Report) -> Vec<Notice> {
    let messages = report.messages.iter();
    messages.map(|posting| posting.notice).collect()
}

fn is_revoking(desk: &Desk) -> bool {
    matches!(desk.phase(), Phase::Revoking { .. })
}

#[test]
fn no_field_counts_as_the_normal_level_and_0_as_0() {
    for normal in [0, 1, 50, 99, 100, 199, 200, 201, 255] {
        for highest in [0, 1, 50, 99, 100, 199, 200, 255] {
            for (field, wanted) in [
                (None, normal.min(highest)),
                (Some(0), 0),
                (Some(1), highest.min(1)),
                (Some(100), highest.min(100)),
                (Some(255), highest),
            ] {
                let case = format!("{field:?} at {normal}, highest {highest}");
                let mut desk = call(normal, &[highest, 255]);
                let report = request(&mut desk, 0, field);
                assert_eq!(report.given, Some((0, How::Directly)), "{case}");
                let granted = Notice::Granted { priority: wanted };
                assert_eq!(notices(&report)[0], granted, "{case}");
                let holder = Entry {
                    seat: 0,
                    priority: wanted,
                };
                assert_eq!(desk.phase(), Phase::Taken(holder), "{case}");
                // In line as well, where nobody presses against one who talks at 255, or who
                // has talked too long.
                for too_long in [false, true] {
                    let mut desk = call(normal, &[highest, 255]);
                    ask(&mut desk, 1, 255);
                    if too_long {
                        desk.step(Event::Media(ssrc(1)));
                        desk.step(Event::TimeUp(2));
                    }
                    assert_eq!(is_revoking(&desk), too_long);
                    let report = request(&mut desk, 0, field);
                    assert_eq!(report.placed, Some(0), "{case}");
                    let info = Notice::Info {
                        place: 1,
                        priority: wanted,
                    };
                    assert_eq!(notices(&report), [info], "{case}");
                    assert_eq!(line(&desk), [(0, wanted)], "{case}");
                }
            }
        }
    }
}

#[test]
fn who_asks_at_1_does_not_overtake_who_names_no_priority() {
    for (normal, wanted) in [
        (100, [(1, 100), (2, 1)]),
        (2, [(1, 2), (2, 1)]),
        (1, [(1, 1), (2, 1)]),
        // Document 01's desk, where it did.
        (0, [(2, 1), (1, 0)]),
    ] {
        let mut desk = call(normal, &[255, 255, 255]);
        ask(&mut desk, 0, 5);
        request(&mut desk, 1, None);
        request(&mut desk, 2, Some(1));
        assert_eq!(line(&desk), wanted);
        // Nor when it comes first.
        let mut desk = call(normal, &[255, 255, 255]);
        ask(&mut desk, 0, 5);
        request(&mut desk, 2, Some(1));
        request(&mut desk, 1, None);
        assert_eq!(desk.line()[0].seat == 1, normal > 1);
    }
}

#[test]
fn asking_again_without_the_field_is_asking_at_the_level() {
    let mut desk = call(100, &[255, 255, 255, 50, 255]);
    ask(&mut desk, 0, 5);
    request(&mut desk, 1, None);
    request(&mut desk, 2, Some(100));
    request(&mut desk, 3, None);
    request(&mut desk, 4, Some(50));
    let asked = [(1, 100), (2, 100), (3, 50), (4, 50)];
    assert_eq!(line(&desk), asked);
    // The same by another way of asking, and each keeps its place.
    for (seat, field) in [
        (1, None),
        (1, Some(100)),
        (2, None),
        (3, None),
        (3, Some(50)),
        (3, Some(255)),
        (3, None),
    ] {
        let report = request(&mut desk, seat, field);
        assert_eq!((report.answer, report.placed), (Ok(()), None));
        assert_eq!(line(&desk), asked, "{seat} {field:?}");
    }
    // 0 is another priority than none, and none another than 0.
    request(&mut desk, 1, Some(0));
    assert_eq!(line(&desk), [(2, 100), (3, 50), (4, 50), (1, 0)]);
    request(&mut desk, 3, Some(0));
    request(&mut desk, 1, None);
    assert_eq!(line(&desk), [(2, 100), (1, 100), (4, 50), (3, 0)]);
    request(&mut desk, 3, None);
    assert_eq!(line(&desk), [(2, 100), (1, 100), (4, 50), (3, 50)]);
}

#[test]
fn the_holder_keeps_the_priority_it_was_given_at() {
    let mut desk = call(100, &[255, 255]);
    ask(&mut desk, 0, 7);
    let before = desk.clone();
    let again = Report::done().telling(SeatSet::only(0), Notice::Granted { priority: 7 });
    assert_eq!(request(&mut desk, 0, None), again);
    assert_eq!(desk, before);
    ask(&mut desk, 1, LEVEL);
    assert_eq!(refusal(&request(&mut desk, 0, None)), 23);
    // Given out of the line at the normal level, and told so again.
    let mut desk = call(100, &[255, 255]);
    ask(&mut desk, 0, 7);
    request(&mut desk, 1, None);
    let report = send(&mut desk, 0, Kind::Release);
    assert_eq!(notices(&report)[0], Notice::Granted { priority: 100 });
    let again = [Notice::Granted { priority: 100 }];
    assert_eq!(notices(&desk.step(Event::TimeUp(20))), again);
    assert_eq!(notices(&request(&mut desk, 1, Some(0))), again);
}

#[test]
fn no_field_presses_where_the_normal_level_is_at_the_other() {
    for (normal, highest, presses) in [
        (199, 255, false),
        (200, 255, true),
        (201, 255, true),
        (255, 255, true),
        (200, 200, true),
        (255, 200, true),
        (200, 199, false),
        (255, 199, false),
        (0, 255, false),
    ] {
        let mut desk = call(normal, &[255, highest, 255]);
        ask(&mut desk, 0, 199);
        let report = request(&mut desk, 1, None);
        assert_eq!(report.placed, Some(1));
        assert_eq!(is_revoking(&desk), presses, "{normal} {highest}");
        assert_eq!(notices(&report).len(), 1 + usize::from(presses));
        // A field that says 0 does not.
        let mut desk = call(normal, &[255, highest, 255]);
        ask(&mut desk, 0, 199);
        request(&mut desk, 1, Some(0));
        assert!(!is_revoking(&desk));
        // Against one who talks at the level, or waits there, nobody does.
        let mut desk = call(normal, &[255, 255, 255]);
        request(&mut desk, 0, None);
        request(&mut desk, 1, Some(255));
        assert_eq!(is_revoking(&desk), normal < LEVEL);
    }
}

#[test]
fn one_who_does_not_queue_is_placed_if_it_presses_alone() {
    for (normal, denied) in [(0, true), (199, true), (200, false), (255, false)] {
        let mut desk = call(normal, &[255, 255]);
        let mut rude = person("rude", ssrc(2));
        rude.queueing = false;
        desk.step(Event::Join(rude));
        ask(&mut desk, 0, 5);
        let report = request(&mut desk, 2, None);
        let told = if denied {
            Notice::Deny { cause: 1 }
        } else {
            Notice::Revoke { cause: 4 }
        };
        assert_eq!(notices(&report), [told], "{normal}");
        assert_eq!(report.placed, (!denied).then_some(2));
    }
}

/// A desk in each phase, and back in the first. Each request has a field.
fn in_every_phase(normal_level: u8) -> Vec<Desk> {
    let mut desk = call(normal_level, &[255, 255, 255]);
    let mut desks = vec![desk.clone()];
    ask(&mut desk, 0, 5);
    ask(&mut desk, 1, 5);
    desks.push(desk.clone());
    ask(&mut desk, 2, LEVEL);
    desks.push(desk.clone());
    desk.step(Event::Stop);
    desks.push(desk);
    let [idle, taken, revoking, stopped] = [0, 1, 2, 3].map(|place: usize| desks[place].phase());
    assert_eq!((idle, stopped), (Phase::Idle, Phase::Stopped));
    assert!(matches!(taken, Phase::Taken(_)));
    assert!(matches!(revoking, Phase::Revoking { .. }));
    desks
}

#[test]
fn a_desk_with_another_level_has_no_sheet_in_any_phase() {
    let wanted = sheet::save(&in_every_phase(0)[0]).expect("a sheet");
    for normal in [1, 2, 100, LEVEL, 254, 255] {
        let mut desks = in_every_phase(normal);
        // Fresh, and with no seats.
        desks.push(desk(Wishes {
            normal_level: normal.into(),
            ..wishes()
        }));
        for desk in desks {
            assert_eq!(sheet::save(&desk), Err(Refusal::NoSheetHoldsIt));
            // Before 13, and nothing is written in either case.
            for length in [0, 19, wanted.len() - 1, wanted.len(), 2_000] {
                let mut room = vec![0x55; length];
                let refused = sheet::save_in(&desk, &mut room).map_err(Refusal::number);
                assert_eq!(refused, Err(48), "{normal}, {length} octets");
                assert_eq!(room, vec![0x55; length]);
            }
        }
    }
    for desk in in_every_phase(0) {
        assert_eq!(sheet::save(&desk).as_ref(), Ok(&wanted));
        let mut room = vec![0x55; wanted.len() - 1];
        let refused = sheet::save_in(&desk, &mut room).map_err(Refusal::number);
        assert_eq!(refused, Err(13));
        assert_eq!(room, vec![0x55; wanted.len() - 1]);
    }
}

#[test]
fn what_is_asked_without_the_field_does_not_decide_on_saving() {
    for normal in [0, 100] {
        let mut desk = call(normal, &[255, 255]);
        for seat in [0, 1, 1, 0] {
            request(&mut desk, seat, None);
            assert_eq!(sheet::save(&desk).is_ok(), normal == 0);
        }
    }
}

/// What these lines are answered, one after the other.
fn answers(lines: &[&str]) -> Vec<String> {
    let mut player = Player::new();
    let answer = |line: &&str| player.answer(line.as_bytes());
    lines.iter().filter_map(answer).collect()
}

#[test]
fn a_loaded_desk_has_the_level_0_whatever_was_there_before() {
    let octets = sheet::save(&call(0, &[255, 255])).expect("a sheet");
    let loaded = sheet::load(&octets).expect("a desk");
    assert_eq!(loaded.settings().normal_level(), 0);
    let sheet = Hex(&octets).to_string();
    let load = format!("load {sheet}");
    let given = answers(&[
        "make 1 200 2 2 2 30 100",
        "save",
        &load,
        "save",
        "start",
        "ask 0",
    ]);
    assert_eq!(given[..4], ["OK", "R 48", "OK", &sheet]);
    assert!(given[5].contains(" | Taken 2 1 0:0 - "), "{}", given[5]);
    // A refused one leaves the desk there was, and its level with it.
    let given = answers(&["make 1 200 2 2 2 30 7", "load 00", "save"]);
    assert_eq!(given, ["OK", "R 41", "R 48"]);
    let make = "make 1 200 2 2 2 30 256";
    let given = answers(&["make 1 200 2 2 2 30 0", make, "save 0"]);
    assert_eq!(given, ["OK", "R 28", "R 13"]);
}

#[test]
fn saving_in_room_for_so_many_octets() {
    let sheet = "00000001c8020202001e00000000000000014653";
    for (level, room, wanted) in [
        (0, "", sheet),
        (0, "20", sheet),
        (0, "0020", sheet),
        (0, "21", sheet),
        (0, "1124", sheet),
        (0, "2048", sheet),
        (0, "65536", sheet),
        (0, "4294967295", sheet),
        (0, "19", "R 13"),
        (0, "0", "R 13"),
        (1, "", "R 48"),
        (1, "0", "R 48"),
        (1, "19", "R 48"),
        (1, "20", "R 48"),
        (200, "4294967295", "R 48"),
        (255, "0", "R 48"),
    ] {
        let make = format!("make 1 200 2 2 2 30 {level}");
        let save = format!("save {room}");
        assert_eq!(answers(&[&make, &save]), ["OK", wanted], "{level} {save}");
    }
}

#[test]
fn there_is_room_for_the_longest_sheet() {
    let mut player = Player::new();
    player.answer(b"make 1 200 2 2 2 30 0");
    for seat in 0..16u8 {
        let name = format!("{}{}", "x".repeat(61), char::from(b'a' + seat));
        let join = format!("join \"{name}\" {} 255", 10 + seat);
        player.answer(join.as_bytes());
    }
    let mut digits = |line: &str| player.answer(line.as_bytes()).map(|answer| answer.len());
    for line in ["save", "save 1124", "save 1125", "save 65536"] {
        assert_eq!(digits(line), Some(2 * 1_124), "{line}");
    }
    assert_eq!(player.answer(b"save 1123").as_deref(), Some("R 13"));
}

#[test]
fn a_level_that_is_no_octet_makes_no_desk() {
    for level in ["256", "257", "511", "65536", "4294967295"] {
        let make = format!("make 1 200 2 2 2 30 {level}");
        assert_eq!(answers(&[&make, "save"]), ["R 28", "? no desk"], "{level}");
    }
}

/// The same line with a Floor Priority field that says the level, where it is a Request that
/// has none.
fn with_a_field(line: &str, level: u8) -> Option<String> {
    let mut octets = hex::octets(line.strip_prefix("packet ")?.as_bytes())?;
    let message = Message::read(&octets).ok()?;
    let bare = message.kind == Kind::Request && message.asked().is_none();
    // A field more would make the longest packets too long.
    if !bare || octets.len() > 1_020 {
        return None;
    }
    octets.extend([0, 2, level, 0]);
    let words = (octets.len() / 4 - 1) as u16;
    octets[2..4].copy_from_slice(&words.to_be_bytes());
    Some(format!("packet {}", Hex(&octets)))
}

#[test]
fn no_field_is_as_good_as_a_field_that_says_the_level() {
    let [mut at_0, mut above] = [0, 0];
    for seed in 800..804 {
        let (mut player, mut other) = (Player::new(), Player::new());
        let figures = Order {
            figures: true,
            ..order(seed, 20_000)
        };
        for line in Maker::new(figures) {
            let desk = player.desk();
            let level = desk.map_or(0, |desk| desk.settings().normal_level());
            let same = with_a_field(&line, level);
            if same.is_some() {
                *(if level == 0 { &mut at_0 } else { &mut above }) += 1;
            }
            let said = same.as_ref().unwrap_or(&line);
            let answer = player.answer(line.as_bytes());
            assert_eq!(answer, other.answer(said.as_bytes()), "{line} and {said}");
        }
    }
    // At 0 it is document 01's rule, where no field counts as 0.
    assert!(at_0 > 2_000 && above > 2_000, "{at_0} and {above}");
}
