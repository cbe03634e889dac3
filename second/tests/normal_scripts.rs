//! The normal level (document 02, #101) in scripts: that they have requests without a Floor
//! Priority field from everyone and everywhere, that they save with and without room, and what
//! is answered. What is to be answered is worked out here by other code than the desk's.

mod common;

use std::collections::{BTreeMap, BTreeSet};

use common::{order, told};
use second::desk::{Desk, Phase};
use second::hex;
use second::maker::{Maker, Order};
use second::packet::{Kind, Message};
use second::script::Player;
use second::sheet;

/// A line, its answer, and the desks before and after it.
struct Played<'a> {
    words: Vec<&'a str>,
    answer: &'a str,
    before: Option<&'a Desk>,
    after: Option<&'a Desk>,
}

/// Looks at as many lines as `tests/compare.test` plays, all that can be in figures in them.
fn look_at_all(mut look: impl FnMut(Played<'_>)) {
    for seed in 1..=4 {
        let mut player = Player::new();
        let figures = Order {
            figures: true,
            ..order(seed, 50_000)
        };
        for line in Maker::new(figures) {
            let before = player.desk().cloned();
            if let Some(answer) = player.answer(line.as_bytes()) {
                look(Played {
                    words: line.split_whitespace().collect(),
                    answer: &answer,
                    before: before.as_ref(),
                    after: player.desk(),
                });
            }
        }
    }
}

#[derive(Clone, Copy, Debug, PartialEq, Eq, PartialOrd, Ord)]
enum Where {
    Stopped,
    Idle,
    Taken,
    Revoking,
}

#[derive(Clone, Copy, Debug, PartialEq, Eq, PartialOrd, Ord)]
enum Asker {
    Holder,
    InLine,
    Other,
}

/// The normal level beside the pre-emptive one.
#[derive(Clone, Copy, Debug, PartialEq, Eq, PartialOrd, Ord)]
enum Normal {
    Zero,
    Below,
    At,
    Above,
}

fn place(desk: &Desk) -> Where {
    match desk.phase() {
        Phase::Stopped => Where::Stopped,
        Phase::Idle => Where::Idle,
        Phase::Taken(_) => Where::Taken,
        Phase::Revoking { .. } => Where::Revoking,
    }
}

fn asker(desk: &Desk, seat: usize) -> Asker {
    if desk.holder().map(|holder| holder.seat) == Some(seat) {
        Asker::Holder
    } else if desk.line().iter().any(|entry| entry.seat == seat) {
        Asker::InLine
    } else {
        Asker::Other
    }
}

fn normal(desk: &Desk) -> Normal {
    let (normal, level) = (desk.settings().normal_level(), desk.settings().level());
    match normal {
        0 => Normal::Zero,
        _ if normal < level => Normal::Below,
        _ if normal == level => Normal::At,
        _ => Normal::Above,
    }
}

/// A Request from somebody present, that could be read.
struct Asked {
    seat: usize,
    field: Option<u8>,
    highest: u8,
}

fn asked(played: &Played<'_>) -> Option<Asked> {
    let octets = match played.words[..] {
        ["packet", octets] => hex::octets(octets.as_bytes())?,
        _ => return None,
    };
    let message = Message::read(&octets).ok()?;
    let seats = played.before?.seats();
    let seat = seats.with_ssrc(message.ssrc)?;
    (message.kind == Kind::Request).then_some(Asked {
        seat,
        field: message.asked(),
        highest: seats.get(seat)?.highest,
    })
}

/// The priority that a seat has in line or holds the floor at.
fn stands_at(desk: &Desk, seat: usize) -> Option<u8> {
    let holder = desk.holder();
    let mut known = desk.line().iter().copied().chain(holder);
    let entry = known.find(|entry| entry.seat == seat);
    entry.map(|entry| entry.priority)
}

#[test]
fn whoever_asks_without_the_field_stands_at_the_level_or_at_its_highest() {
    let mut counts = BTreeMap::new();
    look_at_all(|played| {
        let (asked, before, after) = match (asked(&played), played.before, played.after) {
            (Some(asked), Some(before), Some(after)) => (asked, before, after),
            _ => return,
        };
        let level = before.settings().normal_level();
        let stands = match stands_at(after, asked.seat) {
            // The holder stands at what it was given before.
            Some(stands) if asker(before, asked.seat) != Asker::Holder => stands,
            _ => return,
        };
        let (kind, wanted) = match asked.field {
            None if asked.highest < level => ("capped", asked.highest),
            None => ("absent", level),
            Some(0) => ("zero", 0),
            Some(priority) => ("named", priority.min(asked.highest)),
        };
        assert_eq!(stands, wanted, "{:?} {}", played.words, played.answer);
        *counts.entry((kind, level == 0)).or_insert(0) += 1;
    });
    for case in [
        ("absent", true),
        ("absent", false),
        ("capped", false),
        ("zero", true),
        ("zero", false),
        ("named", true),
        ("named", false),
    ] {
        let count = counts.get(&case).copied().unwrap_or(0);
        assert!(count >= 400, "{case:?}: {count} times");
    }
}

#[test]
fn it_is_asked_without_the_field_by_everyone_and_everywhere() {
    let mut made = BTreeSet::new();
    let (mut all, mut without) = (0, 0);
    look_at_all(|played| {
        if let (Some(asked), Some(desk)) = (asked(&played), played.before) {
            let level = desk.settings().normal_level();
            let capped = asked.highest < level;
            let asker = asker(desk, asked.seat);
            all += 1;
            without += usize::from(asked.field.is_none());
            made.insert((asked.field, place(desk), asker, normal(desk), capped));
        }
    });
    for field in [None, Some(0)] {
        for (place, asker) in [
            (Where::Idle, Asker::Other),
            (Where::Taken, Asker::Holder),
            (Where::Taken, Asker::InLine),
            (Where::Taken, Asker::Other),
            (Where::Revoking, Asker::Holder),
            (Where::Revoking, Asker::InLine),
            (Where::Revoking, Asker::Other),
        ] {
            for (normal, capped) in [
                (Normal::Zero, false),
                (Normal::Below, false),
                (Normal::Below, true),
                (Normal::At, false),
                (Normal::At, true),
                (Normal::Above, false),
                (Normal::Above, true),
            ] {
                let case = (field, place, asker, normal, capped);
                assert!(made.contains(&case), "{case:?}");
            }
        }
    }
    // In a call that is Stopped it makes no difference what is asked.
    for normal in [Normal::Zero, Normal::Below, Normal::At, Normal::Above] {
        let is_it = |capped| made.contains(&(None, Where::Stopped, Asker::Other, normal, capped));
        assert!(is_it(false) || is_it(true), "{normal:?}");
    }
    let share = without * 100 / all;
    assert!((15..35).contains(&share), "{share} percent");
}

/// What came of a request, by its answer alone.
fn outcome(answer: &str) -> &str {
    let parts: Vec<&str> = answer.split(" | ").collect();
    match parts[..] {
        ["A 0", messages, ..] if messages.contains("Revoke 4") => "presses",
        ["A 0", _, marks, _] if marks.ends_with(" once") => "given",
        ["A 0", messages, ..] if messages.starts_with("Deny ") => &messages[..6],
        ["A 0", messages, ..] if messages.starts_with("Granted ") => "granted again",
        ["A 0", _, marks, _] if !marks.starts_with('-') => "placed",
        ["A 0", ..] => "in line",
        _ => parts[0],
    }
}

#[test]
fn everything_comes_of_a_request_without_the_field() {
    let mut made = BTreeSet::new();
    look_at_all(|played| {
        if let (Some(asked), Some(before), Some(after)) =
            (asked(&played), played.before, played.after)
        {
            if asked.field.is_none() {
                let moved = before.line() != after.line();
                let outcome = outcome(played.answer).to_string();
                made.insert((normal(before) != Normal::Zero, outcome, moved));
            }
        }
    });
    for (outcome, moved) in [
        ("given", false),
        ("placed", true),
        ("in line", true),
        ("in line", false),
        ("granted again", false),
        ("Deny 1", false),
        ("Deny 3", false),
        ("Deny 5", false),
        ("Deny 7", false),
        ("A 21", false),
        ("A 23", false),
    ] {
        for above in [false, true] {
            let case = (above, outcome.to_string(), moved);
            assert!(made.contains(&case), "{case:?}");
        }
    }
    assert!(made.contains(&(true, "presses".to_string(), true)));
    assert!(!made.contains(&(false, "presses".to_string(), true)));
}

/// How the room that is lent to a sheet is.
#[derive(Clone, Copy, Debug, PartialEq, Eq, PartialOrd, Ord)]
enum Room {
    Unsaid,
    None,
    OneTooFew,
    Exact,
    OneTooMany,
    Huge,
    Other,
}

/// Room that takes more than 16 bits to say.
const HUGE: usize = 65_536;

fn room(words: &[&str], length: usize) -> Option<(Room, usize)> {
    let lent = match *words {
        ["save"] => return Some((Room::Unsaid, usize::MAX)),
        ["save", room] => room.parse().ok()?,
        _ => return None,
    };
    let room = match lent {
        0 => Room::None,
        HUGE.. => Room::Huge,
        _ if lent + 1 == length => Room::OneTooFew,
        _ if lent == length => Room::Exact,
        _ if lent == length + 1 => Room::OneTooMany,
        _ => Room::Other,
    };
    Some((room, lent))
}

#[test]
fn saving_gets_48_then_13_then_the_sheet() {
    let mut made = BTreeSet::new();
    let mut longest = 0;
    look_at_all(|played| {
        let desk = match played.before {
            Some(desk) if !played.answer.starts_with('?') => desk,
            _ => return,
        };
        let seats = desk
            .seats()
            .taken()
            .map(|(_, seat)| 7 + seat.identity.len());
        let length = 20 + seats.sum::<usize>();
        if let Some((room, lent)) = room(&played.words, length) {
            let another = desk.settings().normal_level() != 0;
            let wanted = match another {
                true => Some(48),
                false if lent < length => Some(13),
                false => None,
            };
            assert_eq!(told(played.answer), wanted, "{:?}", played.words);
            if wanted.is_none() {
                assert_eq!(played.answer.len(), 2 * length);
                longest = longest.max(length);
            }
            assert_eq!(played.before, played.after);
            made.insert((another, place(desk), room));
        }
    });
    assert_eq!(longest, sheet::LONGEST_SHEET);
    for another in [false, true] {
        for place in [Where::Stopped, Where::Idle, Where::Taken, Where::Revoking] {
            for room in [
                Room::Unsaid,
                Room::None,
                Room::OneTooFew,
                Room::Exact,
                Room::OneTooMany,
                Room::Huge,
                Room::Other,
            ] {
                let case = (another, place, room);
                assert!(made.contains(&case), "{case:?}");
            }
        }
    }
}

#[test]
fn desks_are_made_at_all_normal_levels() {
    let mut counts = BTreeMap::new();
    let (mut alone, mut all) = (BTreeSet::new(), 0);
    look_at_all(|played| {
        let numbers: Vec<u32> = match played.words.split_first() {
            Some((&"make", rest)) => rest.iter().flat_map(|word| word.parse()).collect(),
            _ => return,
        };
        match (&numbers[..], played.answer, played.after) {
            (&[.., wish], "OK", Some(desk)) => {
                assert_eq!(wish, desk.settings().normal_level().into());
                all += 1;
                *counts.entry(normal(desk)).or_insert(0) += 1;
            }
            // All others are in their ranges.
            (&[_, 200, 2, 2, 2, 30, wish], "R 28", _) => {
                alone.insert(wish);
            }
            _ => {}
        }
    });
    assert_eq!(Vec::from_iter(alone), [256, 257, 65_536, 4_294_967_295]);
    for (normal, least, most) in [
        (Normal::Zero, 30, 55),
        (Normal::Below, 10, 35),
        (Normal::At, 5, 25),
        (Normal::Above, 10, 35),
    ] {
        let share = counts.get(&normal).copied().unwrap_or(0) * 100 / all;
        assert!(
            (least..most).contains(&share),
            "{normal:?}: {share} percent"
        );
    }
}

#[test]
fn sheets_are_loaded_that_have_one_zero_or_the_other_amiss() {
    let mut made = BTreeMap::new();
    let mut freed = 0;
    look_at_all(|played| {
        let mut octets = match played.words[..] {
            ["load", octets] => hex::octets(octets.as_bytes()).unwrap_or_default(),
            _ => return,
        };
        let level = |desk: Option<&Desk>| desk.map_or(0, |desk| desk.settings().normal_level());
        if played.answer == "OK" {
            assert_eq!(level(played.after), 0);
            freed += usize::from(level(played.before) != 0);
        }
        if octets.len() < 20 {
            return;
        }
        let zeros = octets.len() - 10..octets.len() - 8;
        let amiss = [zeros.start, zeros.end - 1].map(|place| octets[place] != 0);
        octets[zeros].fill(0);
        // But for these two the sheet is in order.
        if amiss != [false, false] && sheet::load(&octets).is_ok() {
            assert_eq!(played.answer, "R 44");
            *made.entry(amiss).or_insert(0) += 1;
        }
    });
    for amiss in [[true, false], [false, true], [true, true]] {
        let count = made.get(&amiss).copied().unwrap_or(0);
        assert!(count >= 50, "{amiss:?}: {count} times");
    }
    assert!(freed >= 100, "{freed} desks of another level");
}
