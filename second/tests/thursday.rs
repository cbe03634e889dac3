//! Thursday's exercise, row by row: every message, receiver and mark.

mod common;

use common::{ask, desk, person, send, ssrc, wishes};
use second::desk::{Desk, Event, Phase};
use second::line::Entry;
use second::packet::Kind;
use second::report::{How, Notice, Report};
use second::script::Player;
use second::seats::SeatSet;
use second::timers::{Ticking, Timer};

fn set(seats: &[usize]) -> SeatSet {
    seats.iter().copied().collect()
}

fn entry(seat: usize, priority: u8) -> Entry {
    Entry { seat, priority }
}

/// Looks at all of the desk that a step can change.
fn check(desk: &Desk, phase: Phase, sequence: u16, line: &[Entry], timers: &[Timer]) {
    assert_eq!(desk.phase(), phase);
    assert_eq!(desk.sequence(), sequence);
    assert_eq!(desk.line(), line);
    assert_eq!(desk.running(), Ticking::only(timers));
}

#[test]
fn row_by_row() {
    let mut desk = desk(wishes());
    for (seat, identity) in ["test1", "test10", "test2", "test3"]
        .into_iter()
        .enumerate()
    {
        let mut newcomer = person(identity, ssrc(seat));
        newcomer.queueing = seat != 3;
        assert_eq!(desk.step(Event::Join(newcomer)), Report::done());
    }
    check(&desk, Phase::Stopped, 0, &[], &[]);

    // a
    let idle = Report::done().telling(set(&[0, 1, 2, 3]), Notice::Idle { sequence: 1 });
    assert_eq!(desk.step(Event::Start), idle);
    check(&desk, Phase::Idle, 1, &[], &[Timer::T4, Timer::T7]);
    assert_eq!(desk.c7(), 1);

    // b
    let mut given = Report::done()
        .telling(set(&[0]), Notice::Granted { priority: 5 })
        .telling(
            set(&[1, 2, 3]),
            Notice::Taken {
                seat: 0,
                sequence: 2,
            },
        );
    given.given = Some((0, How::Directly));
    assert_eq!(ask(&mut desk, 0, 5), given);
    let taken = Phase::Taken(entry(0, 5));
    check(&desk, taken, 2, &[], &[Timer::T1]);

    // c
    let mut placed = Report::done().telling(
        set(&[1]),
        Notice::Info {
            place: 1,
            priority: 5,
        },
    );
    placed.placed = Some(1);
    assert_eq!(ask(&mut desk, 1, 5), placed);
    check(&desk, taken, 2, &[entry(1, 5)], &[Timer::T1]);

    // d
    let mut placed = Report::done().telling(
        set(&[2]),
        Notice::Info {
            place: 1,
            priority: 6,
        },
    );
    placed.placed = Some(2);
    assert_eq!(ask(&mut desk, 2, 6), placed);
    check(&desk, taken, 2, &[entry(2, 6), entry(1, 5)], &[Timer::T1]);

    // e
    let moved = Report::done().telling(
        set(&[1]),
        Notice::Info {
            place: 2,
            priority: 6,
        },
    );
    assert_eq!(ask(&mut desk, 1, 6), moved);
    let line = [entry(2, 6), entry(1, 6)];
    check(&desk, taken, 2, &line, &[Timer::T1]);

    // f, g
    for (priority, cause) in [(199, 1), (200, 7)] {
        let before = desk.clone();
        let deny = Report::done().telling(set(&[3]), Notice::Deny { cause });
        assert_eq!(ask(&mut desk, 3, priority), deny);
        assert_eq!(desk, before);
    }
    check(&desk, taken, 2, &line, &[Timer::T1]);

    // h
    let struck_off = Report {
        struck_off: set(&[2]),
        ..Report::done()
    };
    assert_eq!(send(&mut desk, 2, Kind::Release), struck_off);
    check(&desk, taken, 2, &[entry(1, 6)], &[Timer::T1]);

    // i
    let mut pressed = Report::done().telling(set(&[0]), Notice::Revoke { cause: 4 });
    pressed.placed = Some(3);
    assert_eq!(ask(&mut desk, 3, 200), pressed);
    let revoking = Phase::Revoking {
        holder: entry(0, 5),
        cause: 4,
    };
    let line = [entry(3, 200), entry(1, 6)];
    check(
        &desk,
        revoking,
        2,
        &line,
        &[Timer::T1, Timer::T3, Timer::T8],
    );

    // j
    let mut given = Report::done()
        .telling(set(&[3]), Notice::Granted { priority: 200 })
        .telling(
            set(&[0, 1, 2]),
            Notice::Taken {
                seat: 3,
                sequence: 3,
            },
        );
    given.ended = Some(0);
    given.given = Some((3, How::OutOfTheLine));
    assert_eq!(desk.step(Event::TimeUp(3)), given);
    let taken = Phase::Taken(entry(3, 200));
    check(&desk, taken, 3, &[entry(1, 6)], &[Timer::T1, Timer::T20]);
    assert_eq!(desk.c20(), 1);

    // k, the first time
    let again = Report::done().telling(set(&[3]), Notice::Granted { priority: 200 });
    assert_eq!(desk.step(Event::TimeUp(20)), again);
    check(&desk, taken, 3, &[entry(1, 6)], &[Timer::T1, Timer::T20]);
    assert_eq!(desk.c20(), 2);

    // k, the second time
    let mut given = Report::done()
        .telling(set(&[1]), Notice::Granted { priority: 6 })
        .telling(
            set(&[0, 2, 3]),
            Notice::Taken {
                seat: 1,
                sequence: 4,
            },
        );
    given.ended = Some(3);
    given.given = Some((1, How::OutOfTheLine));
    assert_eq!(desk.step(Event::TimeUp(20)), given);
    check(
        &desk,
        Phase::Taken(entry(1, 6)),
        4,
        &[],
        &[Timer::T1, Timer::T20],
    );
    assert_eq!(desk.c20(), 1);

    // l
    let mut idle = Report::done().telling(set(&[0, 2, 3]), Notice::Idle { sequence: 5 });
    idle.ended = Some(1);
    assert_eq!(desk.step(Event::Leave(1)), idle);
    check(&desk, Phase::Idle, 5, &[], &[Timer::T4, Timer::T7]);
    assert_eq!(desk.seats().everyone(), set(&[0, 2, 3]));
}

#[test]
fn the_scripts_are_answered_as_worked_out_by_hand() {
    let thursday = include_str!("../../scripts/thursday.expected");
    let in_figures = include_str!("../../scripts/thursday.script");
    let in_words = include_str!("../../scripts/words.script");
    let emergency = include_str!("../../scripts/emergency.expected");
    let full_line = include_str!("../../scripts/emergency.script");
    assert!(!in_words.contains("packet"));
    for (script, expected) in [
        (in_figures, thursday),
        (in_words, thursday),
        (full_line, emergency),
    ] {
        let mut player = Player::new();
        let answers = script
            .lines()
            .filter_map(|line| player.answer(line.as_bytes()));
        assert_eq!(
            answers.collect::<Vec<_>>(),
            expected.lines().collect::<Vec<_>>()
        );
    }
}
