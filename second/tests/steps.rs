//! The desk's steps beside Thursday's exercise: refusals, rules, timers.

mod common;

use common::{ask, desk, packet, person, refusal, send, ssrc, started, wishes, with_seats};
use second::desk::{Desk, Event, Phase};
use second::line::Entry;
use second::packet::{Field, Kind, Message};
use second::refusal::Refusal;
use second::report::{How, Notice, Report};
use second::seats::SeatSet;
use second::settings::{Settings, Wishes};
use second::timers::{Ticking, Timer};

fn timer(desk: &mut Desk, number: u32) -> Report {
    desk.step(Event::TimeUp(number))
}

fn notices(report: &Report) -> Vec<Notice> {
    report
        .messages
        .iter()
        .map(|posting| posting.notice)
        .collect()
}

fn deny(cause: u16) -> Vec<Notice> {
    vec![Notice::Deny { cause }]
}

fn line(desk: &Desk) -> Vec<(usize, u8)> {
    desk.line()
        .iter()
        .map(|entry| (entry.seat, entry.priority))
        .collect()
}

fn roomy() -> Wishes {
    Wishes {
        line_limit: 15,
        ..wishes()
    }
}

#[test]
fn settings_at_their_edges() {
    let weigh = |change: fn(&mut Wishes, u32), value| {
        let mut wanted = wishes();
        change(&mut wanted, value);
        Settings::weigh(wanted).is_ok()
    };
    for (value, good) in [
        (0, false),
        (1, true),
        (255, true),
        (256, false),
        (u32::MAX, false),
    ] {
        assert_eq!(weigh(|wishes, value| wishes.level = value, value), good);
        assert_eq!(weigh(|wishes, value| wishes.c7_limit = value, value), good);
        assert_eq!(weigh(|wishes, value| wishes.c20_limit = value, value), good);
    }
    for (value, good) in [(0, true), (15, true), (16, false), (256, false)] {
        assert_eq!(
            weigh(|wishes, value| wishes.line_limit = value, value),
            good
        );
    }
    for (value, good) in [(0, false), (1, true), (65_535, true), (65_536, false)] {
        assert_eq!(weigh(|wishes, value| wishes.duration = value, value), good);
    }
    for (value, good) in [
        (0, true),
        (1, true),
        (255, true),
        (256, false),
        (257, false),
        (65_536, false),
        (u32::MAX, false),
    ] {
        assert_eq!(
            weigh(|wishes, value| wishes.normal_level = value, value),
            good
        );
    }
}

#[test]
fn the_two_levels_have_nothing_to_do_with_each_other() {
    for level in [1, 2, 200, 255] {
        for normal_level in [0, 1, 2, 199, 200, 201, 254, 255] {
            let settings = Settings::weigh(Wishes {
                level,
                normal_level,
                ..wishes()
            });
            let settings = settings.expect("settings");
            assert_eq!(u32::from(settings.level()), level);
            assert_eq!(u32::from(settings.normal_level()), normal_level);
        }
    }
}

#[test]
fn join_tests_25_26_27_24_in_this_order() {
    let mut desk = with_seats(desk(wishes()), 16);
    let before = desk.clone();
    let mut join = |identity: &str, ssrc| refusal(&desk.step(Event::Join(person(identity, ssrc))));
    assert_eq!(join("", ssrc(0)), 25);
    assert_eq!(join(&"x".repeat(63), ssrc(0)), 25);
    assert_eq!(join("s0", ssrc(0)), 26);
    assert_eq!(join("new", ssrc(0)), 27);
    assert_eq!(join("new", 1), 27);
    assert_eq!(join("new", 999), 24);
    assert_eq!(desk, before);
}

#[test]
fn identities_of_1_to_62_octets_that_look_alike() {
    let mut desk = desk(wishes());
    let names = ["test1", "test10", "test1\0", "TEST1"].map(str::to_string);
    let long = [1, 61, 62].map(|length| "x".repeat(length));
    for (seat, identity) in names.iter().chain(&long).enumerate() {
        assert_eq!(
            desk.step(Event::Join(person(identity, ssrc(seat))))
                .number(),
            0
        );
    }
    assert_eq!(desk.seats().everyone().mask(), 0x7f);
}

#[test]
fn the_lowest_free_seat_is_taken() {
    let mut desk = with_seats(desk(wishes()), 5);
    desk.step(Event::Leave(3));
    desk.step(Event::Leave(1));
    desk.step(Event::Join(person("new", 900)));
    assert_eq!(desk.seats().with_ssrc(900), Some(1));
}

#[test]
fn stopped_comes_before_all_but_join_leave_and_start() {
    let mut desk = with_seats(desk(wishes()), 2);
    assert_eq!(refusal(&desk.step(Event::Stop)), 21);
    assert_eq!(refusal(&desk.step(Event::Media(ssrc(0)))), 21);
    assert_eq!(refusal(&desk.step(Event::Media(9))), 21);
    assert_eq!(refusal(&timer(&mut desk, 1)), 21);
    assert_eq!(refusal(&timer(&mut desk, 99)), 21);
    for kind in [Kind::Request, Kind::Release, Kind::PositionRequest] {
        assert_eq!(refusal(&send(&mut desk, 0, kind)), 21);
    }
    // A packet that cannot be read is no event at all.
    assert_eq!(refusal(&desk.step(Event::Packet(vec![]))), 1);
    assert_eq!(refusal(&desk.step(Event::Leave(2))), 22);
    assert_eq!(refusal(&desk.step(Event::Leave(16))), 22);
    assert_eq!(refusal(&desk.step(Event::Leave(usize::MAX))), 22);
    assert_eq!(desk.step(Event::Leave(1)), Report::done());
    assert_eq!(desk.step(Event::Start).number(), 0);
    assert_eq!(refusal(&desk.step(Event::Start)), 23);
}

#[test]
fn other_types_are_not_expected_after_21_and_22() {
    let mut desk = started(wishes(), 2);
    let ack = |ssrc| {
        let message = Message::new(Kind::Ack, ssrc);
        packet(message.with(Field::Source(1)).with(Field::MessageType(3)))
    };
    assert_eq!(refusal(&desk.step(ack(9))), 22);
    assert_eq!(refusal(&desk.step(ack(1))), 22);
    assert_eq!(refusal(&desk.step(ack(ssrc(0)))), 23);
    desk.step(Event::Stop);
    assert_eq!(refusal(&desk.step(ack(9))), 21);
}

#[test]
fn a_packet_with_a_field_twice_is_refused_in_every_phase() {
    let twice = |ssrc: u32| {
        let request = Message::new(Kind::Request, ssrc).with(Field::Priority(5));
        let mut octets = request.to_octets().expect("octets");
        octets.extend([0, 2, 200, 0]);
        octets[3] += 1;
        Event::Packet(octets)
    };
    let mut desk = with_seats(desk(roomy()), 3);
    let steps: [fn(&mut Desk) -> Report; 5] = [
        |desk| desk.step(Event::Start),
        |desk| ask(desk, 0, 5),
        |desk| ask(desk, 1, 5),
        |desk| ask(desk, 2, 200),
        |desk| desk.step(Event::Stop),
    ];
    let mut phases = Vec::new();
    for step in steps {
        // Whoever it is from: it is not read, so it is nobody's.
        for ssrc in [ssrc(0), ssrc(1), 9, common::DESK_SSRC] {
            let before = desk.clone();
            assert_eq!(refusal(&desk.step(twice(ssrc))), 14);
            assert_eq!(desk, before);
        }
        phases.push(desk.phase());
        assert_eq!(step(&mut desk).number(), 0);
    }
    assert_eq!(phases[0], Phase::Stopped);
    assert_eq!(phases[1], Phase::Idle);
    assert!(matches!(phases[2..4], [Phase::Taken(_), Phase::Taken(_)]));
    assert!(matches!(phases[4], Phase::Revoking { .. }));
    assert_eq!(refusal(&desk.step(twice(ssrc(0)))), 14);
}

#[test]
fn a_seat_alone_and_a_seat_that_only_receives() {
    let mut desk = started(wishes(), 1);
    let before = desk.clone();
    assert_eq!(notices(&ask(&mut desk, 0, 255)), deny(3));
    assert_eq!(desk, before);
    let mut deaf = person("deaf", 900);
    deaf.receive_only = true;
    desk.step(Event::Join(deaf));
    let request = Message::new(Kind::Request, 900).with(Field::Priority(255));
    assert_eq!(notices(&desk.step(packet(request))), deny(5));
    // Company that only receives is company.
    assert_eq!(ask(&mut desk, 0, 1).given, Some((0, How::Directly)));
    assert_eq!(notices(&desk.step(packet(request))), deny(5));
    // Even alone, the one who only receives is told that first.
    desk.step(Event::Leave(0));
    assert_eq!(notices(&desk.step(packet(request))), deny(5));
}

#[test]
fn the_effective_priority_is_the_lower_one() {
    let mut desk = started(roomy(), 2);
    let mut meek = person("meek", 900);
    meek.highest = 4;
    desk.step(Event::Join(meek));
    let request = Message::new(Kind::Request, 900);
    ask(&mut desk, 0, 9);
    ask(&mut desk, 1, 4);
    let report = desk.step(packet(request.with(Field::Priority(250))));
    assert_eq!(
        notices(&report),
        [Notice::Info {
            place: 2,
            priority: 4
        }]
    );
    // 4 again by another number: it keeps its place.
    ask(&mut desk, 1, 3);
    ask(&mut desk, 1, 4);
    desk.step(packet(request.with(Field::Priority(4))));
    assert_eq!(line(&desk), [(2, 4), (1, 4)]);
    // No Floor Priority field is 0 where the normal level is.
    desk.step(packet(request));
    assert_eq!(line(&desk), [(1, 4), (2, 0)]);
}

#[test]
fn the_holder_asks_again() {
    let mut desk = started(wishes(), 2);
    ask(&mut desk, 0, 7);
    let before = desk.clone();
    let again = Report::done().telling(SeatSet::only(0), Notice::Granted { priority: 7 });
    assert_eq!(ask(&mut desk, 0, 255), again);
    assert_eq!(desk, before);
    ask(&mut desk, 1, 200);
    assert!(matches!(desk.phase(), Phase::Revoking { .. }));
    assert_eq!(refusal(&ask(&mut desk, 0, 7)), 23);
}

#[test]
fn the_same_priority_keeps_its_place_and_a_changed_one_moves() {
    let mut desk = started(roomy(), 5);
    for seat in 0..5 {
        ask(&mut desk, seat, 5);
    }
    let report = ask(&mut desk, 2, 5);
    assert_eq!(report.placed, None);
    assert_eq!(
        notices(&report),
        [Notice::Info {
            place: 2,
            priority: 5
        }]
    );
    assert_eq!(line(&desk), [(1, 5), (2, 5), (3, 5), (4, 5)]);
    ask(&mut desk, 1, 6);
    ask(&mut desk, 1, 5);
    assert_eq!(line(&desk), [(2, 5), (3, 5), (4, 5), (1, 5)]);
}

#[test]
fn a_second_at_the_level_does_not_press() {
    let mut desk = started(roomy(), 4);
    let mut rude = person("rude", 900);
    rude.queueing = false;
    desk.step(Event::Join(rude));
    ask(&mut desk, 0, 5);
    assert_eq!(notices(&ask(&mut desk, 1, 200)).len(), 2);
    let request = Message::new(Kind::Request, 900).with(Field::Priority(255));
    assert_eq!(notices(&desk.step(packet(request))), deny(1));
    // One who negotiated queueing is placed by priority, and nobody is revoked again.
    let report = ask(&mut desk, 2, 255);
    assert_eq!(
        notices(&report),
        [Notice::Info {
            place: 1,
            priority: 255
        }]
    );
    assert_eq!(line(&desk), [(2, 255), (1, 200)]);
    // The cause stays, and T8 tells it again.
    let again = [Notice::Revoke { cause: 4 }];
    assert_eq!(notices(&timer(&mut desk, 8)), again);
    assert_eq!(notices(&timer(&mut desk, 8)), again);
}

#[test]
fn a_press_in_revoking_is_placed_and_sends_no_revoke() {
    let mut desk = started(roomy(), 2);
    let mut rude = person("rude", 900);
    rude.queueing = false;
    desk.step(Event::Join(rude));
    ask(&mut desk, 0, 5);
    desk.step(Event::Media(ssrc(0)));
    assert_eq!(notices(&timer(&mut desk, 2)), [Notice::Revoke { cause: 2 }]);
    let request = Message::new(Kind::Request, 900).with(Field::Priority(200));
    let report = desk.step(packet(request));
    assert_eq!(
        report,
        Report {
            placed: Some(2),
            ..Report::done()
        }
    );
    assert_eq!(notices(&timer(&mut desk, 8)), [Notice::Revoke { cause: 2 }]);
    // In line, it may ask below the level without a Deny, and gets no Info.
    let report = desk.step(packet(Message::new(Kind::Request, 900)));
    assert_eq!(report, Report::done());
    assert_eq!(line(&desk), [(2, 0)]);
}

#[test]
fn who_moves_up_to_the_level_presses() {
    let mut desk = started(wishes(), 3);
    ask(&mut desk, 0, 5);
    ask(&mut desk, 1, 5);
    ask(&mut desk, 2, 5);
    let report = ask(&mut desk, 2, 200);
    let info = Notice::Info {
        place: 1,
        priority: 200,
    };
    assert_eq!(notices(&report), [info, Notice::Revoke { cause: 4 }]);
    assert_eq!(report.placed, None);
}

#[test]
fn a_line_of_no_places() {
    let mut desk = started(
        Wishes {
            line_limit: 0,
            ..wishes()
        },
        3,
    );
    ask(&mut desk, 0, 5);
    assert_eq!(notices(&ask(&mut desk, 1, 5)), deny(7));
    assert_eq!(notices(&ask(&mut desk, 1, 255)), deny(7));
    assert!(matches!(desk.phase(), Phase::Taken(_)));
}

#[test]
fn queue_position_requests() {
    let mut desk = started(roomy(), 3);
    let nowhere = Report::done().telling(
        SeatSet::only(2),
        Notice::Info {
            place: 255,
            priority: 0,
        },
    );
    assert_eq!(send(&mut desk, 2, Kind::PositionRequest), nowhere);
    ask(&mut desk, 0, 5);
    ask(&mut desk, 1, 9);
    ask(&mut desk, 2, 9);
    let second = Report::done().telling(
        SeatSet::only(2),
        Notice::Info {
            place: 2,
            priority: 9,
        },
    );
    assert_eq!(send(&mut desk, 2, Kind::PositionRequest), second);
    let holder = send(&mut desk, 0, Kind::PositionRequest);
    assert_eq!(
        notices(&holder),
        [Notice::Info {
            place: 255,
            priority: 0
        }]
    );
}

#[test]
fn media() {
    let mut desk = started(wishes(), 3);
    assert_eq!(refusal(&desk.step(Event::Media(9))), 22);
    assert_eq!(refusal(&desk.step(Event::Media(ssrc(0)))), 23);
    ask(&mut desk, 0, 5);
    ask(&mut desk, 1, 5);
    assert_eq!(refusal(&desk.step(Event::Media(ssrc(1)))), 23);
    timer(&mut desk, 1);
    assert_eq!(desk.running(), Ticking::only(&[Timer::T1, Timer::T20]));
    assert_eq!(desk.step(Event::Media(ssrc(1))), Report::done());
    assert_eq!(desk.running(), Ticking::only(&[Timer::T1, Timer::T2]));
    assert_eq!(desk.c20(), 1);
    assert_eq!(refusal(&timer(&mut desk, 20)), 23);
    timer(&mut desk, 2);
    let before = desk.clone();
    assert_eq!(desk.step(Event::Media(ssrc(1))), Report::done());
    assert_eq!(desk, before);
}

#[test]
fn releases_and_leaves() {
    let mut desk = started(wishes(), 4);
    assert_eq!(refusal(&send(&mut desk, 0, Kind::Release)), 23);
    ask(&mut desk, 0, 5);
    ask(&mut desk, 1, 5);
    ask(&mut desk, 2, 5);
    assert_eq!(refusal(&send(&mut desk, 3, Kind::Release)), 23);
    assert_eq!(desk.step(Event::Leave(3)), Report::done());
    let struck_off = Report {
        struck_off: SeatSet::only(1),
        ..Report::done()
    };
    assert_eq!(desk.step(Event::Leave(1)), struck_off);
    // The holder leaves; the head of the line is given the floor though it is alone.
    let report = desk.step(Event::Leave(0));
    assert_eq!(
        (report.ended, report.given),
        (Some(0), Some((2, How::OutOfTheLine)))
    );
    assert_eq!(report.messages[1].to, SeatSet::NONE);
    assert_eq!(desk.sequence(), 3);
    let report = desk.step(Event::Leave(2));
    assert_eq!(report.messages[0].to, SeatSet::NONE);
    assert_eq!(notices(&report), [Notice::Idle { sequence: 4 }]);
}

#[test]
fn stop_and_start_again() {
    let mut desk = started(wishes(), 3);
    for seat in 0..3 {
        ask(&mut desk, seat, 5);
    }
    let report = desk.step(Event::Stop);
    let struck_off = [1, 2].into_iter().collect();
    assert_eq!(
        report,
        Report {
            ended: Some(0),
            struck_off,
            ..Report::done()
        }
    );
    assert_eq!(
        (desk.phase(), desk.running()),
        (Phase::Stopped, Ticking::NONE)
    );
    assert_eq!(desk.seats().everyone().mask(), 7);
    assert_eq!(
        notices(&desk.step(Event::Start)),
        [Notice::Idle { sequence: 3 }]
    );
}

#[test]
fn timers_in_idle() {
    let mut desk = started(wishes(), 2);
    assert_eq!(
        notices(&timer(&mut desk, 7)),
        [Notice::Idle { sequence: 2 }]
    );
    assert_eq!(desk.c7(), 2);
    assert_eq!(timer(&mut desk, 7), Report::done());
    assert_eq!((desk.c7(), desk.sequence()), (2, 2));
    assert_eq!(desk.running(), Ticking::only(&[Timer::T4]));
    assert_eq!(refusal(&timer(&mut desk, 7)), 23);
    for number in [0, 1, 2, 3, 5, 6, 8, 20, 21, u32::MAX] {
        assert_eq!(refusal(&timer(&mut desk, number)), 23);
    }
    assert_eq!(timer(&mut desk, 4), Report::done());
    assert_eq!(desk.phase(), Phase::Stopped);
    assert_eq!(desk.c7(), 2);
}

#[test]
fn t1_ends_the_floor_in_taken_and_in_revoking() {
    let mut desk = started(wishes(), 3);
    ask(&mut desk, 0, 5);
    ask(&mut desk, 1, 200);
    let report = timer(&mut desk, 1);
    assert_eq!(
        (report.ended, report.given),
        (Some(0), Some((1, How::OutOfTheLine)))
    );
    let report = timer(&mut desk, 1);
    assert_eq!((report.ended, report.given), (Some(1), None));
    assert_eq!(desk.phase(), Phase::Idle);
}

#[test]
fn the_sequence_number_goes_from_65535_to_0() {
    let mut desk = started(wishes(), 2);
    while desk.sequence() != 65_535 {
        desk.step(Event::Stop);
        desk.step(Event::Start);
    }
    let report = ask(&mut desk, 0, 5);
    assert_eq!(
        notices(&report)[1],
        Notice::Taken {
            seat: 0,
            sequence: 0
        }
    );
    let report = send(&mut desk, 0, Kind::Release);
    assert_eq!(notices(&report), [Notice::Idle { sequence: 1 }]);
}

#[test]
fn the_wall_screen() {
    let mut desk = started(wishes(), 3);
    let blank = Entry {
        seat: 77,
        priority: 77,
    };
    assert_eq!(desk.screen(&mut []), Ok(0));
    for seat in 0..3 {
        ask(&mut desk, seat, seat as u8);
    }
    let mut room = [blank; 1];
    assert_eq!(desk.screen(&mut room), Err(Refusal::RoomTooShort));
    assert_eq!(room, [blank; 1]);
    let mut room = [blank; 3];
    assert_eq!(desk.screen(&mut room), Ok(2));
    let [first, second] = [(2, 2), (1, 1)].map(|(seat, priority)| Entry { seat, priority });
    assert_eq!(room, [first, second, blank]);
}
