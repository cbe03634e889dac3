//! What several tests need.
#![allow(dead_code)]

use second::desk::{Desk, Event};
use second::maker::{Maker, Order};
use second::packet::{Field, Kind, Message};
use second::report::Report;
use second::script::Player;
use second::seats::{Seat, Seats};
use second::settings::{Settings, Wishes};

pub const DESK_SSRC: u32 = 1;

pub fn wishes() -> Wishes {
    Wishes {
        ssrc: DESK_SSRC,
        level: 200,
        line_limit: 2,
        c7_limit: 2,
        c20_limit: 2,
        duration: 30,
        normal_level: 0,
    }
}

pub fn desk(wishes: Wishes) -> Desk {
    Desk::fresh(Settings::weigh(wishes).expect("settings"), Seats::default())
}

/// The SSRC that the tests give to a seat.
pub fn ssrc(seat: usize) -> u32 {
    10 + seat as u32
}

pub fn person(identity: &str, ssrc: u32) -> Seat {
    Seat {
        identity: identity.as_bytes().to_vec(),
        ssrc,
        highest: 255,
        queueing: true,
        receive_only: false,
    }
}

/// Seats s0, s1, .. that all negotiated queueing.
pub fn with_seats(mut desk: Desk, count: usize) -> Desk {
    for seat in 0..count {
        let report = desk.step(Event::Join(person(&format!("s{seat}"), ssrc(seat))));
        assert_eq!(report, Report::done());
    }
    desk
}

/// A desk whose call has started, with so many seats.
pub fn started(wishes: Wishes, count: usize) -> Desk {
    let mut desk = with_seats(desk(wishes), count);
    assert_eq!(desk.step(Event::Start).number(), 0);
    desk
}

pub fn packet(message: Message<'_>) -> Event {
    Event::Packet(message.to_octets().expect("a message that can be written"))
}

pub fn ask(desk: &mut Desk, seat: usize, priority: u8) -> Report {
    let request = Message::new(Kind::Request, ssrc(seat)).with(Field::Priority(priority));
    desk.step(packet(request))
}

pub fn send(desk: &mut Desk, seat: usize, kind: Kind) -> Report {
    desk.step(packet(Message::new(kind, ssrc(seat))))
}

pub fn refusal(report: &Report) -> u8 {
    assert_eq!(
        *report,
        report
            .answer
            .map_or_else(Report::refused, |()| report.clone())
    );
    report.number()
}

/// A script of so many lines, with nothing special asked for.
pub fn order(seed: u64, count: usize) -> Order {
    Order {
        seed,
        count,
        wrap: false,
        write: false,
        figures: false,
    }
}

/// All lines that are answered, with their answers.
pub fn played(order: Order) -> Vec<(String, String)> {
    let mut player = Player::new();
    let answer = |line: String| player.answer(line.as_bytes()).map(|answer| (line, answer));
    Maker::new(order).filter_map(answer).collect()
}

/// The refusal that an answer tells, if it tells one.
pub fn told(answer: &str) -> Option<u8> {
    let mut words = answer.split(' ');
    let number: u8 = match words.next() {
        Some("A" | "R") => words.next()?.parse().ok()?,
        _ => return None,
    };
    (number != 0).then_some(number)
}
