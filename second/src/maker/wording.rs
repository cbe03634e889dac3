//! Lines in figures said in words, where they can be: the same event on the same desk.

use super::dice::Dice;
use crate::desk::Desk;
use crate::hex;
use crate::seats::Seat;
use crate::words::quoted;

/// A line in words that is answered as this line in figures is, if there is one.
pub fn in_words(line: &str, desk: Option<&Desk>, dice: &mut Dice) -> Option<String> {
    let words: Vec<&str> = line.split(' ').collect();
    match words[..] {
        ["make", ssrc, level, limit, c7, c20, duration, normal] => Some(make(
            dice,
            [
                ("ssrc", ssrc),
                ("level", level),
                ("limit", limit),
                ("c7", c7),
                ("c20", c20),
                ("duration", duration),
                ("normal", normal),
            ],
        )),
        ["join", identity, ssrc, highest, queueing, receive_only] => {
            let identity = identity_in_words(dice, identity);
            let flags = flags(dice, queueing, receive_only)?;
            Some(format!("join {identity} {ssrc} {highest}{flags}"))
        }
        ["leave", seat] => {
            let seat = desk?.seats().get(seat.parse().ok()?)?;
            Some(format!("leave {}", quoted(&seat.identity)?))
        }
        ["media", ssrc] => {
            let seat = named(dice, desk?, ssrc.parse().ok()?)?;
            Some(format!("talk {seat}"))
        }
        ["packet", octets] => packet(dice, desk?, &hex::octets(octets.as_bytes())?),
        _ => None,
    }
}

fn make(dice: &mut Dice, mut settings: [(&str, &str); 7]) -> String {
    dice.shuffle(&mut settings);
    let pairs = settings.map(|(name, value)| format!(" {name} {value}"));
    format!("make{}", pairs.concat())
}

/// Mostly in quotes, where quotes can hold it.
fn identity_in_words(dice: &mut Dice, digits: &str) -> String {
    let octets = hex::octets(digits.as_bytes());
    let text = octets.and_then(|identity| quoted(&identity));
    let text = text.filter(|_| dice.chance(80));
    text.unwrap_or_else(|| digits.to_string())
}

fn flags(dice: &mut Dice, queueing: &str, receive_only: &str) -> Option<&'static str> {
    let in_words = dice.chance(90);
    match (queueing, receive_only) {
        ("0", "0") if in_words => Some(""),
        ("1", "0") if in_words => Some(" queueing"),
        ("0", "1") if in_words => Some(" receive-only"),
        ("1", "1") if in_words => {
            Some(dice.any_of([" queueing receive-only", " receive-only queueing"]))
        }
        ("0", "0") => Some(" 0 0"),
        ("1", "0") => Some(" 1 0"),
        ("0", "1") => Some(" 0 1"),
        ("1", "1") => Some(" 1 1"),
        _ => None,
    }
}

/// The seat with this SSRC, by its identity or by its number.
fn named(dice: &mut Dice, desk: &Desk, ssrc: u32) -> Option<String> {
    let is_it = |&(_, seat): &(usize, &Seat)| seat.ssrc == ssrc;
    let (number, seat) = desk.seats().taken().find(is_it)?;
    let text = quoted(&seat.identity).filter(|_| dice.chance(60));
    Some(text.unwrap_or_else(|| number.to_string()))
}

/// A packet that has nothing but what words can say. It is taken apart octet by octet, as it
/// was put together.
fn packet(dice: &mut Dice, desk: &Desk, octets: &[u8]) -> Option<String> {
    match *octets {
        [first, 204, 0, 2, a, b, c, d, b'M', b'C', b'P', b'T'] => {
            let command = match first {
                0x80 => "ask",
                0x84 => "release",
                0x88 => "place",
                _ => return None,
            };
            let seat = named(dice, desk, u32::from_be_bytes([a, b, c, d]))?;
            Some(format!("{command} {seat}"))
        }
        [0x80, 204, 0, 3, a, b, c, d, b'M', b'C', b'P', b'T', 0, 2, priority, 0] => {
            let seat = named(dice, desk, u32::from_be_bytes([a, b, c, d]))?;
            Some(format!("ask {seat} {priority}"))
        }
        _ => None,
    }
}

/// Words of all kinds in any order, with anything between them: a line in order now and then.
pub fn jumble(dice: &mut Dice) -> String {
    let mut line = dice.any_of(COMMANDS).to_string();
    for _ in 0..dice.any_of([0, 1, 1, 2, 2, 3, 3, 4, 5, 5, 6, 12]) {
        line.push_str(dice.any_of([" ", " ", " ", " ", " ", " ", "  ", "\t", " \r", ""]));
        line.push_str(dice.any_of(PIECES));
    }
    line
}

const COMMANDS: [&str; 11] = [
    "ask", "ask", "ask", "release", "place", "talk", "leave", "join", "join", "make", "save",
];

const PIECES: [&str; 37] = [
    "0",
    "1",
    "2",
    "5",
    "15",
    "16",
    "007",
    "255",
    "256",
    "-1",
    "-",
    "61",
    "6",
    "test1",
    "\"test1\"",
    "\"test10\"",
    "\"test2\"",
    "\"a\"",
    "\"b\"",
    "\"\"",
    "\" \"",
    "\"5\"",
    "\"",
    "\"test1",
    "test1\"",
    "\"te\\st\"",
    "\"#\"",
    "#",
    "queueing",
    "receive-only",
    "queueing",
    "receive-only",
    "Queueing",
    "ssrc",
    "level",
    "normal",
    "4294967296",
];
