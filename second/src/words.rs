//! Lines in words (`FORMAT.md`, "Lines in words"): an identity in quotes or a seat's number
//! stands for the seat, and what is to happen has a name.

use crate::desk::{Desk, Event};
use crate::packet::{Field, Kind, Message};
use crate::script::{flag, hexadecimal, number, Reason, NOT_A_COMMAND};
use crate::seats::Seat;
use crate::settings::Wishes;

/// A word of a line. Of a quoted one the quotation marks are no part.
#[derive(Clone, Copy, Debug, PartialEq, Eq)]
pub enum Word<'a> {
    Bare(&'a [u8]),
    Quoted(&'a [u8]),
}

use Word::{Bare, Quoted};

/// What a line in words asks for.
#[derive(Clone, Debug, PartialEq, Eq)]
pub enum Saying {
    Make(Wishes),
    Step(Event),
}

pub fn is_blank(octet: u8) -> bool {
    matches!(octet, b' ' | b'\t' | b'\r' | b'\n')
}

/// Whether an octet can stand in quotes.
fn is_quotable(octet: u8) -> bool {
    matches!(octet, b' '..=b'~') && !matches!(octet, b'"' | b'\\')
}

/// An identity in quotes, if quotes can hold it.
pub fn quoted(identity: &[u8]) -> Option<String> {
    let text = std::str::from_utf8(identity).ok()?;
    let quotable = identity.iter().all(|&octet| is_quotable(octet));
    quotable.then(|| format!("\"{text}\""))
}

/// The words of a line.
pub fn split(line: &[u8]) -> Result<Vec<Word<'_>>, Reason> {
    let mut words = Vec::new();
    let mut rest = line;
    while let Some((&first, behind)) = rest.split_first() {
        if is_blank(first) {
            rest = behind;
            continue;
        }
        let (word, after) = match first {
            b'"' => split_quoted(behind)?,
            _ => {
                let (word, after) = split_before(rest, is_blank);
                (Bare(word), after)
            }
        };
        words.push(word);
        rest = after;
    }
    Ok(words)
}

/// The octets before the first of some kind, and those from it on.
fn split_before(octets: &[u8], stop: impl Fn(u8) -> bool) -> (&[u8], &[u8]) {
    let end = octets.iter().position(|&octet| stop(octet));
    octets.split_at(end.unwrap_or(octets.len()))
}

/// The quoted word whose opening mark stands before these octets, and what follows it.
fn split_quoted(octets: &[u8]) -> Result<(Word<'_>, &[u8]), Reason> {
    let (text, rest) = split_before(octets, |octet| !is_quotable(octet));
    match rest {
        [b'"'] => Ok((Quoted(text), &[])),
        [b'"', after @ ..] if is_blank(after[0]) => Ok((Quoted(text), after)),
        [b'"', ..] => Err("no blank behind the quotation mark"),
        _ => Err("a quotation mark that is not closed, or what quotes cannot hold"),
    }
}

/// What the words ask for, on this desk if there is one; `None` if no line in words looks so.
pub fn understand(words: &[Word<'_>], desk: Option<&Desk>) -> Option<Result<Saying, Reason>> {
    let from = |&seat: &Word<'_>, kind| sent(Message::new(kind, seated(seat, desk)?.1.ssrc));
    let event = match words {
        [Bare(b"make"), settings @ ..] if settings.len() == 14 => {
            return Some(make(settings).map(Saying::Make));
        }
        &[Bare(b"join"), identity, ssrc, highest, ref flags @ ..] if flags.len() <= 2 => {
            join(identity, ssrc, highest, flags)
        }
        [Bare(b"ask"), seat] => from(seat, Kind::Request),
        &[Bare(b"ask"), seat, priority] => ask(seat, priority, desk),
        [Bare(b"release"), seat] => from(seat, Kind::Release),
        [Bare(b"place"), seat] => from(seat, Kind::PositionRequest),
        &[Bare(b"talk"), seat] => seated(seat, desk).map(|(_, seat)| Event::Media(seat.ssrc)),
        &[Bare(b"leave"), seat @ Quoted(_)] => {
            seated(seat, desk).map(|(number, _)| Event::Leave(number))
        }
        _ => return None,
    };
    Some(event.map(Saying::Step))
}

fn sent(message: Message<'_>) -> Result<Event, Reason> {
    let octets = message.to_octets();
    octets.map(Event::Packet).or(Err("no packet says this"))
}

fn ask(seat: Word<'_>, priority: Word<'_>, desk: Option<&Desk>) -> Result<Event, Reason> {
    let (_, seat) = seated(seat, desk)?;
    let priority = Field::Priority(number(bare(priority)?)?);
    sent(Message::new(Kind::Request, seat.ssrc).with(priority))
}

/// The seat that a word names, with its number.
fn seated<'a>(name: Word<'_>, desk: Option<&'a Desk>) -> Result<(usize, &'a Seat), Reason> {
    let mut taken = desk.ok_or("no desk")?.seats().taken();
    match name {
        Quoted(identity) => taken
            .find(|(_, seat)| seat.identity == identity)
            .ok_or("nobody has this identity"),
        Bare(digits) => {
            let wanted: u32 = number(digits)?;
            taken
                .find(|&(number, _)| u32::try_from(number) == Ok(wanted))
                .ok_or("nobody sits there")
        }
    }
}

fn bare<'a>(word: Word<'a>) -> Result<&'a [u8], Reason> {
    match word {
        Bare(octets) => Ok(octets),
        Quoted(_) => Err("quotes are for identities"),
    }
}

fn make(settings: &[Word<'_>]) -> Result<Wishes, Reason> {
    let setting = |name: &[u8]| {
        let mut named = settings.chunks(2).filter(|pair| pair[0] == Bare(name));
        match (named.next(), named.next()) {
            (Some(&[_, value]), None) => number(bare(value)?),
            _ => Err("a setting is missing, or there twice"),
        }
    };
    Ok(Wishes {
        ssrc: setting(b"ssrc")?,
        level: setting(b"level")?,
        line_limit: setting(b"limit")?,
        c7_limit: setting(b"c7")?,
        c20_limit: setting(b"c20")?,
        duration: setting(b"duration")?,
        normal_level: setting(b"normal")?,
    })
}

fn join(
    identity: Word<'_>,
    ssrc: Word<'_>,
    highest: Word<'_>,
    flags: &[Word<'_>],
) -> Result<Event, Reason> {
    let identity = match identity {
        Bare(digits) => hexadecimal(digits)?,
        Quoted(text) => text.to_vec(),
    };
    let (queueing, receive_only) = match *flags {
        [] => (false, false),
        [Bare(b"queueing")] => (true, false),
        [Bare(b"receive-only")] => (false, true),
        [Bare(b"queueing"), Bare(b"receive-only")] | [Bare(b"receive-only"), Bare(b"queueing")] => {
            (true, true)
        }
        [Bare(queueing), Bare(receive_only)] => (flag(queueing)?, flag(receive_only)?),
        // One flag is a word too few.
        [Bare(b"0" | b"1")] => return Err(NOT_A_COMMAND),
        _ => return Err("neither queueing nor receive-only"),
    };
    Ok(Event::Join(Seat {
        identity,
        ssrc: number(bare(ssrc)?)?,
        highest: number(bare(highest)?)?,
        queueing,
        receive_only,
    }))
}

#[cfg(test)]
mod tests {
    use super::*;
    use crate::script::Player;

    #[test]
    fn words_and_quotes() {
        assert_eq!(split(b" \t\r\n"), Ok(vec![]));
        assert_eq!(
            split(b" ask\t\"test 1\"  5\r\n"),
            Ok(vec![Bare(b"ask"), Quoted(b"test 1"), Bare(b"5")])
        );
        assert_eq!(split(b"\"\" \"#\""), Ok(vec![Quoted(b""), Quoted(b"#")]));
        // A mark within a word is one of its octets.
        assert_eq!(
            split(b"te\"st\" 1"),
            Ok(vec![Bare(b"te\"st\""), Bare(b"1")])
        );
        assert_eq!(split(b"\" ~\""), Ok(vec![Quoted(b" ~")]));
        for bad in [
            &b"\""[..],
            b"\"a",
            b"\"a\n",
            b"\"a\"b\"",
            b"\"a\"\"b\"",
            b"\"a\\\"",
            b"\"a\tb\"",
            b"\"a\rb\"",
            b"\"a\x00\"",
            b"\"a\x1f\"",
            b"\"a\x7f\"",
            b"\"a\xc3\xa9\"",
        ] {
            assert!(split(bad).is_err(), "{bad:?}");
        }
    }

    #[test]
    fn what_can_be_quoted_is_split_off_again() {
        for octet in 0..=255 {
            let identity = [b'a', octet];
            match quoted(&identity) {
                Some(text) => assert_eq!(split(text.as_bytes()), Ok(vec![Quoted(&identity)])),
                None => assert!(!(32..127).contains(&octet) || octet == 34 || octet == 92),
            }
        }
        assert_eq!(quoted(b""), Some("\"\"".to_string()));
    }

    /// A call of seats 0, 1 and 2; seat 1 has an identity that quotes cannot hold. Who asks at
    /// 0 and who names no priority are not the same to the desk.
    fn call() -> Player {
        let mut player = Player::new();
        for line in [
            "make ssrc 1 level 200 limit 2 c7 2 c20 2 duration 30 normal 100",
            "join \"test1\" 10 255 queueing",
            "join 22 11 255 queueing",
            "join \"Test1\" 4294967295 255",
            "start",
        ] {
            let answer = player.answer(line.as_bytes()).expect("an answer");
            assert!(answer == "OK" || answer.starts_with("A 0 "), "{answer}");
        }
        player
    }

    /// What both lines are answered, and the desk after it.
    fn both(player: &Player, line: &str, other: &str) -> [(String, Option<Desk>); 2] {
        [line, other].map(|line| {
            let mut player = player.clone();
            let answer = player.answer(line.as_bytes()).expect("an answer");
            (answer, player.desk().cloned())
        })
    }

    #[test]
    fn a_line_in_words_is_its_line_in_figures() {
        let call = call();
        for (words, figures) in [
            ("ask \"test1\" 5", "packet 80cc00030000000a4d43505400020500"),
            ("ask 0 005", "packet 80cc00030000000a4d43505400020500"),
            ("ask 00", "packet 80cc00020000000a4d435054"),
            ("ask 1 255", "packet 80cc00030000000b4d4350540002ff00"),
            ("ask \"Test1\" 0", "packet 80cc0003ffffffff4d43505400020000"),
            ("release \"test1\"", "packet 84cc00020000000a4d435054"),
            ("place 2", "packet 88cc0002ffffffff4d435054"),
            ("talk \"Test1\"", "media 4294967295"),
            ("talk 1", "media 11"),
            ("leave \"Test1\"", "leave 2"),
            ("join \"a b\" 012 7", "join 612062 12 7 0 0"),
            ("join \"\" 12 7", "join - 12 7 0 0"),
            ("join - 12 7 queueing", "join - 12 7 1 0"),
            ("join 5C 12 7 receive-only", "join 5c 12 7 0 1"),
            ("join \"c\" 12 7 queueing receive-only", "join 63 12 7 1 1"),
            ("join \"c\" 12 7 receive-only queueing", "join 63 12 7 1 1"),
            ("join \"c\" 12 7 0 1", "join 63 12 7 0 1"),
            (
                "make normal 7 c20 5 c7 4 duration 6 ssrc 1 limit 3 level 2",
                "make 1 2 3 4 5 6 7",
            ),
            (
                "make duration 6 c20 5 c7 4 limit 3 level 2 ssrc 1 normal 0",
                "make 1 2 3 4 5 6 0",
            ),
            (
                "make ssrc 1 level 2 limit 3 c7 4 c20 5 duration 6 normal 256",
                "make 1 2 3 4 5 6 256",
            ),
        ] {
            let [said, meant] = both(&call, words, figures);
            assert_eq!(said, meant, "{words}");
            assert!(!said.0.starts_with('?'), "{words}");
        }
    }

    #[test]
    fn what_cannot_be_said_leaves_the_desk_as_it_was() {
        let call = call();
        for line in [
            "ask",
            "ask \"test1\" 5 5",
            "ask \"test1\" 256",
            "ask \"test1\" -",
            "ask \"test1\" \"5\"",
            "ask test1 5",
            "ask \"test\" 5",
            "ask \"TEST1\" 5",
            "ask \"\" 5",
            "ask 7465737431 5",
            "ask 3 5",
            "ask 16 5",
            "ask 4294967296 5",
            "Ask 0 5",
            "\"ask\" 0 5",
            "release",
            "release 0 5",
            "release 15",
            "place \"nobody\"",
            "talk \"\"",
            "talk 10",
            "leave \"nobody\"",
            "leave \"test1",
            "leave \"test1\"\"Test1\"",
            "join \"c\" 12",
            "join \"c\" 12 256",
            "join \"c\" \"12\" 255",
            "join \"c\" 12 255 1",
            "join \"c\" 12 255 queueing 0",
            "join \"c\" 12 255 queueing queueing",
            "join \"c\" 12 255 Queueing",
            "join \"c\" 12 255 queueing receive-only 0",
            "join c 12 255 queueing",
            "make ssrc 1 level 200 limit 2 c7 2 c20 2 duration 30",
            "make ssrc 1 level 200 limit 2 c7 2 c20 2 duration 30 normal 0 ssrc 1",
            "make ssrc 1 level 200 limit 2 c7 2 c20 2 duration 30 normal 0 seconds 30",
            "make ssrc 1 level 200 limit 2 c7 2 c20 2 duration 30 normal 0 0",
            "make ssrc 1 level 200 limit 2 c7 2 c20 2 duration 30 ssrc 1",
            "make ssrc 1 level 200 limit 2 c7 2 c20 2 normal 0 normal 0",
            "make ssrc 1 level 200 limit 2 c7 2 c20 2 normal 0 seconds 30",
            "make ssrc 1 level 200 limit 2 c7 2 c20 2 duration 30 normal x",
            "make ssrc 1 level 200 limit 2 c7 2 c20 2 duration 30 normal",
            "make ssrc 1 level 200 limit 2 c7 2 c20 2 duration 30 normal 4294967296",
            "make 1 200 2 2 2 30",
            "make 1 200 2 2 2 30 0 0",
            "make 1 200 2 2 2 30 -1",
            "make 1 200 2 2 2 30 4294967296",
            "save x",
            "save -",
            "save 0x14",
            "save 4294967296",
            "save 20 20",
            "save 20 20 20",
            "save \"20\"",
            "make \"ssrc\" 1 level 200 limit 2 c7 2 c20 2 duration 30 normal 0",
            "start # now",
            "packet \"80cc\"",
            "timer \"1\"",
        ] {
            let mut player = call.clone();
            let answer = player.answer(line.as_bytes()).unwrap_or_default();
            assert!(answer.starts_with("? "), "{line}: {answer}");
            assert_eq!(player.desk(), call.desk(), "{line}");
        }
    }

    #[test]
    fn without_a_desk_nobody_sits_anywhere() {
        for line in ["ask 0 5", "talk \"test1\"", "join \"a\" 1 1", "leave \"a\""] {
            let answer = Player::new().answer(line.as_bytes());
            assert_eq!(answer.as_deref(), Some("? no desk"), "{line}");
        }
    }
}
