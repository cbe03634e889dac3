//! The player of scripts: one answer for each line that `FORMAT.md` says is answered.

use std::fmt::{self, Display, Write};

use crate::desk::{Desk, Event, Phase};
use crate::hex::{self, Hex};
use crate::line::Entry;
use crate::packet::{Field, Kind, Message, LONGEST_PACKET};
use crate::refusal::Refusal;
use crate::report::{How, Notice, Report};
use crate::seats::{Seat, Seats, SEATS};
use crate::settings::{Settings, Wishes};
use crate::sheet::{self, LONGEST_SHEET};
use crate::words::{self, Saying, Word};

/// One line of a script, understood.
#[derive(Clone, Debug, PartialEq, Eq)]
enum Command {
    Make(Wishes),
    Load(Vec<u8>),
    /// In room for so many octets, or for any sheet.
    Save(Option<u32>),
    Screen(u32),
    Step(Event),
    Read(Vec<u8>),
    Rewrite(Vec<u8>),
    Write(Draft),
}

/// A message for the writer as a line gives it, which may be one that cannot be written.
#[derive(Clone, Debug, PartialEq, Eq)]
struct Draft {
    room: u32,
    kind: u8,
    wants_ack: bool,
    ssrc: u32,
    fields: Vec<DraftField>,
}

#[derive(Clone, Debug, PartialEq, Eq)]
enum DraftField {
    Priority(u8),
    Duration(u16),
    Cause(u16, Vec<u8>),
    Queue(u8, u8),
    GrantedParty(Vec<u8>),
    Permission(u16),
    User(Vec<u8>),
    Sequence(u16),
    Source(u16),
    MessageType(u8),
    Indicator(u16),
    Ssrc(u32),
}

/// Why a line was not understood.
pub(crate) type Reason = &'static str;

pub(crate) const NOT_A_COMMAND: Reason = "not a command with these words";

/// Plays a script. It holds the desk that the last `make` or `load` made, if any.
#[derive(Clone, Debug, Default)]
pub struct Player {
    desk: Option<Desk>,
}

impl Player {
    pub fn new() -> Player {
        Player::default()
    }

    pub fn desk(&self) -> Option<&Desk> {
        self.desk.as_ref()
    }

    /// The answer to one line, or nothing for a blank line or a comment.
    pub fn answer(&mut self, line: &[u8]) -> Option<String> {
        let first = line.iter().find(|&&octet| !words::is_blank(octet))?;
        if *first == b'#' {
            return None;
        }
        let answer = self.heard(line).and_then(|command| self.obey(command));
        Some(answer.unwrap_or_else(|reason| format!("? {reason}")))
    }

    /// What a line asks for: in figures if it can be taken so, else in words.
    fn heard(&self, line: &[u8]) -> Result<Command, Reason> {
        let words = words::split(line)?;
        in_figures(&words).or_else(|reason| {
            let said = words::understand(&words, self.desk()).unwrap_or(Err(reason))?;
            Ok(match said {
                Saying::Make(wishes) => Command::Make(wishes),
                Saying::Step(event) => Command::Step(event),
            })
        })
    }

    fn obey(&mut self, command: Command) -> Result<String, Reason> {
        match command {
            Command::Make(wishes) => {
                let settings = Settings::weigh(wishes);
                Ok(self.replace(settings.map(|good| Desk::fresh(good, Seats::default()))))
            }
            Command::Load(octets) => Ok(self.replace(sheet::load(&octets))),
            Command::Save(room) => Ok(or_refusal(saved(self.present()?, room))),
            Command::Screen(room) => Ok(screen(self.present()?, room)),
            Command::Step(event) => self.step(event),
            Command::Read(octets) => Ok(or_refusal(Message::read(&octets).map(shown))),
            Command::Rewrite(octets) => Ok(or_refusal(rewritten(&octets))),
            Command::Write(draft) => Ok(or_refusal(draft.write())),
        }
    }

    /// A refused desk keeps the one there was.
    fn replace(&mut self, made: Result<Desk, Refusal>) -> String {
        or_refusal(made.map(|desk| {
            self.desk = Some(desk);
            "OK".to_string()
        }))
    }

    fn present(&self) -> Result<&Desk, Reason> {
        self.desk.as_ref().ok_or("no desk")
    }

    fn step(&mut self, event: Event) -> Result<String, Reason> {
        let desk = self.desk.as_mut().ok_or("no desk")?;
        let report = desk.step(event);
        Ok(step_line(desk, &report))
    }
}

fn or_refusal(result: Result<String, Refusal>) -> String {
    result.unwrap_or_else(|refusal| format!("R {}", refusal.number()))
}

// Understanding a line.

/// A line that has nothing in quotes.
fn in_figures(words: &[Word<'_>]) -> Result<Command, Reason> {
    let bare = words.iter().map(|word| match *word {
        Word::Bare(octets) => Ok(octets),
        Word::Quoted(_) => Err(NOT_A_COMMAND),
    });
    understand(&bare.collect::<Result<Vec<_>, _>>()?)
}

fn understand(words: &[&[u8]]) -> Result<Command, Reason> {
    let (&name, rest) = words.split_first().ok_or("no command")?;
    match (name, rest) {
        (b"make", &[ssrc, level, limit, c7, c20, duration, normal]) => Ok(Command::Make(Wishes {
            ssrc: number(ssrc)?,
            level: number(level)?,
            line_limit: number(limit)?,
            c7_limit: number(c7)?,
            c20_limit: number(c20)?,
            duration: number(duration)?,
            normal_level: number(normal)?,
        })),
        (b"load", &[octets]) => Ok(Command::Load(hexadecimal(octets)?)),
        (b"save", []) => Ok(Command::Save(None)),
        (b"save", &[room]) => Ok(Command::Save(Some(number(room)?))),
        (b"screen", &[room]) => Ok(Command::Screen(number(room)?)),
        (b"read", &[octets]) => Ok(Command::Read(hexadecimal(octets)?)),
        (b"rewrite", &[octets]) => Ok(Command::Rewrite(hexadecimal(octets)?)),
        (b"write", &[room, kind, ack, ssrc, ref fields @ ..]) => Ok(Command::Write(Draft {
            room: number(room)?,
            kind: number(kind)?,
            wants_ack: flag(ack)?,
            ssrc: number(ssrc)?,
            fields: draft_fields(fields)?,
        })),
        _ => understand_event(name, rest).map(Command::Step),
    }
}

fn understand_event(name: &[u8], rest: &[&[u8]]) -> Result<Event, Reason> {
    match (name, rest) {
        (b"join", &[identity, ssrc, highest, queueing, receive_only]) => Ok(Event::Join(Seat {
            identity: hexadecimal(identity)?,
            ssrc: number(ssrc)?,
            highest: number(highest)?,
            queueing: flag(queueing)?,
            receive_only: flag(receive_only)?,
        })),
        (b"leave", &[seat]) => {
            let seat: u32 = number(seat)?;
            Ok(Event::Leave(usize::try_from(seat).unwrap_or(usize::MAX)))
        }
        (b"start", []) => Ok(Event::Start),
        (b"stop", []) => Ok(Event::Stop),
        (b"packet", &[octets]) => Ok(Event::Packet(hexadecimal(octets)?)),
        (b"media", &[ssrc]) => Ok(Event::Media(number(ssrc)?)),
        (b"timer", &[timer]) => Ok(Event::TimeUp(number(timer)?)),
        _ => Err(NOT_A_COMMAND),
    }
}

/// A decimal number that fits its type.
pub(crate) fn number<Number: TryFrom<u32>>(word: &[u8]) -> Result<Number, Reason> {
    if word.is_empty() {
        return Err("a number is missing");
    }
    let value = word.iter().try_fold(0u32, |value, &octet| match octet {
        b'0'..=b'9' => value.checked_mul(10)?.checked_add(u32::from(octet - b'0')),
        _ => None,
    });
    let fitting = value.and_then(|value| Number::try_from(value).ok());
    fitting.ok_or("not a number, or too large a one")
}

pub(crate) fn flag(word: &[u8]) -> Result<bool, Reason> {
    match word {
        b"0" => Ok(false),
        b"1" => Ok(true),
        _ => Err("neither 0 nor 1"),
    }
}

pub(crate) fn hexadecimal(word: &[u8]) -> Result<Vec<u8>, Reason> {
    hex::octets(word).ok_or("not octets in hexadecimal")
}

fn split_at(word: &[u8], mark: u8) -> Result<(&[u8], &[u8]), Reason> {
    let mut parts = word.splitn(2, |&octet| octet == mark);
    let (front, back) = (parts.next(), parts.next());
    front.zip(back).ok_or("bad field")
}

/// The fields of a message, which has one of each ID at most.
fn draft_fields(words: &[&[u8]]) -> Result<Vec<DraftField>, Reason> {
    let mut fields: Vec<DraftField> = Vec::new();
    for word in words {
        let field = draft_field(word)?;
        let id = field.lent().id();
        if fields.iter().any(|other| other.lent().id() == id) {
            return Err("an ID stands twice");
        }
        fields.push(field);
    }
    Ok(fields)
}

fn draft_field(word: &[u8]) -> Result<DraftField, Reason> {
    let (id, value) = split_at(word, b'=')?;
    match number::<u8>(id)? {
        0 => Ok(DraftField::Priority(number(value)?)),
        1 => Ok(DraftField::Duration(number(value)?)),
        2 => {
            let (cause, phrase) = split_at(value, b',')?;
            Ok(DraftField::Cause(number(cause)?, hexadecimal(phrase)?))
        }
        3 => {
            let (position, priority) = split_at(value, b',')?;
            Ok(DraftField::Queue(number(position)?, number(priority)?))
        }
        4 => Ok(DraftField::GrantedParty(hexadecimal(value)?)),
        5 => Ok(DraftField::Permission(number(value)?)),
        6 => Ok(DraftField::User(hexadecimal(value)?)),
        8 => Ok(DraftField::Sequence(number(value)?)),
        10 => Ok(DraftField::Source(number(value)?)),
        12 => Ok(DraftField::MessageType(number(value)?)),
        13 => Ok(DraftField::Indicator(number(value)?)),
        14 => Ok(DraftField::Ssrc(number(value)?)),
        _ => Err("no message has such a field"),
    }
}

impl DraftField {
    fn lent(&self) -> Field<'_> {
        match *self {
            DraftField::Priority(priority) => Field::Priority(priority),
            DraftField::Duration(seconds) => Field::Duration(seconds),
            DraftField::Cause(cause, ref phrase) => Field::Cause { cause, phrase },
            DraftField::Queue(position, priority) => Field::Queue { position, priority },
            DraftField::GrantedParty(ref identity) => Field::GrantedParty(identity),
            DraftField::Permission(permission) => Field::Permission(permission),
            DraftField::User(ref identity) => Field::User(identity),
            DraftField::Sequence(number) => Field::Sequence(number),
            DraftField::Source(source) => Field::Source(source),
            DraftField::MessageType(kind) => Field::MessageType(kind),
            DraftField::Indicator(bits) => Field::Indicator(bits),
            DraftField::Ssrc(ssrc) => Field::Ssrc(ssrc),
        }
    }
}

impl Draft {
    fn write(&self) -> Result<String, Refusal> {
        // A type that no message has is refused as what no reader would accept.
        let kind = Kind::numbered(self.kind).ok_or(Refusal::NoReaderWouldAccept)?;
        let mut message = Message::new(kind, self.ssrc);
        message.wants_ack = self.wants_ack;
        for field in &self.fields {
            message = message.with(field.lent());
        }
        let mut room = [0; LONGEST_PACKET];
        let length = message.write(&mut room[..lent(self.room, LONGEST_PACKET)])?;
        Ok(Hex(&room[..length]).to_string())
    }
}

// Answering.

/// Shows a thing, or `-` where there is none.
struct OrDash<Thing>(Option<Thing>);

impl<Thing: Display> Display for OrDash<Thing> {
    fn fmt(&self, out: &mut fmt::Formatter<'_>) -> fmt::Result {
        match &self.0 {
            Some(thing) => thing.fmt(out),
            None => out.write_str("-"),
        }
    }
}

/// Joins things by a mark; `-` for none at all.
fn joined<Things: Iterator>(things: Things, mark: &str) -> String
where
    Things::Item: Display,
{
    let texts: Vec<String> = things.map(|thing| thing.to_string()).collect();
    if texts.is_empty() {
        return "-".to_string();
    }
    texts.join(mark)
}

impl Display for Entry {
    fn fmt(&self, out: &mut fmt::Formatter<'_>) -> fmt::Result {
        write!(out, "{}:{}", self.seat, self.priority)
    }
}

/// How much room is lent where so much is asked for. Nothing takes more than the most, so
/// more than that makes no difference.
fn lent(room: u32, most: usize) -> usize {
    usize::try_from(room).map_or(most, |room| room.min(most))
}

fn saved(desk: &Desk, room: Option<u32>) -> Result<String, Refusal> {
    let mut octets = [0; LONGEST_SHEET];
    let lent = room.map_or(LONGEST_SHEET, |room| lent(room, LONGEST_SHEET));
    let length = sheet::save_in(desk, &mut octets[..lent])?;
    Ok(Hex(&octets[..length]).to_string())
}

fn screen(desk: &Desk, room: u32) -> String {
    let mut entries = [Entry::default(); SEATS];
    let length = desk.screen(&mut entries[..lent(room, SEATS)]);
    or_refusal(length.map(|length| format!("L {}", joined(entries.iter().take(length), ","))))
}

fn rewritten(octets: &[u8]) -> Result<String, Refusal> {
    let packet = Message::read(octets)?.to_octets()?;
    Ok(Hex(&packet).to_string())
}

/// A message as `read` shows it.
fn shown(message: Message<'_>) -> String {
    let kind = message.kind.number();
    let mut line = format!("M {kind} {} {}", u8::from(message.wants_ack), message.ssrc);
    for field in message.fields() {
        // Writing to a String does not fail.
        let _ = write!(line, " {}={}", field.id(), Value(field));
    }
    line
}

/// The value of a field as `read` shows it.
struct Value<'a>(&'a Field<'a>);

impl Display for Value<'_> {
    fn fmt(&self, out: &mut fmt::Formatter<'_>) -> fmt::Result {
        match *self.0 {
            Field::Priority(octet) | Field::MessageType(octet) => write!(out, "{octet}"),
            Field::Duration(number)
            | Field::Permission(number)
            | Field::Sequence(number)
            | Field::Source(number)
            | Field::Indicator(number) => write!(out, "{number}"),
            Field::Cause { cause, phrase } => write!(out, "{cause},{}", Hex(phrase)),
            Field::Queue { position, priority } => write!(out, "{position},{priority}"),
            Field::GrantedParty(identity) | Field::User(identity) => {
                write!(out, "{}", Hex(identity))
            }
            Field::Ssrc(ssrc) => write!(out, "{ssrc}"),
        }
    }
}

/// The whole answer to a step: the report, and the desk after it.
fn step_line(desk: &Desk, report: &Report) -> String {
    let sent = report.messages.iter().map(|posting| {
        let packet = desk.message(posting.notice).to_octets().unwrap_or_default();
        format!(
            "{} -> {:04x} {}",
            posting.notice,
            posting.to.mask(),
            Hex(&packet)
        )
    });
    let messages = joined(sent, " ; ");
    format!(
        "A {} | {} | {} | {}",
        report.number(),
        messages,
        marks(report),
        state(desk)
    )
}

impl Display for Notice {
    fn fmt(&self, out: &mut fmt::Formatter<'_>) -> fmt::Result {
        match self {
            Notice::Granted { priority } => write!(out, "Granted {priority}"),
            Notice::Taken { seat, sequence } => write!(out, "Taken {seat},{sequence}"),
            Notice::Deny { cause } => write!(out, "Deny {cause}"),
            Notice::Idle { sequence } => write!(out, "Idle {sequence}"),
            Notice::Revoke { cause } => write!(out, "Revoke {cause}"),
            Notice::Info { place, priority } => write!(out, "Info {place},{priority}"),
        }
    }
}

fn marks(report: &Report) -> String {
    let how = report.given.map(|(_, how)| match how {
        How::Directly => "once",
        How::OutOfTheLine => "line",
    });
    format!(
        "{} {:04x} {} {} {}",
        OrDash(report.placed),
        report.struck_off.mask(),
        OrDash(report.ended),
        OrDash(report.given.map(|(seat, _)| seat)),
        OrDash(how),
    )
}

fn state(desk: &Desk) -> String {
    let phase = match desk.phase() {
        Phase::Stopped => "Stopped",
        Phase::Idle => "Idle",
        Phase::Taken(_) => "Taken",
        Phase::Revoking { .. } => "Revoking",
    };
    format!(
        "{} {} {} {} {} {} {}",
        phase,
        desk.sequence(),
        joined(desk.running().timers().map(|timer| timer.number()), ","),
        OrDash(desk.holder()),
        joined(desk.line().iter(), ","),
        desk.c7(),
        desk.c20(),
    )
}
