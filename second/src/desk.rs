//! The desk and its steps (document 01, "The desk"; document 02, #101).

use crate::line::{Entry, Line};
use crate::packet::{Field, Kind, Message};
use crate::refusal::Refusal;
use crate::report::{How, Notice, Report};
use crate::seats::{Seat, SeatSet, Seats};
use crate::settings::Settings;
use crate::timers::{Ticking, Timer};

const DENY_ANOTHER_HAS_IT: u16 = 1;
const DENY_ALONE: u16 = 3;
const DENY_RECEIVE_ONLY: u16 = 5;
const DENY_LINE_FULL: u16 = 7;
const REVOKE_TOO_LONG: u16 = 2;
const REVOKE_PRE_EMPTED: u16 = 4;

/// What Queue Position Info says to a seat that does not wait.
const NOT_IN_LINE: Notice = Notice::Info {
    place: 255,
    priority: 0,
};

/// Where the call is. The floor has a holder in the last two phases only.
#[derive(Clone, Copy, Debug, PartialEq, Eq)]
pub enum Phase {
    Stopped,
    Idle,
    Taken(Entry),
    Revoking { holder: Entry, cause: u16 },
}

/// Something that happens to the desk.
#[derive(Clone, Debug, PartialEq, Eq)]
pub enum Event {
    Join(Seat),
    Leave(usize),
    Start,
    Stop,
    Packet(Vec<u8>),
    Media(u32),
    /// The expiry of a timer, by its number.
    TimeUp(u32),
}

type Outcome = Result<Report, Refusal>;

#[derive(Clone, Debug, PartialEq, Eq)]
pub struct Desk {
    settings: Settings,
    seats: Seats,
    phase: Phase,
    line: Line,
    running: Ticking,
    sequence: u16,
    c7: u8,
    c20: u8,
}

/// Looking at a desk.
impl Desk {
    /// A fresh desk with these seats.
    pub fn fresh(settings: Settings, seats: Seats) -> Desk {
        Desk {
            settings,
            seats,
            phase: Phase::Stopped,
            line: Line::default(),
            running: Ticking::NONE,
            sequence: 0,
            c7: 0,
            c20: 0,
        }
    }

    pub fn settings(&self) -> &Settings {
        &self.settings
    }

    pub fn seats(&self) -> &Seats {
        &self.seats
    }

    pub fn phase(&self) -> Phase {
        self.phase
    }

    pub fn line(&self) -> &[Entry] {
        self.line.entries()
    }

    pub fn running(&self) -> Ticking {
        self.running
    }

    pub fn sequence(&self) -> u16 {
        self.sequence
    }

    pub fn c7(&self) -> u8 {
        self.c7
    }

    pub fn c20(&self) -> u8 {
        self.c20
    }

    pub fn holder(&self) -> Option<Entry> {
        match self.phase {
            Phase::Stopped | Phase::Idle => None,
            Phase::Taken(holder) | Phase::Revoking { holder, .. } => Some(holder),
        }
    }

    /// Hands the line to the wall screen, in lent room, and says how long it is.
    pub fn screen(&self, room: &mut [Entry]) -> Result<usize, Refusal> {
        let line = self.line.entries();
        let front = room.get_mut(..line.len());
        let front = front.ok_or(Refusal::RoomTooShort)?;
        front.copy_from_slice(line);
        Ok(line.len())
    }

    /// What is sent, as a packet says it.
    pub fn message(&self, notice: Notice) -> Message<'_> {
        let from_desk = |kind| Message::new(kind, self.settings.ssrc());
        match notice {
            Notice::Granted { priority } => from_desk(Kind::Granted)
                .with(Field::Priority(priority))
                .with(Field::Duration(self.settings.duration())),
            Notice::Taken { seat, sequence } => from_desk(Kind::Taken)
                .with(Field::GrantedParty(self.identity(seat)))
                .with(Field::Permission(1))
                .with(Field::Sequence(sequence)),
            Notice::Deny { cause } => from_desk(Kind::Deny).with(bare_cause(cause)),
            Notice::Idle { sequence } => from_desk(Kind::Idle).with(Field::Sequence(sequence)),
            Notice::Revoke { cause } => from_desk(Kind::Revoke).with(bare_cause(cause)),
            Notice::Info { place, priority } => from_desk(Kind::PositionInfo).with(Field::Queue {
                position: place,
                priority,
            }),
        }
    }

    fn identity(&self, seat: usize) -> &[u8] {
        self.seats.get(seat).map_or(&[], |seat| &seat.identity)
    }
}

/// A cause with no phrase.
fn bare_cause(cause: u16) -> Field<'static> {
    Field::Cause { cause, phrase: &[] }
}

/// Making a step.
impl Desk {
    /// Makes one step. A refused one leaves the desk as it was: every rule below refuses
    /// before it changes anything.
    pub fn step(&mut self, event: Event) -> Report {
        let step = match event {
            Event::Join(newcomer) => self.join(newcomer),
            Event::Leave(number) => self.leave(number),
            Event::Start => self.start(),
            Event::Stop => self.stop(),
            Event::Packet(octets) => self.packet(&octets),
            Event::Media(ssrc) => self.media(ssrc),
            Event::TimeUp(number) => self.expiry(number),
        };
        step.unwrap_or_else(Report::refused)
    }

    fn join(&mut self, newcomer: Seat) -> Outcome {
        self.seats.admit(newcomer, self.settings.ssrc())?;
        Ok(Report::done())
    }

    fn leave(&mut self, number: usize) -> Outcome {
        // The seat is freed first, so that the leaver is in no set of receivers.
        self.seats.dismiss(number)?;
        if self.holds(number) {
            return Ok(self.floor_falls_free());
        }
        let mut report = Report::done();
        if self.line.strike(number) {
            report.struck_off = SeatSet::only(number);
        }
        Ok(report)
    }

    fn start(&mut self) -> Outcome {
        if self.phase != Phase::Stopped {
            return Err(Refusal::NotExpectedNow);
        }
        Ok(self.fall_idle(Report::done()))
    }

    fn stop(&mut self) -> Outcome {
        self.must_run()?;
        Ok(self.call_stops())
    }

    fn packet(&mut self, octets: &[u8]) -> Outcome {
        let message = Message::read(octets)?;
        let seat = self.caller(message.ssrc)?;
        match message.kind {
            Kind::Request => self.request(seat, message.asked()),
            Kind::Release => self.release(seat),
            Kind::PositionRequest => Ok(self.answer_place(seat)),
            _ => Err(Refusal::NotExpectedNow),
        }
    }

    fn media(&mut self, ssrc: u32) -> Outcome {
        let seat = self.caller(ssrc)?;
        match self.phase {
            Phase::Taken(holder) if holder.seat == seat => {
                self.running = self.running.and(Timer::T2).without(Timer::T20);
                Ok(Report::done())
            }
            Phase::Revoking { holder, .. } if holder.seat == seat => Ok(Report::done()),
            _ => Err(Refusal::NotExpectedNow),
        }
    }

    fn must_run(&self) -> Result<(), Refusal> {
        match self.phase {
            Phase::Stopped => Err(Refusal::CallNotRunning),
            _ => Ok(()),
        }
    }

    /// The seat that a packet or media comes from: 21, then 22.
    fn caller(&self, ssrc: u32) -> Result<usize, Refusal> {
        self.must_run()?;
        self.seats.with_ssrc(ssrc).ok_or(Refusal::NobodyThere)
    }

    fn holds(&self, seat: usize) -> bool {
        self.holder().map(|holder| holder.seat) == Some(seat)
    }
}

/// Packets that are events.
impl Desk {
    fn request(&mut self, number: usize, asked: Option<u8>) -> Outcome {
        let seat = self.seats.get(number).ok_or(Refusal::NobodyThere)?;
        let asker = Entry {
            seat: number,
            priority: self.effective(asked, seat),
        };
        let (queueing, receive_only) = (seat.queueing, seat.receive_only);
        if self.holds(number) {
            return self.ask_as_holder();
        }
        if receive_only {
            return Ok(deny(number, DENY_RECEIVE_ONLY));
        }
        match self.holder() {
            None => Ok(self.ask_in_idle(asker)),
            Some(holder) => Ok(self.ask_to_wait(asker, queueing, holder)),
        }
    }

    /// The priority that all rules go by: the one asked or, where none is, the normal level;
    /// but the seat's highest if that is lower.
    fn effective(&self, asked: Option<u8>, seat: &Seat) -> u8 {
        let wanted = asked.unwrap_or(self.settings.normal_level());
        wanted.min(seat.highest)
    }

    /// Rule 1.
    fn ask_as_holder(&self) -> Outcome {
        match self.phase {
            Phase::Taken(holder) => Ok(granted_again(holder)),
            _ => Err(Refusal::NotExpectedNow),
        }
    }

    /// Rule 3.
    fn ask_in_idle(&mut self, asker: Entry) -> Report {
        if self.seats.everyone() == SeatSet::only(asker.seat) {
            return deny(asker.seat, DENY_ALONE);
        }
        self.hand_floor_to(Report::done(), asker, How::Directly)
    }

    /// Rules 4 to 6.
    fn ask_to_wait(&mut self, asker: Entry, queueing: bool, holder: Entry) -> Report {
        let presses = self.presses(asker, holder);
        let mut report = Report::done();
        match self.line.entry_of(asker.seat) {
            Some(waiting) if waiting.priority == asker.priority => {}
            Some(_) => self.line.place(asker),
            None if !presses && !queueing => return deny(asker.seat, DENY_ANOTHER_HAS_IT),
            None if self.line_is_full() => return deny(asker.seat, DENY_LINE_FULL),
            None => {
                self.line.place(asker);
                report.placed = Some(asker.seat);
            }
        }
        if queueing {
            report = report.telling(SeatSet::only(asker.seat), self.position_notice(asker.seat));
        }
        if presses && self.phase == Phase::Taken(holder) {
            report = self.revoke(report, holder, REVOKE_PRE_EMPTED);
        }
        report
    }

    /// Whether a request is the first at or above the pre-emptive level.
    fn presses(&self, asker: Entry, holder: Entry) -> bool {
        let reaches = |entry: &Entry| entry.priority >= self.settings.level();
        let others = self
            .line
            .entries()
            .iter()
            .filter(|entry| entry.seat != asker.seat);
        reaches(&asker) && !reaches(&holder) && !others.into_iter().any(reaches)
    }

    fn line_is_full(&self) -> bool {
        self.line.entries().len() >= usize::from(self.settings.line_limit())
    }

    fn release(&mut self, seat: usize) -> Outcome {
        if self.holds(seat) {
            return Ok(self.floor_falls_free());
        }
        if !self.line.strike(seat) {
            return Err(Refusal::NotExpectedNow);
        }
        Ok(Report {
            struck_off: SeatSet::only(seat),
            ..Report::done()
        })
    }

    fn answer_place(&self, seat: usize) -> Report {
        Report::done().telling(SeatSet::only(seat), self.position_notice(seat))
    }

    fn position_notice(&self, seat: usize) -> Notice {
        let waiting = self.line.entry_of(seat).zip(self.line.rank(seat));
        waiting.map_or(NOT_IN_LINE, |(entry, place)| Notice::Info {
            place: u8::try_from(place).unwrap_or(u8::MAX),
            priority: entry.priority,
        })
    }
}

fn deny(seat: usize, cause: u16) -> Report {
    Report::done().telling(SeatSet::only(seat), Notice::Deny { cause })
}

/// Granted with the priority that the holder was given the floor at.
fn granted_again(holder: Entry) -> Report {
    let granted = Notice::Granted {
        priority: holder.priority,
    };
    Report::done().telling(SeatSet::only(holder.seat), granted)
}

/// What becomes of the floor.
impl Desk {
    /// The number that the next Taken or Idle carries.
    fn next_sequence(&mut self) -> u16 {
        self.sequence = self.sequence.wrapping_add(1);
        self.sequence
    }

    fn hand_floor_to(&mut self, mut report: Report, asker: Entry, how: How) -> Report {
        self.phase = Phase::Taken(asker);
        self.running = Ticking::only(&[Timer::T1]);
        if how == How::OutOfTheLine {
            self.running = self.running.and(Timer::T20);
            self.c20 = 1;
        }
        report.given = Some((asker.seat, how));
        let taken = Notice::Taken {
            seat: asker.seat,
            sequence: self.next_sequence(),
        };
        report
            .telling(
                SeatSet::only(asker.seat),
                Notice::Granted {
                    priority: asker.priority,
                },
            )
            .telling(self.seats.everyone().without(asker.seat), taken)
    }

    fn floor_falls_free(&mut self) -> Report {
        let ended = self.holder().map(|holder| holder.seat);
        let report = Report {
            ended,
            ..Report::done()
        };
        match self.line.take_head() {
            Some(head) => self.hand_floor_to(report, head, How::OutOfTheLine),
            None => self.fall_idle(report),
        }
    }

    fn fall_idle(&mut self, report: Report) -> Report {
        self.phase = Phase::Idle;
        self.running = Ticking::only(&[Timer::T4, Timer::T7]);
        self.c7 = 1;
        self.tell_idle(report)
    }

    fn tell_idle(&mut self, report: Report) -> Report {
        let sequence = self.next_sequence();
        report.telling(self.seats.everyone(), Notice::Idle { sequence })
    }

    fn revoke(&mut self, report: Report, holder: Entry, cause: u16) -> Report {
        self.phase = Phase::Revoking { holder, cause };
        self.running = Ticking::only(&[Timer::T1, Timer::T3, Timer::T8]);
        report.telling(SeatSet::only(holder.seat), Notice::Revoke { cause })
    }

    fn call_stops(&mut self) -> Report {
        let ended = self.holder().map(|holder| holder.seat);
        let struck_off = self.line.entries().iter().map(|entry| entry.seat).collect();
        self.line.clear();
        self.phase = Phase::Stopped;
        self.running = Ticking::NONE;
        Report {
            ended,
            struck_off,
            ..Report::done()
        }
    }
}

/// Timers.
impl Desk {
    fn expiry(&mut self, number: u32) -> Outcome {
        self.must_run()?;
        let fired = Timer::numbered(number).filter(|&timer| self.running.has(timer));
        match (fired.ok_or(Refusal::NotExpectedNow)?, self.phase) {
            (Timer::T1 | Timer::T3, _) => Ok(self.floor_falls_free()),
            (Timer::T2, Phase::Taken(holder)) => {
                Ok(self.revoke(Report::done(), holder, REVOKE_TOO_LONG))
            }
            (Timer::T8, Phase::Revoking { holder, cause }) => {
                let again = Notice::Revoke { cause };
                Ok(Report::done().telling(SeatSet::only(holder.seat), again))
            }
            (Timer::T20, Phase::Taken(holder)) => Ok(self.t20(holder)),
            (Timer::T7, _) => Ok(self.t7()),
            (Timer::T4, _) => Ok(self.call_stops()),
            // T2, T8 and T20 run in no other phase.
            (Timer::T2 | Timer::T8 | Timer::T20, _) => Err(Refusal::NotExpectedNow),
        }
    }

    fn t20(&mut self, holder: Entry) -> Report {
        if self.c20 >= self.settings.c20_limit() {
            return self.floor_falls_free();
        }
        self.c20 += 1;
        granted_again(holder)
    }

    fn t7(&mut self) -> Report {
        if self.c7 >= self.settings.c7_limit() {
            self.running = self.running.without(Timer::T7);
            return Report::done();
        }
        self.c7 += 1;
        self.tell_idle(Report::done())
    }
}
