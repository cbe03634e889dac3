//! The maker of scripts: calls that go deep, and everything that can be wrong.
//!
//! It plays what it makes as it goes, to know which seats there are, who holds the floor
//! and which timers run. What it makes depends on the seed alone.

mod dice;
mod papers;
mod parcel;
mod people;
mod twice;
mod wording;

use std::collections::VecDeque;

use crate::desk::{Desk, Phase};
use crate::hex::Hex;
use crate::script::Player;
use crate::seats::SEATS;
use crate::sheet::{self, LONGEST_SHEET};
use crate::timers::Timer;

pub use dice::Dice;
use parcel::{Parcel, Raw, LISTED};

/// Scripts of at least so many lines take the sequence number past 65,535.
const LONG: usize = 100_000;

/// The comments around the run that does nothing but count the sequence number up.
const RUN_BEGINS: &str = "# the run begins";
const RUN_ENDS: &str = "# the run ends";

/// Of a hundred lines that can be said in words, so many are.
const IN_WORDS: usize = 40;

/// What a script is made for.
#[derive(Clone, Copy, Debug)]
pub struct Order {
    pub seed: u64,
    /// The least number of lines that are answered, those of the run aside.
    pub count: usize,
    /// Take the sequence number past 65,535 by a run, however short the script.
    pub wrap: bool,
    /// Use the `write` command too.
    pub write: bool,
    /// Say no line in words that can be said in figures.
    pub figures: bool,
}

/// The lines of a script, one after the other.
pub struct Maker {
    order: Order,
    dice: Dice,
    /// Decides on the words alone, so that the same things happen in words and in figures.
    wording: Dice,
    player: Player,
    /// How many lines were answered, those of the run aside.
    answered: usize,
    /// Whether the lines at hand are those of the run.
    in_run: bool,
    /// How many lines the call at hand has left.
    call_left: usize,
    /// Whether the call at hand is one where all ask and few stop, so that the line fills.
    crowded: bool,
    wrap_owed: bool,
    ready: VecDeque<String>,
}

#[derive(Clone, Copy, PartialEq, Eq)]
enum Act {
    Ask,
    AskAgain,
    HolderReleases,
    WaiterReleases,
    AnyoneReleases,
    AskPlace,
    HolderMedia,
    OtherMedia,
    RunningTimer,
    OtherTimer,
    Join,
    BadJoin,
    Leave,
    BadLeave,
    Start,
    Stop,
    ForeignPacket,
    StrangerPacket,
    EdgePacket,
    DamagedPacket,
    TwicePacket,
    Read,
    Rewrite,
    Write,
    Save,
    Screen,
    Reload,
    LoadSound,
    LoadDamaged,
    BadMake,
    Malformed,
    OddSpelling,
    Comment,
}

const ACTS: [(usize, Act); 33] = [
    (300, Act::Ask),
    (60, Act::AskAgain),
    (25, Act::HolderReleases),
    (20, Act::WaiterReleases),
    (10, Act::AnyoneReleases),
    (35, Act::AskPlace),
    (45, Act::HolderMedia),
    (12, Act::OtherMedia),
    (130, Act::RunningTimer),
    (20, Act::OtherTimer),
    (25, Act::Join),
    (20, Act::BadJoin),
    (20, Act::Leave),
    (6, Act::BadLeave),
    (6, Act::Start),
    (5, Act::Stop),
    (25, Act::ForeignPacket),
    (15, Act::StrangerPacket),
    (10, Act::EdgePacket),
    (45, Act::DamagedPacket),
    (25, Act::TwicePacket),
    (70, Act::Read),
    (40, Act::Rewrite),
    (30, Act::Write),
    (30, Act::Save),
    (40, Act::Screen),
    (3, Act::Reload),
    (2, Act::LoadSound),
    (40, Act::LoadDamaged),
    (20, Act::BadMake),
    (12, Act::Malformed),
    (8, Act::OddSpelling),
    (6, Act::Comment),
];

const MALFORMED: [&str; 81] = [
    "make",
    "make 1 2 3 4 5 6",
    "make 1 2 3 4 5 6 7 8",
    "make 4294967296 200 2 2 2 30 0",
    "make 1 4294967296 2 2 2 30 0",
    "make 1 200 2 2 2 30 4294967296",
    "make -1 200 2 2 2 30 0",
    "make 1 200 2 2 2 30 -",
    "load",
    "load 0",
    "load 0g",
    "load 00 00",
    "save x",
    "save -",
    "save 4294967296",
    "save 1124 1124",
    "save \"1124\"",
    "screen",
    "screen x",
    "screen -",
    "screen 4294967296",
    "join 61 1 256 0 0",
    "join 61 4294967296 1 0 0",
    "join 61 1 1 2 0",
    "join 61 1 1 0 2",
    "join 61 1 1 0",
    "join 6 1 1 0 0",
    "leave",
    "leave 4294967296",
    "leave 1.0",
    "start now",
    "stop 1",
    "packet",
    "packet 80c",
    "packet 0x80",
    "media 18446744073709551617",
    "timer -1",
    "timer T1",
    "rewrite",
    "floor",
    // In words. Some name a seat or an identity that may be there, and then they are in order.
    "ask",
    "ask 0 256",
    "ask 0 -1",
    "ask 0 5 5",
    "ask 15",
    "ask 12 5",
    "ask 16 5",
    "ask 4294967296",
    "ask -",
    "ask test1 5",
    "ask 7465737431 5",
    "ask \"test1\" 5",
    "ask \"test1 \" 5",
    "ask \"Test1\" 255",
    "ask \"nobody\" 5",
    "ask \"\" 5",
    "ask \"test1 5",
    "ask \"test1\"5",
    "ask \"te\"st1\" 5",
    "ask \"test1\\\" 5",
    "ask \"test\t1\" 5",
    "ask 0 \"5\"",
    "Ask 0 5",
    "release",
    "release 15",
    "release \"test10\" 5",
    "place 13",
    "place \"TEST1\"",
    "talk",
    "talk 14",
    "talk \"test2\"",
    "leave \"nobody\"",
    "leave \"test1\" \"test2\"",
    "join \"a\" 1 255 queueing queueing",
    "join \"a\" 1 255 queueing 0",
    "join \"a\" \"1\" 255 queueing",
    "make ssrc 1 level 2 limit 3 c7 4 c20 5 duration 6",
    "make ssrc 1 level 2 limit 3 c7 4 c20 5 duration 6 duration 7",
    "make ssrc 1 level 2 limit 3 c7 4 c20 5 duration 6 normal 7 normal 7",
    "make ssrc 1 level 2 limit 3 c7 4 c20 5 duration 6 normal 7 seconds 6",
    "make ssrc 1 level 2 limit 3 c7 4 c20 5 normal 6 normal 7",
];

impl Maker {
    pub fn new(order: Order) -> Maker {
        let mut maker = Maker {
            order,
            dice: Dice::new(order.seed),
            wording: Dice::new(!order.seed),
            player: Player::new(),
            answered: 0,
            in_run: false,
            call_left: 0,
            crowded: false,
            wrap_owed: order.wrap || order.count >= LONG,
            ready: VecDeque::new(),
        };
        maker.before_any_desk();
        maker
    }

    /// Adds a line to the script, in words at times, and plays it.
    fn say(&mut self, line: impl Into<String>) {
        let mut line = line.into();
        if !self.order.figures && self.wording.chance(IN_WORDS) {
            let words = wording::in_words(&line, self.player.desk(), &mut self.wording);
            line = words.unwrap_or(line);
        }
        if self.player.answer(line.as_bytes()).is_some() && !self.in_run {
            self.answered += 1;
            self.call_left = self.call_left.saturating_sub(1);
        }
        self.ready.push_back(line);
    }

    fn before_any_desk(&mut self) {
        self.say(format!(
            "# seed {}, {} lines",
            self.order.seed, self.order.count
        ));
        for line in [
            "save",
            "screen 16",
            "start",
            "timer 1",
            "join 61 1 1 1 0",
            "media 1",
        ] {
            self.say(line);
        }
        self.say("make 1 0 2 2 2 30 0");
        self.say("load -");
        self.say("leave 0");
        self.say("read 80cc0002000000014d435054");
        // A very long line, once in every script that is not a short one.
        if self.order.count >= 5_000 {
            let sheet = papers::with_an_offset_that_wraps(&mut self.dice);
            self.say(format!("load {}", Hex(&sheet)));
        }
    }

    fn more(&mut self) {
        if self.call_left > 0 {
            return self.act(&ACTS);
        }
        // The run comes after some calls, on a desk of its own, and early enough for what
        // follows it to be among the lines asked for.
        if self.wrap_owed && self.answered > (self.order.count / 2).min(LONG / 10) {
            self.wrap_owed = false;
            return self.past_the_greatest_sequence();
        }
        self.new_call();
    }
}

impl Iterator for Maker {
    type Item = String;

    fn next(&mut self) -> Option<String> {
        while self.ready.is_empty() {
            if self.answered >= self.order.count && !self.wrap_owed {
                return None;
            }
            self.more();
        }
        self.ready.pop_front()
    }
}

/// Looking at the desk.
impl Maker {
    fn desk(&self) -> Option<&Desk> {
        self.player.desk()
    }

    fn no_call_runs(&self) -> bool {
        self.desk()
            .map_or(true, |desk| desk.phase() == Phase::Stopped)
    }

    fn level(&self) -> u8 {
        self.desk().map_or(1, |desk| desk.settings().level())
    }

    fn normal_level(&self) -> u8 {
        self.desk().map_or(0, |desk| desk.settings().normal_level())
    }

    /// How long the desk's sheet is, or would be if there were one that can hold its level.
    fn sheet_length(&self) -> usize {
        let seat = |number: usize| self.desk()?.seats().get(number);
        let seats = self.present().into_iter().filter_map(seat);
        20 + seats.map(|seat| 7 + seat.identity.len()).sum::<usize>()
    }

    /// The numbers of all seats that are taken.
    fn present(&self) -> Vec<usize> {
        self.desk().map_or(vec![], |desk| {
            desk.seats().taken().map(|(seat, _)| seat).collect()
        })
    }

    fn waiting(&self) -> Vec<usize> {
        let line = self.desk().map_or(&[][..], Desk::line);
        line.iter().map(|entry| entry.seat).collect()
    }

    fn holder(&self) -> Option<usize> {
        self.desk()?.holder().map(|holder| holder.seat)
    }

    /// The priority that a seat waits with, or holds the floor with.
    fn priority_of(&self, seat: usize) -> Option<u8> {
        let desk = self.desk()?;
        let mut known = desk.line().iter().copied().chain(desk.holder());
        let entry = known.find(|entry| entry.seat == seat);
        entry.map(|entry| entry.priority)
    }

    fn ssrc_of(&self, seat: usize) -> Option<u32> {
        self.desk()?.seats().get(seat).map(|seat| seat.ssrc)
    }

    fn anyone(&mut self) -> Option<u32> {
        let present = self.present();
        let seat = self.dice.pick(&present)?;
        self.ssrc_of(seat)
    }

    /// Some seat's SSRC, or any at all if there are no seats.
    fn some_ssrc(&mut self) -> u32 {
        match self.anyone() {
            Some(ssrc) => ssrc,
            None => people::ssrc(&mut self.dice),
        }
    }

    fn stranger(&mut self) -> u32 {
        let desk_ssrc = self.desk().map_or(1, |desk| desk.settings().ssrc());
        let known = self.some_ssrc();
        let random = people::ssrc(&mut self.dice);
        self.dice.any_of([
            desk_ssrc,
            random,
            known.swap_bytes(),
            known ^ 0x8000_0000,
            known ^ 1,
        ])
    }
}

/// Calls.
impl Maker {
    fn new_call(&mut self) {
        self.crowded = self.dice.chance(30);
        if self.dice.chance(15) {
            let sheet = papers::sound(&mut self.dice);
            self.say(format!("load {}", Hex(&sheet)));
            if self.dice.chance(70) {
                self.fill(6);
            }
        } else {
            self.make();
            let seats = self
                .dice
                .any_of([1, 2, 4, 4, 5, 6, 8, 10, 13, 16, 16, 16, 16]);
            self.fill(if self.crowded { 16 } else { seats });
        }
        if self.dice.chance(30) {
            self.save();
        }
        self.call_left = self.dice.any_of([15, 60, 150, 300, 600]);
        if self.dice.chance(92) {
            self.say("start");
        }
        // Others join soon, and then nobody is denied for being alone.
        if self.present().len() == 1 {
            self.ask();
        }
    }

    fn make(&mut self) {
        let ssrc = people::ssrc(&mut self.dice);
        let level = self.dice.any_of([1, 2, 5, 8, 8, 100, 200, 200, 254, 255]);
        let any_limit = self.dice.between(0, 15);
        let limit = self
            .dice
            .any_of([0, 1, 2, 2, 3, 4, 6, 14, 15, 15, any_limit, any_limit]);
        let c7 = self.dice.any_of([1, 2, 2, 3, 4, 255]);
        let c20 = self.dice.any_of([1, 2, 2, 3, 4, 255]);
        let duration = self.dice.any_of([1, 30, 255, 256, 65_535]);
        let normal = self.normal_beside(level);
        self.say(format!(
            "make {ssrc} {level} {limit} {c7} {c20} {duration} {normal}"
        ));
    }

    /// A normal level for a desk with this pre-emptive level: 0 for many, so that they can be
    /// saved; else low, middle or high, often beside the other level.
    fn normal_beside(&mut self, level: u8) -> u8 {
        if self.dice.chance(40) {
            return 0;
        }
        let random = self.dice.octet();
        self.dice.any_of([
            1,
            4,
            5,
            6,
            100,
            254,
            255,
            255,
            random,
            level.saturating_sub(1),
            level.saturating_sub(1),
            level,
            level,
            level.saturating_add(1),
        ])
    }

    fn fill(&mut self, seats: usize) {
        for _ in 0..4 * seats {
            if self.present().len() < seats {
                self.join();
            }
        }
    }

    fn join(&mut self) {
        let identity = people::identity(&mut self.dice);
        let ssrc = people::ssrc(&mut self.dice);
        self.join_as(&identity, ssrc);
    }

    fn join_as(&mut self, identity: &[u8], ssrc: u32) {
        let random = self.dice.octet();
        let around = self.around(self.level());
        let around_normal = self.around(self.normal_level());
        let highest = self.dice.any_of([
            255,
            255,
            255,
            255,
            255,
            255,
            around,
            around,
            around_normal,
            random,
            0,
        ]);
        let queueing = u8::from(self.dice.chance(if self.crowded { 97 } else { 75 }));
        let receive_only = u8::from(self.dice.chance(if self.crowded { 1 } else { 8 }));
        let identity = Hex(identity);
        self.say(format!(
            "join {identity} {ssrc} {highest} {queueing} {receive_only}"
        ));
    }

    fn around(&mut self, level: u8) -> u8 {
        self.dice
            .any_of([level.saturating_sub(1), level, level.saturating_add(1)])
    }

    /// A join that is refused, or could be: 24 to 27, two of them at once at times.
    fn bad_join(&mut self) {
        if self.present().len() == SEATS && self.dice.chance(50) {
            return self.join();
        }
        let mut identity = people::identity(&mut self.dice);
        let mut ssrc = people::ssrc(&mut self.dice);
        if self.dice.chance(30) {
            identity = people::bad_identity(&mut self.dice);
        }
        if self.dice.chance(40) {
            if let Some(present) = self.somebodys_identity() {
                identity = present;
            }
        }
        if self.dice.chance(40) {
            ssrc = self.some_ssrc();
        }
        if self.dice.chance(20) {
            ssrc = self.desk().map_or(ssrc, |desk| desk.settings().ssrc());
        }
        self.join_as(&identity, ssrc);
    }

    fn somebodys_identity(&mut self) -> Option<Vec<u8>> {
        let present = self.present();
        let seat = self.dice.pick(&present)?;
        Some(self.desk()?.seats().get(seat)?.identity.clone())
    }
}

/// One line of a call.
impl Maker {
    fn act(&mut self, acts: &[(usize, Act)]) {
        if self.no_call_runs() && self.dice.chance(70) {
            return self.act_while_stopped();
        }
        // A call that everyone left has little to show.
        if self.present().len() < 3 && self.dice.chance(40) {
            return self.join();
        }
        match self.dice.by_weight(acts) {
            Some(act) if self.crowded && empties_the_line(act) && self.dice.chance(85) => {
                self.ask();
            }
            Some(act) => self.perform(act),
            None => {}
        }
    }

    fn perform(&mut self, act: Act) {
        match act {
            Act::Ask => self.ask(),
            Act::AskAgain => self.ask_again(),
            Act::HolderReleases => self.release(self.holder()),
            Act::WaiterReleases => {
                let waiting = self.waiting();
                let seat = self.dice.pick(&waiting);
                self.release(seat);
            }
            Act::AnyoneReleases => {
                let present = self.present();
                let seat = self.dice.pick(&present);
                self.release(seat);
            }
            Act::AskPlace => self.ask_place(),
            Act::HolderMedia => {
                if let Some(ssrc) = self.holder().and_then(|seat| self.ssrc_of(seat)) {
                    self.say(format!("media {ssrc}"));
                }
            }
            Act::OtherMedia => {
                let ssrc = if self.dice.chance(70) {
                    self.some_ssrc()
                } else {
                    self.stranger()
                };
                self.say(format!("media {ssrc}"));
            }
            Act::RunningTimer => self.running_timer(),
            Act::OtherTimer => {
                let timer = self.dice.any_of([
                    0,
                    1,
                    2,
                    3,
                    4,
                    5,
                    6,
                    7,
                    8,
                    9,
                    20,
                    21,
                    32,
                    33,
                    255,
                    4_294_967_295u32,
                ]);
                self.say(format!("timer {timer}"));
            }
            Act::Join => self.join(),
            Act::BadJoin => self.bad_join(),
            Act::Leave => {
                let present = self.present();
                if let Some(seat) = self.dice.pick(&present) {
                    self.say(format!("leave {seat}"));
                }
            }
            Act::BadLeave => {
                let seat = self.dice.any_of([
                    0,
                    7,
                    14,
                    15,
                    16,
                    17,
                    31,
                    32,
                    255,
                    256,
                    65_536,
                    4_294_967_295u32,
                ]);
                self.say(format!("leave {seat}"));
            }
            Act::Start => self.say("start"),
            Act::Stop => self.say("stop"),
            _ => self.other_act(act),
        }
    }

    /// Mostly a start; now and then what a call that is Stopped refuses, or a sheet.
    fn act_while_stopped(&mut self) {
        if self.dice.chance(80) {
            return self.say("start");
        }
        let timer = self.dice.any_of([1, 4, 7, 99]);
        let ssrc = self.some_ssrc();
        match self.dice.below(8) {
            0 => self.say("stop"),
            1 => self.say(format!("timer {timer}")),
            2 => self.say(format!("media {ssrc}")),
            3 => self.ask(),
            4 | 5 => self.save(),
            _ => self.perform(Act::TwicePacket),
        }
    }

    fn other_act(&mut self, act: Act) {
        match act {
            Act::ForeignPacket => {
                let ssrc = self.some_ssrc();
                let kind = self.dice.any_of(LISTED);
                let parcel = parcel::sound(&mut self.dice, kind, ssrc);
                self.send(parcel);
            }
            Act::StrangerPacket => {
                let ssrc = self.stranger();
                let kind = self.dice.any_of(LISTED);
                let parcel = parcel::sound(&mut self.dice, kind, ssrc);
                self.send(parcel);
            }
            Act::EdgePacket => {
                let ssrc = self.some_ssrc();
                let packet = parcel::at_an_edge(&mut self.dice, ssrc);
                self.say(format!("packet {}", Hex(&packet)));
            }
            Act::DamagedPacket => {
                let ssrc = self.some_ssrc();
                let packet = parcel::damaged(&mut self.dice, ssrc);
                self.say(format!("packet {}", Hex(&packet)));
            }
            Act::TwicePacket => {
                let ssrc = self.some_ssrc();
                let packet = twice::packet(&mut self.dice, ssrc);
                self.say(format!("packet {}", Hex(&packet)));
            }
            Act::Read => self.read("read"),
            Act::Rewrite => self.read("rewrite"),
            Act::Write if self.order.write => self.write(),
            Act::Save => self.save(),
            Act::Screen => self.screen(),
            Act::Reload => self.reload(),
            Act::LoadSound => {
                let sheet = papers::sound(&mut self.dice);
                self.load(&sheet);
            }
            Act::LoadDamaged => self.load_damaged(),
            Act::BadMake => self.bad_make(),
            Act::Malformed if self.dice.chance(30) => {
                let line = wording::jumble(&mut self.dice);
                self.say(line);
            }
            Act::Malformed => {
                let line = self.dice.any_of(MALFORMED);
                self.say(line);
            }
            Act::OddSpelling => self.odd_spelling(),
            Act::Comment => {
                let line = self
                    .dice
                    .any_of(["", "# a comment", "   ", "#start", " # start", "\t"]);
                self.say(line);
            }
            _ => {}
        }
    }

    /// A priority to ask for, often near the pre-emptive level or the normal one; or none.
    fn priority(&mut self) -> Option<u8> {
        let level = self.level();
        let near = self.dice.any_of([
            level.saturating_sub(2),
            level.saturating_sub(1),
            level,
            level.saturating_add(1),
        ]);
        let near_normal = self.around(self.normal_level());
        let below = self.dice.below(usize::from(level)) as u8;
        let random = self.dice.octet();
        self.dice.any_of([
            None,
            None,
            None,
            Some(near_normal),
            Some(0),
            Some(1),
            Some(4),
            Some(5),
            Some(5),
            Some(6),
            Some(255),
            Some(random),
            Some(below),
            Some(below),
            Some(near),
            Some(near),
        ])
    }

    fn ask(&mut self) {
        let ssrc = self.some_ssrc();
        let priority = self.priority();
        self.request(ssrc, priority);
    }

    /// Someone in line asks again, or the holder does, at the same priority or at another.
    fn ask_again(&mut self) {
        let waiting = self.waiting();
        let holder = self.holder().filter(|_| self.dice.chance(20));
        match holder.or_else(|| self.dice.pick(&waiting)) {
            Some(seat) => self.ask_once_more(seat),
            None => self.ask(),
        }
    }

    fn ask_once_more(&mut self, seat: usize) {
        let same = self.priority_of(seat).unwrap_or(0);
        let other = self.priority();
        let priority = self.dice.any_of([
            None,
            Some(same),
            Some(same),
            Some(same.saturating_add(1)),
            Some(same.saturating_sub(1)),
            other,
            other,
        ]);
        if let Some(ssrc) = self.ssrc_of(seat) {
            self.request(ssrc, priority);
        }
    }

    fn request(&mut self, ssrc: u32, priority: Option<u8>) {
        let mut parcel = Parcel::new(0, ssrc);
        if let Some(priority) = priority {
            let spare = if self.dice.chance(10) {
                self.dice.octet()
            } else {
                0
            };
            parcel.fields.push(Raw::new(0, vec![priority, spare]));
        }
        // A faulty handset sends a second one, for which the whole packet is refused.
        if self.dice.chance(3) && priority.is_some() {
            parcel.fields.push(parcel::sound_field(&mut self.dice, 0));
        }
        self.dress(&mut parcel);
        self.send(parcel);
    }

    /// Adds what makes no difference: the Ack bit, and fields that the desk passes over.
    fn dress(&mut self, parcel: &mut Parcel) {
        parcel.ack = self.dice.chance(12);
        if self.dice.chance(12) {
            let id = self.dice.any_of([6, 13, 14, 11, 9, 191, 2, 12]);
            // What is skipped may be there twice.
            let again = matches!(id, 9 | 11 | 191) && self.dice.chance(40);
            for _ in 0..=u8::from(again) {
                let field = parcel::sound_field(&mut self.dice, id);
                if self.dice.chance(50) {
                    parcel.fields.insert(0, field);
                } else {
                    parcel.fields.push(field);
                }
            }
        }
    }

    fn send(&mut self, parcel: Parcel) {
        let packet = parcel.octets(&mut self.dice);
        self.say(format!("packet {}", Hex(&packet)));
    }

    fn release(&mut self, seat: Option<usize>) {
        if let Some(ssrc) = seat.and_then(|seat| self.ssrc_of(seat)) {
            let mut parcel = Parcel::new(4, ssrc);
            self.dress(&mut parcel);
            self.send(parcel);
        }
    }

    fn ask_place(&mut self) {
        let waiting = self.waiting();
        let asker = if self.dice.chance(60) {
            self.dice.pick(&waiting)
        } else {
            None
        };
        let ssrc = match asker.and_then(|seat| self.ssrc_of(seat)) {
            Some(ssrc) => ssrc,
            None => self.some_ssrc(),
        };
        let mut parcel = Parcel::new(8, ssrc);
        self.dress(&mut parcel);
        self.send(parcel);
    }

    fn running_timer(&mut self) {
        let running = self
            .desk()
            .map(|desk| desk.running().timers().collect::<Vec<_>>());
        if let Some(timer) = self.dice.pick(&running.unwrap_or_default()) {
            self.let_run_out(timer);
        }
    }

    fn let_run_out(&mut self, timer: Timer) {
        // Those that end the floor or the call are held back, or no line would grow.
        let hold_back = match timer {
            Timer::T4 => 80,
            Timer::T1 => 75,
            Timer::T3 => 30,
            _ => 0,
        };
        if !self.dice.chance(hold_back) {
            self.say(format!("timer {}", timer.number()));
        }
    }

    fn read(&mut self, command: &str) {
        let ssrc = people::ssrc(&mut self.dice);
        let kind = self.dice.any_of(LISTED);
        let packet = match self.dice.below(12) {
            0..=4 => parcel::sound(&mut self.dice, kind, ssrc).octets(&mut self.dice),
            5..=8 => parcel::damaged(&mut self.dice, ssrc),
            9 => parcel::at_an_edge(&mut self.dice, ssrc),
            _ => twice::packet(&mut self.dice, ssrc),
        };
        self.say(format!("{command} {}", Hex(&packet)));
    }

    fn screen(&mut self) {
        let length = self.waiting().len();
        let any = self.dice.between(0, 16);
        let room = self
            .dice
            .any_of([length, length.saturating_sub(1), length + 1, any, 16]);
        self.say(format!("screen {room}"));
    }

    /// Saves the desk, in room that is just enough, just too little, or far from either.
    fn save(&mut self) {
        let length = self.sheet_length();
        let any = self.dice.between(0, LONGEST_SHEET);
        // Too little or none at all to one who keeps only 16 bits of it.
        let huge = self.dice.any_of([65_536, 65_555, 4_294_967_295]);
        let room = self.dice.any_of([
            length,
            length,
            length - 1,
            length - 1,
            length + 1,
            0,
            20,
            any,
            LONGEST_SHEET,
            huge,
        ]);
        if self.dice.chance(60) {
            self.say(format!("save {room}"));
        } else {
            self.say("save");
        }
    }

    /// Saves the desk and loads what was saved, if it could be.
    fn reload(&mut self) {
        self.say("save");
        if let Some(Ok(sheet)) = self.desk().map(sheet::save) {
            self.load(&sheet);
        }
    }

    /// Loads a sheet. The desk of one that is taken has the normal level 0 whatever there was
    /// before, so its call is a short one, or most calls would be at that level.
    fn load(&mut self, sheet: &[u8]) {
        self.say(format!("load {}", Hex(sheet)));
        if sheet::load(sheet).is_ok() {
            let lines = self.dice.any_of([15, 30, 60]);
            self.call_left = self.call_left.min(lines);
            if self.dice.chance(30) {
                self.save();
            }
        }
    }

    /// Loads a damaged sheet. Of those that turn out to be in order one in four is loaded: each
    /// puts another desk in the place of the one at hand.
    fn load_damaged(&mut self) {
        let sheet = papers::damaged(&mut self.dice);
        if sheet::load(&sheet).is_err() || self.dice.chance(25) {
            self.load(&sheet);
        }
    }

    fn bad_make(&mut self) {
        let normal = self.dice.any_of([0, 100, 255]);
        let mut settings = [1u32, 200, 2, 2, 2, 30, normal];
        let bad = [
            (1, 0),
            (1, 256),
            (2, 16),
            (2, 255),
            (2, 256),
            (3, 0),
            (3, 256),
            (4, 0),
            (4, 256),
            (5, 0),
            (5, 65_536),
            (1, 4_294_967_295),
            (5, 4_294_967_295),
            (6, 256),
            (6, 257),
            (6, 65_536),
            (6, 4_294_967_295),
        ];
        for _ in 0..self.dice.any_of([1, 1, 2]) {
            let (place, value) = self.dice.any_of(bad);
            settings[place] = value;
        }
        let words = settings.map(|number| number.to_string()).join(" ");
        self.say(format!("make {words}"));
    }

    /// Lines that are in order though they look otherwise.
    fn odd_spelling(&mut self) {
        let packet = Parcel::new(8, self.some_ssrc()).octets(&mut self.dice);
        let capitals = Hex(&packet).to_string().to_uppercase();
        match self.dice.below(8) {
            0 => self.say(format!("packet {capitals}")),
            1 => self.say("  timer   007  "),
            2 => self.say("timer 20\r"),
            3 => self.say("\tscreen\t00016"),
            4 => self.say(format!("rewrite {capitals}")),
            5 => self.say("save\t0000001124"),
            6 => self.say("  save  00 \r"),
            _ => self.say("leave 0000000000000000000000099"),
        }
    }

    fn write(&mut self) {
        let room = self.dice.any_of([
            0, 11, 12, 15, 16, 20, 28, 100, 439, 440, 1024, 1024, 1024, 1024,
        ]);
        let listed = self.dice.any_of(LISTED);
        let kind = self
            .dice
            .any_of([listed, listed, listed, listed, listed, 7, 11, 15, 16, 255]);
        let mut ids = parcel::required(kind).to_vec();
        if self.dice.chance(10) {
            ids.clear();
        }
        for _ in 0..self.dice.any_of([0, 1, 2, 5]) {
            let id = parcel::any_tabled(&mut self.dice);
            // A line that names an ID twice is malformed, so few do.
            if !ids.contains(&id) || self.dice.chance(6) {
                ids.push(id);
            }
        }
        self.dice.shuffle(&mut ids);
        let fields: Vec<String> = ids.iter().map(|&id| self.drafted(id)).collect();
        let ack = u8::from(self.dice.chance(30));
        let ssrc = people::ssrc(&mut self.dice);
        self.say(format!(
            "write {room} {kind} {ack} {ssrc} {}",
            fields.join(" ")
        ));
    }

    /// A field as `write` takes it, at fault now and then.
    fn drafted(&mut self, id: u8) -> String {
        let octet = self.dice.octet();
        let number = self.dice.any_of([0, 1, 255, 256, 65_535, u16::from(octet)]);
        match id {
            0 | 12 => format!("{id}={octet}"),
            2 => {
                let length = self.dice.any_of([0, 0, 1, 5, 252, 253, 253, 254, 255, 256]);
                let phrase = self.dice.octets(length);
                format!("{id}={number},{}", Hex(&phrase))
            }
            3 => format!("{id}={octet},{}", number & 255),
            4 | 6 => {
                let bad = self.dice.chance(15);
                let maker = if bad {
                    people::bad_identity
                } else {
                    people::identity
                };
                format!("{id}={}", Hex(&maker(&mut self.dice)))
            }
            5 => format!("{id}={}", self.dice.any_of([0, 1, 1, 1, 2, 256, 65_535])),
            10 => format!("{id}={}", self.dice.any_of([0, 1, 2, 3, 3, 4, 256, 65_535])),
            14 => format!("{id}={}", people::ssrc(&mut self.dice)),
            _ => format!("{id}={number}"),
        }
    }
}

/// The sequence number past 65,535.
impl Maker {
    /// Takes a desk to just below the greatest number by the shortest way, and past it by
    /// ordinary steps.
    fn past_the_greatest_sequence(&mut self) {
        // Where few stop, few are given the floor: the number would take thousands of lines.
        self.crowded = false;
        self.say("make 9 200 15 255 2 30 0");
        self.fill(6);
        self.say("start");
        self.run_up();
        let acts: Vec<(usize, Act)> = ACTS
            .into_iter()
            .filter(|(_, act)| !replaces_the_desk(*act))
            .collect();
        // Ordinary steps alone could leave a call that nobody can speak in.
        for _ in 0..20_000 {
            if (100..60_000).contains(&self.sequence()) {
                break;
            }
            self.act(&acts);
            self.fill_up();
        }
        self.call_left = 200;
    }

    /// One line over and over, all but a few: it is marked, and not counted as made.
    fn run_up(&mut self) {
        self.say(RUN_BEGINS);
        self.in_run = true;
        while self.sequence() < 65_500 {
            self.towards_the_greatest_sequence();
        }
        self.in_run = false;
        self.say(RUN_ENDS);
    }

    fn sequence(&self) -> u16 {
        self.desk().map_or(0, Desk::sequence)
    }

    fn towards_the_greatest_sequence(&mut self) {
        match self.desk().map(Desk::phase) {
            None | Some(Phase::Stopped) => self.say("start"),
            Some(Phase::Idle) if self.c7_allows() => self.say("timer 7"),
            Some(Phase::Idle) if self.dice.chance(50) => {
                self.say("timer 4");
                self.say("start");
            }
            Some(Phase::Idle) => self.ask(),
            Some(_) => self.release(self.holder()),
        }
    }

    /// Whether T7 running out makes the desk tell Idle once more.
    fn c7_allows(&self) -> bool {
        self.desk().map_or(false, |desk| {
            desk.running().has(Timer::T7) && desk.c7() < 255
        })
    }

    fn fill_up(&mut self) {
        if self.present().len() < 3 {
            self.fill(6);
        }
    }
}

/// Acts that can make the line shorter.
fn empties_the_line(act: Act) -> bool {
    matches!(
        act,
        Act::HolderReleases
            | Act::WaiterReleases
            | Act::AnyoneReleases
            | Act::RunningTimer
            | Act::Leave
            | Act::Stop
            | Act::Reload
            | Act::LoadSound
    )
}

/// Acts that can put another desk in the place of the one at hand.
fn replaces_the_desk(act: Act) -> bool {
    matches!(act, Act::Reload | Act::LoadSound | Act::LoadDamaged)
}
