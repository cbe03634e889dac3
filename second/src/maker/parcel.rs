//! Packets for scripts, sound and damaged. They are put together octet by octet here and
//! not by the writer, so that a fault of the writer cannot hide one of the reader.

use super::dice::Dice;
use super::people;

/// The numbers of the types, those that are listed and those that are not.
pub const LISTED: [u8; 10] = [0, 1, 2, 3, 4, 5, 6, 8, 9, 10];
const UNLISTED: [u8; 6] = [7, 11, 12, 13, 14, 15];
/// The IDs of the table's fields.
pub const TABLED: [u8; 12] = [0, 1, 2, 3, 4, 5, 6, 8, 10, 12, 13, 14];
/// Some of those that are skipped. One who keeps a mark for each ID in too few bits takes 16,
/// 32, 64 or 128 for 0.
const SKIPPED: [u8; 11] = [7, 9, 11, 15, 16, 32, 64, 100, 128, 190, 191];

/// A field before it becomes octets. It may claim a length that it does not have.
#[derive(Clone, Debug)]
pub struct Raw {
    pub id: u8,
    pub claim: u8,
    pub content: Vec<u8>,
}

impl Raw {
    pub fn new(id: u8, content: Vec<u8>) -> Raw {
        let claim = content.len().min(255) as u8;
        Raw { id, claim, content }
    }

    /// The octets that it takes in a packet, its padding with them.
    pub fn size(&self) -> usize {
        (2 + self.content.len() + 3) / 4 * 4
    }
}

/// A packet before it becomes octets.
#[derive(Clone, Debug)]
pub struct Parcel {
    pub kind: u8,
    pub ack: bool,
    pub ssrc: u32,
    pub fields: Vec<Raw>,
}

impl Parcel {
    pub fn new(kind: u8, ssrc: u32) -> Parcel {
        Parcel {
            kind,
            ack: false,
            ssrc,
            fields: Vec::new(),
        }
    }

    /// The octets, with padding of any value.
    pub fn octets(&self, dice: &mut Dice) -> Vec<u8> {
        let first = 0x80 | u8::from(self.ack) << 4 | self.kind;
        let mut octets = vec![first, 204, 0, 0];
        octets.extend(self.ssrc.to_be_bytes());
        octets.extend(b"MCPT");
        let loose = dice.chance(50);
        for field in &self.fields {
            octets.extend([field.id, field.claim]);
            octets.extend(&field.content);
            while octets.len() % 4 != 0 {
                octets.push(if loose { dice.octet() } else { 0 });
            }
        }
        set_length_word(&mut octets);
        octets
    }
}

/// Makes the length word tell the truth.
fn set_length_word(octets: &mut [u8]) {
    let words = (octets.len() / 4).saturating_sub(1) as u16;
    if let Some(word) = octets.get_mut(2..4) {
        word.copy_from_slice(&words.to_be_bytes());
    }
}

pub fn required(kind: u8) -> &'static [u8] {
    match kind {
        1 => &[1],
        2 => &[4],
        3 | 6 => &[2],
        5 => &[8],
        9 => &[3],
        10 => &[10, 12],
        _ => &[],
    }
}

/// A field that is in order.
pub fn sound_field(dice: &mut Dice, id: u8) -> Raw {
    let content = match id {
        2 => {
            let phrase = dice.any_of([0, 0, 0, 1, 2, 3, 4, 11, 252, 253]);
            let mut content = number(dice);
            content.extend(dice.octets(phrase));
            content
        }
        4 | 6 => people::identity(dice),
        5 => vec![0, dice.any_of([0, 1])],
        10 => vec![0, dice.any_of([0, 1, 2, 3])],
        14 => dice.octets(6),
        0 | 1 | 3 | 8 | 12 | 13 => number(dice),
        _ => {
            let length = dice.any_of([0, 0, 1, 2, 3, 4, 5, 6, 7, 30, 255]);
            dice.octets(length)
        }
    };
    Raw::new(id, content)
}

/// Two octets, often at an edge.
fn number(dice: &mut Dice) -> Vec<u8> {
    let random = dice.roll() as u16;
    let number = dice.any_of([0, 1, 255, 256, 65_534, 65_535, random]);
    number.to_be_bytes().to_vec()
}

pub fn any_tabled(dice: &mut Dice) -> u8 {
    dice.any_of(TABLED)
}

pub fn any_skipped(dice: &mut Dice) -> u8 {
    dice.any_of(SKIPPED)
}

fn any_id(dice: &mut Dice) -> u8 {
    if dice.chance(75) {
        any_tabled(dice)
    } else {
        any_skipped(dice)
    }
}

/// An ID for one more field beside these that leaves a packet in order: of the table's one
/// that is not there yet, and at times a skipped one that is there already.
pub fn further_id(dice: &mut Dice, fields: &[Raw]) -> u8 {
    let is_there = |id: u8| fields.iter().any(|field| field.id == id);
    let mut ids = Vec::new();
    if dice.chance(75) {
        ids.extend(TABLED.into_iter().filter(|&id| !is_there(id)));
    } else if dice.chance(50) {
        ids.extend(SKIPPED.into_iter().filter(|&id| is_there(id)));
    }
    match dice.pick(&ids) {
        Some(id) => id,
        None => any_skipped(dice),
    }
}

/// A packet that is in order: any type, fields of any ID in any order, the skipped ones
/// repeated at times.
pub fn sound(dice: &mut Dice, kind: u8, ssrc: u32) -> Parcel {
    let mut parcel = Parcel::new(kind, ssrc);
    parcel.ack = dice.chance(25);
    for &id in required(kind) {
        parcel.fields.push(sound_field(dice, id));
    }
    for _ in 0..dice.any_of([0, 0, 1, 1, 2, 3, 6, 12]) {
        let id = further_id(dice, &parcel.fields);
        // Longer ones would be refused for their length, which is done elsewhere.
        if parcel.clone().octets(dice).len() < 1024 - 260 {
            parcel.fields.push(sound_field(dice, id));
        }
    }
    dice.shuffle(&mut parcel.fields);
    parcel
}

/// A packet of just so many octets, a multiple of four.
pub fn of_size(dice: &mut Dice, mut parcel: Parcel, octets: usize) -> Vec<u8> {
    let mut left = octets.saturating_sub(parcel.clone().octets(dice).len()) / 4;
    while left > 0 {
        let words = dice.between(1, left.min(64));
        let most = (words * 4 - 2).min(255);
        let length = dice.between((words * 4).saturating_sub(5).min(most), most);
        let content = dice.octets(length);
        parcel.fields.push(Raw::new(any_skipped(dice), content));
        left -= words;
    }
    dice.shuffle(&mut parcel.fields);
    parcel.octets(dice)
}

/// A packet at the edges of size.
pub fn at_an_edge(dice: &mut Dice, ssrc: u32) -> Vec<u8> {
    let kind = dice.any_of(LISTED);
    match dice.below(8) {
        0 => Parcel::new(kind, ssrc).octets(dice),
        1 => Parcel::new(dice.any_of([0, 4, 8]), ssrc).octets(dice),
        2 | 3 => {
            let parcel = sound(dice, kind, ssrc);
            of_size(dice, parcel, 1024)
        }
        4 => {
            let parcel = sound(dice, kind, ssrc);
            of_size(dice, parcel, 1028)
        }
        5 => {
            let mut octets = of_size(dice, Parcel::new(kind, ssrc), 1024);
            octets.push(0);
            octets
        }
        6 => {
            let mut octets = Parcel::new(kind, ssrc).octets(dice);
            octets.resize(dice.between(0, 13), 0);
            octets
        }
        _ => of_size(dice, Parcel::new(kind, ssrc), 1020),
    }
}

#[derive(Clone, Copy)]
enum Harm {
    Cut,
    Stretch,
    Version,
    PaddingBit,
    PacketType,
    LengthWord,
    Tail,
    Name,
    Type,
    AnyOctet,
    Overrun,
    HighId,
    WrongLength,
    BadContent,
    Missing,
    Twice,
}

const HARMS: [(usize, Harm); 16] = [
    (4, Harm::Cut),
    (1, Harm::Stretch),
    (4, Harm::Version),
    (4, Harm::PaddingBit),
    (4, Harm::PacketType),
    (5, Harm::LengthWord),
    (3, Harm::Tail),
    (4, Harm::Name),
    (4, Harm::Type),
    (6, Harm::AnyOctet),
    (8, Harm::Overrun),
    (8, Harm::HighId),
    (10, Harm::WrongLength),
    (8, Harm::BadContent),
    (8, Harm::Missing),
    (6, Harm::Twice),
];

/// A packet with one thing wrong in it, or more.
pub fn damaged(dice: &mut Dice, ssrc: u32) -> Vec<u8> {
    if dice.chance(3) {
        let length = dice.below(40);
        return dice.octets(length);
    }
    let kind = dice.any_of(LISTED);
    let mut parcel = sound(dice, kind, ssrc);
    let times = dice.any_of([1, 1, 1, 2, 2, 3]);
    let harms: Vec<Harm> = (0..times).filter_map(|_| dice.by_weight(&HARMS)).collect();
    for &harm in &harms {
        spoil_fields(dice, &mut parcel, harm);
    }
    let mut octets = parcel.octets(dice);
    for &harm in &harms {
        spoil_octets(dice, &mut octets, harm);
    }
    octets
}

fn spoil_fields(dice: &mut Dice, parcel: &mut Parcel, harm: Harm) {
    match harm {
        Harm::Overrun => parcel.fields.push(overrun(dice)),
        Harm::HighId => {
            let field = high(dice);
            put_somewhere(dice, &mut parcel.fields, field);
        }
        Harm::WrongLength => {
            let id = any_tabled(dice);
            let field = wrong_length(dice, id);
            put_instead(dice, &mut parcel.fields, field);
        }
        Harm::BadContent => {
            let id = dice.any_of([5, 10]);
            let field = bad_content(dice, id);
            put_instead(dice, &mut parcel.fields, field);
        }
        Harm::Missing => drop_required(dice, parcel),
        Harm::Twice => {
            let id = any_tabled(dice);
            for _ in 0..2 {
                let field = sound_field(dice, id);
                put_somewhere(dice, &mut parcel.fields, field);
            }
        }
        _ => {}
    }
}

fn put_somewhere(dice: &mut Dice, fields: &mut Vec<Raw>, field: Raw) {
    let place = dice.between(0, fields.len());
    fields.insert(place, field);
}

/// Puts a field somewhere and takes out the one of its ID that there was, beside which it
/// would be at fault for being the second.
fn put_instead(dice: &mut Dice, fields: &mut Vec<Raw>, field: Raw) {
    fields.retain(|other| other.id != field.id);
    put_somewhere(dice, fields, field);
}

/// A last field that claims more octets than there are.
fn overrun(dice: &mut Dice) -> Raw {
    let id = any_id(dice);
    let mut field = sound_field(dice, id);
    match dice.below(4) {
        // The octets are there and the padding alone is not.
        0 => {
            field.content = dice.octets(2);
            field.claim = dice.any_of([3, 4, 5, 6]);
        }
        1 => {
            field.content.truncate(30);
            field.claim = dice.between(field.content.len() + 4, 255) as u8;
        }
        2 => {
            let length = dice.any_of([2, 6, 10]);
            field.content = dice.octets(length);
            field.claim = length as u8 + 1;
        }
        _ => {
            field.content.clear();
            field.claim = 255;
        }
    }
    field
}

/// A field whose ID is above all that a packet can have.
pub fn high(dice: &mut Dice) -> Raw {
    let length = dice.any_of([0, 1, 2, 6, 20]);
    let content = dice.octets(length);
    let mut field = Raw::new(dice.any_of([192, 193, 200, 254, 255]), content);
    if dice.chance(40) {
        field.claim = 255;
    }
    field
}

/// A field with an ID of the table and a length against it.
pub fn wrong_length(dice: &mut Dice, id: u8) -> Raw {
    let length = match id {
        2 => dice.any_of([0, 1]),
        4 | 6 => dice.any_of([0, 63, 63, 64, 255]),
        14 => dice.any_of([0, 2, 4, 5, 7, 8]),
        _ => dice.any_of([0, 1, 3, 4, 6, 255]),
    };
    Raw::new(id, dice.octets(length))
}

/// A field of ID 5 or 10 with a content against the table.
pub fn bad_content(dice: &mut Dice, id: u8) -> Raw {
    let content = match id {
        5 => dice.any_of([[0, 2], [1, 0], [1, 1], [255, 255]]),
        _ => dice.any_of([[0, 4], [1, 0], [3, 0], [255, 255]]),
    };
    Raw::new(id, content.to_vec())
}

fn drop_required(dice: &mut Dice, parcel: &mut Parcel) {
    if required(parcel.kind).is_empty() {
        parcel.kind = dice.any_of([1, 2, 3, 5, 6, 9, 10]);
    }
    if let Some(missing) = dice.pick(required(parcel.kind)) {
        parcel.fields.retain(|field| field.id != missing);
    }
}

fn spoil_octets(dice: &mut Dice, octets: &mut Vec<u8>, harm: Harm) {
    match harm {
        Harm::Cut => octets.truncate(dice.below(12)),
        Harm::Stretch => {
            octets.resize(dice.any_of([1025, 1026, 1028, 1032, 1100]), 0);
            set_length_word(octets);
        }
        Harm::Version => change(
            octets,
            0,
            |old, dice| old & 0x3f | dice.any_of([0, 1, 3]) << 6,
            dice,
        ),
        Harm::PaddingBit => change(octets, 0, |old, _| old | 0x20, dice),
        Harm::PacketType => change(
            octets,
            1,
            |_, dice| dice.any_of([0, 200, 203, 205, 76]),
            dice,
        ),
        Harm::LengthWord => spoil_length_word(dice, octets),
        Harm::Tail => {
            let count = dice.between(1, 5);
            if dice.chance(50) {
                octets.extend(vec![0; count]);
            } else {
                octets.truncate(octets.len().saturating_sub(count));
            }
        }
        Harm::Name => {
            let place = dice.between(8, 11);
            change(
                octets,
                place,
                |old, dice| old ^ dice.any_of([0x20, 1, 0x80, 0xff]),
                dice,
            );
        }
        Harm::Type => change(
            octets,
            0,
            |old, dice| old & 0xf0 | dice.any_of(UNLISTED),
            dice,
        ),
        Harm::AnyOctet => {
            let place = dice.below(octets.len());
            change(octets, place, |_, dice| dice.octet(), dice);
        }
        _ => {}
    }
}

fn change(octets: &mut [u8], place: usize, new: impl Fn(u8, &mut Dice) -> u8, dice: &mut Dice) {
    if let Some(octet) = octets.get_mut(place) {
        *octet = new(*octet, dice);
    }
}

fn spoil_length_word(dice: &mut Dice, octets: &mut [u8]) {
    let count = octets.len() as u16;
    let words = count / 4;
    // Among them the faults of those who count octets, or forget the "less one".
    let wrong = dice.any_of([
        words,
        words.wrapping_sub(2),
        count,
        count.wrapping_sub(4),
        0,
        65_535,
    ]);
    if let Some(word) = octets.get_mut(2..4) {
        word.copy_from_slice(&wrong.to_be_bytes());
    }
}
