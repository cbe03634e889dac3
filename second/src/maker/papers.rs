//! Sheets for scripts, sound and damaged, put together octet by octet.

use super::dice::Dice;
use super::people;

#[derive(Clone, Debug)]
struct Chair {
    flags: u8,
    highest: u8,
    ssrc: u32,
    length: u8,
    identity: Vec<u8>,
}

impl Chair {
    fn set_identity(&mut self, identity: Vec<u8>) {
        self.length = identity.len() as u8;
        self.identity = identity;
    }
}

#[derive(Clone, Debug)]
struct Paper {
    chairs: Vec<Chair>,
    settings: [u8; 12],
    /// What is added to the true offset of the settings.
    offset_error: u16,
    seats_offset: u16,
    /// What is added to the true count.
    count_error: u8,
    form: u8,
    letters: [u8; 2],
}

impl Paper {
    fn octets(&self) -> Vec<u8> {
        let mut octets = Vec::new();
        for chair in &self.chairs {
            octets.extend([chair.flags, chair.highest]);
            octets.extend(chair.ssrc.to_be_bytes());
            octets.push(chair.length);
            octets.extend(&chair.identity);
        }
        let offset = (octets.len() as u16).wrapping_add(self.offset_error);
        octets.extend(self.settings);
        octets.extend(offset.to_be_bytes());
        octets.extend(self.seats_offset.to_be_bytes());
        octets.push((self.chairs.len() as u8).wrapping_add(self.count_error));
        octets.push(self.form);
        octets.extend(self.letters);
        octets
    }
}

/// A sheet that is in order.
pub fn sound(dice: &mut Dice) -> Vec<u8> {
    sound_paper(dice).octets()
}

fn sound_paper(dice: &mut Dice) -> Paper {
    let desk_ssrc = people::ssrc(dice);
    let count = dice.any_of([0, 1, 2, 4, 5, 8, 15, 16, 16]);
    // Sixteen of the longest identities make the longest sheet.
    let long = dice.chance(15);
    let mut chairs: Vec<Chair> = Vec::new();
    while chairs.len() < count {
        let mut chair = sound_chair(dice);
        if long {
            chair.set_identity(people::long(dice, 62));
        }
        let known = |other: &Chair| other.ssrc == chair.ssrc || other.identity == chair.identity;
        if chair.ssrc != desk_ssrc && !chairs.iter().any(known) {
            chairs.push(chair);
        }
    }
    Paper {
        chairs,
        settings: sound_settings(dice, desk_ssrc),
        offset_error: 0,
        seats_offset: 0,
        count_error: 0,
        form: 1,
        letters: *b"FS",
    }
}

fn sound_chair(dice: &mut Dice) -> Chair {
    let identity = people::identity(dice);
    Chair {
        flags: dice.any_of([0, 0, 1, 1, 1, 1, 1, 1, 2, 3]),
        highest: dice.any_of([0, 5, 199, 200, 255, 255]),
        ssrc: people::ssrc(dice),
        length: identity.len() as u8,
        identity,
    }
}

fn sound_settings(dice: &mut Dice, desk_ssrc: u32) -> [u8; 12] {
    let [a, b, c, d] = desk_ssrc.to_be_bytes();
    let level = dice.any_of([1, 8, 100, 200, 254, 255]);
    let limit = dice.between(0, 15) as u8;
    let (c7, c20) = (dice.any_of([1, 2, 3, 255]), dice.any_of([1, 2, 3, 255]));
    let [high, low] = dice.any_of([1u16, 30, 255, 256, 65_535]).to_be_bytes();
    [a, b, c, d, level, limit, c7, c20, high, low, 0, 0]
}

/// A sheet with one thing wrong in it, or more. Now and then nothing is.
pub fn damaged(dice: &mut Dice) -> Vec<u8> {
    let mut paper = sound_paper(dice);
    for _ in 0..dice.any_of([1, 1, 1, 2]) {
        spoil_paper(dice, &mut paper);
    }
    let mut octets = paper.octets();
    match dice.below(400) {
        0..=19 => octets.truncate(dice.between(0, 20)),
        20..=29 => octets.truncate(octets.len().saturating_sub(dice.between(1, 9))),
        30..=39 => octets.extend(vec![0; dice.between(1, 4)]),
        40..=69 => {
            let place = dice.below(octets.len());
            let octet = dice.octet();
            octets[place] = octet;
        }
        70 => octets = with_an_offset_that_wraps(dice),
        71..=79 => {
            let length = dice.below(60);
            octets = dice.octets(length);
        }
        _ => {}
    }
    octets
}

/// The settings stand at 65,536, which is 0 to one who keeps only 16 bits of it.
pub fn with_an_offset_that_wraps(dice: &mut Dice) -> Vec<u8> {
    let mut paper = sound_paper(dice);
    paper.chairs.clear();
    [vec![0; 65_536], paper.octets()].concat()
}

fn spoil_paper(dice: &mut Dice, paper: &mut Paper) {
    match dice.below(20) {
        0 => paper.letters = dice.any_of([*b"SF", *b"Fs", *b"FT", [0, 0], *b"GS"]),
        1 => paper.form = dice.any_of([0, 2, 3, 255]),
        2 => paper.offset_error = dice.any_of([1, 65_535, 12, 20, 256, 32_768]),
        3 => paper.seats_offset = dice.any_of([1, 256, 65_535, 7]),
        4 => {
            let count = dice.any_of([17u8, 18, 255, 128]);
            paper.count_error = count.wrapping_sub(paper.chairs.len() as u8);
        }
        5..=9 => spoil_settings(dice, &mut paper.settings),
        10 => paper.count_error = dice.any_of([1, 255]),
        11 if paper.chairs.len() == 16 => paper.chairs.push(sound_chair(dice)),
        _ => spoil_chairs(dice, paper),
    }
}

fn spoil_settings(dice: &mut Dice, settings: &mut [u8; 12]) {
    let octet = dice.any_of([1, 5, 100, 128, 255]);
    match dice.below(10) {
        0 => settings[4] = 0,
        1 => settings[5] = dice.any_of([16, 17, 255]),
        2 => settings[6] = 0,
        3 => settings[7] = 0,
        4 => settings[8..10].fill(0),
        // One who takes either of the two zeros for a level does not refuse it.
        5 | 6 => settings[10] = octet,
        7 | 8 => settings[11] = octet,
        _ => settings[10..].fill(octet),
    }
}

fn spoil_chairs(dice: &mut Dice, paper: &mut Paper) {
    let desk_ssrc = u32::from_be_bytes([0, 1, 2, 3].map(|place| paper.settings[place]));
    let copied = paper.chairs.get(dice.below(paper.chairs.len())).cloned();
    let place = dice.below(paper.chairs.len());
    if let (Some(copied), Some(chair)) = (copied, paper.chairs.get_mut(place)) {
        spoil_chair(dice, chair, copied, desk_ssrc);
    }
}

fn spoil_chair(dice: &mut Dice, chair: &mut Chair, copied: Chair, desk_ssrc: u32) {
    match dice.below(9) {
        0 => chair.flags |= dice.any_of([4, 8, 16, 32, 64, 128]),
        1 => chair.set_identity(Vec::new()),
        2 => chair.set_identity(people::long(dice, 63)),
        3 => chair.set_identity(people::long(dice, 62)),
        4 => chair.ssrc = desk_ssrc,
        5 => chair.ssrc = copied.ssrc,
        6 => chair.set_identity(copied.identity),
        7 => chair.length = chair.length.wrapping_add(dice.any_of([1, 255, 4])),
        _ => chair.length = dice.any_of([0, 61, 62, 63, 255]),
    }
}
