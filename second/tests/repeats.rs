//! Packets in which an ID stands twice (document 02, #107): that scripts have all kinds of
//! them, and what is answered. The packets are taken apart here by other code than the
//! reader's, which goes on behind a fault to see what else there is.

mod common;

use std::collections::{BTreeMap, BTreeSet};

use common::{order, played, told};
use second::hex;
use second::maker::Order;

/// The field table: ID, least and greatest L, greatest number in the content.
const TABLE: [(u8, usize, usize, u16); 12] = [
    (0, 2, 2, 65_535),
    (1, 2, 2, 65_535),
    (2, 2, 255, 65_535),
    (3, 2, 2, 65_535),
    (4, 1, 62, 65_535),
    (5, 2, 2, 1),
    (6, 1, 62, 65_535),
    (8, 2, 2, 65_535),
    (10, 2, 2, 3),
    (12, 2, 2, 65_535),
    (13, 2, 2, 65_535),
    (14, 6, 6, 65_535),
];

/// What each type requires.
const REQUIRED: [(u8, &[u8]); 7] = [
    (1, &[1]),
    (2, &[4]),
    (3, &[2]),
    (5, &[8]),
    (6, &[2]),
    (9, &[3]),
    (10, &[10, 12]),
];

/// The ways in which a field is at fault by itself.
#[derive(Clone, Copy, Debug, PartialEq, Eq, PartialOrd, Ord)]
enum Fault {
    HighId,
    PastTheEnd,
    Length,
    Content,
}

/// What else there is in a packet in which one ID stands twice.
#[derive(Clone, Copy, Debug, PartialEq, Eq, PartialOrd, Ord)]
enum Beside {
    Earlier(Fault),
    AtTheSecond(Fault),
    Later(Fault),
    Third,
    Missing,
}

use Beside::{AtTheSecond, Earlier, Later, Missing, Third};
use Fault::{Content, HighId, Length, PastTheEnd};

#[derive(Clone, Copy, Debug)]
struct Seen {
    id: u8,
    /// How many of its ID stand before it.
    before: usize,
    fault: Option<Fault>,
}

fn is_tabled(id: u8) -> bool {
    TABLE.iter().any(|&(known, ..)| known == id)
}

fn fault_of(id: u8, content: &[u8]) -> Option<Fault> {
    let &(_, least, most, greatest) = TABLE.iter().find(|&&(known, ..)| known == id)?;
    if !(least..=most).contains(&content.len()) {
        return Some(Length);
    }
    let number = match *content {
        [high, low, ..] => u16::from_be_bytes([high, low]),
        _ => 0,
    };
    (number > greatest).then_some(Content)
}

/// All fields of a packet. One that runs past the end is taken for one of two octets, as the
/// maker makes them; nothing is known of what stands behind one with too high an ID that
/// does so.
fn fields(octets: &[u8]) -> Vec<Seen> {
    let mut seen: Vec<Seen> = Vec::new();
    let mut rest = octets.get(12..).unwrap_or(&[]);
    while let [id, length, ..] = *rest {
        let end = 2 + usize::from(length);
        let mut size = (end + 3) / 4 * 4;
        let fault = if id >= 192 {
            Some(HighId)
        } else if size > rest.len() {
            size = 4;
            Some(PastTheEnd)
        } else {
            fault_of(id, &rest[2..end])
        };
        let before = seen.iter().filter(|other| other.id == id).count();
        seen.push(Seen { id, before, fault });
        rest = rest.get(size..).unwrap_or(&[]);
    }
    seen
}

fn lacks_a_field(octets: &[u8], fields: &[Seen]) -> bool {
    let kind = octets[0] & 15;
    let required = REQUIRED.iter().find(|&&(known, _)| known == kind);
    let is_there = |&id: &u8| fields.iter().any(|field| field.id == id);
    required.map_or(false, |(_, ids)| !ids.iter().all(is_there))
}

/// What is answered to a packet whose header is in order: 0 if it is read.
fn wanted(octets: &[u8]) -> u8 {
    let fields = fields(octets);
    for field in &fields {
        match field.fault {
            Some(HighId) => return 10,
            Some(PastTheEnd) => return 9,
            _ if is_tabled(field.id) && field.before > 0 => return 14,
            Some(_) => return 10,
            None => {}
        }
    }
    if lacks_a_field(octets, &fields) {
        11
    } else {
        0
    }
}

/// The ID that stands twice in a packet and all that there is beside it; nothing if no ID
/// does, or more than one.
fn repeated(octets: &[u8]) -> Option<(u8, BTreeSet<Beside>)> {
    let fields = fields(octets);
    let mut repeats = fields
        .iter()
        .filter(|field| field.before == 1 && field.id < 192);
    let id = match (repeats.next(), repeats.next()) {
        (Some(field), None) => field.id,
        _ => return None,
    };
    let second = fields
        .iter()
        .position(|field| field.id == id && field.before == 1)?;
    let mut beside = BTreeSet::new();
    for (place, field) in fields.iter().enumerate() {
        let fault = field.fault.map(|fault| match place {
            _ if place < second => Earlier(fault),
            _ if place > second => Later(fault),
            _ => AtTheSecond(fault),
        });
        beside.extend(fault);
        if field.id == id && field.before == 2 {
            beside.insert(Third);
        }
    }
    if lacks_a_field(octets, &fields) {
        beside.insert(Missing);
    }
    Some((id, beside))
}

/// The ID that stands twice in a packet and the one thing beside it, or none; nothing if
/// there are more.
fn simply_repeated(octets: &[u8]) -> Option<(u8, Option<Beside>)> {
    let (id, beside) = repeated(octets)?;
    let mut beside = beside.into_iter();
    match (beside.next(), beside.next()) {
        (one, None) => Some((id, one)),
        _ => None,
    }
}

/// All that can be beside two fields of one ID, each by itself, and nothing at all.
fn all_beside(id: u8) -> impl Iterator<Item = Option<Beside>> {
    let mut all = vec![
        Earlier(HighId),
        Earlier(PastTheEnd),
        Earlier(Length),
        Earlier(Content),
        AtTheSecond(PastTheEnd),
        Later(HighId),
        Later(PastTheEnd),
        Later(Length),
        Later(Content),
        Third,
        Missing,
    ];
    if is_tabled(id) {
        all.push(AtTheSecond(Length));
    }
    if matches!(id, 5 | 10) {
        all.push(AtTheSecond(Content));
    }
    all.into_iter().map(Some).chain([None])
}

/// A line that hands over a packet, and what it is answered.
struct Handed {
    command: String,
    octets: Vec<u8>,
    /// 0 if it was read, whatever the desk said to it then.
    refusal: u8,
    stopped: bool,
}

/// All packets of a script whose header is in order.
fn handed(order: Order) -> Vec<Handed> {
    let mut all = Vec::new();
    for (line, answer) in played(order) {
        let words: Vec<&str> = line.split_whitespace().collect();
        let (command, octets) = match words[..] {
            [command @ ("read" | "rewrite" | "packet"), octets] => (command, octets),
            _ => continue,
        };
        // From 20 on it is the desk that refuses what was read.
        let refusal = told(&answer).filter(|&number| number < 20).unwrap_or(0);
        match hex::octets(octets.as_bytes()) {
            Some(octets) if !(1..=8).contains(&refusal) => all.push(Handed {
                command: command.to_string(),
                octets,
                refusal,
                stopped: answer.contains(" | Stopped "),
            }),
            _ => {}
        }
    }
    all
}

/// Packets of as many lines as `tests/compare.test` plays.
fn compared() -> Vec<Handed> {
    (1..=4)
        .flat_map(|seed| handed(order(seed, 50_000)))
        .collect()
}

#[test]
fn the_first_fault_from_the_front_is_told() {
    let mut counts = BTreeMap::new();
    for packet in compared() {
        let octets = &packet.octets;
        assert_eq!(packet.refusal, wanted(octets), "{octets:02x?}");
        *counts.entry(packet.refusal).or_insert(0) += 1;
    }
    for refusal in [0, 9, 10, 11, 14] {
        let count = counts.get(&refusal).copied().unwrap_or(0);
        assert!(count >= 1_000, "{refusal}: {count} times");
    }
}

#[test]
fn each_id_is_there_twice_with_all_that_can_be_beside_it() {
    let mut made = BTreeSet::new();
    for packet in compared() {
        made.extend(simply_repeated(&packet.octets));
    }
    let skipped = [7, 9, 11, 15, 16, 191];
    for id in TABLE.iter().map(|row| row.0).chain(skipped) {
        for beside in all_beside(id) {
            assert!(made.contains(&(id, beside)), "ID {id}, {beside:?}");
        }
    }
}

#[test]
fn every_command_has_them_with_all_that_can_be_beside_them() {
    let mut made = BTreeSet::new();
    for packet in compared() {
        if let Some((id, beside)) = simply_repeated(&packet.octets) {
            made.insert((packet.command, is_tabled(id), beside));
        }
    }
    for command in ["read", "rewrite", "packet"] {
        for (id, tabled) in [(5, true), (7, false)] {
            for beside in all_beside(id) {
                let case = (command.to_string(), tabled, beside);
                assert!(made.contains(&case), "{case:?}");
            }
        }
    }
}

#[test]
fn the_desk_gets_them_in_running_calls_and_in_stopped_ones() {
    let mut made = BTreeSet::new();
    let mut counts = [0, 0];
    for packet in compared() {
        if packet.command != "packet" {
            continue;
        }
        counts[usize::from(packet.refusal == 0)] += 1;
        if let Some((id, _)) = repeated(&packet.octets) {
            made.insert((packet.stopped, is_tabled(id), packet.refusal));
        }
    }
    for stopped in [false, true] {
        for (tabled, refusal) in [
            (true, 9),
            (true, 10),
            (true, 14),
            (false, 0),
            (false, 9),
            (false, 10),
            (false, 11),
        ] {
            let case = (stopped, tabled, refusal);
            assert!(made.contains(&case), "{case:?}");
        }
    }
    // Most of what the desk gets is read, or little would happen at it.
    let [refused, read] = counts;
    assert!(read >= 5 * refused, "{read} read, {refused} refused");
}
