//! Scripts: what the maker makes, and what the player answers to it.

mod common;

use std::collections::BTreeMap;

use common::{order, played, told};
use second::maker::{Dice, Maker, Order};
use second::script::Player;

fn refusals(order: Order) -> BTreeMap<u8, usize> {
    let mut counts = BTreeMap::new();
    for (_, answer) in played(order) {
        if let Some(number) = told(&answer) {
            *counts.entry(number).or_default() += 1;
        }
    }
    counts
}

#[test]
fn every_refusal_is_reached_within_5000_lines() {
    // What was read can be written, so no command but `write` gets 12.
    let of_packets = (1..=11).chain([13, 14]);
    let of_the_desk = (21..=28).chain(41..=45).chain([48]);
    let without_write: Vec<u8> = of_packets.chain(of_the_desk).collect();
    for seed in 0..12 {
        let counts = refusals(order(seed, 5_000));
        assert_eq!(
            counts.keys().copied().collect::<Vec<_>>(),
            without_write,
            "seed {seed}"
        );
        let counts = refusals(Order {
            write: true,
            ..order(seed, 5_000)
        });
        assert_eq!(counts.len(), without_write.len() + 1, "seed {seed}");
        assert!(counts.contains_key(&12), "seed {seed}");
    }
}

#[test]
fn a_script_depends_on_its_seed_alone() {
    let script = |seed| Maker::new(order(seed, 1_000)).collect::<Vec<_>>();
    assert_eq!(script(5), script(5));
    assert_ne!(script(5), script(6));
}

/// What an `A` line says that conservation is about.
struct Marks<'a> {
    placed: bool,
    struck_off: u32,
    out_of_the_line: bool,
    phase: &'a str,
    holder: &'a str,
    line: Vec<(u8, u8)>,
}

/// The parts of a text, which must be just so many.
fn parts<'a, const COUNT: usize>(text: &'a str, between: &str) -> [&'a str; COUNT] {
    let parts: Vec<&str> = text.split(between).collect();
    parts.try_into().expect(text)
}

fn marks(answer: &str) -> Option<Marks<'_>> {
    let [_, _, marks, state] = parts(answer.strip_prefix("A ")?, " | ");
    let [placed, struck_off, _, _, how] = parts(marks, " ");
    let [phase, _, _, holder, line, _, _] = parts(state, " ");
    Some(Marks {
        placed: placed != "-",
        struck_off: u16::from_str_radix(struck_off, 16)
            .expect("a mask")
            .count_ones(),
        out_of_the_line: how == "line",
        phase,
        holder,
        line: line
            .split(',')
            .filter(|entry| *entry != "-")
            .map(entry)
            .collect(),
    })
}

fn entry(text: &str) -> (u8, u8) {
    let (seat, priority) = text.split_once(':').expect("an entry");
    (
        seat.parse().expect("a seat"),
        priority.parse().expect("a priority"),
    )
}

#[test]
fn who_is_placed_is_given_the_floor_or_struck_off_or_waits() {
    let mut longest = 0;
    for seed in 100..104 {
        let (mut placed, mut gone) = (0, 0);
        for (line, answer) in played(order(seed, 20_000)) {
            if answer == "OK" {
                (placed, gone) = (0, 0);
            }
            let marks = match marks(&answer) {
                Some(marks) => marks,
                None => continue,
            };
            placed += usize::from(marks.placed);
            gone += marks.struck_off as usize + usize::from(marks.out_of_the_line);
            assert_eq!(
                placed,
                gone + marks.line.len(),
                "seed {seed}, {line}: {answer}"
            );
            longest = longest.max(marks.line.len());
            check_line(&marks);
        }
    }
    assert_eq!(longest, 15);
}

/// The line is in order, no seat stands in it twice, and the holder does not.
fn check_line(marks: &Marks<'_>) {
    assert!(marks.line.windows(2).all(|pair| pair[0].1 >= pair[1].1));
    let mut seats: Vec<u8> = marks.line.iter().map(|(seat, _)| *seat).collect();
    if marks.holder != "-" {
        seats.push(entry(marks.holder).0);
    }
    let held = matches!(marks.phase, "Taken" | "Revoking");
    assert_eq!(held, marks.holder != "-");
    assert!(held || marks.line.is_empty());
    seats.sort_unstable();
    assert!(seats.windows(2).all(|pair| pair[0] != pair[1]));
}

#[test]
fn refused_steps_leave_the_desk_as_it_was() {
    let mut player = Player::new();
    for line in Maker::new(order(200, 20_000)) {
        let before = player.desk().cloned();
        let answer = match player.answer(line.as_bytes()) {
            Some(answer) => answer,
            None => continue,
        };
        if told(&answer).is_some() || answer.contains("| Deny ") {
            assert_eq!(player.desk(), before.as_ref(), "{line}: {answer}");
        }
        if told(&answer).is_some() && answer.starts_with('A') {
            assert!(
                answer.contains(" | - | - 0000 - - - | "),
                "{line}: {answer}"
            );
        }
    }
}

#[test]
fn a_long_script_takes_the_sequence_number_past_65535() {
    let wrapping = Order {
        wrap: true,
        ..order(300, 10)
    };
    let mut idle = Vec::new();
    for (_, answer) in played(wrapping) {
        if let Some((_, message)) = answer.split_once("| Idle ") {
            idle.extend(
                message
                    .split(' ')
                    .next()
                    .and_then(|word| word.parse::<u32>().ok()),
            );
        }
    }
    let falls = idle
        .windows(2)
        .filter(|pair| pair[0] > 65_400 && pair[1] < 100);
    assert_eq!(falls.count(), 1);
}

#[test]
fn the_run_past_65535_comes_on_top_of_the_lines_asked_for() {
    for count in [5_000, 20_000] {
        let script = Maker::new(Order {
            wrap: true,
            ..order(301, count)
        });
        let mut player = Player::new();
        let (mut made, mut run, mut in_run) = (0, 0, false);
        for line in script {
            in_run = (in_run || line == "# the run begins") && line != "# the run ends";
            if player.answer(line.as_bytes()).is_some() {
                *(if in_run { &mut run } else { &mut made }) += 1;
            }
        }
        assert!((count..count + 100).contains(&made), "{made}");
        assert!((65_000..70_000).contains(&run), "{run}");
    }
}

#[test]
fn an_accepted_sheet_is_saved_octet_for_octet() {
    let mut player = Player::new();
    let mut accepted = 0;
    for line in Maker::new(order(400, 20_000)) {
        let answer = player.answer(line.as_bytes());
        if let (Some(octets), Some("OK")) = (line.strip_prefix("load "), answer.as_deref()) {
            assert_eq!(player.answer(b"save").as_deref(), Some(octets));
            accepted += 1;
        }
    }
    assert!(accepted > 20);
}

#[test]
fn what_is_rewritten_reads_the_same_and_is_no_longer() {
    let mut player = Player::new();
    let mut compared = 0;
    for line in Maker::new(order(500, 20_000)) {
        let octets = match line.strip_prefix("rewrite ") {
            Some(octets) => octets,
            None => continue,
        };
        let mut answer = |line: String| player.answer(line.as_bytes()).expect("an answer");
        let rewritten = answer(line.clone());
        let read = answer(format!("read {octets}"));
        if rewritten.starts_with('R') {
            assert_eq!(rewritten, read);
            continue;
        }
        assert_eq!(answer(format!("read {rewritten}")), read);
        assert_eq!(answer(format!("rewrite {rewritten}")), rewritten);
        assert!(rewritten.len() <= octets.len());
        compared += 1;
    }
    assert!(compared > 100);
}

#[test]
fn lines_that_cannot_be_understood() {
    let mut player = Player::new();
    for line in [
        "save",
        "save 20",
        "save x",
        "screen 1",
        "start",
        "join 61 1 1 1 0",
        "nothing",
        "START",
        "read 0",
    ] {
        let answer = player.answer(line.as_bytes()).expect("an answer");
        assert!(answer.starts_with("? "), "{line}: {answer}");
    }
    for line in ["", "  \t", "#", "# start", "  #start", "\r", "\n"] {
        assert_eq!(player.answer(line.as_bytes()), None);
    }
    // An ID stands once on a line, however it is spelled and whatever else is wrong.
    for line in [
        "write 1024 0 0 1 0=5 0=5",
        "write 1024 0 0 1 0=5 13=1 0=6",
        "write 1024 0 0 1 0=5 00=5",
        "write 1024 2 0 1 8=2 4=61 5=1 8=9",
        "write 1024 2 0 1 4=61 4=-",
        "write 1024 3 0 1 2=7,- 2=7,61",
        "write 0 7 0 1 5=2 5=2",
        "write 1024 0 0 1 0=5 0=256",
        "write 1024 0 0 1 0=5 0=",
        "write 1024 0 0 1 0=5 0",
        "write 1024 0 0 1 7=1 7=1",
    ] {
        let answer = player.answer(line.as_bytes()).expect("an answer");
        assert!(answer.starts_with("? "), "{line}: {answer}");
    }
    let all = "write 1024 0 0 1 14=1 0=5 1=30 2=7,- 3=1,5 4=61 5=1 6=62 8=9 10=3 12=0 13=1";
    let answer = player.answer(all.as_bytes()).expect("an answer");
    assert!(answer.starts_with("80cc"), "{answer}");
    // A desk that was refused is no desk.
    let refused = player.answer(b"make 1 0 2 2 2 30 0");
    assert_eq!(refused.as_deref(), Some("R 28"));
    assert_eq!(player.answer(b"save").as_deref(), Some("? no desk"));
}

#[test]
fn any_octets_at_all_get_an_answer() {
    let mut dice = Dice::new(600);
    let mut player = Player::new();
    player.answer(b"make 1 200 2 2 2 30 0");
    player.answer(b"join \"0\" 10 255 queueing");
    let names = [
        "make", "load", "save", "join", "packet", "read", "write", "timer", "leave", "screen",
        "ask", "release", "place", "talk",
    ];
    for _ in 0..20_000 {
        let length = dice.below(60);
        let mut line = dice.any_of(names).as_bytes().to_vec();
        line.push(b' ');
        line.extend((0..length).map(|_| dice.any_of(*b"0123456789abcdef --=,  \"\"\\\x00\xff")));
        assert!(player.answer(&line).is_some());
    }
}

#[test]
fn what_happens_is_the_same_in_words_and_in_figures() {
    for seed in 700..704 {
        let words = Order {
            write: true,
            ..order(seed, 20_000)
        };
        let figures = Order {
            figures: true,
            ..words
        };
        let (words, figures) = (played(words), played(figures));
        assert_eq!(words.len(), figures.len());
        let mut said = BTreeMap::<&str, usize>::new();
        for ((line, answer), (meant, other)) in words.iter().zip(&figures) {
            assert_eq!(answer, other, "seed {seed}, {line} for {meant}");
            if line != meant {
                let figures = ["make", "join", "leave", "media", "packet"];
                assert!(
                    figures.iter().any(|name| meant.starts_with(name)),
                    "{meant}"
                );
                *said
                    .entry(line.split(' ').next().unwrap_or(""))
                    .or_default() += 1;
            }
        }
        // A share of the script, and each kind of line often enough.
        let share = said.values().sum::<usize>() * 100 / words.len();
        assert!((15..25).contains(&share), "seed {seed}: {share} percent");
        for command in ["make", "join", "leave", "ask", "release", "place", "talk"] {
            let times = said.get(command).copied().unwrap_or(0);
            assert!(times >= 50, "seed {seed}: {times} of {command}");
        }
        assert!(figures.iter().any(|(line, _)| line.starts_with("packet ")));
        assert!(words.iter().any(|(line, _)| line.starts_with("packet ")));
    }
}

#[test]
fn the_formats_table_of_words_is_true() {
    let page = include_str!("../FORMAT.md");
    let mut desk = Player::new();
    for line in include_str!("../../scripts/words.script").lines() {
        desk.answer(line.as_bytes());
        if line == "start" {
            break;
        }
    }
    let mut rows = 0;
    let section = page.split("\n## Lines in words\n").nth(1);
    let section = section.and_then(|text| text.split("\n## ").next());
    let lines = section.expect("the section").lines();
    for row in lines.filter(|line| line.starts_with("| `")) {
        let cells: Vec<&str> = row.trim_matches('|').split(" | ").map(str::trim).collect();
        let (words, figures) = match cells[..] {
            [words, figures, _] => (words.trim_matches('`'), figures.trim_matches('`')),
            _ => panic!("not a row of three: {row}"),
        };
        let after = |line: &str| {
            let mut player = desk.clone();
            let answer = player.answer(line.as_bytes()).expect("an answer");
            assert!(!answer.starts_with('?'), "{line}: {answer}");
            (answer, player.answer(b"save"), player.desk().cloned())
        };
        assert_eq!(after(words), after(figures), "{row}");
        rows += 1;
    }
    assert!(rows >= 20, "{rows} rows");
}

#[test]
fn the_examples_of_the_format_are_what_is_answered() {
    let page = include_str!("../FORMAT.md");
    let mut player = Player::new();
    let mut compared = 0;
    let mut expected: Option<Option<String>> = None;
    for line in page.lines() {
        if let Some(script) = line.strip_prefix("    > ") {
            assert!(
                !matches!(expected, Some(Some(_))),
                "no answer before {line}"
            );
            expected = Some(player.answer(script.as_bytes()));
        } else if let Some(answer) = line.strip_prefix("    < ") {
            let given = expected.take().flatten().unwrap_or_default();
            let same = given == answer || given.starts_with("? ") && answer.starts_with("? ");
            assert!(same, "{given}\nis not\n{answer}");
            compared += 1;
        }
    }
    assert!(!matches!(expected, Some(Some(_))));
    assert!(compared > 20);
}
