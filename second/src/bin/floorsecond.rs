//! Plays a script from the file named as the argument, or from standard input.

#![forbid(unsafe_code)]

use std::ffi::{OsStr, OsString};
use std::fs::File;
use std::io::{self, BufRead, BufReader, BufWriter, Write};
use std::process::ExitCode;

use second::script::Player;
use second::usage;

const USAGE: &str = "usage: floorsecond [FILE]";
const HELP: &str = r#"Plays a script of events on the second implementation of the floor control desk,
from FILE or from standard input, and prints one line for each event.

Example: with these lines in a file exercise.script

    # a desk, two handsets, and a call in which one asks for the floor
    make ssrc 1 level 200 limit 2 c7 2 c20 2 duration 30 normal 0
    join "test1" 10 255 queueing
    join "test2" 11 255 queueing
    start
    ask "test1" 5

floorsecond exercise.script plays them. second/FORMAT.md has every line that a
script can have, and every part of an answer."#;

fn main() -> ExitCode {
    let words: Vec<OsString> = std::env::args_os().skip(1).collect();
    let done = match &words[..] {
        words if usage::is_asked(words) => usage::tell(USAGE, HELP),
        [] => play(io::stdin().lock()),
        [path] if !is_option(path) => {
            File::open(path).and_then(|script| play(BufReader::new(script)))
        }
        _ => return usage::misused(USAGE),
    };
    usage::status("floorsecond", done)
}

fn is_option(word: &OsStr) -> bool {
    word.to_string_lossy().starts_with('-')
}

fn play(mut script: impl BufRead) -> io::Result<()> {
    let mut answers = BufWriter::new(io::stdout().lock());
    let mut player = Player::new();
    let mut line = Vec::new();
    while script.read_until(b'\n', &mut line)? > 0 {
        if let Some(answer) = player.answer(&line) {
            writeln!(answers, "{answer}")?;
        }
        line.clear();
    }
    answers.flush()
}
