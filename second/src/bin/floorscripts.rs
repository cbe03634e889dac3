//! Prints a script made from a seed: `floorscripts SEED COUNT [wrap] [write] [figures]`.

#![forbid(unsafe_code)]

use std::ffi::OsString;
use std::io::{self, BufWriter, Write};
use std::process::ExitCode;

use second::maker::{Maker, Order};
use second::usage;

const USAGE: &str = "usage: floorscripts SEED COUNT [wrap] [write] [figures]";
const HELP: &str = "Prints a script of events made at random, for the comparison of two players.
  SEED     a number that the whole script depends on
  COUNT    how many lines are to be answered, or a few more
  wrap     take the sequence number past 65,535, by a run of some 65,000 lines that are
           not counted and stand between two comments (done anyway from a COUNT of
           100,000 on)
  write    use the write command too, the one way to refusal 12
  figures  say no line in words that can be said in figures: the same things happen

Example: a thousand lines, and what is answered to them

    floorscripts 1 1000 > trace.script
    floorsecond trace.script

second/FORMAT.md has every line that a script can have.";

fn main() -> ExitCode {
    let words: Vec<OsString> = std::env::args_os().skip(1).collect();
    let done = match understand(&words) {
        _ if usage::is_asked(&words) => usage::tell(USAGE, HELP),
        Some(order) => print(order),
        None => return usage::misused(USAGE),
    };
    usage::status("floorscripts", done)
}

fn understand(words: &[OsString]) -> Option<Order> {
    let words: Option<Vec<&str>> = words.iter().map(|word| word.to_str()).collect();
    let words = words?;
    let (seed, words) = words.split_first()?;
    let (count, flags) = words.split_first()?;
    let mut order = Order {
        seed: seed.parse().ok()?,
        count: count.parse().ok()?,
        wrap: false,
        write: false,
        figures: false,
    };
    for &flag in flags {
        match flag {
            "wrap" => order.wrap = true,
            "write" => order.write = true,
            "figures" => order.figures = true,
            _ => return None,
        }
    }
    Some(order)
}

fn print(order: Order) -> io::Result<()> {
    let mut out = BufWriter::new(io::stdout().lock());
    for line in Maker::new(order) {
        writeln!(out, "{line}")?;
    }
    out.flush()
}
