//! Runs the library beside the Rust, and measures it.

mod asked;
mod bench;
mod changed;
mod compare;
mod content;
mod damaged_sets;
mod differences;
mod finder;
mod judge;
mod layouts;
mod library;
mod limits;
mod looks;
mod lookups;
mod member_limits;
mod member_set;
mod order;
mod pe;
mod plain;
mod reader;
mod reads;
mod scan;
mod slots;
mod tables;

use std::process::ExitCode;

const USAGE: &str = "\
usage: beside COMMAND

  compare COUNT SEED   generated lists: the sets and refusals are the Rust's, and members are read back
  damaged COUNT SEED   damaged lists: refusals come in the paper's order
  changed COUNT SEED   changed members: read where they are members still, else refused
  lookup COUNT SEED    symbols of generated lists lead where their records ask, and damaged sets are refused
  slots COUNT SEED     lists full of equal keys and keys with one hash, in tables with anything in them
  limits               every limit, and one step beyond it
  layouts              the members are laid out as the PE Format document says
  differences          where the library does otherwise than the Rust, on purpose
  bench                times, beside a plain Rust program";

fn number(word: Option<&String>) -> Option<u64> {
    word?.parse().ok()
}

fn main() -> ExitCode {
    let words: Vec<String> = std::env::args().skip(1).collect();
    let numbers = number(words.get(1)).zip(number(words.get(2)));
    let done = match (words.first().map(String::as_str), numbers) {
        (Some("compare"), Some((count, seed))) => compare::compare(count, seed),
        (Some("damaged"), Some((count, seed))) => compare::damaged(count, seed),
        (Some("changed"), Some((count, seed))) => changed::changed(count, seed),
        (Some("lookup"), Some((count, seed))) => lookups::lookups(count, seed),
        (Some("slots"), Some((count, seed))) => slots::slots(count, seed),
        (Some("limits"), None) => limits::limits(),
        (Some("layouts"), None) => layouts::layouts(),
        (Some("differences"), None) => differences::differences(),
        (Some("bench"), None) => bench::bench(),
        _ => {
            eprintln!("{USAGE}");
            return ExitCode::from(2);
        }
    };
    match done {
        Ok(line) => {
            println!("{line}");
            ExitCode::SUCCESS
        }
        Err(difference) => {
            difference.show();
            ExitCode::FAILURE
        }
    }
}
