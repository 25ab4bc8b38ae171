//! The command line of the oracle.

use std::env;
use std::io::{self, Write};
use std::process::ExitCode;

use oracle::{fixed, names, serve, stats};

const HELP: &str = "\
Usage: oracle COMMAND

Answers export lists with the members that the Rust sources make.

Commands:
  answers       write the fixed list of cases with their answers
  names         write the table of names with what becomes of them
  stats N SEED  answer N generated lists and print what they were like
  serve         answer the requests on standard input until it ends
  --help        print this text

A request is u32 machine, u32 flags (1 mingw, 2 whole_archive_compat), u32
length and the list's bytes. Its answer is a u64: the member set's total,
followed by u32 length and the set's bytes; or refusal number * 2^32 + place;
or 2^64 - 1 where the Rust panics; or 2^64 - 2 for a list or machine that the
Rust cannot be given. All numbers are little-endian.
";

fn main() -> ExitCode {
    let words: Vec<String> = env::args().skip(1).collect();
    let words: Vec<&str> = words.iter().map(String::as_str).collect();
    match run(&words) {
        Ok(true) => ExitCode::SUCCESS,
        Ok(false) => {
            eprint!("{HELP}");
            ExitCode::from(2)
        }
        Err(error) => {
            eprintln!("oracle: {error}");
            ExitCode::FAILURE
        }
    }
}

/// False if these words are no command.
fn run(words: &[&str]) -> io::Result<bool> {
    match words {
        ["answers"] => io::stdout().write_all(&fixed::file())?,
        ["names"] => io::stdout().write_all(&names::file())?,
        ["stats", count, seed] => {
            let (Ok(count), Ok(seed)) = (count.parse(), seed.parse()) else {
                return Ok(false);
            };
            io::stdout().write_all(stats::report(count, seed).as_bytes())?;
        }
        ["serve"] => {
            let output = io::BufWriter::new(io::stdout().lock());
            serve::serve(io::stdin().lock(), output)?;
        }
        ["--help"] => io::stdout().write_all(HELP.as_bytes())?,
        _ => return Ok(false),
    }
    Ok(true)
}
