//! Times of the library beside those of the plain Rust program.

use std::hint::black_box;
use std::time::Instant;

use crepedum::raw::Slot;
use oracle::ask::{AMD64, Options};
use oracle::list::{HEADER_SIZE, RECORD_SIZE, Record, encode_list};

use crate::content::FIELDS;
use crate::judge::Difference;
use crate::looks::Question;
use crate::slots::one_hash;
use crate::tables::SLOTS;
use crate::{finder, library, looks, plain, reader, reads};

const RUNS: usize = 21;
/// Exports, and how many of them are aliases.
type Size = (usize, usize);
const SIZES: [Size; 5] = [(512, 0), (1024, 0), (2048, 0), (4096, 0), (4096, 1000)];
const FULL: usize = 4096;
const LONGEST: usize = 4095;
const ROOM: usize = 1 << 20;
const OPTIONS: Options = Options {
    machine: AMD64,
    mingw: false,
    compat: false,
};

/// A name of 40 bytes.
fn name(k: usize) -> String {
    format!("att_display_horizon_step_number_{k:08}")
}

/// Another one.
fn new_name(k: usize) -> String {
    format!("att_display_horizon_turn_number_{k:08}")
}

/// Exports with names of 40 bytes. The last ones are aliases, whose targets are spread over the others.
fn measured_list((exports, aliases): Size) -> Vec<u8> {
    let plain = exports - aliases;
    let target = |k: usize| name((k - plain) * plain / aliases);
    let record = |k: usize| {
        if k < plain {
            Record::new(&name(k))
        } else {
            Record::new(&name(k)).import_name(&target(k))
        }
    };
    listed((0..exports).map(record))
}

fn listed(records: impl Iterator<Item = Record>) -> Vec<u8> {
    let records: Vec<Record> = records.collect();
    encode_list(b"att.dll", &records, &[])
}

/// Names that are renamed within a decorated one.
fn renamed_list() -> Vec<u8> {
    let record = |k: usize| {
        let record = Record::new(&name(k)).symbol_name(&format!("_{}@16", name(k)));
        record.ext_name(&new_name(k))
    };
    listed((0..FULL).map(record))
}

/// Names that are renamed at the end of 1,000 bytes, which hold their first byte now and then.
fn renamed_late_list() -> Vec<u8> {
    let before = "horizon_display_".repeat(60);
    let record = |k: usize| {
        let record = Record::new(&name(k)).symbol_name(&format!("{before}{}", name(k)));
        record.ext_name(&new_name(k))
    };
    listed((0..FULL).map(record))
}

/// Keys with one hash, and one alias of the last of them.
fn one_hash_list() -> Vec<u8> {
    let name = |k| one_hash(k, 12);
    let alias = Record::new("att_go").import_name(&name(FULL - 2));
    let imports = (0..FULL - 1).map(|k| Record::new(&name(k)));
    listed(imports.chain([alias]))
}

/// Where a string stands in the names of a list: its start and its length.
type Range = (usize, usize);
const ABSENT: Range = (0, 0);

/// A part of the names as long as a string may be. Each has another text.
fn longest(start: usize) -> Range {
    (start, LONGEST)
}

/// One import, and aliases of it: in each one a name within the longest of strings is replaced.
fn long_aliases_list() -> Vec<u8> {
    let import: Range = (FULL, 40);
    let alias = |k: usize| [(k, 1), (k, 8), longest(k), import, ABSENT];
    let first = [import, ABSENT, ABSENT, ABSENT, ABSENT];
    let aliases = (0..FULL / 2).map(alias);
    ranged(&[first].into_iter().chain(aliases).collect::<Vec<_>>())
}

/// Imports and as many aliases of them, all renamed, and every string the longest: names, new names and keys.
fn long_keys_list() -> Vec<u8> {
    let half = FULL / 2;
    let import = |k: usize| [longest(k), longest(half + k), ABSENT, ABSENT, ABSENT];
    let alias = |k: usize| {
        let wanted = longest(FULL - 1 - k);
        [longest(half + k), longest(k), ABSENT, wanted, ABSENT]
    };
    let imports = (0..half).map(import);
    ranged(&imports.chain((0..half).map(alias)).collect::<Vec<_>>())
}

/// A list whose strings are parts of one text without a pattern.
fn ranged(records: &[[Range; 5]]) -> Vec<u8> {
    let letter = |k: usize| b'a' + ((k as u32).wrapping_mul(2_654_435_761) >> 16) as u8 % 26;
    let names: Vec<u8> = (0..FULL + LONGEST).map(letter).collect();
    let count = records.len();
    let names_at = HEADER_SIZE + count * RECORD_SIZE;
    let header = [count, 0, HEADER_SIZE, names_at, names.len(), 0, 7];
    let mut list: Vec<u8> = header.into_iter().flat_map(number).collect();
    for record in records {
        let strings = record.iter().flat_map(|&(start, length)| [start, length]);
        list.extend(strings.chain([0]).flat_map(number));
    }
    list.extend(names);
    list
}

fn number(number: usize) -> [u8; 4] {
    (number as u32).to_le_bytes()
}

fn timed(run: impl FnOnce() -> bool) -> u128 {
    let start = Instant::now();
    let done = run();
    let time = start.elapsed().as_nanos();
    assert!(done, "the measured list is refused");
    time
}

fn median(mut times: Vec<u128>) -> u128 {
    times.sort_unstable();
    times[times.len() / 2]
}

/// The median times in nanoseconds of the library and of the plain program.
type Times = [u128; 2];

/// The library's writer and the plain one, each in memory that was cleared. The runs take turns, so that a busy machine is busy
/// for both.
fn measure_writes(list: &[u8], room: usize) -> Times {
    let mut out = vec![0; room];
    let mut slots = vec![Slot::default(); SLOTS];
    let mut times = [const { Vec::new() }; 2];
    for _ in 0..RUNS {
        out.fill(0);
        slots.fill(Slot::default());
        times[0].push(timed(|| {
            library::write(black_box(list), OPTIONS, &mut slots, &mut out).is_ok()
        }));
        black_box(&mut slots);
        black_box(&mut out).fill(0);
        times[1].push(timed(|| {
            plain::write(black_box(list), OPTIONS, &mut out).is_ok()
        }));
        black_box(&mut out);
    }
    times.map(median)
}

/// The total asked for.
fn measure_totals(list: &[u8]) -> Times {
    let mut times = [const { Vec::new() }; 2];
    for _ in 0..RUNS {
        times[0].push(timed(|| {
            black_box(library::total(black_box(list), OPTIONS)).is_ok()
        }));
        times[1].push(timed(|| {
            black_box(plain::total(black_box(list), OPTIONS)).is_ok()
        }));
    }
    times.map(median)
}

/// Both write the same set, and answer the same total; the room that it takes.
fn same_set(list: &[u8]) -> Result<usize, Difference> {
    let totals = [library::total(list, OPTIONS), plain::total(list, OPTIONS)];
    let room = ROOM.max(totals[1].unwrap_or_default());
    let (mut ours, mut plainly) = (vec![0; room], vec![0; room]);
    let mut slots = vec![Slot::default(); SLOTS];
    let answers = [
        library::write(list, OPTIONS, &mut slots, &mut ours),
        plain::write(list, OPTIONS, &mut plainly),
    ];
    if answers[0].is_ok() && answers[0] == answers[1] && answers == totals && ours == plainly {
        Ok(room)
    } else {
        Err(Difference("the measured sets are not the same".into()))
    }
}

fn measured_set(size: Size) -> Vec<u8> {
    let mut set = vec![0; ROOM];
    let total = plain::write(&measured_list(size), OPTIONS, &mut set);
    set.truncate(total.expect("the measured list is taken"));
    set
}

/// Each member read once.
fn measure_reads(members: &[&[u8]]) -> Times {
    let mut fields = [0; FIELDS];
    let mut times = [const { Vec::new() }; 2];
    for _ in 0..RUNS {
        times[0].push(timed(|| {
            black_box(members).iter().all(|member| {
                let read = library::read(member, &mut fields);
                black_box(&mut fields);
                read.is_ok()
            })
        }));
        times[1].push(timed(|| {
            black_box(members)
                .iter()
                .all(|member| black_box(reader::read(member)).is_some())
        }));
    }
    times.map(median)
}

/// One symbol looked up, for which the set is validated.
fn measure_lookup(set: &[u8], symbol: &[u8]) -> Times {
    let mut fields = [0; looks::FIELDS];
    let mut times = [const { Vec::new() }; 2];
    for _ in 0..RUNS {
        times[0].push(timed(|| {
            let looked = library::lookup(black_box(set), 1, black_box(symbol), &mut fields);
            black_box(&mut fields);
            looked.is_ok()
        }));
        times[1].push(timed(|| {
            black_box(finder::lookup(black_box(set), 1, black_box(symbol))).is_some()
        }));
    }
    times.map(median)
}

fn row(what: &str, (exports, aliases): Size, [ours, plain]: Times) {
    let ratio = ours as f64 / plain as f64;
    println!("{what:<21} {exports:>8} {aliases:>8} {ours:>12} {plain:>12} {ratio:>7.2}");
}

fn bench_write(what: &str, size: Size, list: &[u8]) -> Result<(), Difference> {
    let room = same_set(list)?;
    row(what, size, measure_writes(list, room));
    Ok(())
}

fn bench_writes() -> Result<(), Difference> {
    for size in SIZES {
        bench_write("write", size, &measured_list(size))?;
    }
    bench_write("write, renamed", (FULL, 0), &renamed_list())?;
    bench_write("write, renamed late", (FULL, 0), &renamed_late_list())?;
    let half = FULL / 2;
    bench_write(
        "write, long aliases",
        (half + 1, half),
        &long_aliases_list(),
    )?;
    bench_write("write, long keys", (FULL, half), &long_keys_list())?;
    bench_write("write, one hash", (FULL, 1), &one_hash_list())
}

fn bench_totals() -> Result<(), Difference> {
    for size in SIZES {
        let list = measured_list(size);
        same_set(&list)?;
        row("ask for the total", size, measure_totals(&list));
    }
    Ok(())
}

fn bench_reads() -> Result<(), Difference> {
    for size in SIZES {
        let set = measured_set(size);
        let members = reads::members(&set)?;
        for member in &members {
            reads::judge(member)?;
        }
        row("read each member", size, measure_reads(&members));
    }
    Ok(())
}

/// The symbol of the last export, and one that is not there.
fn bench_lookups() -> Result<(), Difference> {
    for size in SIZES {
        let set = measured_set(size);
        let (exports, _) = size;
        for (what, k) in [
            ("look up the last", exports - 1),
            ("look up a stranger", exports),
        ] {
            let symbol = name(k).into_bytes();
            Question::of(&set).judge(1, &symbol)?;
            row(what, size, measure_lookup(&set, &symbol));
        }
    }
    Ok(())
}

/// One table: each operation at each size.
pub fn bench() -> Result<String, Difference> {
    println!(
        "{:<21} {:>8} {:>8} {:>12} {:>12} {:>7}",
        "", "exports", "aliases", "ours, ns", "plain, ns", "ratio"
    );
    bench_writes()?;
    bench_totals()?;
    bench_reads()?;
    bench_lookups()?;
    Ok(format!(
        "names of 40 bytes (renamed late: in 1,000; long: 4,095; one hash: 24), median of {RUNS}, AMD64"
    ))
}
