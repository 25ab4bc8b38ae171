//! The table of names.

use std::collections::BTreeMap;

use oracle::names::{DEMANGLE, MANGLE, REPLACE, STEM, TYPE, WANTED, file, rows};

/// The program that replays the table has a buffer of 65,536 bytes.
const LARGEST: usize = 60_000;
/// How often each answer is there at least.
const SHOWN: usize = 10;

#[test]
fn the_table_is_what_names_gives() {
    let committed = include_bytes!("../../crates/names_run/stdin");
    assert!(
        committed[..] == file()[..],
        "crates/names_run/stdin is not what `oracle names` writes"
    );
    assert!(committed.len() <= LARGEST);
}

#[test]
fn the_table_shows_every_answer() {
    let mut shown: BTreeMap<_, usize> = BTreeMap::new();
    for row in rows() {
        assert!(!row.given[0].is_empty(), "{row:?}");
        *shown.entry((row.op, row.verdict)).or_default() += 1;
    }
    let answers = [
        (REPLACE, 0..=1),
        (STEM, 1..=1),
        (DEMANGLE, 0..=1),
        (MANGLE, 0..=2),
        (TYPE, 1..=3),
        (WANTED, 1..=4),
    ];
    let answers = answers
        .into_iter()
        .flat_map(|(op, verdicts)| verdicts.map(move |verdict| (op, verdict)));
    assert!(answers.eq(shown.keys().copied()), "{shown:?}");
    assert!(shown.values().all(|&count| count >= SHOWN), "{shown:?}");
}
