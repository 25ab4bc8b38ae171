//! The cases: those of the generator and those of the fixed list.

use std::collections::BTreeSet;

use oracle::facts::{EVERY, facts, refusal};
use oracle::list::{decode_list, within_limits};
use oracle::{Answer, fixed, generator};

const LISTS: usize = 30_000;
/// The program that replays the fixed list has a buffer of 400,000 bytes.
const LARGEST: usize = 390_000;

#[test]
fn the_fixed_list_is_what_answers_gives() {
    let committed = include_bytes!("../../crates/write_run/stdin");
    assert!(
        committed[..] == fixed::file()[..],
        "crates/write_run/stdin is not what `oracle answers` writes"
    );
    assert!(committed.len() <= LARGEST);
}

#[test]
fn the_fixed_list_shows_every_fact_but_those_of_empty_names() {
    let cases = fixed::cases();
    let shown: BTreeSet<_> = cases
        .iter()
        .flat_map(|case| facts(case, &case.answer()))
        .collect();
    let missing: Vec<_> = EVERY.into_iter().filter(|f| !shown.contains(f)).collect();
    assert_eq!(missing, ["answer: 12", "the Rust: panics"]);
}

#[test]
fn a_seed_always_gives_the_same_lists() {
    let lists = |seed| -> Vec<_> { generator::cases(seed).take(500).collect() };
    assert_eq!(lists(7), lists(7));
    assert_ne!(lists(7), lists(8));
    assert_eq!(lists(7)[499], generator::case(7, 499));
}

#[test]
fn generated_lists_keep_to_the_format_and_the_limits() {
    for case in generator::cases(2).take(LISTS) {
        assert_eq!(decode_list(&case.bytes()).as_ref(), Some(&case.list));
        assert!(within_limits(&case.list), "{case:?}");
    }
}

#[test]
fn generated_lists_reach_every_fact_and_are_mostly_accepted() {
    let mut shown = BTreeSet::new();
    let mut accepted = 0;
    for case in generator::cases(3).take(LISTS) {
        let answer = case.answer();
        shown.extend(facts(&case, &answer));
        accepted += usize::from(refusal(&case, &answer).is_none());
        let panics = matches!(answer, Answer::Panic);
        assert!(!panics || refusal(&case, &answer).is_some_and(|(number, _)| number == 12));
    }
    assert_eq!(shown, EVERY.into_iter().collect());
    assert!(accepted > LISTS * 3 / 4, "{accepted} of {LISTS}");
}
