//! The fixed list: cases with their answers, for replay without the Rust.

use std::collections::{BTreeMap, BTreeSet};

use crate::ask::{Answer, empty_public_name, hash_alone};
use crate::case::Case;
use crate::facts::facts;
use crate::list::{push_u32, within_limits};
use crate::serve::answer_bytes;
use crate::{generator, picked};

const SEED: u64 = 1;
/// How many generated cases are looked at.
const GENERATED: usize = 20_000;
/// A generated case takes no more bytes than this in the file.
const LARGEST: usize = 1_000;
/// How many refused cases are taken for each machine and number.
const REFUSED: usize = 5;

/// The bytes of the fixed list.
pub fn file() -> Vec<u8> {
    let cases = cases();
    let mut file = Vec::new();
    push_u32(&mut file, cases.len());
    for case in &cases {
        file.extend(case_bytes(case, &case.answer()));
    }
    file
}

/// The hand-picked cases and the chosen generated ones.
pub fn cases() -> Vec<Case> {
    let mut cases = picked::cases();
    for case in &cases {
        assert!(belongs(case, &case.answer()), "does not belong: {case:?}");
    }
    let generated: Vec<_> = generator::cases(SEED)
        .take(GENERATED)
        .filter_map(Candidate::of)
        .collect();
    cases.extend(refused(&generated));
    cases.extend(telling(generated));
    cases
}

/// A short generated case, with what it would show beside those chosen.
struct Candidate {
    case: Case,
    refusal: Option<u32>,
    unseen: BTreeSet<&'static str>,
}

impl Candidate {
    fn of(case: Case) -> Option<Self> {
        let answer = case.answer();
        if case_bytes(&case, &answer).len() > LARGEST || !belongs(&case, &answer) {
            return None;
        }
        let refusal = match answer {
            Answer::Error { number, .. } => Some(number),
            _ => None,
        };
        let unseen = facts(&case, &answer).into_iter().collect();
        Some(Self {
            case,
            refusal,
            unseen,
        })
    }
}

/// The first refused cases for each machine and number.
fn refused(candidates: &[Candidate]) -> Vec<Case> {
    let mut counts: BTreeMap<_, usize> = BTreeMap::new();
    let mut refused = Vec::new();
    for Candidate { case, refusal, .. } in candidates {
        let Some(number) = refusal else { continue };
        let count = counts.entry((case.options.machine, number)).or_default();
        if *count < REFUSED {
            *count += 1;
            refused.push(case.clone());
        }
    }
    refused
}

/// Cases that together show every fact on every machine where a candidate
/// shows it, each time the one that shows most.
fn telling(mut candidates: Vec<Candidate>) -> Vec<Case> {
    let mut telling = Vec::new();
    while let Some(best) = widest(&candidates) {
        let Candidate { case, unseen, .. } = candidates.remove(best);
        for other in &mut candidates {
            if other.case.options.machine == case.options.machine {
                other.unseen.retain(|fact| !unseen.contains(fact));
            }
        }
        candidates.retain(|candidate| !candidate.unseen.is_empty());
        telling.push(case);
    }
    telling
}

/// The first of the candidates that show most.
fn widest(candidates: &[Candidate]) -> Option<usize> {
    let counts = || candidates.iter().map(|candidate| candidate.unseen.len());
    let most = counts().max()?;
    counts().position(|count| count == most)
}

/// Whether the port must give the Rust's answer.
fn belongs(case: &Case, answer: &Answer) -> bool {
    let answered = match answer {
        Answer::Members(_) => true,
        Answer::Error { number, .. } => *number >= 11,
        _ => false,
    };
    answered
        && within_limits(&case.list)
        && empty_public_name(&case.list).is_none()
        && hash_alone(&case.list, case.options).is_none()
}

fn case_bytes(case: &Case, answer: &Answer) -> Vec<u8> {
    let list = case.bytes();
    let mut bytes = Vec::new();
    bytes.extend(case.options.machine.to_le_bytes());
    bytes.extend(case.flags().to_le_bytes());
    push_u32(&mut bytes, list.len());
    bytes.extend(list);
    bytes.extend(answer_bytes(answer));
    bytes
}
