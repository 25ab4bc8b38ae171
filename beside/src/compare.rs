//! Generated and damaged lists, beside the Rust, and their members read back.

use std::collections::BTreeMap;
use std::fmt;

use oracle::ask::MACHINES;
use oracle::list::{HEADER_SIZE, RECORD_SIZE};
use oracle::rng::Rng;
use oracle::{Case, Options, Record, generator, picked};

use crate::judge::{Difference, Question, Wanted, wanted};
use crate::order::word;
use crate::reads;

/// Numbers that a field is replaced by.
const EDGES: [u32; 12] = [
    0,
    1,
    2,
    28,
    255,
    256,
    4095,
    4096,
    4097,
    1 << 31,
    u32::MAX - 3,
    u32::MAX,
];
const NAMES_AT: usize = 12;
const NAMES_LENGTH_AT: usize = 16;
const UNUSED: usize = 5000;
const HEADER_FIELDS: usize = HEADER_SIZE / 4;
const RECORD_FIELDS: usize = RECORD_SIZE / 4;

/// How many lists were written, and how many refused by each number.
#[derive(Default)]
struct Tally {
    written: u64,
    refused: BTreeMap<u32, u64>,
}

impl Tally {
    fn judge(&mut self, question: &Question, wanted: &Wanted) -> Result<(), Difference> {
        match wanted {
            Ok(_) => self.written += 1,
            Err((number, _)) => *self.refused.entry(*number).or_default() += 1,
        }
        question.judge(wanted)
    }
}

impl fmt::Display for Tally {
    fn fmt(&self, text: &mut fmt::Formatter<'_>) -> fmt::Result {
        write!(text, "{} written", self.written)?;
        for (number, count) in &self.refused {
            write!(text, ", {count} refused {number}")?;
        }
        Ok(())
    }
}

/// Hand-picked and generated lists: the sets byte for byte, refusals 11 to 14, and each member of a set read back.
pub fn compare(count: u64, seed: u64) -> Result<String, Difference> {
    let mut tally = Tally::default();
    let mut read = 0;
    let generated = generator::cases(seed).take(count as usize);
    for case in picked::cases().into_iter().chain(generated) {
        let wanted = wanted(&case, &case.answer());
        tally.judge(&Question::of(&case), &wanted)?;
        if let Ok(set) = wanted {
            read += reads::read_back(&case, &set)?;
        }
    }
    Ok(format!(
        "lists, as the Rust: {tally}; {read} members read back"
    ))
}

/// Damaged lists: refusals 1 to 10 in the paper's order, and the Rust's answer to those that are lists still.
pub fn damaged(count: u64, seed: u64) -> Result<String, Difference> {
    let mut tally = Tally::default();
    for machine in MACHINES {
        for question in every_damage(&Question::of(&small(machine))) {
            tally.judge(&question, &question.wanted())?;
        }
    }
    let mut rng = Rng::new(seed);
    for case in generator::cases(seed).take(count as usize) {
        let mut question = Question::of(&case);
        if rng.one_in(8) {
            lengthen(&mut question.list);
        }
        for _ in 0..=rng.below(2) {
            damage(&mut question, &mut rng);
        }
        tally.judge(&question, &question.wanted())?;
    }
    Ok(format!("damaged lists, as the paper and the Rust: {tally}"))
}

/// A list of which all damage is tried.
fn small(machine: u32) -> Case {
    let first = [
        Record::new("a"),
        Record::new("f").symbol_name("xf").ext_name("g").ordinal(2),
    ];
    Case::new(machine, &first).native(&[Record::new("c").import_name("a")])
}

/// Each header field replaced, each shorter list, a longer one, and each bit turned over.
fn every_damage(question: &Question) -> Vec<Question> {
    let Question { list, options } = question;
    let damaged = |list: Vec<u8>| Question {
        list,
        options: *options,
    };
    let fields = (0..HEADER_FIELDS).flat_map(|field| EDGES.map(|value| (4 * field, value)));
    let replaced = fields.map(|(at, value)| damaged(with_number(list, at, value)));
    let cut = (0..list.len()).map(|length| damaged(list[..length].to_vec()));
    let longer = damaged([&list[..], &[0]].concat());
    let turned = (0..8 * list.len()).map(|bit| {
        let mut list = list.clone();
        list[bit / 8] ^= 1 << (bit % 8);
        damaged(list)
    });
    replaced.chain(cut).chain([longer]).chain(turned).collect()
}

/// A list with another number at a place.
pub fn with_number(list: &[u8], at: usize, value: u32) -> Vec<u8> {
    let mut list = list.to_vec();
    list[at..at + 4].copy_from_slice(&value.to_le_bytes());
    list
}

/// Adds names that no string holds, so that a changed length may be one of them.
fn lengthen(list: &mut Vec<u8>) {
    list.extend([b'a'; UNUSED]);
    let names = list.len() - word(list, NAMES_AT);
    *list = with_number(list, NAMES_LENGTH_AT, names as u32);
}

/// Changes one thing of a question.
fn damage(question: &mut Question, rng: &mut Rng) {
    let list = &mut question.list;
    if list.len() < HEADER_SIZE || rng.one_in(20) {
        let machine = rng.pick(&MACHINES) ^ rng.pick(&[0, 1, 0x10000, 1 << 31]);
        question.options = Options {
            machine,
            ..question.options
        };
        return;
    }
    let at = rng.below(list.len());
    match rng.below(6) {
        0 => list[at] ^= 1 << rng.below(8),
        1 => list.truncate(at),
        2 => list.push(rng.pick(&[0, b'a'])),
        3 => list[at] = rng.pick(&[0, 0xFF, b'/', b'.']),
        4 => *list = with_number(list, 4 * rng.below(HEADER_FIELDS), rng.pick(&EDGES)),
        _ => damage_record(list, rng),
    }
}

/// Replaces a number of a record, if there is one.
fn damage_record(list: &mut Vec<u8>, rng: &mut Rng) {
    let records = (list.len() - HEADER_SIZE) / RECORD_SIZE;
    if records == 0 {
        return;
    }
    let field = RECORD_FIELDS * rng.below(records) + rng.below(RECORD_FIELDS);
    *list = with_number(list, HEADER_SIZE + 4 * field, rng.pick(&EDGES));
}
