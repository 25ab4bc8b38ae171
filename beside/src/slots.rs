//! Lists full of equal keys and of keys with one hash, in tables with anything in them: beside the Rust and beside a scan. And
//! every number of slots around the one that is enough.

use std::fmt;

use crepedum::raw::Slot;
use oracle::ask::{AMD64, ARM64EC, ARM64X, I386, MACHINES};
use oracle::list::{CONSTANT, DATA, NONAME, PRIVATE};
use oracle::rng::Rng;
use oracle::{Case, Record};

use crate::compare::with_number;
use crate::judge::{Difference, Question, Wanted, wanted};
use crate::scan::Seen;
use crate::tables::{SLOTS, Table};

const EXPORTS: usize = 4096;
/// Numbers that every slot of a table holds thrice.
const HELD: [u32; 4] = [0, 1, 2, u32::MAX];
/// Names and their own extensions, with one hash.
const EXTENDED: [&str; 6] = [
    "mairiaa",
    "mairiaagy",
    "peiejba",
    "peiejbaoq",
    "lbjkwba",
    "lbjkwbauk",
];
/// Blocks of a name, and so bits of its number, when 4,096 names have one hash.
const BLOCKS: u32 = 12;
/// Slots at the end of a table of 8,192.
const LAST_SLOTS: u32 = 12;
const COUNTS: [usize; 7] = [0, 1, SLOTS / 2, SLOTS - 1, SLOTS, SLOTS + 1, 8 * SLOTS];
const AMPLE: usize = 1 << 14;

/// The hash of a key as the paper has it.
pub fn hash(key: &[u8]) -> u32 {
    key.iter().fold(5381, |hash: u32, byte| {
        hash.wrapping_mul(33).wrapping_add(u32::from(*byte))
    })
}

/// A name that has its hash in common with every other of as many blocks: each block is worth 65 * 33 + 98 or 66 * 33 + 65.
pub fn one_hash(number: usize, blocks: u32) -> String {
    let block = |bit| {
        if number >> bit & 1 == 0 { "Ab" } else { "BA" }
    };
    (0..blocks).map(block).collect()
}

/// Names whose search begins in the last slots of a table and goes on in the first ones.
fn around_the_end(count: usize) -> Vec<String> {
    let is_late = |name: &String| hash(name.as_bytes()) % SLOTS as u32 >= SLOTS as u32 - LAST_SLOTS;
    let names = (0..).map(|k| format!("w{k}"));
    names.filter(is_late).take(count).collect()
}

/// How many lists there were, and what of them the scan saw.
#[derive(Default)]
struct Run {
    lists: u64,
    seen: Seen,
    left: Option<Table>,
}

impl fmt::Display for Run {
    fn fmt(&self, text: &mut fmt::Formatter<'_>) -> fmt::Result {
        write!(text, "{} lists, {}", self.lists, self.seen)
    }
}

pub fn slots(count: u64, seed: u64) -> Result<String, Difference> {
    assert_one_hash();
    let late = around_the_end(64);
    let mut rng = Rng::new(seed);
    let mut run = Run::default();
    for _ in 0..count {
        run.judge(&crowded(&mut rng, &late))?;
    }
    for case in full() {
        run.judge_once(&case)?;
    }
    let Seen {
        aliases,
        contested,
        strangers,
    } = run.seen;
    assert!(aliases.min(contested).min(strangers) > 0, "{run}");
    let answers = counts()?;
    Ok(format!(
        "slots: {run}, as the Rust and the scan; {answers} answers with {} to {} slots",
        COUNTS[0],
        COUNTS[COUNTS.len() - 1]
    ))
}

/// That keys have one hash where they are to have one.
fn assert_one_hash() {
    let hashes = |number| hash(one_hash(number, BLOCKS).as_bytes());
    assert!((0..EXPORTS).all(|number| hashes(number) == hashes(0)));
    for pair in EXTENDED.chunks(2) {
        assert_eq!(hash(pair[0].as_bytes()), hash(pair[1].as_bytes()));
    }
}

impl Run {
    /// Judges a list in every room, and in tables that hold all kinds of things, among them what the list before it left.
    fn judge(&mut self, case: &Case) -> Result<(), Difference> {
        let question = Question::of(case);
        let wanted = wanted(case, &case.answer());
        question.judge(&wanted)?;
        let room = wanted.as_ref().map_or(AMPLE, Vec::len);
        for number in HELD {
            let held = Slot {
                state: number,
                hash: number,
                record: number,
            };
            question.judge_write_in(&mut Table::filled(SLOTS, held), room, &wanted)?;
        }
        question.judge_write_in(&mut Table::drawn(SLOTS + 1, 0), room, &wanted)?;
        self.judge_left(&question, room, &wanted)?;
        self.see(case, &wanted)
    }

    /// Judges a list in what the last one left, and once more in what it left itself.
    fn judge_left(
        &mut self,
        question: &Question,
        room: usize,
        wanted: &Wanted,
    ) -> Result<(), Difference> {
        let left = self.left.take();
        let mut table = left.unwrap_or_else(|| Table::drawn(SLOTS, 0));
        question.judge_write_in(&mut table, room, wanted)?;
        let mut table = table.again();
        question.judge_write_in(&mut table, room, wanted)?;
        self.left = Some(table.again());
        Ok(())
    }

    /// The same for a list that takes long.
    fn judge_once(&mut self, case: &Case) -> Result<(), Difference> {
        let question = Question::of(case);
        let wanted = wanted(case, &case.answer());
        question.judge_asked(&wanted)?;
        let room = wanted.as_ref().map_or(AMPLE, Vec::len);
        question.judge_write(room, &wanted)?;
        self.judge_left(&question, room, &wanted)?;
        self.see(case, &wanted)
    }

    fn see(&mut self, case: &Case, wanted: &Wanted) -> Result<(), Difference> {
        self.lists += 1;
        let Ok(set) = wanted else {
            return Ok(());
        };
        self.seen.judge(case, set)
    }
}

/// Lists whose records have few keys between them.
fn crowded(rng: &mut Rng, late: &[String]) -> Case {
    let words = words(rng, late);
    let machine = rng.pick(&MACHINES);
    let mut records = || -> Vec<Record> {
        let count = rng.pick(&[0, 2, 6, 20, 60, 200]);
        (0..count).map(|k| crowded_record(rng, &words, k)).collect()
    };
    let (first, native) = (records(), records());
    let case = Case::new(machine, &first).native(&native);
    if rng.one_in(3) { case.mingw() } else { case }
}

/// Names of which keys are made: few, with one hash, or side by side in the table.
fn words(rng: &mut Rng, late: &[String]) -> Vec<String> {
    let few = ["a", "b", "ab", "ba"].map(String::from);
    match rng.below(4) {
        0 => few.into(),
        1 => EXTENDED.map(String::from).into(),
        2 => late.to_vec(),
        _ => {
            let blocks = 1 + rng.below(6) as u32;
            (0..1 << blocks).map(|k| one_hash(k, blocks)).collect()
        }
    }
}

fn crowded_record(rng: &mut Rng, words: &[String], place: usize) -> Record {
    let word = &words[rng.below(words.len())];
    let record = if rng.one_in(2) {
        wanting(rng, word, place)
    } else {
        keyed(rng, word, place)
    };
    let kind = rng.pick(&[0, 0, 0, DATA, CONSTANT]);
    let hidden = if rng.one_in(10) { PRIVATE } else { 0 };
    record.ordinal(place as u16).flags(kind | hidden)
}

/// An import whose key is the word, at least on some machine.
fn keyed(rng: &mut Rng, word: &str, place: usize) -> Record {
    match rng.below(10) {
        0 => Record::new(word),
        1 => Record::new(word).flags(NONAME),
        2 => Record::new(word).export_as("z"),
        3 => Record::new(word).import_name(word),
        4 => Record::new(&format!("_{word}")),
        5 => Record::new(&format!("_{word}@{place}")),
        6 => Record::new("n").symbol_name(&format!("_{word}@{place}")),
        7 => Record::new("n").symbol_name(&format!("@{word}")),
        8 => Record::new("n")
            .symbol_name(&format!("_n@{place}"))
            .ext_name(word),
        _ => Record::new("n").ext_name(word),
    }
}

/// An export that wants the key, under a name that is renamed or not.
fn wanting(rng: &mut Rng, word: &str, place: usize) -> Record {
    let record = match rng.below(3) {
        0 => Record::new("q")
            .symbol_name(&format!("alias_q{place}"))
            .ext_name(word),
        1 => Record::new("q").ext_name(&format!("alias{place}")),
        _ => Record::new(&format!("alias{place}")),
    };
    record.import_name(word)
}

/// Records of imports, and as many aliases as they leave place for, each of another of the names.
fn filled(imports: Vec<Record>, names: &[String]) -> Vec<Record> {
    let aliases = EXPORTS - imports.len();
    let alias = |k: usize| {
        let wanted = &names[names.len() - 1 - k % names.len()];
        Record::new("q")
            .ext_name(&format!("alias{k}"))
            .import_name(wanted)
    };
    imports.into_iter().chain((0..aliases).map(alias)).collect()
}

/// Lists of 4,096 records.
fn full() -> Vec<Case> {
    let all: Vec<String> = (0..EXPORTS).map(|k| one_hash(k, BLOCKS)).collect();
    let half = &all[..EXPORTS / 2];
    let plain = |names: &[String]| {
        names
            .iter()
            .map(|name| Record::new(name))
            .collect::<Vec<_>>()
    };
    let turned = |mut records: Vec<Record>| {
        records.reverse();
        records
    };
    let equal = |names: &[String]| {
        let prefixed = names.iter().map(|name| Record::new(&format!("_{name}")));
        let by_ordinal = names.iter().map(|name| Record::new(name).flags(NONAME));
        prefixed.chain(by_ordinal).collect::<Vec<_>>()
    };
    let one_key = |k: usize| match k % 3 {
        0 => Record::new("_a"),
        1 => Record::new("n").symbol_name(&format!("?a@{k}")),
        _ => Record::new("a").flags(NONAME).ordinal(k as u16),
    };
    let one_key: Vec<Record> = (0..EXPORTS / 2).map(one_key).collect();
    let crowd = filled(one_key, &["a".into(), "b".into()]);
    let halved = filled(plain(half), half);
    vec![
        Case::new(AMD64, &filled(plain(&all[1..]), &all[1..2])).native(&plain(&all)),
        Case::new(AMD64, &filled(plain(&all[1..]), &all[..1])),
        Case::new(AMD64, &halved).native(&turned(halved.clone())),
        Case::new(ARM64X, &plain(&all)).native(&turned(halved)),
        Case::new(I386, &filled(equal(&half[1024..]), half)),
        Case::new(I386, &crowd).native(&turned(crowd.clone())),
        spread(),
    ]
}

/// Keys that have their own slots, and aliases of which one in four wants no key.
fn spread() -> Case {
    let names: Vec<String> = (0..EXPORTS).map(|k| format!("spread_{k}")).collect();
    let imports = names.iter().take(3 * EXPORTS / 4);
    let wanted: Vec<String> = names.iter().step_by(4).cloned().collect();
    let records = filled(imports.map(|name| Record::new(name)).collect(), &wanted);
    Case::new(AMD64, &records).native(&records)
}

/// A list that is taken and one that is refused by each number from 1 to 14, with every count of slots in every room.
fn counts() -> Result<u64, Difference> {
    let mut answers = 0;
    let questions = (1..=14).map(refused).chain(MACHINES.map(taken));
    for question in questions {
        let wanted = question.wanted();
        let rooms = match &wanted {
            Ok(set) => [set.len() + 1, set.len(), set.len() - 1, 0],
            Err(_) => [AMPLE, 700, 1, 0],
        };
        for (slots, room) in COUNTS.into_iter().flat_map(|n| rooms.map(|room| (n, room))) {
            let draw = (slots + room) as u64;
            question.judge_write_in(&mut Table::drawn(slots, draw), room, &wanted)?;
            answers += 1;
        }
    }
    Ok(answers)
}

fn two(second: Record) -> Case {
    Case::new(ARM64EC, &[Record::new("f"), second])
}

/// A list with an alias, which every machine takes.
fn taken(machine: u32) -> Question {
    let records = [Record::new("f"), Record::new("g").import_name("f")];
    let question = Question::of(&Case::new(machine, &records).native(&records));
    assert!(question.wanted().is_ok());
    question
}

/// A list that is refused by a number from 1 to 14, in its second record where it is for one.
fn refused(number: u32) -> Question {
    let good = two(Record::new("g"));
    let changed = |at, value| Question {
        list: with_number(&good.bytes(), at, value),
        options: good.options,
    };
    let cut = || Question {
        list: good.bytes()[..27].to_vec(),
        options: good.options,
    };
    let second = 28 + 44;
    let record = |record| Question::of(&two(record));
    let question = match number {
        1 => Question::of(&Case::new(0, &[])),
        2 => cut(),
        3 => changed(0, 4097),
        4 => changed(8, 29),
        5 => changed(second, 99),
        6 => changed(second + 4, 0),
        7 => record(Record::new(&"g".repeat(4096))),
        8 => record(Record::new("g\0")),
        9 => record(Record::new("g").flags(16)),
        10 => Question::of(&two(Record::new("g")).dll("..")),
        11 => record(Record::new("g").symbol_name("h").ext_name("i")),
        12 => record(Record::new("_a").symbol_name("a").ext_name("_")),
        13 => record(Record::new("?g")),
        _ => record(Record::new("?g$$h")),
    };
    let refusal = question.wanted().map(|set| set.len());
    assert_eq!(refusal.map_err(|(number, _)| number), Err(number));
    question
}
