//! Every limit of the scope paper, and one step beyond it.

use oracle::ask::{AMD64, ARM64EC, I386, MACHINES};
use oracle::list::{DATA, HEADER_SIZE};
use oracle::{Case, Options, Packing, Record};

use crate::judge::{Difference, Question, Wanted, wanted};
use crate::member_limits;

const STRING: usize = 4095;
const DLL: usize = 255;
const EXPORTS: usize = 4096;
/// Total of the first build example: `att.dll` without exports on AMD64.
const EXAMPLE: usize = 684;

/// A question with the answer that the paper gives.
struct Row {
    question: Question,
    wanted: Wanted,
}

impl Row {
    /// A case that is taken; its members are the Rust's.
    fn taken(case: &Case) -> Self {
        let wanted = wanted(case, &case.answer());
        assert!(wanted.is_ok(), "a list within the limits: {wanted:?}");
        Self {
            question: Question::of(case),
            wanted,
        }
    }

    fn refused(case: &Case, number: u32, place: usize) -> Self {
        Self {
            question: Question::of(case),
            wanted: Err((number, place as u32)),
        }
    }

    /// Bytes given with AMD64.
    fn bytes(list: Vec<u8>, number: u32, place: usize) -> Self {
        Self {
            question: Question {
                list,
                options: Options::of(AMD64),
            },
            wanted: Err((number, place as u32)),
        }
    }
}

/// Asks each row in ample, exact and too small rooms.
pub fn limits() -> Result<String, Difference> {
    let rows: Vec<Row> = [
        strings(),
        built_names(),
        dll_names(),
        exports(),
        short_lists(),
        ranges(),
        numbers(),
    ]
    .into_iter()
    .flatten()
    .collect();
    for row in &rows {
        row.question.judge(&row.wanted)?;
    }
    rooms()?;
    largest()?;
    let members = member_limits::limits()?;
    Ok(format!(
        "limits: {} lists and {members} members answered as the paper says",
        rows.len() + 2
    ))
}

/// A record whose string in this field has this length.
fn record_with(field: usize, length: usize) -> Record {
    let long = "a".repeat(length);
    match field {
        0 => Record::new(&long),
        1 => Record::new("a").ext_name(&long),
        2 => Record::new("a").symbol_name(&long),
        3 => Record::new("a").import_name(&long),
        _ => Record::new("a").export_as(&long),
    }
}

/// Each field of a first and of a native record.
fn strings() -> Vec<Row> {
    let mut rows = Vec::new();
    let good = [Record::new("b"), Record::new("c")];
    for field in 0..5 {
        let [longest, beyond] = [STRING, STRING + 1].map(|n| [record_with(field, n)]);
        for machine in MACHINES {
            rows.push(Row::taken(&Case::new(machine, &longest)));
            rows.push(Row::taken(&Case::new(machine, &good).native(&longest)));
        }
        rows.push(Row::refused(&Case::new(AMD64, &beyond), 7, 0));
        let native = Case::new(AMD64, &good).native(&beyond);
        rows.push(Row::refused(&native, 7, good.len()));
    }
    rows
}

/// The longest public names, 8,189 bytes, and what becomes of them.
fn built_names() -> Vec<Row> {
    let longest = "a".repeat(STRING);
    let built = Record::new("a").symbol_name(&longest).ext_name(&longest);
    let alias = built.clone().import_name("b");
    let bare = built.clone().flags(DATA);
    let cases = [
        Case::new(I386, &[built.clone(), bare.clone()]),
        Case::new(AMD64, &[alias, Record::new("b"), bare]),
        Case::new(ARM64EC, std::slice::from_ref(&built)).native(&[built]),
    ];
    cases.iter().map(Row::taken).collect()
}

fn dll_names() -> Vec<Row> {
    let case = |length: usize| {
        let dll = format!("{}.dll", "d".repeat(length - 4));
        Case::new(AMD64, &[Record::new("a")]).dll(&dll)
    };
    vec![
        Row::taken(&case(DLL)),
        Row::taken(&case(DLL).compat()),
        Row::refused(&case(DLL + 1), 7, 0),
    ]
}

fn exports() -> Vec<Row> {
    let some = |count: usize| -> Vec<Record> {
        (0..count)
            .map(|k| Record::new(&format!("f{k}")).ordinal(k as u16))
            .collect()
    };
    let (full, beyond) = (some(EXPORTS), some(EXPORTS + 1));
    let mut rows = vec![
        Row::taken(&Case::new(AMD64, &full)),
        Row::taken(&Case::new(ARM64EC, &full).native(&full)),
        Row::refused(&Case::new(AMD64, &beyond), 3, 0),
        Row::refused(&Case::new(AMD64, &[]).native(&beyond), 3, 0),
    ];
    for (first, native) in [(EXPORTS + 1, 0), (0, EXPORTS + 1), (0, u32::MAX as usize)] {
        rows.push(Row::bytes(header([first, native, 0, 0, 0, 0, 0]), 3, 0));
    }
    rows
}

fn header(numbers: [usize; 7]) -> Vec<u8> {
    let numbers = numbers.map(|number| (number as u32).to_le_bytes());
    numbers.concat()
}

/// Lists with less than a header, and headers alone.
fn short_lists() -> Vec<Row> {
    let mut rows: Vec<Row> = (0..HEADER_SIZE)
        .map(|length| Row::bytes(vec![0; length], 2, 0))
        .collect();
    let alone = |names: usize, length: usize| header([0, 0, HEADER_SIZE, names, length, 0, 0]);
    rows.push(Row::bytes(vec![0; HEADER_SIZE], 4, 0));
    rows.push(Row::bytes(alone(HEADER_SIZE + 1, 0), 4, 0));
    rows.push(Row::bytes(alone(HEADER_SIZE, 1), 4, 0));
    rows.push(Row::bytes(alone(HEADER_SIZE, 0), 6, 0));
    rows
}

/// The DLL name `a` at an offset and length of names of two bytes.
fn ranges() -> Vec<Row> {
    let list = |offset: usize, length: usize| {
        let mut list = header([0, 0, HEADER_SIZE, HEADER_SIZE, 2, offset, length]);
        list.extend(b"aa");
        list
    };
    let most = u32::MAX as usize;
    let refused = [
        (0, 0, 6),
        (1, 0, 6),
        (2, 0, 6),
        (3, 0, 5),
        (1, 2, 5),
        (2, 1, 5),
        (most, 2, 5),
        (most, most, 5),
    ];
    let row = |(offset, length, number)| Row::bytes(list(offset, length), number, 0);
    let mut rows: Vec<Row> = refused.map(row).into();
    let shared = Case::new(AMD64, &[Record::new("a"), Record::new("aa")]);
    rows.push(Row::taken(&shared.dll("aa").packing(Packing::Shared)));
    rows
}

/// Ordinals, flags and machines.
fn numbers() -> Vec<Row> {
    let flagged = |flags: u16| Case::new(AMD64, &[Record::new("a").ordinal(65535).flags(flags)]);
    let mut rows = vec![
        Row::taken(&flagged(15)),
        Row::taken(&flagged(11)),
        Row::refused(&flagged(16), 9, 0),
        Row::refused(&flagged(32768), 9, 0),
    ];
    for machine in MACHINES {
        rows.push(Row::taken(&Case::new(machine, &[])));
        for unknown in [machine - 1, machine + 1, machine + 0x10000] {
            rows.push(Row::refused(&Case::new(unknown, &[]), 1, 0));
        }
    }
    rows
}

/// The first build example in every room up to more than it needs.
fn rooms() -> Result<(), Difference> {
    let row = Row::taken(&Case::new(AMD64, &[]).dll("att.dll"));
    assert_eq!(row.wanted.as_ref().map(Vec::len), Ok(EXAMPLE));
    (0..EXAMPLE + 16).try_for_each(|room| row.question.judge_write(room, &row.wanted))
}

/// The largest set of a first list: one import with the longest name, and all else aliases of it with names as long.
fn largest() -> Result<(), Difference> {
    let longest = "a".repeat(STRING);
    let built = Record::new("a").symbol_name(&longest);
    let target = built.clone().ext_name(&format!("b@{}", &longest[2..]));
    let alias = built.ext_name(&longest).import_name("b");
    let mut records = vec![alias; EXPORTS - 1];
    records.push(target);
    let row = Row::taken(&Case::new(AMD64, &records).packing(Packing::Shared));
    let room = row.wanted.as_ref().map_or(0, Vec::len);
    row.question.judge_write(room, &row.wanted)?;
    row.question.judge_write(room - 1, &row.wanted)
}
