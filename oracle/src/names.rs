//! The table of names: generated names with what the Rust's name helpers make
//! of them, for replay without the Rust.

use std::collections::BTreeSet;

use original::{get_arm64ec_demangled_function_name, get_arm64ec_mangled_function_name};

use crate::ask::{AMD64, Answer, I386, Options, answer_list, public_name};
use crate::imports::type_alone;
use crate::list::{ExportList, Record};
use crate::rng::Rng;

/// A public name: symbol name, name and ext_name, or that renaming fails.
pub const REPLACE: u8 = 0;
/// The stem of a DLL name.
pub const STEM: u8 = 1;
/// A name demangled, or that it is not.
pub const DEMANGLE: u8 = 2;
/// A name mangled: prefixed, mangled already, or that it fails.
pub const MANGLE: u8 = 3;
/// The name type of a base and a name.
pub const TYPE: u8 = 4;
/// The name type by which a name on I386 gives a wanted one; exportas if none
/// does.
pub const WANTED: u8 = 5;

/// How many rows there are of each kind.
const COUNTS: [(u8, usize); 6] = [
    (REPLACE, 700),
    (STEM, 200),
    (DEMANGLE, 300),
    (MANGLE, 250),
    (TYPE, 400),
    (WANTED, 250),
];

const SEED: u64 = 1;
const PIECES: [&str; 11] = ["_", "?", "@", "#", "$", "h", "a", "b", ".", "$$h", "__imp_"];
const TAGS: [&str; 5] = ["", "$$", "$$h", "$$h", "$$h$$h"];
const LEADS: [&str; 5] = ["", "#", "?", "?", "?"];

const ON_I386: u8 = 1;
const MINGW: u8 = 2;

/// A question with the Rust's answer.
#[derive(Clone, Debug, PartialEq, Eq, PartialOrd, Ord)]
pub struct Row {
    pub op: u8,
    /// 1 for I386 instead of AMD64, 2 for mingw.
    pub options: u8,
    /// What the Rust says, as a number.
    pub verdict: u8,
    pub given: [String; 3],
    /// The name that the Rust makes, if it makes one.
    pub made: Vec<u8>,
}

impl Row {
    fn new(op: u8, given: [&str; 3]) -> Self {
        Self {
            op,
            options: 0,
            verdict: 0,
            given: given.map(String::from),
            made: Vec::new(),
        }
    }

    /// The verdict 1 with a name, or 0 without.
    fn made(mut self, made: Option<Vec<u8>>) -> Self {
        self.verdict = made.is_some().into();
        self.made = made.unwrap_or_default();
        self
    }

    fn verdict(mut self, verdict: u8) -> Self {
        self.verdict = verdict;
        self
    }

    fn bytes(&self) -> Vec<u8> {
        let mut bytes = vec![self.op, self.options, self.verdict];
        let given = self.given.iter().map(String::as_bytes);
        for string in given.chain([&self.made[..]]) {
            bytes.push(string.len().try_into().expect("names here are short"));
            bytes.extend(string);
        }
        bytes
    }
}

/// The bytes of the table.
pub fn file() -> Vec<u8> {
    rows().iter().flat_map(Row::bytes).collect()
}

/// The rows of the table, no two alike.
pub fn rows() -> Vec<Row> {
    let mut rng = Rng::new(SEED);
    let mut rows = Vec::new();
    for (op, count) in COUNTS {
        let mut seen = BTreeSet::new();
        while seen.len() < count {
            let row = row(op, &mut rng);
            if seen.insert(row.clone()) {
                rows.push(row);
            }
        }
    }
    rows
}

fn row(op: u8, rng: &mut Rng) -> Row {
    match op {
        REPLACE => replace_row(rng),
        STEM => stem_row(rng),
        DEMANGLE => demangle_row(rng),
        MANGLE => mangle_row(rng),
        TYPE => type_row(rng),
        _ => wanted_row(rng),
    }
}

fn replace_row(rng: &mut Rng) -> Row {
    let symbol_name = name(rng);
    let mut from = name(rng);
    if !rng.one_in(4) {
        from = part(rng, &symbol_name);
    }
    let mut to = name(rng);
    for name in [&mut from, &mut to] {
        if rng.one_in(2) {
            name.insert(0, '_');
        }
    }
    let record = Record::new(&from).symbol_name(&symbol_name).ext_name(&to);
    Row::new(REPLACE, [&symbol_name, &from, &to]).made(public_name(&record))
}

fn stem_row(rng: &mut Rng) -> Row {
    let mut dll = name(rng);
    if rng.one_in(2) {
        dll = format!("{dll}.{}", name(rng));
    }
    if dll == "." || dll == ".." {
        dll.push('a');
    }
    Row::new(STEM, [&dll, "", ""]).made(Some(stem(&dll)))
}

/// The stem as it stands in the import descriptor's symbol.
fn stem(dll: &str) -> Vec<u8> {
    const PREFIX: &[u8] = b"__IMPORT_DESCRIPTOR_";
    let list = ExportList {
        dll: dll.into(),
        ..ExportList::default()
    };
    let Answer::Members(members) = answer_list(&list, Options::of(AMD64)) else {
        panic!("the Rust refuses the DLL name {dll:?}");
    };
    let descriptor = &members.fixed[0].bytes;
    let at = descriptor
        .windows(PREFIX.len())
        .position(|part| part == PREFIX)
        .expect("the import descriptor names itself");
    let symbol = descriptor[at + PREFIX.len()..].split(|&byte| byte == 0);
    symbol.take(1).flatten().copied().collect()
}

/// Of `#` alone the port says otherwise than the Rust.
fn demangle_row(rng: &mut Rng) -> Row {
    let mut name = tagged(rng);
    if name == "#" {
        name.push('a');
    }
    let made = get_arm64ec_demangled_function_name(&name).map(String::into_bytes);
    Row::new(DEMANGLE, [&name, "", ""]).made(made)
}

fn mangle_row(rng: &mut Rng) -> Row {
    let name = tagged(rng);
    let row = Row::new(MANGLE, [&name, "", ""]);
    match get_arm64ec_mangled_function_name(&name) {
        Ok(Some(mangled)) => row.made(Some(mangled.into_bytes())).verdict(0),
        Ok(None) => row.verdict(1),
        Err(()) => row.verdict(2),
    }
}

fn type_row(rng: &mut Rng) -> Row {
    let base = name(rng);
    let name = match rng.below(4) {
        0 => name(rng),
        1 => format!("_{}@{}", part(rng, &base), part(rng, &base)),
        _ => base.clone(),
    };
    let options = rng.pick(&[0, ON_I386, MINGW, ON_I386 | MINGW]);
    let machine = if options & ON_I386 != 0 { I386 } else { AMD64 };
    let asked = Options {
        mingw: options & MINGW != 0,
        ..Options::of(machine)
    };
    let record = Record::new(&name).symbol_name(&base);
    let row = Row::new(TYPE, [&base, &name, ""]).verdict(type_number(record, asked));
    Row { options, ..row }
}

fn wanted_row(rng: &mut Rng) -> Row {
    let name = name(rng);
    let bare = &name[name.len().min(1)..];
    let kept = if rng.one_in(2) { &name } else { bare };
    let cut = kept.find('@').filter(|_| rng.one_in(2));
    let mut wanted = kept[..cut.unwrap_or(kept.len())].to_string();
    if wanted.is_empty() || rng.one_in(6) {
        wanted = part(rng, &name);
    }
    let record = Record::new(&name).import_name(&wanted);
    let verdict = type_number(record, Options::of(I386));
    Row::new(WANTED, [&name, &wanted, ""]).verdict(verdict)
}

fn type_number(record: Record, options: Options) -> u8 {
    let number = type_alone(record, options).expect("the Rust takes names of any kind");
    number.try_into().expect("a name type has three bits")
}

/// A short name, half of them of two pieces only.
fn name(rng: &mut Rng) -> String {
    let two = [rng.pick(&PIECES), rng.pick(&PIECES)];
    let pieces = if rng.one_in(2) { &two[..] } else { &PIECES };
    let count = 1 + rng.below(5);
    (0..count).map(|_| rng.pick(pieces)).collect()
}

/// A name that often looks like one of ARM64EC.
fn tagged(rng: &mut Rng) -> String {
    let lead = rng.pick(&LEADS);
    let before = name(rng);
    let tag = rng.pick(&TAGS);
    let after = if rng.one_in(3) {
        String::new()
    } else {
        name(rng)
    };
    match rng.below(4) {
        0 => before,
        1 => format!("{lead}{tag}{after}{before}"),
        _ => format!("{lead}{before}{tag}{after}"),
    }
}

/// A part of a name, not empty.
fn part(rng: &mut Rng, name: &str) -> String {
    let start = rng.below(name.len());
    let length = 1 + rng.below(name.len() - start);
    name[start..start + length].into()
}
