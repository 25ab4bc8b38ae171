//! Asking the Rust.

use std::cell::Cell;
use std::io::{self, ErrorKind};
use std::panic::{self, AssertUnwindSafe};
use std::sync::Once;

use original::{COFFShortExport, MachineTypes, import_library_members};

pub use original::Member;

use crate::list::{CONSTANT, DATA, ExportList, NONAME, PRIVATE, Record, decode_list};

/// The fixed members come first in every answer.
pub const FIXED_MEMBERS: usize = 3;

pub const I386: u32 = 0x014c;
pub const ARMNT: u32 = 0x01c4;
pub const AMD64: u32 = 0x8664;
pub const ARM64: u32 = 0xaa64;
pub const ARM64EC: u32 = 0xa641;
pub const ARM64X: u32 = 0xa64e;
pub const MACHINES: [u32; 6] = [I386, ARMNT, AMD64, ARM64, ARM64EC, ARM64X];

/// What is given beside a list.
#[derive(Clone, Copy, Debug, PartialEq, Eq)]
pub struct Options {
    pub machine: u32,
    pub mingw: bool,
    pub compat: bool,
}

impl Options {
    pub fn of(machine: u32) -> Self {
        Self {
            machine,
            mingw: false,
            compat: false,
        }
    }

    /// Whether the first list is one of ARM64EC imports.
    pub fn is_hybrid(&self) -> bool {
        self.machine == ARM64EC || self.machine == ARM64X
    }

    /// The options under which a native list would be a first list.
    pub fn for_native(self) -> Self {
        let machine = if self.is_hybrid() {
            ARM64
        } else {
            self.machine
        };
        Self { machine, ..self }
    }
}

/// The members of an accepted list.
#[derive(Clone, Debug)]
pub struct Members {
    pub fixed: Vec<Member>,
    pub first: Vec<Member>,
    pub native: Vec<Member>,
}

impl Members {
    /// The members in their order in a set.
    pub fn all(&self) -> impl Iterator<Item = &Member> {
        self.fixed.iter().chain(&self.first).chain(&self.native)
    }
}

/// What the Rust says to a list.
#[derive(Clone, Debug)]
pub enum Answer {
    Members(Members),
    /// An error, with the number (10, 11, 13 or 14) and the place that the
    /// port gives for it.
    Error {
        text: String,
        number: u32,
        place: u32,
    },
    Panic,
    /// The Rust takes only names that are UTF-8.
    NotUtf8,
    /// The bytes are no export list.
    Malformed,
    /// The machine is none of the six.
    UnknownMachine,
}

/// Asks the Rust about a list's bytes.
pub fn answer(list: &[u8], machine: u32, mingw: bool, compat: bool) -> Answer {
    let options = Options {
        machine,
        mingw,
        compat,
    };
    match decode_list(list) {
        Some(list) => answer_list(&list, options),
        None => Answer::Malformed,
    }
}

/// Asks the Rust about a decoded list.
pub fn answer_list(list: &ExportList, options: Options) -> Answer {
    let Some(machine) = machine_type(options.machine) else {
        return Answer::UnknownMachine;
    };
    let Some(question) = Question::new(list, machine, options) else {
        return Answer::NotUtf8;
    };
    match question.ask(question.len()) {
        None => Answer::Panic,
        Some(Ok(members)) => Answer::Members(question.split(members)),
        Some(Err(error)) => question.error(&error),
    }
}

/// The symbols of a short import, none for other members. Nothing where the
/// Rust panics, which it does for an empty ARM64EC symbol.
pub fn symbols(member: &Member) -> Option<Vec<Vec<u8>>> {
    let mut symbols = Vec::new();
    let mut keep = |symbol: &[u8]| {
        symbols.push(symbol.to_vec());
        Ok(())
    };
    let read = quietly(|| (member.get_symbols)(&member.bytes, &mut keep))?;
    read.expect("the Rust reads the members it makes");
    Some(symbols)
}

/// The public name of an export, or nothing if its renaming fails.
pub fn public_name(record: &Record) -> Option<Vec<u8>> {
    public_names([record]).pop()?
}

/// The public names of exports.
///
/// The Rust hands public names out as they are in data imports without a name.
pub fn public_names<'a>(records: impl IntoIterator<Item = &'a Record>) -> Vec<Option<Vec<u8>>> {
    let bare = |record: &Record| Record {
        import_name: None,
        export_as: None,
        flags: NONAME | DATA,
        ..record.clone()
    };
    let symbol = |member: &Member| short_symbol(&member.bytes).to_vec();
    let options = Options::of(AMD64);
    let list = ExportList {
        dll: b"a".to_vec(),
        first: records.into_iter().map(bare).collect(),
        native: Vec::new(),
    };
    if let Answer::Members(members) = answer_list(&list, options) {
        return members.first.iter().map(symbol).map(Some).collect();
    }
    let alone = |record| import_alone(record, options).as_ref().map(symbol);
    list.first.into_iter().map(alone).collect()
}

/// The short import of an export that is alone in the first list, or nothing
/// if the Rust refuses it.
pub fn import_alone(record: Record, options: Options) -> Option<Member> {
    let list = ExportList {
        dll: b"a".to_vec(),
        first: vec![record],
        native: Vec::new(),
    };
    match answer_list(&list, options) {
        Answer::Members(mut members) => members.first.pop(),
        _ => None,
    }
}

/// The place of the first record with an empty public name, private ones left
/// out. The port refuses it by number 12; the Rust has no such refusal.
pub fn empty_public_name(list: &ExportList) -> Option<u32> {
    first_named(list.records().collect(), |_, name| name.is_empty())
}

/// The place of the first free ARM64EC code import whose public name is `#`
/// alone, private ones left out. The port refuses it by number 14; the Rust
/// exports it by an empty string.
pub fn hash_alone(list: &ExportList, options: Options) -> Option<u32> {
    if !options.is_hybrid() {
        return None;
    }
    let is_meant = |record: &Record, name: &[u8]| is_free(record) && name == b"#";
    first_named(list.first.iter().collect(), is_meant)
}

/// Whether an ARM64EC import of an export would be code with neither noname nor
/// an export string.
pub fn is_free(record: &Record) -> bool {
    !record.has(NONAME | DATA | CONSTANT)
        && record.import_name.is_none()
        && record.export_as.is_none()
}

/// The place of the first record that is not private and has such a public name.
fn first_named(records: Vec<&Record>, is_meant: impl Fn(&Record, &[u8]) -> bool) -> Option<u32> {
    let names = public_names(records.iter().copied());
    let is_meant = |(record, name): (&Record, Option<Vec<u8>>)| {
        !record.has(PRIVATE) && name.is_some_and(|name| is_meant(record, &name))
    };
    let place = records.into_iter().zip(names).position(is_meant)?;
    Some(place as u32)
}

const SHORT_HEADER_SIZE: usize = 20;

/// The symbol of a short import.
pub fn short_symbol(member: &[u8]) -> &[u8] {
    let strings = &member[SHORT_HEADER_SIZE..];
    let end = strings.iter().position(|&byte| byte == 0);
    &strings[..end.unwrap_or(strings.len())]
}

fn machine_type(number: u32) -> Option<MachineTypes> {
    u16::try_from(number).ok()?.try_into().ok()
}

/// A list in the Rust's own terms.
struct Question<'a> {
    dll: &'a str,
    first: Vec<COFFShortExport>,
    native: Vec<COFFShortExport>,
    machine: MachineTypes,
    options: Options,
}

impl<'a> Question<'a> {
    fn new(list: &'a ExportList, machine: MachineTypes, options: Options) -> Option<Self> {
        let exports = |records: &[Record]| records.iter().map(export).collect::<Option<_>>();
        Some(Self {
            dll: str::from_utf8(&list.dll).ok()?,
            first: exports(&list.first)?,
            native: exports(&list.native)?,
            machine,
            options,
        })
    }

    fn len(&self) -> usize {
        self.first.len() + self.native.len()
    }

    /// Asks about the leading records only. Nothing if the Rust panics.
    fn ask(&self, records: usize) -> Option<io::Result<Vec<Member>>> {
        let first = records.min(self.first.len());
        let native = records - first;
        quietly(|| {
            import_library_members(
                self.dll,
                &self.first[..first],
                self.machine,
                self.options.mingw,
                self.options.compat,
                &self.native[..native],
            )
        })
    }

    /// The Rust hands out both lists' members in one row, so it is asked how
    /// many there are without the native list.
    fn split(&self, mut members: Vec<Member>) -> Members {
        let native_at = if self.native.is_empty() {
            members.len()
        } else {
            match self.ask(self.first.len()) {
                Some(Ok(without)) => without.len(),
                _ => unreachable!("the Rust took these records with more behind them"),
            }
        };
        let native = members.split_off(native_at);
        let first = members.split_off(FIXED_MEMBERS);
        Members {
            fixed: members,
            first,
            native,
        }
    }

    fn error(&self, error: &io::Error) -> Answer {
        let text = error.to_string();
        Answer::Error {
            number: number(error, &text),
            place: self.place(),
            text,
        }
    }

    /// The Rust stops at the first record it refuses, so this is the number of
    /// leading records that it takes. Without records, it refused the DLL name.
    fn place(&self) -> u32 {
        let taken = |records: usize| !matches!(self.ask(records), Some(Err(_)));
        if !taken(0) {
            return 0;
        }
        let (mut good, mut bad) = (0, self.len());
        while bad - good > 1 {
            let middle = good.midpoint(bad);
            if taken(middle) {
                good = middle;
            } else {
                bad = middle;
            }
        }
        good as u32
    }
}

/// The texts hold names, which may say anything, so their ends tell them apart.
fn number(error: &io::Error, text: &str) -> u32 {
    if error.kind() == ErrorKind::InvalidInput {
        10
    } else if text.ends_with("' failed") {
        11
    } else if text.ends_with("set the `export_name`.") {
        13
    } else {
        assert!(
            text.starts_with("Invalid ARM64EC function name"),
            "unknown error: {text}"
        );
        14
    }
}

fn export(record: &Record) -> Option<COFFShortExport> {
    let string = |bytes: &Option<Vec<u8>>| match bytes {
        Some(bytes) => String::from_utf8(bytes.clone()).map(Some),
        None => Ok(None),
    };
    Some(COFFShortExport {
        name: string(&record.name).ok()??,
        ext_name: string(&record.ext_name).ok()?,
        symbol_name: string(&record.symbol_name).ok()?,
        import_name: string(&record.import_name).ok()?,
        export_as: string(&record.export_as).ok()?,
        ordinal: record.ordinal,
        noname: record.has(NONAME),
        data: record.has(DATA),
        private: record.has(PRIVATE),
        constant: record.has(CONSTANT),
    })
}

thread_local! {
    static QUIET: Cell<bool> = const { Cell::new(false) };
}

/// Runs a function whose panics are expected: they print nothing and give
/// nothing. Panics elsewhere are told as before.
fn quietly<T>(run: impl FnOnce() -> T) -> Option<T> {
    static HOOK: Once = Once::new();
    HOOK.call_once(|| {
        let tell = panic::take_hook();
        panic::set_hook(Box::new(move |info| {
            if !QUIET.get() {
                tell(info);
            }
        }));
    });
    QUIET.set(true);
    let result = panic::catch_unwind(AssertUnwindSafe(run));
    QUIET.set(false);
    result.ok()
}
