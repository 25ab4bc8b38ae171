//! Where the library does otherwise than the Rust on purpose: the smallest inputs, with both answers. And where it does as the
//! Rust and otherwise than the PE Format document.

use std::fmt::Debug;

use oracle::ask::{AMD64, ARM64EC, FIXED_MEMBERS, I386, answer_list, import_alone, symbols};
use oracle::imports::ShortImport;
use oracle::list::{CONSTANT, DATA, NONAME};
use oracle::set::lay_out;
use oracle::{Answer, Case, Member, Options, Record};

use crate::asked::Where;
use crate::content::FIELDS;
use crate::judge::{Difference, Question, same};
use crate::layouts::members;
use crate::lookups::meaning;
use crate::order::Refusal;
use crate::pe::{IMAGE_SYM_CLASS_WEAK_EXTERNAL, IMPORT_NAME_EXPORTAS, Object};
use crate::tables::{SLOTS, Table};
use crate::{library, looks};

/// Where the record of a weak external's alias stands: behind the header, a section and three symbols.
const ALIAS_AT: usize = 114;
/// The symbols of an import of `#`, of which data has the first alone.
const THEIRS: [&[u8]; 4] = [b"__imp_", b"", b"__imp_aux_", b"#"];
const OURS: [&[u8]; 4] = [b"__imp_#", b"#", b"__imp_aux_#", b"#"];

/// What the Rust says, as far as a row asks.
#[derive(Clone, Copy, Debug, PartialEq)]
enum Rust {
    Members,
    Error,
    Panic,
    CannotBeGiven,
}

impl Rust {
    fn of(case: &Case) -> Self {
        match answer_list(&case.list, case.options) {
            Answer::Members(_) => Rust::Members,
            Answer::Error { .. } => Rust::Error,
            Answer::Panic => Rust::Panic,
            _ => Rust::CannotBeGiven,
        }
    }
}

struct Row {
    what: &'static str,
    case: Case,
    rust: Rust,
    refusal: Refusal,
}

fn row(what: &'static str, case: Case, rust: Rust, number: u32) -> Row {
    Row {
        what,
        case,
        rust,
        refusal: (number, 0),
    }
}

fn named(name: Vec<u8>) -> Record {
    Record {
        name: Some(name),
        ..Record::default()
    }
}

fn rows() -> Vec<Row> {
    let emptied = [Record::new("_a").symbol_name("a").ext_name("_")];
    let dll = |name: &str| Case::new(AMD64, &[]).dll(name);
    let name = |name: Vec<u8>| Case::new(AMD64, &[named(name)]);
    let many = vec![Record::new("a"); 4097];
    vec![
        row(
            "public name empty",
            Case::new(AMD64, &emptied),
            Rust::Members,
            12,
        ),
        row(
            "public name empty, ARM64EC",
            Case::new(ARM64EC, &emptied),
            Rust::Panic,
            12,
        ),
        row(
            "ARM64EC code #",
            Case::new(ARM64EC, &[Record::new("#")]),
            Rust::Members,
            14,
        ),
        row("DLL name x/a.dll", dll("x/a.dll"), Rust::Members, 10),
        row("DLL name x\\a.dll", dll("x\\a.dll"), Rust::Members, 10),
        row("DLL name x:a.dll", dll("x:a.dll"), Rust::Members, 10),
        row("DLL name .", dll("."), Rust::Error, 10),
        row("DLL name ..", dll(".."), Rust::Error, 10),
        row("DLL name with NUL", dll("\0"), Rust::Members, 8),
        row("empty DLL name", dll(""), Rust::Error, 6),
        row("name of one byte 0", name(vec![0]), Rust::Members, 8),
        row(
            "name of 4,096 bytes",
            name(vec![b'a'; 4096]),
            Rust::Members,
            7,
        ),
        row(
            "DLL name of 256 bytes",
            dll(&"a".repeat(256)),
            Rust::Members,
            7,
        ),
        row("4,097 exports", Case::new(AMD64, &many), Rust::Members, 3),
        row("empty name", name(Vec::new()).dll("a"), Rust::Members, 6),
    ]
}

pub fn differences() -> Result<String, Difference> {
    let rows = rows();
    println!("{:<34} {:<14} here", "what", "the Rust");
    for row in &rows {
        let Row {
            what,
            case,
            rust,
            refusal,
        } = row;
        told(what, *rust, &format!("refusal {}", refusal.0));
        hold(what, *rust, case)?;
        Question::of(case).judge(&Err(*refusal))?;
    }
    let others: [fn() -> Result<(), Difference>; 8] = [
        hash_read,
        hash_by_ordinal,
        hash_constant,
        hash_data,
        not_utf8,
        symbol_not_utf8,
        weak_external,
        exportas,
    ];
    for other in others {
        other()?;
    }
    Ok(format!("differences: {} kept", rows.len() + others.len()))
}

fn told(what: &str, rust: impl Debug, here: &str) {
    println!("{what:<34} {:<14} {here}", format!("{rust:?}"));
}

fn hold(what: &str, wanted: Rust, case: &Case) -> Result<(), Difference> {
    same(what, wanted, Rust::of(case)).map_err(Difference)
}

/// The member that the Rust writes of `#` alone: its export string is empty.
fn hash_read() -> Result<(), Difference> {
    let what = "the Rust's member of #, read";
    let member = the_import(Record::new("#"));
    told(what, Rust::Members, "refusal 16");
    let read = library::read(&member.bytes, &mut [0; FIELDS]);
    same(what, Err((16, 0)), read).map_err(Difference)
}

fn hash_by_ordinal() -> Result<(), Difference> {
    let what = "symbols of ARM64EC # by ordinal";
    hash_symbols(what, NONAME, OURS.len(), &Where::Ordinal(7))
}

fn hash_constant() -> Result<(), Difference> {
    let what = "symbols of ARM64EC constant #";
    hash_symbols(what, CONSTANT, OURS.len(), &Where::Name(b"#".into()))
}

fn hash_data() -> Result<(), Difference> {
    let what = "symbol of ARM64EC data #";
    hash_symbols(what, DATA, 1, &Where::Name(b"#".into()))
}

/// The symbols of `#` alone where both write it, so many of them: of the empty name there, of the name itself here, where they
/// lead to one entry.
fn hash_symbols(what: &str, flags: u16, count: usize, entry: &Where) -> Result<(), Difference> {
    let record = Record::new("#").flags(flags).ordinal(7);
    told(what, "__imp_", "\"__imp_#\"");
    let listed = THEIRS[..count].iter().map(|symbol| symbol.to_vec());
    let listed = Some(listed.collect());
    same(what, listed, symbols(&the_import(record.clone()))).map_err(Difference)?;
    let set = written(&Case::new(ARM64EC, &[record]))?;
    let question = looks::Question::of(&set);
    let missing = Where::NotFound;
    for symbol in THEIRS.iter().chain(&OURS) {
        let wanted = if OURS[..count].contains(symbol) {
            entry
        } else {
            &missing
        };
        let looked = question.judge(1, symbol)?.expect("a written set");
        same(what, wanted, &meaning(&set, looked)).map_err(Difference)?;
    }
    Ok(())
}

/// The set is that of another name with the byte in its place.
fn not_utf8() -> Result<(), Difference> {
    let what = "name of one byte FF";
    let case = |byte| Case::new(AMD64, &[named(vec![byte])]);
    let written = case(b'#').answer();
    let Answer::Members(members) = written else {
        return Err(Difference(format!("{what}: the Rust says {written:?}")));
    };
    let mut set = lay_out(&members);
    for byte in set.iter_mut().filter(|byte| **byte == b'#') {
        *byte = 0xFF;
    }
    told(what, Rust::CannotBeGiven, "members");
    hold(what, Rust::CannotBeGiven, &case(0xFF))?;
    Question::of(&case(0xFF)).judge(&Ok(set))
}

/// The member that the library writes; the Rust's reader of its symbols panics.
fn symbol_not_utf8() -> Result<(), Difference> {
    let what = "ARM64EC symbol of one byte FF";
    let case = Case::new(ARM64EC, &[named(vec![0xFF]).flags(DATA)]);
    let member = Member {
        bytes: last_member(&case)?,
        ..the_import(Record::new("a"))
    };
    told(what, Rust::Panic, "written");
    same(what, None, symbols(&member)).map_err(Difference)?;
    let symbol = ShortImport::of(&member).map(|import| import.symbol);
    same(what, Some(&[0xFF][..]), symbol).map_err(Difference)
}

/// The storage class of a weak external, the characteristics of its header, and where a short name of it stands.
fn weak_external() -> Result<(), Difference> {
    let what = "weak external b of a, I386";
    let records = [Record::new("a"), Record::new("b").import_name("a")];
    let imports = as_the_rust(what, &Case::new(I386, &records))?;
    let weak = &imports[1].bytes;
    let object = Object::read(weak).map_err(Difference)?;
    let class = object.symbols.last().map(|alias| alias.storage_class);
    same(what, Some(IMAGE_SYM_CLASS_WEAK_EXTERNAL), class).map_err(Difference)?;
    same(what, 0, object.characteristics).map_err(Difference)?;
    let in_string_table: &[u8] = &[0, 0, 0, 0, 6, 0, 0, 0];
    same(what, in_string_table, &weak[ALIAS_AT..ALIAS_AT + 8]).map_err(Difference)
}

/// A name type that the document's older editions do not have.
fn exportas() -> Result<(), Difference> {
    let what = "a exported as b";
    let case = Case::new(AMD64, &[Record::new("a").export_as("b")]);
    let imports = as_the_rust(what, &case)?;
    let name_type = ShortImport::of(&imports[0]).map(|import| import.name_type);
    same(what, Some(IMPORT_NAME_EXPORTAS), name_type).map_err(Difference)
}

/// The Rust's members of a first list, which the library writes too.
fn as_the_rust(what: &str, case: &Case) -> Result<Vec<Member>, Difference> {
    let answer = case.answer();
    let Answer::Members(members) = answer else {
        return Err(Difference(format!("{what}: the Rust says {answer:?}")));
    };
    told(what, Rust::Members, "the same");
    Question::of(case).judge(&Ok(lay_out(&members)))?;
    Ok(members.first)
}

/// The set of a list, as the library writes it.
fn written(case: &Case) -> Result<Vec<u8>, Difference> {
    let mut set = vec![0; 1 << 12];
    let Question { list, options } = Question::of(case);
    let mut table = Table::drawn(SLOTS, 0);
    let total = library::write(&list, options, table.lend(), &mut set)
        .map_err(|refusal| Difference(format!("{case:?} is refused {refusal:?}")))?;
    set.truncate(total);
    Ok(set)
}

/// The only member of a list's own.
fn last_member(case: &Case) -> Result<Vec<u8>, Difference> {
    let set = written(case)?;
    let members = members(&set, [1, 0]).map_err(Difference)?;
    Ok(members[FIXED_MEMBERS].to_vec())
}

/// The short import that the Rust writes of an ARM64EC export.
fn the_import(record: Record) -> Member {
    import_alone(record, Options::of(ARM64EC)).expect("the Rust takes this name")
}
