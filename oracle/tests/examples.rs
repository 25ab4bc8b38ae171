//! The build examples of the scope paper, asked of the Rust.

use oracle::ask::{AMD64, ARM64EC, I386, empty_public_name, symbols};
use oracle::facts::refusal;
use oracle::imports::ShortImport;
use oracle::list::NONAME;
use oracle::set::lay_out;
use oracle::{Answer, Case, Member, Members, Record};

const WEAK_ALIAS_OFFSET_AT: usize = 60 + 3 * 18 + 4;
const WEAK_STRINGS_AT: usize = 60 + 5 * 18 + 4;

fn case(machine: u32, first: &[Record]) -> Case {
    Case::new(machine, first).dll("att.dll")
}

fn members(case: &Case) -> Members {
    match case.answer() {
        Answer::Members(members) => members,
        other => panic!("{case:?} gives {other:?}"),
    }
}

fn error(case: &Case) -> (u32, u32) {
    match case.answer() {
        Answer::Error { number, place, .. } => (number, place),
        other => panic!("{case:?} gives {other:?}"),
    }
}

/// Symbol and name type of the only member of a list.
fn import(machine: u32, record: Record) -> (String, u16) {
    let members = members(&case(machine, &[record]));
    assert_eq!(members.first.len(), 1);
    let import = ShortImport::of(&members.first[0]).expect("a short import");
    let symbol = String::from_utf8(import.symbol.to_vec()).expect("the Rust writes UTF-8");
    (symbol, import.name_type)
}

/// The strings of a member from `start` on.
fn strings(member: &Member, start: usize) -> Vec<&str> {
    let text = str::from_utf8(&member.bytes[start..]).expect("the Rust writes UTF-8");
    text.split_terminator('\0').collect()
}

fn numbers(bytes: &[u8]) -> Vec<u32> {
    let chunks = bytes.chunks_exact(4);
    chunks
        .map(|chunk| u32::from_le_bytes([chunk[0], chunk[1], chunk[2], chunk[3]]))
        .collect()
}

#[test]
fn p1_to_p3_no_exports() {
    let header_of = |case: Case| {
        let set = lay_out(&members(&case));
        (numbers(&set[..40]), set.len())
    };
    assert_eq!(
        header_of(case(AMD64, &[])),
        (vec![3, 0, 0, 40, 40, 358, 398, 127, 525, 159], 684)
    );
    assert_eq!(
        header_of(case(I386, &[])),
        (vec![3, 0, 0, 40, 40, 358, 398, 127, 525, 151], 676)
    );
    assert_eq!(
        header_of(case(AMD64, &[]).compat()),
        (vec![3, 0, 0, 40, 40, 362, 402, 131, 533, 159], 692)
    );
}

#[test]
fn p4_short_import() {
    let members = members(&case(AMD64, &[Record::new("att_step").ordinal(5)]));
    let mut expected = vec![0, 0, 0xff, 0xff, 0, 0, 0x64, 0x86, 0, 0, 0, 0];
    expected.extend([0x11, 0, 0, 0, 5, 0, 4, 0]);
    expected.extend(b"att_step\0att.dll\0");
    assert_eq!(members.first[0].bytes, expected);
}

#[test]
fn p5_weak_externals() {
    let go = Record::new("att_go").import_name("att_step");
    let members = members(&case(I386, &[Record::new("_att_step"), go]));
    let [_, plain, prefixed] = &members.first[..] else {
        panic!("an import and two weak externals are expected");
    };
    let alias_offset = |member: &Member| numbers(&member.bytes[WEAK_ALIAS_OFFSET_AT..][..4])[0];
    assert_eq!((plain.bytes.len(), alias_offset(plain)), (171, 14));
    assert_eq!(strings(plain, WEAK_STRINGS_AT), ["_att_step", "att_go"]);
    assert_eq!((prefixed.bytes.len(), alias_offset(prefixed)), (183, 20));
    assert_eq!(
        strings(prefixed, WEAK_STRINGS_AT),
        ["__imp__att_step", "__imp_att_go"]
    );
}

#[test]
fn p6_renaming() {
    let rename = |base, name, ext_name| {
        let record = Record::new(name).symbol_name(base).ext_name(ext_name);
        import(AMD64, record).0
    };
    assert_eq!(rename("f@8", "_f", "_g"), "g@8");
    assert_eq!(rename("ff", "f", "g"), "gf");
}

/// The port refuses an empty public name by 12; the Rust does not.
#[test]
fn p7_empty_public_name() {
    let record = Record::new("_a").symbol_name("a").ext_name("_");
    let written = case(AMD64, std::slice::from_ref(&record));
    assert_eq!(empty_public_name(&written.list), Some(0));
    assert_eq!(import(AMD64, record.clone()).0, "");
    assert_eq!(refusal(&written, &written.answer()), Some((12, 0)));

    let panics = case(ARM64EC, &[record]);
    assert!(matches!(panics.answer(), Answer::Panic));
    assert_eq!(refusal(&panics, &panics.answer()), Some((12, 0)));
}

#[test]
fn p8_name_types() {
    let wanting = |name, wanted| import(I386, Record::new(name).import_name(wanted)).1;
    assert_eq!(wanting("@_f@", "_f@"), 2);
    assert_eq!(wanting("?f@1@", "f"), 3);
}

#[test]
fn p9_and_p10_arm64ec() {
    let list = |name| case(ARM64EC, &[Record::new(name)]);
    let tail = |name| {
        let members = members(&list(name));
        let member = members.first[0].clone();
        String::from_utf8(member.bytes[20..].to_vec()).expect("the Rust writes UTF-8")
    };
    assert_eq!(import(ARM64EC, Record::new("f")).1, 4);
    assert_eq!(tail("f"), "#f\0att.dll\0f\0");
    assert_eq!(error(&list("?f")), (13, 0));
    assert_eq!(error(&list("?f$$h")), (14, 0));
    assert_eq!(tail("#"), "#\0att.dll\0\0");
    let alone = list("#");
    assert_eq!(refusal(&alone, &alone.answer()), Some((14, 0)));
}

#[test]
fn p11_the_last_equal_key() {
    let noname = Record::new("att_step").flags(NONAME).ordinal(3);
    let step = Record::new("_att_step");
    let go = Record::new("att_go").import_name("att_step");
    let target = |records: &[Record]| {
        let members = members(&case(I386, records));
        strings(&members.first[2], WEAK_STRINGS_AT)[0].to_string()
    };
    assert_eq!(
        target(&[noname.clone(), step.clone(), go.clone()]),
        "_att_step"
    );
    assert_eq!(target(&[step, noname, go]), "att_step");
}

/// P1 to P11 do not tell this from a build that takes the public name.
#[test]
fn the_name_type_does_not_come_from_the_public_name() {
    let record = Record::new("f").ext_name("_g");
    assert_eq!(import(I386, record), ("_g".into(), 1));
}

#[test]
fn deferred_exports_stand_behind_the_others() {
    let list = [
        Record::new("b").import_name("x").ordinal(1),
        Record::new("a").ordinal(2),
    ];
    let members = members(&case(AMD64, &list));
    assert_eq!(strings(&members.first[0], 20)[0], "a");
    assert_eq!(strings(&members.first[1], 20), ["b", "att.dll", "x"]);
}

#[test]
fn symbols_of_short_imports() {
    let of = |machine, name| {
        let members = members(&case(machine, &[Record::new(name)]));
        symbols(&members.first[0]).expect("the Rust reads this symbol")
    };
    assert_eq!(of(AMD64, "f"), [b"__imp_f".to_vec(), b"f".to_vec()]);
    assert_eq!(
        of(ARM64EC, "f"),
        [&b"__imp_f"[..], b"f", b"__imp_aux_f", b"#f"]
    );
    let fixed = members(&case(AMD64, &[])).fixed;
    assert_eq!(symbols(&fixed[0]), Some(Vec::new()));
}
