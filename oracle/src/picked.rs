//! Hand-picked cases: the build examples, every row of the name rules, each
//! layout on each machine and the edges at which a wrong build would differ.

use crate::ask::{AMD64, ARM64, ARM64EC, ARM64X, ARMNT, I386, MACHINES};
use crate::case::Case;
use crate::list::{CONSTANT, DATA, NONAME, PRIVATE, Packing, Record};

const PLAIN_MACHINES: [u32; 4] = [I386, ARMNT, AMD64, ARM64];

/// All hand-picked cases. The Rust answers each, and none has an empty public
/// name.
pub fn cases() -> Vec<Case> {
    [
        examples(),
        layouts(),
        stems(),
        renamings(),
        failing_renamings(),
        name_types(),
        import_names(),
        nonames_and_export_strings(),
        hybrid_names(),
        hybrid_refusals(),
        keys(),
        deferred(),
        lookups(),
        list_forms(),
        private_records(),
        places(),
        limits(),
    ]
    .concat()
}

fn r(name: &str) -> Record {
    Record::new(name)
}

/// Each record alone.
fn each(machine: u32, records: &[Record]) -> Vec<Case> {
    in_lists_of(1, machine, records)
}

/// Records that do not touch one another, a few in each list.
fn few(machine: u32, records: &[Record]) -> Vec<Case> {
    in_lists_of(3, machine, records)
}

fn in_lists_of(size: usize, machine: u32, records: &[Record]) -> Vec<Case> {
    let lists = records.chunks(size);
    lists.map(|list| Case::new(machine, list)).collect()
}

/// P1 to P11 but for P7, whose public name is empty.
fn examples() -> Vec<Case> {
    let noname = r("att_step").flags(NONAME).ordinal(3);
    let step = r("_att_step");
    let go = r("att_go").import_name("att_step");
    let p8 = [
        r("@_f@").import_name("_f@"),
        r("?f@1@").import_name("f"),
        r("@_f").import_name("_f"),
    ];
    [
        Case::new(AMD64, &[]),
        Case::new(I386, &[]),
        Case::new(AMD64, &[]).compat(),
        Case::new(AMD64, &[r("att_step").ordinal(5)]),
        Case::new(I386, &[step.clone(), go.clone()]),
        Case::new(AMD64, &[r("_f").ext_name("_g").symbol_name("f@8")]),
        Case::new(AMD64, &[r("f").ext_name("g").symbol_name("ff")]),
        Case::new(I386, &p8),
        Case::new(ARM64EC, &[r("f")]),
        Case::new(ARM64EC, &[r("?f")]),
        Case::new(ARM64EC, &[r("?f$$h")]),
        Case::new(
            ARM64EC,
            &[r("#").flags(NONAME).ordinal(3), r("#").export_as("x")],
        ),
        Case::new(I386, &[noname.clone(), step.clone(), go.clone()]),
        Case::new(I386, &[step, noname, go]),
    ]
    .map(|case| case.dll("att.dll"))
    .into()
}

/// Each layout on each machine.
fn layouts() -> Vec<Case> {
    let kinds = [
        r("c").ordinal(1),
        r("d").flags(DATA).ordinal(2),
        r("k").flags(CONSTANT).ordinal(256),
        r("m").flags(DATA | CONSTANT),
        r("n").flags(NONAME).ordinal(65535),
        r("x").export_as("y"),
    ];
    let aliases = [
        r("x"),
        r("c").import_name("x"),
        r("d").import_name("x").flags(DATA),
        r("k").import_name("x").flags(CONSTANT),
        r("m").import_name("x").flags(DATA | CONSTANT),
    ];
    let mut cases = Vec::new();
    for machine in MACHINES {
        cases.push(Case::new(machine, &[]).compat());
        cases.push(Case::new(machine, &kinds).native(&kinds).dll("b"));
    }
    for machine in PLAIN_MACHINES {
        cases.push(Case::new(machine, &aliases));
    }
    for machine in [I386, ARM64EC, ARM64X] {
        cases.push(Case::new(machine, &[]).native(&aliases));
    }
    cases
}

fn stems() -> Vec<Case> {
    let names = [
        "a", ".a", "a.", "a.b.c", "..a", "...", ".a.", ".a.b", "a..b", "é.日", "日", ".é",
    ];
    let mut cases: Vec<_> = names
        .iter()
        .map(|name| Case::new(AMD64, &[]).dll(name))
        .collect();
    cases.push(Case::new(I386, &[r("f")]).dll(".a.b").compat());
    cases.push(Case::new(ARM64X, &[r("f")]).dll("...").compat());
    cases
}

fn renamings() -> Vec<Case> {
    let rename = |base, name, ext_name| r(name).symbol_name(base).ext_name(ext_name);
    let mut cases = few(
        AMD64,
        &[
            r("f").ext_name("g"),
            r("f").ext_name("f"),
            r("_f").ext_name("_"),
            rename("xfyfz", "f", "long"),
            rename("xxf", "f", "f"),
            rename("aab", "ab", "c"),
            rename("aaab", "aab", "c"),
            rename("ababac", "abac", "x"),
            rename("aaaa", "aa", "b"),
            rename("é日é", "é", "e"),
            rename("日", "日", "éé"),
            rename("x_fyf", "_f", "_g"),
            rename("xfyf", "_f", "_g"),
            rename("_fxf", "__f", "__g"),
            rename("fx", "_f", "_"),
            rename("xf", "_f", "__"),
            rename("x", "_", "_g"),
            rename("x", "_", "_"),
            rename("xyz", "_", "__"),
            rename("x_y", "_", "_g"),
            rename("x_y", "_", "g"),
        ],
    );
    cases.extend(few(
        ARM64EC,
        &[
            rename("xf", "_f", "_?$$h"),
            rename("fx", "f", "?$$h"),
            rename("?f", "?", "#"),
            rename("#f", "#f", "f"),
        ],
    ));
    cases
}

/// Refusal 11, whatever else the record says.
fn failing_renamings() -> Vec<Case> {
    let rename = |base, name, ext_name| r(name).symbol_name(base).ext_name(ext_name);
    each(
        I386,
        &[
            rename("f", "g", "h"),
            rename("f", "_f", "g"),
            rename("f", "f_", "_g"),
            rename("f", "_g", "_h"),
            rename("f", "__f", "__g"),
            rename("ab", "abc", "d"),
            rename("ab", "_abc", "_d"),
            rename("é", "è", "e"),
            rename("f", "ff", "g").import_name("f"),
            rename("f", "ff", "g").flags(NONAME | DATA),
            rename("f", "ff", "g").export_as("h"),
        ],
    )
}

/// Types that come from base and name.
fn name_types() -> Vec<Case> {
    let rows = [
        r("_f@4"),
        r("_f@4").symbol_name("f"),
        r("f").symbol_name("_f@4"),
        r("f").symbol_name("f"),
        r("_f"),
        r("_f").symbol_name("_f"),
        r("_f").symbol_name("f"),
        r("f@4"),
        r("__f"),
        r("@_f"),
        r("_@"),
        r("f").ext_name("_g"),
        r("_f").ext_name("g"),
        r("f").ext_name("_g@4"),
        r("f").ext_name("g").symbol_name("_f@4"),
        r("_f@4").ext_name("g"),
    ];
    let data = rows.clone().map(|row| row.flags(DATA));
    let mut cases = few(I386, &rows);
    cases.extend(few(I386, &rows).into_iter().map(Case::mingw));
    cases.extend(each(I386, &rows[11..13]));
    cases.extend([ARMNT, AMD64, ARM64].map(|machine| Case::new(machine, &rows)));
    cases.push(Case::new(AMD64, &rows).mingw());
    cases.push(Case::new(ARM64EC, &data));
    cases.push(Case::new(ARM64X, &data).mingw());
    cases
}

/// Types that come from an import_name: each record alone, so that no key is
/// there, and all together, where some become aliases.
fn import_names() -> Vec<Case> {
    let rows = [
        r("_f@4").import_name("f"),
        r("_f@4").import_name("f@4"),
        r("_f@4").import_name("_f@4"),
        r("_f@4").import_name("_f"),
        r("_f").import_name("f"),
        r("f").import_name("f"),
        r("f@4").import_name("f@4"),
        r("?f@@").import_name("f"),
        r("@f@4").import_name("f@4"),
        r("__f").import_name("f"),
        r("__f").import_name("_f"),
        r("f").import_name("g"),
        r("f").ext_name("_g@8").import_name("g"),
        r("f").symbol_name("_g@8").import_name("g@8"),
        r("é").import_name("é"),
        r("f").import_name("g").flags(DATA),
        r("f").import_name("g").flags(CONSTANT),
    ];
    let mut cases = each(I386, &rows);
    cases.extend(each(AMD64, &rows[1..6]));
    cases.extend(each(ARM64EC, &rows[5..6]));
    cases.extend([I386, AMD64, ARM64EC].map(|machine| Case::new(machine, &rows)));
    cases
}

fn nonames_and_export_strings() -> Vec<Case> {
    let rows = [
        r("f").flags(NONAME).ordinal(7),
        r("f").flags(NONAME).export_as("g"),
        r("f").flags(NONAME).import_name("g"),
        r("f").export_as("f"),
        r("f").export_as("g").import_name("h"),
        r("_f@4").export_as("f"),
        r("_f").export_as("#").flags(DATA),
        r("f").ext_name("g").export_as("h"),
    ];
    [I386, AMD64, ARM64EC]
        .map(|machine| few(machine, &rows))
        .concat()
}

/// ARM64EC names that are taken.
fn hybrid_names() -> Vec<Case> {
    let rows = [
        r("#f"),
        r("##f"),
        r("#?f$$h"),
        r("?f$$hx"),
        r("?$$hx"),
        r("?$$h$$h"),
        r("?f$$hx$$hy"),
        r("?f$$hx$$h"),
        r("$$h"),
        r("a?$$h"),
        r("é"),
        r("?é$$h日"),
        r("?f").export_as("g"),
        r("?f").import_name("?f"),
        r("?f").flags(NONAME),
        r("?f").flags(DATA),
        r("?f").flags(CONSTANT),
        r("?f$$h").export_as("g"),
        r("?f$$h").import_name("f"),
        r("?f$$h").flags(NONAME),
        r("#").export_as("f"),
        r("#").import_name("f"),
        r("#").flags(NONAME),
        r("#").flags(DATA),
        r("#").flags(CONSTANT),
        r("#f").import_name("f"),
        r("#f").flags(NONAME),
        r("#f").flags(DATA),
        r("f").ext_name("#g"),
        r("f").symbol_name("_f@4"),
    ];
    let mut cases = few(ARM64EC, &rows);
    cases.push(Case::new(ARM64X, &[]).native(&rows));
    cases
}

/// Refusals 13 and 14.
fn hybrid_refusals() -> Vec<Case> {
    let rows = [
        r("?"),
        r("?f$$"),
        r("?f$h"),
        r("?f").symbol_name("?g"),
        r("f").ext_name("?f"),
        r("?$$h"),
        r("?$$$h"),
        r("?x$$h").symbol_name("?x$$h"),
    ];
    [ARM64EC, ARM64X]
        .map(|machine| each(machine, &rows))
        .concat()
}

/// Which import an alias leads to.
fn keys() -> Vec<Case> {
    let b = r("b").import_name("a");
    let on_i386 = [
        vec![r("_a"), r("@a").import_name("a"), b.clone()],
        vec![r("_a@4").import_name("a"), r("_a"), b.clone()],
        vec![r("_a"), r("_a@4").import_name("a"), b.clone()],
        vec![r("__a"), r("b").import_name("_a")],
        vec![r("x").symbol_name("_a@8"), b.clone()],
        vec![r("x").symbol_name("_@a"), b.clone()],
    ];
    let on_amd64 = [
        vec![r("a").export_as("x"), b.clone()],
        vec![r("x").export_as("a"), b.clone()],
        vec![r("a"), r("a").export_as("x"), b.clone()],
        vec![r("a").export_as("x"), r("_a").symbol_name("@a"), b.clone()],
        vec![r("_a").symbol_name("@a"), r("a").flags(NONAME), b.clone()],
        vec![r("x").ext_name("a"), b.clone()],
        vec![r("a").ext_name("x"), b.clone()],
        vec![r("x").symbol_name("?a@1@"), b.clone()],
        vec![r("a").flags(DATA), b.clone()],
        vec![r("a").flags(CONSTANT), b.clone()],
        vec![r("A"), b.clone()],
        vec![r("aa"), b.clone()],
        vec![r("é"), r("b").import_name("é")],
    ];
    let mut cases = Vec::new();
    cases.extend(on_i386.iter().map(|list| Case::new(I386, list)));
    cases.extend(on_amd64.iter().map(|list| Case::new(AMD64, list)));
    cases
}

/// Order of deferred exports, and whose keys they see.
fn deferred() -> Vec<Case> {
    let a = r("a").ordinal(1);
    let b = r("b").import_name("a").ordinal(2);
    let c = r("c").import_name("b").ordinal(3);
    let d = r("d").import_name("c").ordinal(4);
    let e = r("e").ordinal(5);
    let both = [a.clone(), b.clone()];
    let chain = [d, a.clone(), b.clone(), c.clone(), e.clone()];
    let crossed = [r("b").import_name("_b"), r("_b"), a.clone()];
    let renamed = r("f").symbol_name("xfy").ext_name("g").import_name("e");
    vec![
        Case::new(AMD64, &[b.clone(), a.clone()]),
        Case::new(AMD64, &[b.clone(), a.clone(), b.clone()]),
        Case::new(AMD64, &[c, b, a]),
        Case::new(AMD64, &chain),
        Case::new(ARM64EC, &chain),
        Case::new(AMD64, &both[..1]).native(&both[1..]),
        Case::new(AMD64, &both[1..]).native(&both[..1]),
        Case::new(AMD64, &both).native(&both),
        Case::new(ARM64EC, &both[..1]).native(&both[1..]),
        Case::new(ARM64X, &both).native(&both),
        Case::new(AMD64, &[r("a").import_name("b"), r("b").flags(NONAME)]),
        Case::new(ARMNT, &crossed),
        Case::new(ARM64, &[renamed, e]),
    ]
}

/// Lists in which several members define one symbol.
fn lookups() -> Vec<Case> {
    let noname = r("a").flags(NONAME).ordinal(9);
    let b = r("b").import_name("a");
    let imp = r("b").import_name("__imp_a");
    let data = r("__imp_a").flags(DATA);
    let mixed = r("a").flags(DATA | CONSTANT);
    vec![
        Case::new(I386, &[r("_a"), noname.clone(), b.clone()]),
        Case::new(AMD64, &[mixed, b.clone()]),
        Case::new(AMD64, &[noname.clone(), b]),
        Case::new(AMD64, &[r("a"), noname.clone()]),
        Case::new(AMD64, &[noname, r("a")]),
        Case::new(AMD64, &[imp, data, r("a")]),
        Case::new(AMD64, &[r("a"), r("a").flags(DATA), r("__imp_a")]),
        Case::new(ARM64EC, &[r("#").export_as("x"), r("__imp_#"), r("#aux_#")]),
        Case::new(ARM64EC, &[r("f"), r("#f"), r("f").flags(DATA)]),
    ]
}

/// Ranges that are shared, that overlap and that leave bytes between them.
fn list_forms() -> Vec<Case> {
    let records = [
        r("abc").symbol_name("xabcx").ext_name("bcx"),
        r("cx").import_name("ab").ordinal(2),
        r("xab").export_as("bcxd"),
        r("cxdll").flags(DATA),
    ];
    let mut cases = Vec::new();
    for packing in [Packing::Apart, Packing::Shared, Packing::Gaps] {
        for machine in [I386, ARM64EC] {
            let case = Case::new(machine, &records).packing(packing);
            cases.push(case.native(&records[1..]).dll("xd"));
        }
        cases.push(Case::new(ARMNT, &[]).packing(packing).dll("x.d"));
    }
    cases
}

fn private_records() -> Vec<Case> {
    let private = |record: Record| record.flags(PRIVATE);
    let a = r("a");
    let b = r("b").import_name("a");
    let broken = private(r("f").symbol_name("x").ext_name("g"));
    vec![
        Case::new(AMD64, &[private(a.clone())]),
        Case::new(AMD64, &[private(a.clone()), b.clone()]),
        Case::new(AMD64, &[a.clone(), private(b.clone())]),
        Case::new(AMD64, &[a.clone(), private(a.clone()), b.clone()]),
        Case::new(AMD64, &[broken.clone(), a.clone(), broken.clone(), b]),
        Case::new(ARM64EC, &[private(r("?f")), a.clone(), private(r("?f$$h"))]),
        Case::new(ARM64X, &[a]).native(&[broken, private(r("c"))]),
    ]
}

/// Where a refusal stands.
fn places() -> Vec<Case> {
    let a = r("a");
    let hidden = r("h").flags(PRIVATE);
    let broken = r("f").symbol_name("x").ext_name("g");
    let bare = r("?f");
    let tagged = r("?f$$h");
    let plain = [a.clone(), hidden.clone(), a.clone(), broken.clone()];
    vec![
        Case::new(AMD64, &plain),
        Case::new(AMD64, &plain[..3]).native(&plain),
        Case::new(AMD64, &[]).native(&plain),
        Case::new(ARM64, &[hidden.clone(), broken.clone(), broken.clone()]),
        Case::new(ARM64EC, &[a.clone(), bare.clone(), tagged.clone()]),
        Case::new(ARM64EC, &[a.clone(), tagged.clone(), bare.clone()]),
        Case::new(ARM64EC, &[broken.clone(), tagged.clone(), bare.clone()]),
        Case::new(ARM64EC, &[hidden.clone(), tagged, broken.clone()]),
        Case::new(ARM64X, &[hidden, bare.clone()]).native(&plain),
        Case::new(ARM64X, &[a]).native(&[bare, broken]),
    ]
}

/// The longest names.
fn limits() -> Vec<Case> {
    let longest = "a".repeat(4095);
    let dll = format!("{}.{}", "d".repeat(200), "l".repeat(54));
    let built = r("_")
        .symbol_name(&longest)
        .ext_name(&format!("_{}", "b".repeat(4094)));
    vec![
        Case::new(I386, &[r("f")]).dll(&dll).compat(),
        Case::new(ARM64EC, &[built]),
    ]
}
