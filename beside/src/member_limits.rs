//! Every limit of the reader, and one step beyond it.

use oracle::ask::{AMD64, ARM64EC, ARM64X, MACHINES};

use crate::content::{Content, LONGEST_DLL, LONGEST_SHORT, LONGEST_WEAK, Short};
use crate::judge::{Difference, same, shown};
use crate::pe::{IMPORT_CONST, IMPORT_NAME, IMPORT_NAME_EXPORTAS};
use crate::plain::stem;
use crate::reads;

const SHORT: Short = Short {
    machine: AMD64,
    ordinal: 65535,
    name_type: IMPORT_NAME,
    kind: 0,
    symbol: b"a",
    dll: b"a.dll",
    export: None,
};
const BARRED: [&[u8]; 7] = [
    b".",
    b"..",
    b"/",
    b"x/a.dll",
    b"x\\a.dll",
    b"x:a.dll",
    b"a.dll:",
];
const ODD: [&[u8]; 7] = [b"a", b".a", b"a.", b"...", b"..a", b"a.b.dll", b"\xFF\x01"];

/// Rows judged so far.
#[derive(Default)]
struct Rows(u64);

impl Rows {
    /// A content that the paper takes.
    fn taken(&mut self, content: Content<'_>) -> Result<(), Difference> {
        self.0 += 1;
        let member = content.encode();
        let told = |what| Difference(format!("{what}\n{}", shown(&member)));
        same("content", Some(content), Content::of(&member)).map_err(told)?;
        reads::judge_as(&member, Some(&content))
    }

    /// A content that the paper does not take.
    fn refused(&mut self, content: Content<'_>) -> Result<(), Difference> {
        self.bytes(&content.encode())
    }

    /// Bytes that are no member.
    fn bytes(&mut self, member: &[u8]) -> Result<(), Difference> {
        self.0 += 1;
        let told = |what| Difference(format!("{what}\n{}", shown(member)));
        same("content", None, Content::of(member)).map_err(told)?;
        reads::judge_as(member, None)
    }

    fn either(&mut self, is_taken: bool, content: Content<'_>) -> Result<(), Difference> {
        if is_taken {
            self.taken(content)
        } else {
            self.refused(content)
        }
    }
}

/// Judges each row; how many there are.
pub fn limits() -> Result<u64, Difference> {
    let mut rows = Rows::default();
    machines(&mut rows)?;
    dll_names(&mut rows)?;
    stems(&mut rows)?;
    short_names(&mut rows)?;
    weak_names(&mut rows)?;
    types(&mut rows)?;
    other_stems(&mut rows)?;
    for length in 0..64 {
        rows.bytes(&vec![0; length])?;
    }
    Ok(rows.0)
}

fn descriptor(dll: &[u8], compat: bool) -> Content<'_> {
    Content::Descriptor {
        machine: AMD64,
        compat,
        dll,
        stem: stem(dll),
    }
}

fn null_descriptor(stem: &[u8]) -> Content<'_> {
    Content::NullDescriptor {
        machine: AMD64,
        stem: Some(stem),
    }
}

fn null_thunk(stem: &[u8]) -> Content<'_> {
    Content::NullThunk {
        machine: AMD64,
        stem,
    }
}

fn short<'a>(symbol: &'a [u8], dll: &'a [u8], export: Option<&'a [u8]>) -> Content<'a> {
    Content::ShortImport(Short {
        name_type: if export.is_some() {
            IMPORT_NAME_EXPORTAS
        } else {
            IMPORT_NAME
        },
        symbol,
        dll,
        export,
        ..SHORT
    })
}

fn weak<'a>(target: &'a [u8], alias: &'a [u8]) -> Content<'a> {
    Content::WeakExternal {
        machine: AMD64,
        target,
        alias,
    }
}

/// ARM64EC in short imports only, ARM64X nowhere, and no number beside the table's.
fn machines(rows: &mut Rows) -> Result<(), Difference> {
    for known in MACHINES {
        for machine in [known - 1, known, known + 1] {
            let is_short = machine == known && machine != ARM64X;
            let is_object = is_short && machine != ARM64EC;
            for object in objects(machine) {
                rows.either(is_object, object)?;
            }
            let short = Content::ShortImport(Short { machine, ..SHORT });
            rows.either(is_short, short)?;
        }
    }
    Ok(())
}

/// All but a short import, with and without compat.
fn objects(machine: u32) -> [Content<'static>; 6] {
    let (dll, stem) = (b"a.dll", b"a");
    let descriptor = |compat| Content::Descriptor {
        machine,
        compat,
        dll,
        stem,
    };
    let null_descriptor = |compat: bool| Content::NullDescriptor {
        machine,
        stem: compat.then_some(stem),
    };
    [
        descriptor(false),
        descriptor(true),
        null_descriptor(false),
        null_descriptor(true),
        Content::NullThunk { machine, stem },
        Content::WeakExternal {
            machine,
            target: b"a",
            alias: b"b",
        },
    ]
}

fn dll_names(rows: &mut Rows) -> Result<(), Difference> {
    let longest = [&[b'd'; LONGEST_DLL - 4][..], b".dll"].concat();
    let beyond = [&longest[..], b"l"].concat();
    let without_dot = [b'd'; LONGEST_DLL];
    let taken = ODD.into_iter().chain([&longest[..], &without_dot]);
    let refused = BARRED.into_iter().chain([&b""[..], &beyond]);
    let taken = taken.map(|dll| (true, dll));
    for (is_taken, dll) in taken.chain(refused.map(|dll| (false, dll))) {
        for compat in [false, true] {
            rows.either(is_taken, descriptor(dll, compat))?;
        }
        rows.either(is_taken, short(b"a", dll, None))?;
        rows.either(is_taken, short(b"a", dll, Some(b"b")))?;
    }
    Ok(())
}

/// Stems may be what DLL names may not.
fn stems(rows: &mut Rows) -> Result<(), Difference> {
    let longest = [b's'; LONGEST_DLL];
    let beyond = [b's'; LONGEST_DLL + 1];
    let taken = ODD.into_iter().chain(BARRED).chain([&longest[..], b"_"]);
    for stem in taken {
        rows.taken(null_descriptor(stem))?;
        rows.taken(null_thunk(stem))?;
    }
    for stem in [&b""[..], &beyond, b"\0", b"a\0b"] {
        rows.refused(null_descriptor(stem))?;
        rows.refused(null_thunk(stem))?;
    }
    Ok(())
}

fn short_names(rows: &mut Rows) -> Result<(), Difference> {
    let longest = &[b'a'; LONGEST_SHORT];
    let beyond = &[b'a'; LONGEST_SHORT + 1];
    let dll = b"a.dll";
    for symbol in [&b"a"[..], longest, b"\xFF"] {
        rows.taken(short(symbol, dll, None))?;
        for export in [&b"a"[..], longest] {
            rows.taken(short(symbol, dll, Some(export)))?;
        }
        for export in [&b""[..], beyond, b"a\0b"] {
            rows.refused(short(symbol, dll, Some(export)))?;
        }
    }
    for symbol in [&b""[..], beyond, b"a\0b"] {
        rows.refused(short(symbol, dll, None))?;
        rows.refused(short(symbol, dll, Some(b"b")))?;
    }
    Ok(())
}

fn weak_names(rows: &mut Rows) -> Result<(), Difference> {
    let longest = &[b'a'; LONGEST_WEAK];
    let beyond = &[b'b'; LONGEST_WEAK + 1];
    let good = [&b"a"[..], b"\xFF", longest];
    let bad = [&b""[..], b"\0", b"a\0b", beyond];
    for name in good {
        for other in good {
            rows.taken(weak(name, other))?;
        }
        for other in bad {
            rows.refused(weak(name, other))?;
            rows.refused(weak(other, name))?;
        }
    }
    Ok(())
}

/// Every number that a type and a kind make, with and without an export string.
fn types(rows: &mut Rows) -> Result<(), Difference> {
    for number in (0..64).chain((6..16).map(|bit| 1 << bit)) {
        let (name_type, kind) = (number >> 2, number & 3);
        for export in [None, Some(&b""[..]), Some(b"b")] {
            let content = Content::ShortImport(Short {
                name_type,
                kind,
                export,
                ..SHORT
            });
            let has_its_strings = match export {
                Some(export) => name_type == IMPORT_NAME_EXPORTAS && !export.is_empty(),
                None => name_type != IMPORT_NAME_EXPORTAS,
            };
            let is_taken =
                name_type <= IMPORT_NAME_EXPORTAS && kind <= IMPORT_CONST && has_its_strings;
            rows.either(is_taken, content)?;
        }
    }
    Ok(())
}

/// A stem that is not the DLL name's, in each symbol alone and in all.
fn other_stems(rows: &mut Rows) -> Result<(), Difference> {
    for (compat, places) in [(false, 2), (true, 3)] {
        let member = descriptor(b"att.dll", compat).encode();
        let is_stem = |&at: &usize| &member[at..at + 3] == b"att";
        let found: Vec<usize> = (0..member.len() - 3).filter(is_stem).collect();
        let told = |what| Difference(format!("{what}\n{}", shown(&member)));
        same("places of a stem", 1 + places, found.len()).map_err(told)?;
        for &at in &found[1..] {
            let mut changed = member.clone();
            changed[at + 2] = b'u';
            rows.bytes(&changed)?;
        }
        for other in [&b"atu"[..], b"att.dll", b"at", b"a", b""] {
            rows.refused(Content::Descriptor {
                machine: AMD64,
                compat,
                dll: b"att.dll",
                stem: other,
            })?;
        }
    }
    Ok(())
}
