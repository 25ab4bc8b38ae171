//! What a member holds, its bytes, and what a reader tells of it. Bytes are a member where the content that they would have is
//! admitted and has these bytes.

use oracle::ask::{AMD64, ARM64, ARM64EC, ARMNT, I386};

use crate::pe::{IMPORT_CONST, IMPORT_NAME_EXPORTAS};
use crate::plain::{self, Factory, Pen};

/// Machines of every layout; short imports have one more.
pub const OBJECT_MACHINES: [u32; 4] = [I386, ARMNT, AMD64, ARM64];
pub const SHORT_MACHINES: [u32; 5] = [I386, ARMNT, AMD64, ARM64, ARM64EC];

pub const LONGEST_DLL: usize = 255;
pub const LONGEST_SHORT: usize = 8190;
pub const LONGEST_WEAK: usize = 8195;

/// How many fields a reader fills: machine, ordinal, type, kind, compat, and the start and length of three names.
pub const FIELDS: usize = 11;

const SHORT_HEADER: usize = 20;
const SECTION_NAME_AT: usize = 20;
const DLL_AT: usize = 150;
const NULL_STRINGS_AT: usize = 102;
const THUNK_STRINGS_AT: [usize; 2] = [130, 138];
const WEAK_STRINGS_AT: usize = 154;
/// Seven symbols and the string table's size.
const DESCRIPTOR_SYMBOLS: usize = 7 * 18 + 4;

const DESCRIPTOR_NAME: &[u8] = b"__IMPORT_DESCRIPTOR_";
const NULL_NAME: &[u8] = b"__NULL_IMPORT_DESCRIPTOR_";
const THUNK_PREFIX: &[u8] = b"\x7f";
const THUNK_SUFFIX: &[u8] = b"_NULL_THUNK_DATA";

/// What a reader tells of a member.
#[derive(Clone, Copy, Debug, PartialEq)]
pub struct Read {
    pub layout: u32,
    pub fields: [u32; FIELDS],
}

impl Read {
    /// Names are given by start and length.
    pub fn new(layout: u32, numbers: [u32; 5], names: [(usize, usize); 3]) -> Self {
        let mut fields = [0; FIELDS];
        fields[..5].copy_from_slice(&numbers);
        for (pair, (start, length)) in fields[5..].chunks_exact_mut(2).zip(names) {
            pair.copy_from_slice(&[start as u32, length as u32]);
        }
        Self { layout, fields }
    }
}

/// What a short import holds.
#[derive(Clone, Copy, Debug, PartialEq)]
pub struct Short<'a> {
    pub machine: u32,
    pub ordinal: u16,
    pub name_type: u16,
    pub kind: u16,
    pub symbol: &'a [u8],
    pub dll: &'a [u8],
    pub export: Option<&'a [u8]>,
}

impl Short<'_> {
    fn encode(&self) -> Vec<u8> {
        let member = plain::Member::Short {
            machine: self.machine,
            symbol: self.symbol,
            export: self.export,
            name_type: self.name_type,
            kind: self.kind,
            ordinal: self.ordinal,
        };
        drawn(member.len(self.dll), |pen| member.write(pen, self.dll))
    }

    fn is_admitted(&self) -> bool {
        SHORT_MACHINES.contains(&self.machine)
            && self.name_type <= IMPORT_NAME_EXPORTAS
            && self.kind <= IMPORT_CONST
            && is_name(self.symbol, 1, LONGEST_SHORT)
            && is_dll(self.dll)
            && self.export.is_some() == (self.name_type == IMPORT_NAME_EXPORTAS)
            && self
                .export
                .is_none_or(|export| is_name(export, 1, LONGEST_SHORT))
    }

    fn told(&self) -> Read {
        let dll_at = SHORT_HEADER + self.symbol.len() + 1;
        let place = |export: &[u8]| (dll_at + self.dll.len() + 1, export.len());
        let names = [
            (SHORT_HEADER, self.symbol.len()),
            (dll_at, self.dll.len()),
            self.export.map_or((0, 0), place),
        ];
        let [ordinal, name_type, kind] = [self.ordinal, self.name_type, self.kind].map(u32::from);
        Read::new(4, [self.machine, ordinal, name_type, kind, 0], names)
    }
}

/// What a member holds, by its layout.
#[derive(Clone, Copy, Debug, PartialEq)]
pub enum Content<'a> {
    Descriptor {
        machine: u32,
        compat: bool,
        dll: &'a [u8],
        stem: &'a [u8],
    },
    /// With a stem under compat only.
    NullDescriptor {
        machine: u32,
        stem: Option<&'a [u8]>,
    },
    NullThunk {
        machine: u32,
        stem: &'a [u8],
    },
    ShortImport(Short<'a>),
    WeakExternal {
        machine: u32,
        target: &'a [u8],
        alias: &'a [u8],
    },
}

impl<'a> Content<'a> {
    /// The admitted content with these bytes, if there is one.
    pub fn of(member: &'a [u8]) -> Option<Self> {
        let [first, second] = guesses(member);
        let fits = |content: &Content<'_>| content.is_admitted() && content.encode() == member;
        first.filter(fits).or(second.filter(fits))
    }

    pub fn machine(&self) -> u32 {
        match *self {
            Content::Descriptor { machine, .. }
            | Content::NullDescriptor { machine, .. }
            | Content::NullThunk { machine, .. }
            | Content::ShortImport(Short { machine, .. })
            | Content::WeakExternal { machine, .. } => machine,
        }
    }

    pub fn encode(&self) -> Vec<u8> {
        match *self {
            Content::Descriptor {
                machine,
                compat,
                dll,
                stem,
            } => {
                let factory = Factory::new(dll, stem, machine, compat);
                drawn(factory.lens()[0], |pen| factory.import_descriptor(pen))
            }
            Content::NullDescriptor { machine, stem } => {
                let compat = stem.is_some();
                let factory = Factory::new(b"", stem.unwrap_or_default(), machine, compat);
                drawn(factory.lens()[1], |pen| factory.null_import_descriptor(pen))
            }
            Content::NullThunk { machine, stem } => {
                let factory = Factory::new(b"", stem, machine, false);
                drawn(factory.lens()[2], |pen| factory.null_thunk(pen))
            }
            Content::ShortImport(short) => short.encode(),
            Content::WeakExternal {
                machine,
                target,
                alias,
            } => {
                let member = plain::Member::Weak {
                    machine,
                    prefix: b"",
                    target,
                    alias,
                };
                drawn(member.len(b""), |pen| member.write(pen, b""))
            }
        }
    }

    /// What the scope paper lets the reader admit.
    pub fn is_admitted(&self) -> bool {
        match *self {
            Content::Descriptor {
                machine, dll, stem, ..
            } => is_native(machine) && is_dll(dll) && stem == plain::stem(dll),
            Content::NullDescriptor { machine, stem } => {
                is_native(machine) && stem.is_none_or(|stem| is_name(stem, 1, LONGEST_DLL))
            }
            Content::NullThunk { machine, stem } => {
                is_native(machine) && is_name(stem, 1, LONGEST_DLL)
            }
            Content::ShortImport(short) => short.is_admitted(),
            Content::WeakExternal {
                machine,
                target,
                alias,
            } => {
                is_native(machine)
                    && [target, alias]
                        .iter()
                        .all(|name| is_name(name, 1, LONGEST_WEAK))
            }
        }
    }

    /// What a reader tells, with the names where the bytes have them.
    pub fn told(&self) -> Read {
        let machine = self.machine();
        match *self {
            Content::Descriptor {
                compat, dll, stem, ..
            } => {
                let stem_at = DLL_AT + dll.len() + 1 + DESCRIPTOR_SYMBOLS + DESCRIPTOR_NAME.len();
                let names = [(DLL_AT, dll.len()), (stem_at, stem.len()), (0, 0)];
                Read::new(1, [machine, 0, 0, 0, compat.into()], names)
            }
            Content::NullDescriptor { stem, .. } => {
                let place = |stem: &[u8]| (NULL_STRINGS_AT + NULL_NAME.len(), stem.len());
                let names = [stem.map_or((0, 0), place), (0, 0), (0, 0)];
                Read::new(2, [machine, 0, 0, 0, stem.is_some().into()], names)
            }
            Content::NullThunk { stem, .. } => {
                let is_64_bit = machine != I386 && machine != ARMNT;
                let stem_at = THUNK_STRINGS_AT[usize::from(is_64_bit)] + THUNK_PREFIX.len();
                let names = [(stem_at, stem.len()), (0, 0), (0, 0)];
                Read::new(3, [machine, 0, 0, 0, 0], names)
            }
            Content::ShortImport(short) => short.told(),
            Content::WeakExternal { target, alias, .. } => {
                let alias_at = WEAK_STRINGS_AT + target.len() + 1;
                let names = [
                    (WEAK_STRINGS_AT, target.len()),
                    (alias_at, alias.len()),
                    (0, 0),
                ];
                Read::new(5, [machine, 0, 0, 0, 0], names)
            }
        }
    }
}

fn drawn(length: usize, draw: impl FnOnce(&mut Pen<'_>)) -> Vec<u8> {
    let mut bytes = vec![0; length];
    draw(&mut Pen::new(&mut bytes));
    bytes
}

fn is_native(machine: u32) -> bool {
    OBJECT_MACHINES.contains(&machine)
}

fn is_name(name: &[u8], shortest: usize, longest: usize) -> bool {
    (shortest..=longest).contains(&name.len()) && !name.contains(&0)
}

fn is_dll(name: &[u8]) -> bool {
    let barred = name == b"." || name == b".." || name.iter().any(|byte| b"/\\:".contains(byte));
    is_name(name, 1, LONGEST_DLL) && !barred
}

/// The bytes from a place up to the next NUL.
fn text(member: &[u8], at: usize) -> Option<&[u8]> {
    member.get(at..)?.split(|&byte| byte == 0).next()
}

fn short(member: &[u8], at: usize) -> Option<u16> {
    Some(u16::from_le_bytes(member.get(at..at + 2)?.try_into().ok()?))
}

/// The contents that these bytes may have: no other has them.
fn guesses(member: &[u8]) -> [Option<Content<'_>>; 2] {
    let Some(machine) = short(member, 0).map(u32::from) else {
        return [None, None];
    };
    if member.starts_with(&[0, 0, 0xFF, 0xFF]) {
        return [short_import(member), None];
    }
    match member.get(SECTION_NAME_AT..SECTION_NAME_AT + 8) {
        Some(b".idata$2") => [false, true].map(|compat| descriptor(member, machine, compat)),
        Some(b".idata$3") => [
            Some(Content::NullDescriptor {
                machine,
                stem: None,
            }),
            null_descriptor(member, machine),
        ],
        Some(b".idata$5") => THUNK_STRINGS_AT.map(|at| null_thunk(member, machine, at)),
        Some(b".drectve") => [weak_external(member, machine), None],
        _ => [None, None],
    }
}

fn descriptor(member: &[u8], machine: u32, compat: bool) -> Option<Content<'_>> {
    let dll = text(member, DLL_AT)?;
    Some(Content::Descriptor {
        machine,
        compat,
        dll,
        stem: plain::stem(dll),
    })
}

fn null_descriptor(member: &[u8], machine: u32) -> Option<Content<'_>> {
    let stem = text(member, NULL_STRINGS_AT)?.strip_prefix(NULL_NAME);
    stem.map(|stem| Content::NullDescriptor {
        machine,
        stem: Some(stem),
    })
}

fn null_thunk(member: &[u8], machine: u32, at: usize) -> Option<Content<'_>> {
    let name = text(member, at)?.strip_prefix(THUNK_PREFIX)?;
    let stem = name.strip_suffix(THUNK_SUFFIX)?;
    Some(Content::NullThunk { machine, stem })
}

fn short_import(member: &[u8]) -> Option<Content<'_>> {
    let types = short(member, 18)?;
    let symbol = text(member, SHORT_HEADER)?;
    let dll_at = SHORT_HEADER + symbol.len() + 1;
    let dll = text(member, dll_at)?;
    let export = match types >> 2 {
        IMPORT_NAME_EXPORTAS => Some(text(member, dll_at + dll.len() + 1)?),
        _ => None,
    };
    Some(Content::ShortImport(Short {
        machine: short(member, 6)?.into(),
        ordinal: short(member, 16)?,
        name_type: types >> 2,
        kind: types & 3,
        symbol,
        dll,
        export,
    }))
}

fn weak_external(member: &[u8], machine: u32) -> Option<Content<'_>> {
    let target = text(member, WEAK_STRINGS_AT)?;
    Some(Content::WeakExternal {
        machine,
        target,
        alias: text(member, WEAK_STRINGS_AT + target.len() + 1)?,
    })
}
