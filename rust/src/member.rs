//! One member, read back.

use crate::machine::Machine;
use crate::raw;
use crate::refusal::Refusal;

const FIELDS: usize = 11;

/// What a linker applies to a short import's symbol to know the DLL entry.
#[derive(Clone, Copy, Debug, PartialEq, Eq)]
pub enum NameType {
    Ordinal,
    Name,
    NoPrefix,
    Undecorate,
    ExportAs,
}

/// What a short import is for.
#[derive(Clone, Copy, Debug, PartialEq, Eq)]
pub enum Kind {
    Code,
    Data,
    Const,
}

/// What a short import holds.
#[derive(Clone, Copy, Debug, PartialEq, Eq)]
pub struct ShortImport<'a> {
    pub machine: Machine,
    pub ordinal: u16,
    pub name_type: NameType,
    pub kind: Kind,
    pub symbol: &'a [u8],
    pub dll: &'a [u8],
    /// With type `ExportAs` only.
    pub export: Option<&'a [u8]>,
}

/// A member of one of the five layouts. Its names are parts of the bytes that were read.
#[derive(Clone, Copy, Debug, PartialEq, Eq)]
pub enum Member<'a> {
    ImportDescriptor {
        machine: Machine,
        whole_archive_compat: bool,
        dll: &'a [u8],
        stem: &'a [u8],
    },
    /// With a stem under whole_archive_compat only.
    NullImportDescriptor {
        machine: Machine,
        stem: Option<&'a [u8]>,
    },
    NullThunk {
        machine: Machine,
        stem: &'a [u8],
    },
    ShortImport(ShortImport<'a>),
    WeakExternal {
        machine: Machine,
        target: &'a [u8],
        alias: &'a [u8],
    },
}

/// Reads one member: exactly the five layouts, else refusal 16.
pub fn read(bytes: &[u8]) -> Result<Member<'_>, Refusal> {
    let mut fields = [0; FIELDS];
    let answer = raw::read(bytes, &mut fields);
    if let Some(refusal) = Refusal::of(answer) {
        return Err(refusal);
    }
    let [machine, ordinal, name_type, kind, compat, ..] = fields;
    let machine = Machine(machine);
    let name = |index: usize| {
        let start = fields[5 + 2 * index] as usize;
        &bytes[start..start + fields[6 + 2 * index] as usize]
    };
    Ok(match answer {
        1 => Member::ImportDescriptor {
            machine,
            whole_archive_compat: compat != 0,
            dll: name(0),
            stem: name(1),
        },
        2 => Member::NullImportDescriptor {
            machine,
            stem: (compat != 0).then(|| name(0)),
        },
        3 => Member::NullThunk {
            machine,
            stem: name(0),
        },
        4 => {
            let name_type = NameType::of(name_type);
            Member::ShortImport(ShortImport {
                machine,
                ordinal: ordinal as u16,
                name_type,
                kind: Kind::of(kind),
                symbol: name(0),
                dll: name(1),
                export: (name_type == NameType::ExportAs).then(|| name(2)),
            })
        }
        5 => Member::WeakExternal {
            machine,
            target: name(0),
            alias: name(1),
        },
        layout => panic!("no layout has the number {layout}"),
    })
}

impl NameType {
    fn of(number: u32) -> Self {
        match number {
            0 => Self::Ordinal,
            1 => Self::Name,
            2 => Self::NoPrefix,
            3 => Self::Undecorate,
            4 => Self::ExportAs,
            _ => panic!("no name type has the number {number}"),
        }
    }
}

impl Kind {
    fn of(number: u32) -> Self {
        match number {
            0 => Self::Code,
            1 => Self::Data,
            2 => Self::Const,
            _ => panic!("no kind has the number {number}"),
        }
    }
}

impl Member<'_> {
    pub fn machine(&self) -> Machine {
        match *self {
            Member::ImportDescriptor { machine, .. }
            | Member::NullImportDescriptor { machine, .. }
            | Member::NullThunk { machine, .. }
            | Member::ShortImport(ShortImport { machine, .. })
            | Member::WeakExternal { machine, .. } => machine,
        }
    }

    /// The symbols that can be looked up through it, each once; the fixed members have none in a list.
    pub fn symbols(&self) -> Vec<Vec<u8>> {
        match self {
            Member::ShortImport(short) => short.symbols(),
            Member::WeakExternal { alias, .. } => vec![alias.to_vec()],
            _ => Vec::new(),
        }
    }
}

impl ShortImport<'_> {
    fn symbols(&self) -> Vec<Vec<u8>> {
        let is_arm64ec = self.machine == Machine::ARM64EC;
        let demangled = is_arm64ec.then(|| demangled(self.symbol)).flatten();
        let shown = demangled.unwrap_or_else(|| self.symbol.to_vec());
        let mut symbols = vec![[b"__imp_", &shown[..]].concat()];
        if self.kind != Kind::Data {
            symbols.push(shown.clone());
            if is_arm64ec {
                symbols.push([b"__imp_aux_", &shown[..]].concat());
                if shown != self.symbol {
                    symbols.push(self.symbol.to_vec());
                }
            }
        }
        symbols
    }
}

/// An ARM64EC symbol without a leading `#`, or without the first `$$h` behind a leading `?`, where something follows it.
fn demangled(symbol: &[u8]) -> Option<Vec<u8>> {
    const MARK: &[u8] = b"$$h";
    match symbol {
        [b'#', rest @ ..] => (!rest.is_empty()).then(|| rest.to_vec()),
        [b'?', ..] => {
            let at = symbol.windows(MARK.len()).position(|part| part == MARK)?;
            let rest = &symbol[at + MARK.len()..];
            (!rest.is_empty()).then(|| [&symbol[..at], rest].concat())
        }
        _ => None,
    }
}
