//! What became of a list's records: the imports written at once and the
//! deferred exports behind them.

use crate::ask::{Member, Options, import_alone, public_name, short_symbol};
use crate::list::{NONAME, PRIVATE, Record};

const EXPORTAS: u16 = 4;
const TYPE_AT: usize = 18;

/// The fields of a short import that keys and aliases come from.
pub struct ShortImport<'a> {
    pub symbol: &'a [u8],
    pub name_type: u16,
    pub kind: u16,
}

impl<'a> ShortImport<'a> {
    /// Nothing for members of other layouts, which start with a machine.
    pub fn of(member: &'a Member) -> Option<Self> {
        let bytes = &member.bytes[..];
        if !bytes.starts_with(&[0, 0, 0xff, 0xff]) {
            return None;
        }
        let field = u16::from_le_bytes([bytes[TYPE_AT], bytes[TYPE_AT + 1]]);
        Some(Self {
            symbol: short_symbol(bytes),
            name_type: field >> 2,
            kind: field & 3,
        })
    }

    /// The name type applied to the symbol.
    pub fn key(&self) -> &'a [u8] {
        let trimmed = match self.symbol {
            [b'?' | b'@' | b'_', rest @ ..] => rest,
            symbol => symbol,
        };
        match self.name_type {
            2 => trimmed,
            3 => trimmed
                .split(|&byte| byte == b'@')
                .next()
                .unwrap_or(trimmed),
            _ => self.symbol,
        }
    }
}

/// An export that waits for the keys of its list.
pub struct Deferred<'a> {
    pub record: &'a Record,
    pub wanted: &'a [u8],
    pub public_name: Vec<u8>,
    /// Whether a record behind this one was written at once.
    pub before_written: bool,
}

/// An accepted list.
#[derive(Default)]
pub struct Written<'a> {
    pub imports: Vec<ShortImport<'a>>,
    pub deferred: Vec<Deferred<'a>>,
}

impl<'a> Written<'a> {
    /// `options` are those of a first list with these records.
    pub fn of(records: &'a [Record], members: &'a [Member], options: Options) -> Self {
        let mut written = Self::default();
        let mut at_once = 0;
        for record in records.iter().rev().filter(|record| !record.has(PRIVATE)) {
            match wanted(record, options) {
                None => at_once += 1,
                Some(wanted) => written.deferred.push(Deferred {
                    record,
                    wanted,
                    public_name: public_name(record).unwrap_or_default(),
                    before_written: at_once > 0,
                }),
            }
        }
        written.deferred.reverse();
        let imports = members[..at_once].iter().filter_map(ShortImport::of);
        written.imports = imports.collect();
        written
    }

    pub fn with_key(&self, key: &[u8]) -> impl Iterator<Item = &ShortImport<'a>> {
        self.imports
            .iter()
            .filter(move |import| import.key() == key)
    }
}

/// The name type of a record that is alone in its list.
pub fn type_alone(record: Record, options: Options) -> Option<u16> {
    let member = import_alone(record, options)?;
    Some(ShortImport::of(&member)?.name_type)
}

/// The name that a deferred export waits for. A deferred export that is alone
/// finds no key and becomes an exportas import.
fn wanted(record: &Record, options: Options) -> Option<&[u8]> {
    let wanted = record.import_name.as_deref()?;
    let settled = record.has(NONAME) || record.export_as.is_some() || options.is_hybrid();
    let deferred = !settled && type_alone(record.clone(), options) == Some(EXPORTAS);
    deferred.then_some(wanted)
}
