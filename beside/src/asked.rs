//! What the records of a list ask for, and where each symbol of its exports is to lead.

use oracle::ask::{ARM64EC, I386};
use oracle::list::{CONSTANT, DATA, NONAME, PRIVATE};
use oracle::{Options, Record};

use crate::judge::same;
use crate::member_set::{IMP, short_symbols};
use crate::pe::{
    IMPORT_CODE, IMPORT_CONST, IMPORT_DATA, IMPORT_NAME, IMPORT_NAME_EXPORTAS,
    IMPORT_NAME_NOPREFIX, IMPORT_NAME_UNDECORATE, IMPORT_ORDINAL,
};
use crate::plain::{apply_name_type, demangled, get_name_type, replace};

/// Where a symbol is to lead: an entry of the DLL by its ordinal or its name, nowhere, or no member has it.
#[derive(Clone, Debug, PartialEq)]
pub enum Where {
    NotFound,
    Nowhere,
    Ordinal(u32),
    Name(Vec<u8>),
}

/// A symbol of an export, with where it is to lead.
pub type Leading = (Vec<u8>, Where);

/// What each list is made for.
#[derive(Clone, Copy)]
pub struct Maker {
    pub machine: u32,
    pub mingw: bool,
}

impl Maker {
    /// Those of the first and of the native list.
    pub fn both(options: Options) -> [Self; 2] {
        let native = options.for_native().machine;
        let first = if options.is_hybrid() { ARM64EC } else { native };
        let mingw = options.mingw;
        [first, native].map(|machine| Self { machine, mingw })
    }
}

/// An export that is not private.
pub struct Export<'a> {
    pub maker: Maker,
    pub record: &'a Record,
    pub public: Vec<u8>,
    /// The final name: the symbol of its short import.
    pub symbol: Vec<u8>,
    /// None for one that waits for the keys of its list.
    name_type: Option<u16>,
}

impl<'a> Export<'a> {
    fn of(maker: Maker, record: &'a Record) -> Self {
        let name = record.name.as_deref().expect("a record has a name");
        let base = record.symbol_name.as_deref().unwrap_or(name);
        let public = match &record.ext_name {
            Some(ext_name) => replace(base, name, ext_name).expect("a written list is renamed"),
            None => base.to_vec(),
        };
        let is_hybrid = is_hybrid_code(maker, record);
        let gives = |name_type, wanted: &[u8]| apply_name_type(name_type, &public) == wanted;
        let name_type = match (&record.export_as, &record.import_name) {
            _ if record.has(NONAME) => Some(IMPORT_ORDINAL),
            (Some(_), _) => Some(IMPORT_NAME_EXPORTAS),
            (None, Some(wanted)) => match maker.machine {
                I386 if gives(IMPORT_NAME_UNDECORATE, wanted) => Some(IMPORT_NAME_UNDECORATE),
                I386 if gives(IMPORT_NAME_NOPREFIX, wanted) => Some(IMPORT_NAME_NOPREFIX),
                ARM64EC => Some(IMPORT_NAME_EXPORTAS),
                _ => (public == *wanted).then_some(IMPORT_NAME),
            },
            (None, None) if is_hybrid => Some(IMPORT_NAME_EXPORTAS),
            (None, None) => Some(get_name_type(base, name, maker.machine, maker.mingw)),
        };
        let symbol = if is_hybrid && !matches!(public[0], b'?' | b'#') {
            [b"#", &public[..]].concat()
        } else {
            public.clone()
        };
        Self {
            maker,
            record,
            public,
            symbol,
            name_type,
        }
    }

    pub fn kind(&self) -> u16 {
        kind(self.record)
    }

    /// What it waits for, if it is deferred.
    pub fn wanted(&self) -> Option<&[u8]> {
        let wanted = self.record.import_name.as_deref();
        wanted.filter(|_| self.name_type.is_none())
    }

    /// Its type applied to its final name; a deferred one has none.
    pub fn key(&self) -> Option<&[u8]> {
        self.name_type
            .map(|name_type| apply_name_type(name_type, &self.symbol))
    }

    fn asks(&self) -> Where {
        let record = self.record;
        if record.has(NONAME) {
            return Where::Ordinal(record.ordinal.into());
        }
        if let Some(name) = record.export_as.as_ref().or(record.import_name.as_ref()) {
            return Where::Name(name.clone());
        }
        if is_hybrid_code(self.maker, record) {
            return Where::Name(demangled(&self.symbol).expect("a written list is demangled"));
        }
        let name_type = self.name_type.expect("only an import_name waits");
        Where::Name(apply_name_type(name_type, &self.public).to_vec())
    }

    fn short_leadings(&self) -> Vec<Leading> {
        let symbols = short_symbols(self.maker.machine, self.kind(), &self.symbol);
        let lead = |symbol| (symbol, self.asks());
        symbols.into_iter().map(lead).collect()
    }

    /// Of an alias: the public name with `__imp_`, and if code without, which leads nowhere where the import is data.
    fn alias_leadings(&self, import: &Export<'_>) -> Vec<Leading> {
        let mut leadings = vec![([IMP, &self.public].concat(), import.asks())];
        if self.kind() == IMPORT_CODE {
            let place = match import.kind() {
                IMPORT_DATA => Where::Nowhere,
                _ => import.asks(),
            };
            leadings.push((self.public.clone(), place));
        }
        leadings
    }
}

fn kind(record: &Record) -> u16 {
    match (record.has(CONSTANT), record.has(DATA)) {
        (true, _) => IMPORT_CONST,
        (false, true) => IMPORT_DATA,
        _ => IMPORT_CODE,
    }
}

fn is_hybrid_code(maker: Maker, record: &Record) -> bool {
    maker.machine == ARM64EC && kind(record) == IMPORT_CODE
}

/// The exports of a list that are not private.
pub fn exports(maker: Maker, records: &[Record]) -> Vec<Export<'_>> {
    let exports = records.iter().filter(|record| !record.has(PRIVATE));
    exports.map(|record| Export::of(maker, record)).collect()
}

/// The last import of a list with a key, by a scan from its end.
pub fn last_with<'e, 'a>(exports: &'e [Export<'a>], wanted: &[u8]) -> Option<&'e Export<'a>> {
    exports.iter().rfind(|export| export.key() == Some(wanted))
}

/// What a written list asks for.
pub struct Asked {
    pub leadings: Vec<Leading>,
    /// No public name begins with `__imp_`.
    pub is_unprefixed: bool,
}

impl Asked {
    pub fn of(maker: Maker, records: &[Record]) -> Self {
        let exports = exports(maker, records);
        let leadings = |export: &Export<'_>| {
            let answering = |wanted| last_with(&exports, wanted);
            match export.wanted().and_then(answering) {
                Some(import) => export.alias_leadings(import),
                None => export.short_leadings(),
            }
        };
        Self {
            leadings: exports.iter().flat_map(leadings).collect(),
            is_unprefixed: !exports.iter().any(|export| export.public.starts_with(IMP)),
        }
    }
    /// Holds where a symbol leads to the list. Any symbol but the list's own is in no member; its own are in one, and lead where
    /// their records ask if the list is kept: no two members define one symbol, and no public name begins with `__imp_`.
    pub fn hold(&self, symbol: &[u8], found: &Where, is_kept: bool) -> Result<(), String> {
        let own = self.leadings.iter().filter(|(own, _)| own == symbol);
        let mut places = own.map(|(_, place)| place).peekable();
        if places.peek().is_none() {
            return same("a symbol of no export", &Where::NotFound, found);
        }
        if is_kept {
            return places.try_for_each(|place| same("what the record asks for", place, found));
        }
        same(
            "an export's symbol is found",
            true,
            *found != Where::NotFound,
        )
    }
}
