//! A member set read back, and where a symbol leads in it, by the words of the scope paper.

use std::collections::BTreeMap;

use oracle::ask::{ARM64EC, FIXED_MEMBERS};
use oracle::set::HEADER_SIZE;

use crate::content::{Content, Short};
use crate::order::word;
use crate::pe::{
    IMPORT_DATA, IMPORT_NAME_EXPORTAS, IMPORT_NAME_NOPREFIX, IMPORT_NAME_UNDECORATE, IMPORT_ORDINAL,
};
use crate::{layouts, plain};

pub const IMP: &[u8] = b"__imp_";
const IMP_AUX: &[u8] = b"__imp_aux_";

/// Where the fields of a reader have the start of a short import's symbol, and that of its export string.
const SYMBOL_FIELD: usize = 5;
const EXPORT_FIELD: usize = 9;

/// Where a symbol leads: an ordinal, or a name by its start in the set and its length.
#[derive(Clone, Copy, Debug, PartialEq)]
pub enum Looked {
    NotFound,
    Nowhere,
    Ordinal(u32),
    Name(u32, u32),
}

/// The name, on ARM64EC demangled where that succeeds.
fn shown(machine: u32, symbol: &[u8]) -> Vec<u8> {
    let is_mangled = machine == ARM64EC && matches!(symbol.first(), Some(b'#' | b'?'));
    let demangled = is_mangled.then(|| plain::demangled(symbol)).flatten();
    demangled.unwrap_or_else(|| symbol.to_vec())
}

/// The symbols that a short import defines.
pub fn short_symbols(machine: u32, kind: u16, symbol: &[u8]) -> Vec<Vec<u8>> {
    let shown = shown(machine, symbol);
    let mut symbols = vec![[IMP, &shown].concat()];
    if kind != IMPORT_DATA {
        symbols.push(shown.clone());
        if machine == ARM64EC {
            symbols.push([IMP_AUX, &shown].concat());
            symbols.push(symbol.to_vec());
        }
    }
    symbols
}

/// The symbols that a member defines.
pub fn symbols(content: &Content<'_>) -> Vec<Vec<u8>> {
    match *content {
        Content::ShortImport(short) => short_symbols(short.machine, short.kind, short.symbol),
        Content::WeakExternal { alias, .. } => vec![alias.to_vec()],
        _ => Vec::new(),
    }
}

/// Which place a member may take; those of the lists come after the fixed ones.
fn rank(content: &Content<'_>) -> usize {
    match content {
        Content::Descriptor { .. } => 0,
        Content::NullDescriptor { .. } => 1,
        Content::NullThunk { .. } => 2,
        Content::ShortImport(_) | Content::WeakExternal { .. } => FIXED_MEMBERS,
    }
}

/// A member of a list, with its place in the set and what it defines.
pub struct Placed<'a> {
    at: usize,
    content: Content<'a>,
    pub symbols: Vec<Vec<u8>>,
}

impl Placed<'_> {
    fn defines(&self, symbol: &[u8]) -> bool {
        self.symbols.iter().any(|own| own == symbol)
    }

    /// The DLL entry of a short import.
    fn entry(&self, short: &Short<'_>) -> Looked {
        let fields = self.content.told().fields;
        let start = |field: usize| self.at as u32 + fields[field];
        match short.name_type {
            IMPORT_ORDINAL => Looked::Ordinal(short.ordinal.into()),
            IMPORT_NAME_EXPORTAS => Looked::Name(start(EXPORT_FIELD), fields[EXPORT_FIELD + 1]),
            name_type => {
                let is_dropped = matches!(name_type, IMPORT_NAME_NOPREFIX | IMPORT_NAME_UNDECORATE)
                    && matches!(short.symbol[0], b'?' | b'@' | b'_');
                let name = plain::apply_name_type(name_type, short.symbol);
                Looked::Name(
                    start(SYMBOL_FIELD) + u32::from(is_dropped),
                    name.len() as u32,
                )
            }
        }
    }
}

/// The members of both lists of a valid set.
pub struct MemberSet<'a> {
    members: Vec<Placed<'a>>,
    firsts: usize,
}

impl<'a> MemberSet<'a> {
    /// Nothing where the bytes are no member set.
    pub fn of(set: &'a [u8]) -> Option<Self> {
        let header = set.get(..HEADER_SIZE)?;
        let firsts = word(header, 4);
        let members = layouts::members(set, [firsts, word(header, 8)]).ok()?;
        let mut at = word(header, 12);
        let mut placed = Vec::new();
        for (index, member) in members.into_iter().enumerate() {
            let content = Content::of(member)?;
            if rank(&content) != index.min(FIXED_MEMBERS) {
                return None;
            }
            let symbols = symbols(&content);
            placed.push(Placed {
                at,
                content,
                symbols,
            });
            at += member.len();
        }
        placed.drain(..FIXED_MEMBERS);
        Some(Self {
            members: placed,
            firsts,
        })
    }

    /// The members of list 1 or 2; another number has none.
    pub fn list(&self, number: u32) -> &[Placed<'a>] {
        match number {
            1 => &self.members[..self.firsts],
            2 => &self.members[self.firsts..],
            _ => &[],
        }
    }

    /// The first member that defines a symbol answers; a weak external takes one step.
    pub fn lookup(&self, list: u32, symbol: &[u8]) -> Looked {
        let members = self.list(list);
        let definer = |symbol: &[u8]| members.iter().find(|member| member.defines(symbol));
        let Some(found) = definer(symbol) else {
            return Looked::NotFound;
        };
        let target = match &found.content {
            Content::ShortImport(short) => return found.entry(short),
            Content::WeakExternal { target, .. } => definer(target),
            _ => None,
        };
        match target.map(|target| (target, &target.content)) {
            Some((target, Content::ShortImport(short))) => target.entry(short),
            _ => Looked::Nowhere,
        }
    }

    /// Whether no two members of a list define one symbol.
    pub fn is_distinct(&self, list: u32) -> bool {
        let mut owners = BTreeMap::new();
        let members = self.list(list).iter().enumerate();
        members
            .flat_map(|(owner, member)| member.symbols.iter().map(move |symbol| (symbol, owner)))
            .all(|(symbol, owner)| *owners.entry(symbol).or_insert(owner) == owner)
    }
}
