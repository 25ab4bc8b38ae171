//! The members of deferred exports by a backward scan over their list, as the paper says it, beside those that were written.

use std::fmt;

use oracle::Case;
use oracle::ask::FIXED_MEMBERS;

use crate::asked::{self, Export, Maker};
use crate::content::{Content, Short};
use crate::judge::{Difference, same};
use crate::member_set::IMP;
use crate::order::word;
use crate::pe::{IMPORT_CODE, IMPORT_NAME_EXPORTAS};
use crate::reads;

/// How many deferred exports became aliases, how many of those of the last of several names with their key, and how many found
/// no key.
#[derive(Default)]
pub struct Seen {
    pub aliases: u64,
    pub contested: u64,
    pub strangers: u64,
}

impl fmt::Display for Seen {
    fn fmt(&self, text: &mut fmt::Formatter<'_>) -> fmt::Result {
        let Self {
            aliases,
            contested,
            strangers,
        } = self;
        write!(
            text,
            "{aliases} aliases, {contested} of them of the last of several names, {strangers} without a key"
        )
    }
}

impl Seen {
    /// Compares the members behind the short imports of both lists of a set.
    pub fn judge(&mut self, case: &Case, set: &[u8]) -> Result<(), Difference> {
        let members = reads::members(set)?;
        let (first, native) = members[FIXED_MEMBERS..].split_at(word(set, 4));
        let [for_first, for_native] = Maker::both(case.options);
        for (maker, records, members) in [
            (for_first, &case.list.first, first),
            (for_native, &case.list.native, native),
        ] {
            let exports = asked::exports(maker, records);
            let scanned = self.scan(&exports, &case.list.dll);
            let imports = exports.iter().filter(|export| export.wanted().is_none());
            behind(imports.count(), &scanned, members)
                .map_err(|what| Difference(format!("beside the scan: {what}\n{case:?}")))?;
        }
        Ok(())
    }

    fn scan(&mut self, exports: &[Export<'_>], dll: &[u8]) -> Vec<Vec<u8>> {
        let mut members = Vec::new();
        for export in exports {
            let Some(wanted) = export.wanted() else {
                continue;
            };
            let Some(import) = asked::last_with(exports, wanted) else {
                self.strangers += 1;
                members.push(stranger(export, wanted, dll));
                continue;
            };
            let mut with_key = exports.iter().filter(|other| other.key() == Some(wanted));
            let is_contested = with_key.any(|other| other.symbol != import.symbol);
            self.aliases += 1;
            self.contested += u64::from(is_contested);
            members.extend(alias(export, import));
        }
        members
    }
}

/// A deferred export whose import_name is no key.
fn stranger(export: &Export<'_>, wanted: &[u8], dll: &[u8]) -> Vec<u8> {
    Content::ShortImport(Short {
        machine: export.maker.machine,
        ordinal: export.record.ordinal,
        name_type: IMPORT_NAME_EXPORTAS,
        kind: export.kind(),
        symbol: &export.public,
        dll,
        export: Some(wanted),
    })
    .encode()
}

/// One of an import: for code without a prefix, and always with one.
fn alias(export: &Export<'_>, import: &Export<'_>) -> Vec<Vec<u8>> {
    let weak = |prefix: &[u8]| {
        Content::WeakExternal {
            machine: export.maker.machine,
            target: &[prefix, &import.symbol].concat(),
            alias: &[prefix, &export.public].concat(),
        }
        .encode()
    };
    if export.kind() == IMPORT_CODE {
        vec![weak(b""), weak(IMP)]
    } else {
        vec![weak(IMP)]
    }
}

/// Compares the members of a list behind so many.
fn behind(imports: usize, scanned: &[Vec<u8>], members: &[&[u8]]) -> Result<(), String> {
    same("members", imports + scanned.len(), members.len())?;
    for (wanted, got) in scanned.iter().zip(&members[imports..]) {
        if wanted != got {
            let [wanted, got] = [&wanted[..], got].map(Content::of);
            return Err(format!("wanted {wanted:?}, got {got:?}"));
        }
    }
    Ok(())
}
