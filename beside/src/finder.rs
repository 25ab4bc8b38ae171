//! A plain lookup, each member read once and nothing built: what the library's is measured against.

use oracle::ask::{ARM64EC, FIXED_MEMBERS};
use oracle::set::{ENTRY_SIZE, HEADER_SIZE};

use crate::content::Read;
use crate::member_set::Looked;
use crate::order::word;
use crate::reader;

const SHORT: u32 = 4;
const WEAK: u32 = 5;
const DATA: u32 = 1;

/// Where a symbol leads, or nothing where the bytes are no member set.
pub fn lookup(set: &[u8], list: u32, symbol: &[u8]) -> Option<Looked> {
    let members = members(set)?;
    let firsts = word(set, 4);
    let (first, native) = members[FIXED_MEMBERS..].split_at(firsts);
    let members = match list {
        1 => first,
        2 => native,
        _ => return Some(Looked::NotFound),
    };
    let definer = |symbol: &[u8]| members.iter().find(|member| member.defines(symbol));
    Some(match definer(symbol) {
        None => Looked::NotFound,
        Some(found) if found.read.layout == SHORT => found.entry(),
        Some(found) => match definer(found.name(0)) {
            Some(target) if target.read.layout == SHORT => target.entry(),
            _ => Looked::Nowhere,
        },
    })
}

/// A member that was read, with its place.
struct Found<'a> {
    at: usize,
    bytes: &'a [u8],
    read: Read,
}

fn members(set: &[u8]) -> Option<Vec<Found<'_>>> {
    let header = set.get(..HEADER_SIZE)?;
    let count = word(header, 0);
    let mut at = word(header, 12);
    if count != FIXED_MEMBERS + word(header, 4) + word(header, 8)
        || at != HEADER_SIZE + ENTRY_SIZE * count
    {
        return None;
    }
    let directory = set.get(HEADER_SIZE..at)?;
    let mut members = Vec::with_capacity(count);
    for (index, entry) in directory.chunks_exact(ENTRY_SIZE).enumerate() {
        let length = word(entry, 4);
        if word(entry, 0) != at {
            return None;
        }
        let bytes = set.get(at..at + length)?;
        let read = reader::read(bytes)?;
        let is_in_order = match index {
            0..FIXED_MEMBERS => read.layout as usize == index + 1,
            _ => matches!(read.layout, SHORT | WEAK),
        };
        if !is_in_order {
            return None;
        }
        members.push(Found { at, bytes, read });
        at += length;
    }
    (at == set.len()).then_some(members)
}

impl<'a> Found<'a> {
    fn place(&self, name: usize) -> (usize, usize) {
        let at = 5 + 2 * name;
        (
            self.read.fields[at] as usize,
            self.read.fields[at + 1] as usize,
        )
    }

    fn name(&self, name: usize) -> &'a [u8] {
        let (start, length) = self.place(name);
        &self.bytes[start..start + length]
    }

    fn entry(&self) -> Looked {
        let [_, ordinal, name_type, ..] = self.read.fields;
        let ((start, length), symbol) = (self.place(0), self.name(0));
        let (start, length) = match name_type {
            0 => return Looked::Ordinal(ordinal),
            2 | 3 => {
                let dropped = usize::from(matches!(symbol[0], b'?' | b'@' | b'_'));
                let rest = &symbol[dropped..];
                let at_sign = rest.iter().position(|&byte| byte == b'@');
                let end = at_sign.filter(|_| name_type == 3).unwrap_or(rest.len());
                (start + dropped, end)
            }
            4 => self.place(2),
            _ => (start, length),
        };
        Looked::Name((self.at + start) as u32, length as u32)
    }

    fn defines(&self, symbol: &[u8]) -> bool {
        if self.read.layout == WEAK {
            return self.name(1) == symbol;
        }
        let own = self.name(0);
        let [machine, _, _, kind, ..] = self.read.fields;
        let (head, tail) = if machine == ARM64EC {
            halves(own)
        } else {
            (own, &b""[..])
        };
        let is_shown = |symbol: &[u8]| symbol.strip_prefix(head) == Some(tail);
        symbol.strip_prefix(b"__imp_").is_some_and(is_shown)
            || kind != DATA
                && (is_shown(symbol)
                    || machine == ARM64EC
                        && (symbol == own
                            || symbol.strip_prefix(b"__imp_aux_").is_some_and(is_shown)))
    }
}

/// What stands before and behind what demangling takes out.
fn halves(symbol: &[u8]) -> (&[u8], &[u8]) {
    match symbol {
        [b'#', rest @ ..] if !rest.is_empty() => (rest, b""),
        [b'?', ..] => {
            let at = symbol.windows(3).position(|part| part == b"$$h");
            match at {
                Some(at) if at + 3 < symbol.len() => (&symbol[..at], &symbol[at + 3..]),
                _ => (symbol, b""),
            }
        }
        _ => (symbol, b""),
    }
}
