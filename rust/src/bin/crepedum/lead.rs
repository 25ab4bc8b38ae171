//! Where a symbol leads, in words and in JSON.

use std::fmt;

use crepedum::{ExportList, Led, Machine, Options};

use crate::json::Json;
use crate::text::shown;

/// What a lookup answered, kept apart from the bytes that were asked.
pub enum Lead {
    NotFound,
    Nowhere,
    Ordinal(u16),
    Name(Vec<u8>),
    /// An alias that is asked alone: its target is in another member.
    Target,
}

impl From<Led<'_>> for Lead {
    fn from(led: Led<'_>) -> Self {
        match led {
            Led::NotFound => Self::NotFound,
            Led::Nowhere => Self::Nowhere,
            Led::Ordinal(ordinal) => Self::Ordinal(ordinal),
            Led::Name(name) => Self::Name(name.to_vec()),
        }
    }
}

impl Lead {
    /// Where a symbol of an import leads that stands in no set. The library looks up in sets only, so one is made around it.
    pub fn of_import(import: &[u8], symbol: &[u8]) -> Self {
        let set = set_of_one(import);
        let led = crepedum::lookup(&set, 1, symbol);
        led.expect("an import behind fixed members is a set").into()
    }

    pub fn json(&self) -> Vec<(&'static str, Json)> {
        let what = |what| ("leads_to", Json::text(what));
        match self {
            Self::NotFound => vec![what("not found")],
            Self::Nowhere => vec![what("nowhere")],
            Self::Ordinal(ordinal) => {
                vec![
                    what("ordinal"),
                    ("ordinal", Json::Number(usize::from(*ordinal))),
                ]
            }
            Self::Name(name) => vec![what("name"), ("name", Json::name(name))],
            Self::Target => vec![what("target")],
        }
    }
}

impl fmt::Display for Lead {
    fn fmt(&self, text: &mut fmt::Formatter<'_>) -> fmt::Result {
        match self {
            Self::NotFound => text.write_str("not found"),
            Self::Nowhere => text.write_str("nowhere"),
            Self::Ordinal(ordinal) => write!(text, "ordinal {ordinal}"),
            Self::Name(name) => write!(text, "name {}", shown(name)),
            Self::Target => text.write_str("its target"),
        }
    }
}

/// The set whose first list has this member alone. A set asks no agreement between its members, so any DLL's fixed ones do.
fn set_of_one(member: &[u8]) -> Vec<u8> {
    const HEADER: usize = 16;
    const ENTRY: usize = 8;
    let list = ExportList::new("a.dll").encode();
    let fixed = crepedum::write(&list, Options::new(Machine::AMD64)).expect("the list is good");
    let fixed = crepedum::MemberSet::of(&fixed).expect("a written set is one");
    let members: Vec<&[u8]> = fixed
        .members()
        .map(|listed| listed.bytes)
        .chain([member])
        .collect();
    let mut at = HEADER + ENTRY * members.len();
    let mut words = vec![members.len(), 1, 0, at];
    for member in &members {
        words.extend([at, member.len()]);
        at += member.len();
    }
    let mut set: Vec<u8> = words
        .into_iter()
        .flat_map(|word| (word as u32).to_le_bytes())
        .collect();
    set.extend(members.concat());
    set
}
