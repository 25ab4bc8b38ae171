//! A member set, its members, and where symbols lead in it.

use crate::raw;
use crate::refusal::Refusal;

const HEADER_SIZE: usize = 16;
const ENTRY_SIZE: usize = 8;
const FIXED_MEMBERS: usize = 3;
const NO_LIST: u32 = 0;

/// Where a symbol leads in one list of a member set. A name is a part of the set.
#[derive(Clone, Copy, Debug, PartialEq, Eq)]
pub enum Led<'a> {
    /// No member of the list defines it.
    NotFound,
    /// An alias whose target no import of the list defines.
    Nowhere,
    Ordinal(u16),
    Name(&'a [u8]),
}

/// Looks a symbol up in list 1 or 2 of a member set, from its bytes alone. In any other list nothing is found.
pub fn lookup<'a>(set: &'a [u8], list: u32, symbol: &[u8]) -> Result<Led<'a>, Refusal> {
    let mut fields = [0; 2];
    let answer = raw::lookup(set, list, symbol, &mut fields);
    if let Some(refusal) = Refusal::of(answer) {
        return Err(refusal);
    }
    let [start, length] = fields.map(|field| field as usize);
    Ok(match answer {
        0 => Led::NotFound,
        1 => Led::Nowhere,
        2 => Led::Ordinal(start as u16),
        3 => Led::Name(&set[start..start + length]),
        _ => panic!("no answer of a lookup has the number {answer}"),
    })
}

/// Bytes that are a member set.
#[derive(Clone, Copy, Debug)]
pub struct MemberSet<'a> {
    bytes: &'a [u8],
}

/// A member of a set: its bytes, where they start in it, and the list in which it stands.
#[derive(Clone, Copy, Debug, PartialEq, Eq)]
pub struct Listed<'a> {
    pub bytes: &'a [u8],
    pub offset: usize,
    /// 1 or 2; nothing for the three fixed members.
    pub list: Option<u32>,
}

impl<'a> MemberSet<'a> {
    /// Refusal 17 where the bytes are no member set.
    pub fn of(bytes: &'a [u8]) -> Result<Self, Refusal> {
        lookup(bytes, NO_LIST, b"").map(|_| Self { bytes })
    }

    pub fn bytes(&self) -> &'a [u8] {
        self.bytes
    }

    fn word(&self, at: usize) -> usize {
        let word = self.bytes[at..at + 4].try_into().expect("four bytes");
        u32::from_le_bytes(word) as usize
    }

    /// The members in their order.
    pub fn members(&self) -> impl Iterator<Item = Listed<'a>> + '_ {
        let (count, firsts) = (self.word(0), self.word(4));
        (0..count).map(move |index| {
            let entry = HEADER_SIZE + ENTRY_SIZE * index;
            let offset = self.word(entry);
            let list = index
                .checked_sub(FIXED_MEMBERS)
                .map(|place| if place < firsts { 1 } else { 2 });
            Listed {
                bytes: &self.bytes[offset..offset + self.word(entry + 4)],
                offset,
                list,
            }
        })
    }

    /// Where a symbol leads in list 1 or 2.
    pub fn lookup(&self, list: u32, symbol: &[u8]) -> Led<'a> {
        lookup(self.bytes, list, symbol).expect("the bytes are a member set")
    }
}
