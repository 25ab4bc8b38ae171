//! Damaged sets: those that are member sets still are looked up in, and all others refused.

use std::fmt;

use oracle::ask::{AMD64, ARM64EC, ARM64X, FIXED_MEMBERS, I386};
use oracle::list::{CONSTANT, DATA, NONAME};
use oracle::rng::Rng;
use oracle::set::{ENTRY_SIZE, HEADER_SIZE};
use oracle::{Case, Record};

use crate::content::{Content, Short};
use crate::judge::{Difference, wanted};
use crate::looks::Question;
use crate::order::word;
use crate::pe::IMPORT_NAME_EXPORTAS;
use crate::reads;

const STRANGER: &[u8] = b"__imp_stranger";
const LONGEST_TAIL: usize = 24;

/// How many damaged sets were member sets still, and how many were refused.
#[derive(Default)]
pub struct Damaged {
    kept: u64,
    refused: u64,
}

impl fmt::Display for Damaged {
    fn fmt(&self, text: &mut fmt::Formatter<'_>) -> fmt::Result {
        let Self { kept, refused } = self;
        write!(text, "{kept} looked up in, {refused} refused")
    }
}

impl Damaged {
    /// Asks for a symbol in both lists and in none; in a member set, for each of its own in its list.
    fn judge(&mut self, bytes: &[u8]) -> Result<(), Difference> {
        let question = Question::of(bytes);
        for list in 0..4 {
            question.judge(list, STRANGER)?;
        }
        let Some(set) = &question.set else {
            self.refused += 1;
            return Ok(());
        };
        for list in [1, 2] {
            for symbol in set.list(list).iter().flat_map(|member| &member.symbols) {
                question.judge(list, symbol)?;
            }
        }
        self.kept += 1;
        Ok(())
    }
}

/// The members of a set, and the numbers of both lists.
#[derive(Clone)]
struct Parts {
    members: Vec<Vec<u8>>,
    counts: [u32; 2],
}

impl Parts {
    fn of(set: &[u8]) -> Result<Self, Difference> {
        let members = reads::members(set)?;
        Ok(Self {
            members: members.into_iter().map(<[u8]>::to_vec).collect(),
            counts: [4, 8].map(|at| word(set, at) as u32),
        })
    }

    /// The set of these members, back to back.
    fn laid_out(&self) -> Vec<u8> {
        self.laid_out_behind(&[])
    }

    /// With bytes between the directory and the first member.
    fn laid_out_behind(&self, gap: &[u8]) -> Vec<u8> {
        let count = self.members.len();
        let mut at = HEADER_SIZE + ENTRY_SIZE * count + gap.len();
        let [first, native] = self.counts;
        let mut numbers = vec![count as u32, first, native, at as u32];
        for member in &self.members {
            numbers.extend([at, member.len()].map(|number| number as u32));
            at += member.len();
        }
        let front: Vec<u8> = numbers.into_iter().flat_map(u32::to_le_bytes).collect();
        [&front[..], gap, &self.members.concat()].concat()
    }

    /// One member fewer or more, counted in the first list, or in the native one where that has them all.
    fn counted(mut self) -> Self {
        let listed = self.members.len().saturating_sub(FIXED_MEMBERS) as u32;
        let native = self.counts[1].min(listed);
        self.counts = [listed - native, native];
        self
    }
}

/// Small sets with every answer: of short imports of each type, of aliases of code and data, and of ARM64EC.
fn samples() -> Vec<Vec<u8>> {
    let code = Record::new("f").ordinal(5);
    let data = Record::new("d").flags(DATA);
    let numbered = Record::new("n").flags(NONAME).ordinal(257);
    let aliases = [
        Record::new("g").import_name("f"),
        Record::new("p").import_name("d"),
    ];
    let first = [&[code.clone(), data, numbered][..], &aliases].concat();
    let decorated = [
        Record::new("_f"),
        Record::new("_").flags(CONSTANT),
        Record::new("f@8").symbol_name("_f@8"),
        Record::new("x").export_as("y"),
    ];
    let hybrid = [
        Record::new("f"),
        Record::new("?h$$hx"),
        Record::new("#").export_as("x"),
        Record::new("d").flags(DATA),
    ];
    let cases = [
        Case::new(AMD64, &first).native(std::slice::from_ref(&code)),
        Case::new(I386, &decorated).compat(),
        Case::new(ARM64X, &hybrid).native(&[code, aliases[0].clone()]),
    ];
    let set = |case: &Case| wanted(case, &case.answer()).expect("a sample is written");
    cases.iter().map(set).collect()
}

/// Behind the fixed members of a set, what no list is written as: aliases of aliases, of themselves and of nothing, two that
/// define one symbol, and members of several machines.
fn unwritten(set: &[u8]) -> Result<Vec<u8>, Difference> {
    let weak = |alias: &[u8], target: &[u8]| {
        let machine = AMD64;
        let weak = Content::WeakExternal {
            machine,
            target,
            alias,
        };
        weak.encode()
    };
    let short = |machine: u32, name_type: u16, symbol: &[u8]| {
        let short = Short {
            machine,
            ordinal: 0x107,
            name_type,
            kind: 0,
            symbol,
            dll: b"b.dll",
            export: (name_type == IMPORT_NAME_EXPORTAS).then_some(b"x"),
        };
        Content::ShortImport(short).encode()
    };
    let first = [
        weak(b"g", b"f"),
        weak(b"f", b"h"),
        short(AMD64, 1, b"h"),
        short(AMD64, 0, b"h"),
        weak(b"s", b"s"),
        weak(b"n", b"none"),
        weak(b"e", b"__imp_aux_?ab"),
        short(ARM64EC, 3, b"?a$$hb"),
        short(ARM64EC, 2, b"?c$$h"),
        short(ARM64EC, 2, b"#"),
        short(ARM64EC, 4, b"d$$hd"),
        short(I386, 3, b"?@f"),
    ];
    let mut parts = Parts::of(set)?;
    parts.members.truncate(FIXED_MEMBERS);
    parts.counts = [first.len() as u32, 1];
    parts.members.extend(first);
    parts.members.push(short(AMD64, 1, b"f"));
    Ok(parts.laid_out())
}

/// Every damage to the samples.
pub fn every(damaged: &mut Damaged) -> Result<(), Difference> {
    let mut samples = samples();
    samples.push(unwritten(&samples[0])?);
    let others: Vec<Vec<u8>> = samples
        .iter()
        .map(|set| Parts::of(set).map(|parts| parts.members))
        .collect::<Result<Vec<_>, _>>()?
        .concat();
    for set in &samples {
        damaged.judge(set)?;
        bytes(set, damaged)?;
        let parts = Parts::of(set)?;
        members(&parts, &others, damaged)?;
        counts(&parts, damaged)?;
        directory(&parts, damaged)?;
    }
    Ok(())
}

/// Each other byte in the header and directory, some in the members, each shorter set and some longer ones.
fn bytes(set: &[u8], damaged: &mut Damaged) -> Result<(), Difference> {
    let members_at = word(set, 12);
    let mut changed = set.to_vec();
    for at in 0..set.len() {
        let old = set[at];
        let in_front: Vec<u8> = (0..=u8::MAX).collect();
        let in_member = [0, 1, 3, 0xFF, b'.', b'/', old ^ 1, old ^ 4, old ^ 0x80];
        let others = if at < members_at {
            &in_front[..]
        } else {
            &in_member
        };
        for &other in others.iter().filter(|&&other| other != old) {
            changed[at] = other;
            damaged.judge(&changed)?;
        }
        changed[at] = old;
        damaged.judge(&set[..at])?;
    }
    for length in 1..=LONGEST_TAIL {
        for byte in [0, 0xFF] {
            damaged.judge(&[set, &vec![byte; length]].concat())?;
        }
    }
    damaged.judge(&[set, set].concat())
}

/// Members that change places, go, come twice, are empty, or are others.
fn members(parts: &Parts, others: &[Vec<u8>], damaged: &mut Damaged) -> Result<(), Difference> {
    let count = parts.members.len();
    let mut judge = |change: &dyn Fn(&mut Vec<Vec<u8>>)| {
        let mut parts = parts.clone();
        change(&mut parts.members);
        damaged.judge(&parts.laid_out())?;
        damaged.judge(&parts.counted().laid_out())
    };
    for i in 0..count {
        for j in 0..count {
            judge(&|members| members.swap(i, j))?;
            judge(&|members| {
                let moved = members.remove(i);
                members.insert(j, moved);
            })?;
        }
        judge(&|members| drop(members.remove(i)))?;
        judge(&|members| members.truncate(i))?;
        judge(&|members| members.insert(i, Vec::new()))?;
        judge(&|members| members[i].clear())?;
        judge(&|members| members[i].push(0))?;
        for other in others {
            judge(&|members| members[i].clone_from(other))?;
            judge(&|members| members.insert(i, other.clone()))?;
        }
    }
    Ok(())
}

/// Counts shifted between the lists, that come to another sum, and that come to it modulo 2^32 only.
fn counts(parts: &Parts, damaged: &mut Damaged) -> Result<(), Difference> {
    let listed = parts.counts[0] + parts.counts[1];
    let mut judge = |counts: [u32; 2]| {
        let members = parts.members.clone();
        damaged.judge(&Parts { members, counts }.laid_out())
    };
    for first in 0..=listed + 1 {
        for native in 0..=listed + 1 {
            judge([first, native])?;
        }
        for half in [0, 1 << 31, u32::MAX - listed] {
            let first = half + first;
            judge([first, listed.wrapping_sub(first)])?;
            judge([listed.wrapping_sub(first), first])?;
        }
    }
    Ok(())
}

/// Entries that change places or are another's, and members that do not stand back to back behind the directory.
fn directory(parts: &Parts, damaged: &mut Damaged) -> Result<(), Difference> {
    let set = parts.laid_out();
    let count = parts.members.len();
    let entry = |index: usize| {
        let at = HEADER_SIZE + ENTRY_SIZE * index;
        at..at + ENTRY_SIZE
    };
    for i in 0..count {
        for j in 0..count {
            let mut swapped = set.clone();
            swapped[entry(i)].copy_from_slice(&set[entry(j)]);
            damaged.judge(&swapped)?;
            swapped[entry(j)].copy_from_slice(&set[entry(i)]);
            damaged.judge(&swapped)?;
        }
    }
    for gap in 1..=LONGEST_TAIL {
        let gapped = parts.laid_out_behind(&vec![0; gap]);
        damaged.judge(&gapped)?;
        let mut told = gapped;
        told[12..16].copy_from_slice(&set[12..16]);
        damaged.judge(&told)?;
    }
    Ok(())
}

/// One or two changes to a set.
pub fn random(set: &[u8], rng: &mut Rng, damaged: &mut Damaged) -> Result<(), Difference> {
    let mut parts = Parts::of(set)?;
    let count = parts.members.len();
    for _ in 0..=rng.below(2) {
        let (i, j) = (rng.below(count), rng.below(count));
        match rng.below(6) {
            0 => parts.members.swap(i, j),
            1 => parts.members[i] = parts.members[j].clone(),
            2 => parts.counts.swap(0, 1),
            3 => {
                let at = rng.below(parts.members[i].len());
                parts.members[i][at] = rng.draw() as u8;
            }
            4 => {
                let at = rng.below(parts.members[i].len());
                parts.members[i][at] ^= 1 << rng.below(8);
            }
            _ => {
                let shifted = rng.below(count) as u32;
                parts.counts[0] = parts.counts[0].wrapping_add(shifted);
                parts.counts[1] = parts.counts[1].wrapping_sub(shifted);
            }
        }
    }
    let mut set = parts.laid_out();
    if rng.one_in(3) {
        let front = word(&set, 12);
        let at = rng.below(front);
        set[at] ^= 1 << rng.below(8);
    }
    damaged.judge(&set)
}
