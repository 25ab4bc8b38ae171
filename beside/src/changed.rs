//! Changed members: those that are members still are read, and all others refused.

use oracle::ask::ARM64EC;
use oracle::rng::Rng;

use crate::content::{
    Content, LONGEST_DLL, LONGEST_SHORT, LONGEST_WEAK, OBJECT_MACHINES, SHORT_MACHINES, Short,
};
use crate::judge::Difference;
use crate::pe::{IMPORT_CONST, IMPORT_NAME_EXPORTAS};
use crate::plain::stem;
use crate::reads;

const DLLS: [&[u8]; 3] = [b"a", b"att.dll", b".\xE9.b"];
const LONGEST_NOISE: usize = 400;
/// Bytes that ends, signs, dots and barred names are made of.
const EDGES: [u8; 9] = [0, 1, 2, 0x7F, 0xFF, b'.', b'/', b'_', b'$'];

/// How many inputs were members, and how many were refused.
#[derive(Default)]
struct Tally {
    read: u64,
    refused: u64,
}

impl Tally {
    fn judge(&mut self, member: &[u8]) -> Result<(), Difference> {
        if reads::judge(member)? {
            self.read += 1;
        } else {
            self.refused += 1;
        }
        Ok(())
    }
}

/// Each change of one byte, each shorter member and each longer by one byte; then as many at random as are asked for.
pub fn changed(count: u64, seed: u64) -> Result<String, Difference> {
    let samples: Vec<Vec<u8>> = samples().iter().map(Content::encode).collect();
    let mut every = Tally::default();
    for sample in &samples {
        every_change(sample, &mut every)?;
    }
    let mut rng = Rng::new(seed);
    let mut random = Tally::default();
    for _ in 0..count {
        match rng.below(4) {
            0 => grown(&mut rng, &mut random)?,
            1 => random.judge(&noise(&samples, &mut rng))?,
            _ => random.judge(&several_changes(&samples, &mut rng))?,
        }
    }
    Ok(format!(
        "changed members: {} with every change, {} read, {} refused; at random {} read, {} refused",
        samples.len(),
        every.read,
        every.refused,
        random.read,
        random.refused
    ))
}

/// Members of each layout, on each machine, with and without compat, of each type and kind.
fn samples() -> Vec<Content<'static>> {
    let objects = OBJECT_MACHINES.into_iter().flat_map(object_samples);
    let shorts = SHORT_MACHINES.into_iter().flat_map(|machine| {
        (0..=4 * IMPORT_NAME_EXPORTAS + IMPORT_CONST)
            .filter_map(move |types| short_sample(machine, types))
    });
    objects.chain(shorts).collect()
}

fn object_samples(machine: u32) -> Vec<Content<'static>> {
    let stem_absent = Content::NullDescriptor {
        machine,
        stem: None,
    };
    let mut samples = vec![stem_absent];
    for dll in DLLS {
        let stem = stem(dll);
        samples.extend([false, true].map(|compat| Content::Descriptor {
            machine,
            compat,
            dll,
            stem,
        }));
        samples.push(Content::NullDescriptor {
            machine,
            stem: Some(stem),
        });
        samples.push(Content::NullThunk { machine, stem });
    }
    for (target, alias) in [("att_step", "att_go"), ("__imp_a", "__imp_b"), ("a", "a")] {
        samples.push(Content::WeakExternal {
            machine,
            target: target.as_bytes(),
            alias: alias.as_bytes(),
        });
    }
    samples
}

/// None where the lower bits are no kind.
fn short_sample(machine: u32, types: u16) -> Option<Content<'static>> {
    let (name_type, kind) = (types >> 2, types & 3);
    let symbol: &[u8] = match (machine, kind) {
        (ARM64EC, 0) => b"#att_step",
        (_, IMPORT_CONST) => b"f",
        _ => b"_att_step@8",
    };
    let export: &[u8] = if kind == 1 { b"a" } else { b"att" };
    (kind <= IMPORT_CONST).then_some(Content::ShortImport(Short {
        machine,
        ordinal: types * 0x0D03,
        name_type,
        kind,
        symbol,
        dll: DLLS[usize::from(types) % DLLS.len()],
        export: (name_type == IMPORT_NAME_EXPORTAS).then_some(export),
    }))
}

fn every_change(member: &[u8], tally: &mut Tally) -> Result<(), Difference> {
    tally.judge(member)?;
    let mut changed = member.to_vec();
    for at in 0..member.len() {
        for other in (0..=u8::MAX).filter(|&other| other != member[at]) {
            changed[at] = other;
            tally.judge(&changed)?;
        }
        changed[at] = member[at];
        tally.judge(&member[..at])?;
    }
    changed.push(0);
    for last in 0..=u8::MAX {
        changed[member.len()] = last;
        tally.judge(&changed)?;
    }
    Ok(())
}

/// Names for a content.
struct Names {
    dll: Vec<u8>,
    stem: Vec<u8>,
    short: [Vec<u8>; 2],
    weak: [Vec<u8>; 2],
}

/// An admitted content, which must be read as it is.
fn grown(rng: &mut Rng, tally: &mut Tally) -> Result<(), Difference> {
    let names = Names {
        dll: dll_name(rng),
        stem: name(rng, LONGEST_DLL),
        short: [(); 2].map(|()| name(rng, LONGEST_SHORT)),
        weak: [(); 2].map(|()| name(rng, LONGEST_WEAK)),
    };
    let content = content(rng, &names);
    reads::judge_as(&content.encode(), Some(&content))?;
    tally.read += 1;
    Ok(())
}

fn content<'a>(rng: &mut Rng, names: &'a Names) -> Content<'a> {
    let machine = rng.pick(&OBJECT_MACHINES);
    let name_type = rng.below(5) as u16;
    match rng.below(6) {
        0 => Content::Descriptor {
            machine,
            compat: rng.one_in(2),
            dll: &names.dll,
            stem: stem(&names.dll),
        },
        1 => Content::NullDescriptor {
            machine,
            stem: rng.one_in(2).then_some(&names.stem),
        },
        2 => Content::NullThunk {
            machine,
            stem: &names.stem,
        },
        3 => Content::WeakExternal {
            machine,
            target: &names.weak[0],
            alias: &names.weak[1],
        },
        _ => Content::ShortImport(Short {
            machine: rng.pick(&SHORT_MACHINES),
            ordinal: rng.draw() as u16,
            name_type,
            kind: rng.below(3) as u16,
            symbol: &names.short[0],
            dll: &names.dll,
            export: (name_type == IMPORT_NAME_EXPORTAS).then_some(&names.short[1]),
        }),
    }
}

/// Any bytes but NUL, few as a rule.
fn name(rng: &mut Rng, longest: usize) -> Vec<u8> {
    let length = match rng.below(64) {
        0 => longest,
        1 => rng.below(longest) + 1,
        _ => rng.below(20) + 1,
    };
    (0..length).map(|_| rng.below(255) as u8 + 1).collect()
}

fn dll_name(rng: &mut Rng) -> Vec<u8> {
    let mut dll = name(rng, LONGEST_DLL);
    for byte in &mut dll {
        if b"/\\:".contains(byte) || rng.one_in(6) {
            *byte = b'.';
        }
    }
    if dll == b"." || dll == b".." {
        dll.push(b'a');
    }
    dll
}

/// Any bytes, often behind the start of a member.
fn noise(samples: &[Vec<u8>], rng: &mut Rng) -> Vec<u8> {
    let sample = &samples[rng.below(samples.len())];
    let kept = if rng.one_in(2) {
        rng.below(sample.len())
    } else {
        0
    };
    let mut bytes = sample[..kept].to_vec();
    bytes.extend((0..rng.below(LONGEST_NOISE)).map(|_| rng.draw() as u8));
    bytes
}

/// A member with two to five changes: bytes put elsewhere, put in, taken out, or the end of another.
fn several_changes(samples: &[Vec<u8>], rng: &mut Rng) -> Vec<u8> {
    let mut member = samples[rng.below(samples.len())].clone();
    for _ in 0..2 + rng.below(4) {
        let at = rng.below(member.len());
        match rng.below(8) {
            0 => drop(member.remove(at)),
            1 => member.insert(at, rng.draw() as u8),
            2 => member[at] = member[at].wrapping_add(1),
            3 => member[at] = member[at].wrapping_sub(1),
            4 => member[at] = rng.pick(&EDGES),
            5 => {
                let other = &samples[rng.below(samples.len())];
                let from = at.min(other.len());
                member.splice(at.., other[from..].iter().copied());
            }
            _ => member[at] = rng.draw() as u8,
        }
        if member.is_empty() {
            member.push(0);
        }
    }
    member
}
