//! What a reader is asked, what it should answer, and whether it did.

use oracle::Case;
use oracle::ask::{ARM64EC, FIXED_MEMBERS};

use crate::content::{Content, FIELDS, Read};
use crate::judge::{Difference, same, shown};
use crate::order::{Refusal, word};
use crate::{layouts, library, plain, reader};

/// Fields on both sides of the lent ones.
const GUARD: usize = 8;
/// How many fields are lent: more than enough, enough, too few.
const ROOMS: [usize; 4] = [FIELDS + 3, FIELDS, FIELDS - 1, 0];
const NO_MEMBER: Refusal = (16, 0);
const TOO_FEW: Refusal = (15, 0);

fn differs(member: &[u8], what: &str) -> Difference {
    Difference(format!("{what}\n{}", shown(member)))
}

/// Compares the library's reader and the plain one with the content that the bytes have; whether they have one.
pub fn judge(member: &[u8]) -> Result<bool, Difference> {
    let content = Content::of(member);
    judge_as(member, content.as_ref())?;
    Ok(content.is_some())
}

/// Compares both readers with a content, or with the refusal of bytes without one.
pub fn judge_as(member: &[u8], content: Option<&Content<'_>>) -> Result<(), Difference> {
    let wanted = content.map(Content::told);
    let told = |what: String| differs(member, &what);
    same("the plain reader", wanted, reader::read(member)).map_err(told)?;
    for room in ROOMS {
        let what = format!("crepedum_read, {room} fields");
        judge_read(member, room, wanted).map_err(|how| told(format!("{what}: {how}")))?;
    }
    Ok(())
}

/// Compares the library's answer, the fields, and that every other field stays as it was.
fn judge_read(member: &[u8], room: usize, wanted: Option<Read>) -> Result<(), String> {
    let mut after: [u32; FIELDS + 3 + 2 * GUARD] =
        std::array::from_fn(|k| (k as u32 + 1) * 0x9E37_79B1);
    let mut fields = after;
    let answer = match wanted {
        _ if room < FIELDS => Err(TOO_FEW),
        None => Err(NO_MEMBER),
        Some(read) => {
            after[GUARD..GUARD + FIELDS].copy_from_slice(&read.fields);
            Ok(read.layout)
        }
    };
    let got = library::read(member, &mut fields[GUARD..GUARD + room]);
    if got == answer && fields == after {
        return Ok(());
    }
    same("answer", answer, got)?;
    same("fields, with those around them", &after[..], &fields[..])
}

/// The members of a set, by its own counts.
pub fn members(set: &[u8]) -> Result<Vec<&[u8]>, Difference> {
    layouts::members(set, [word(set, 4), word(set, 8)]).map_err(Difference)
}

/// Reads each member of the Rust's set, which must give what was put in; the number of members.
pub fn read_back(case: &Case, set: &[u8]) -> Result<u64, Difference> {
    let members = members(set)?;
    for (index, member) in members.iter().enumerate() {
        let content = Content::of(member);
        let is_put_in = content.is_some_and(|content| is_put_in(case, set, index, &content));
        if !is_put_in {
            let what = format!("member {index} of {case:?} is {content:?}");
            return Err(differs(member, &what));
        }
        judge_as(member, content.as_ref())?;
    }
    Ok(members.len() as u64)
}

/// Whether a content agrees with the case at a place in its set.
fn is_put_in(case: &Case, set: &[u8], index: usize, content: &Content<'_>) -> bool {
    let native = case.options.for_native().machine;
    let dll = &case.list.dll[..];
    let stem = plain::stem(dll);
    let compat = case.options.compat;
    let fixed = [
        Content::Descriptor {
            machine: native,
            compat,
            dll,
            stem,
        },
        Content::NullDescriptor {
            machine: native,
            stem: compat.then_some(stem),
        },
        Content::NullThunk {
            machine: native,
            stem,
        },
    ];
    if let Some(fixed) = fixed.get(index) {
        return fixed == content;
    }
    let is_first = index < FIXED_MEMBERS + word(set, 4);
    let is_hybrid = is_first && case.options.is_hybrid();
    let machine = if is_hybrid { ARM64EC } else { native };
    let is_listed = match content {
        Content::ShortImport(short) => short.dll == dll,
        Content::WeakExternal { .. } => true,
        _ => false,
    };
    is_listed && content.machine() == machine
}
