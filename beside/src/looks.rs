//! What a lookup is asked, what it should answer, and whether it did.

use crate::judge::{Difference, same, shown};
use crate::member_set::{Looked, MemberSet};
use crate::order::Refusal;
use crate::{finder, library};

/// Fields that an answer has at most.
pub const FIELDS: usize = 2;
/// Fields on both sides of the lent ones.
const GUARD: usize = 4;
/// How many fields are lent: more than enough, enough, too few.
const ROOMS: [usize; 4] = [FIELDS + 1, FIELDS, FIELDS - 1, 0];
const NO_SET: Refusal = (17, 0);
const TOO_FEW: Refusal = (15, 0);

/// Bytes that are asked, with the member set that they are, if they are one.
pub struct Question<'a> {
    pub bytes: &'a [u8],
    pub set: Option<MemberSet<'a>>,
}

impl<'a> Question<'a> {
    pub fn of(bytes: &'a [u8]) -> Self {
        let set = MemberSet::of(bytes);
        Self { bytes, set }
    }

    pub fn differs(&self, list: u32, symbol: &[u8], what: &str) -> Difference {
        let symbol = shown(symbol);
        let set = shown(self.bytes);
        Difference(format!("{what}\nlist {list}, symbol {symbol}\nset {set}"))
    }

    /// Compares the library's lookup and the plain one with the paper's words; where the symbol leads.
    pub fn judge(&self, list: u32, symbol: &[u8]) -> Result<Option<Looked>, Difference> {
        let set = self.set.as_ref();
        let wanted = set.map(|set| set.lookup(list, symbol));
        let told = |what: String| self.differs(list, symbol, &what);
        let plainly = finder::lookup(self.bytes, list, symbol);
        same("the plain lookup", wanted, plainly).map_err(told)?;
        for room in ROOMS {
            let what = format!("crepedum_lookup, {room} fields");
            judge_lookup(self.bytes, list, symbol, room, wanted)
                .map_err(|how| told(format!("{what}: {how}")))?;
        }
        Ok(wanted)
    }
}

/// Compares the library's answer, the fields, and that every other field stays as it was.
fn judge_lookup(
    set: &[u8],
    list: u32,
    symbol: &[u8],
    room: usize,
    wanted: Option<Looked>,
) -> Result<(), String> {
    let mut after: [u32; FIELDS + 1 + 2 * GUARD] =
        std::array::from_fn(|k| (k as u32 + 1) * 0x9E37_79B1);
    let mut fields = after;
    let mut put = |values: &[u32]| after[GUARD..GUARD + values.len()].copy_from_slice(values);
    let answer = match wanted {
        _ if room < FIELDS => Err(TOO_FEW),
        None => Err(NO_SET),
        Some(Looked::NotFound) => Ok(0),
        Some(Looked::Nowhere) => Ok(1),
        Some(Looked::Ordinal(ordinal)) => {
            put(&[ordinal]);
            Ok(2)
        }
        Some(Looked::Name(start, length)) => {
            put(&[start, length]);
            Ok(3)
        }
    };
    let got = library::lookup(set, list, symbol, &mut fields[GUARD..GUARD + room]);
    if got == answer && fields == after {
        return Ok(());
    }
    same("answer", answer, got)?;
    same("fields, with those around them", &after[..], &fields[..])
}
