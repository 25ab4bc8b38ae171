//! What a writer is asked, what it should answer, and whether it did.

use std::fmt::{Debug, Write as _};

use oracle::facts::refusal;
use oracle::list::decode_list;
use oracle::set::lay_out;
use oracle::{Answer, Case, Options, Packing};

use crate::order::{self, Refusal};
use crate::tables::{SLOTS, Table};
use crate::{library, plain};

/// Bytes on both sides of a lent room.
const GUARD: usize = 32;
/// Room for the members of a list that is to be refused.
const AMPLE: usize = 1 << 14;
/// Bytes of a list or member that a difference shows.
const SHOWN: usize = 1 << 14;
/// Larger than the set of any generated list.
const LARGEST: usize = 1 << 20;

const FEW_SLOTS: Refusal = (19, 0);
const SMALL_ROOM: Refusal = (15, 0);

/// A member set, or a refusal where neither slots nor room matter.
pub type Wanted = Result<Vec<u8>, Refusal>;

/// What is wanted in a table and a room.
fn given(wanted: &Wanted, slots: usize, room: usize) -> Result<&[u8], Refusal> {
    match wanted {
        Err(refusal) => Err(*refusal),
        Ok(_) if slots < SLOTS => Err(FEW_SLOTS),
        Ok(set) if set.len() > room => Err(SMALL_ROOM),
        Ok(set) => Ok(set),
    }
}

/// A list with what is given beside it.
pub struct Question {
    pub list: Vec<u8>,
    pub options: Options,
}

/// One difference, with the question that shows it.
pub struct Difference(pub String);

impl Difference {
    pub fn show(&self) {
        println!("difference: {}", self.0);
    }
}

/// Bytes as a difference shows them.
pub fn shown(bytes: &[u8]) -> String {
    let mut text = format!("{} bytes ", bytes.len());
    for byte in bytes.iter().take(SHOWN) {
        let _ = write!(text, "{byte:02x}");
    }
    text
}

pub fn same<T: Debug + PartialEq>(what: &str, wanted: T, got: T) -> Result<(), String> {
    if wanted == got {
        Ok(())
    } else {
        Err(format!("{what}: wanted {wanted:#?}, got {got:#?}"))
    }
}

impl Question {
    pub fn of(case: &Case) -> Self {
        Self {
            list: case.bytes(),
            options: case.options,
        }
    }

    /// The paper's order for refusals 1 to 10, and the Rust for all else. Where the Rust cannot be given the list, because
    /// a name of it is not UTF-8, the plain program stands in.
    pub fn wanted(&self) -> Wanted {
        if let Some(refusal) = order::refusal(&self.list, self.options.machine) {
            return Err(refusal);
        }
        let list = decode_list(&self.list).expect("refusals 1 to 10 let lists pass only");
        let case = Case {
            options: self.options,
            list,
            packing: Packing::Apart,
        };
        let answer = oracle::ask::answer_list(&case.list, case.options);
        match answer {
            Answer::NotUtf8 => self.plainly(),
            answer => wanted(&case, &answer),
        }
    }

    fn plainly(&self) -> Wanted {
        let mut set = vec![0; LARGEST];
        let total = plain::write(&self.list, self.options, &mut set)?;
        set.truncate(total);
        Ok(set)
    }

    fn differs(&self, what: &str) -> Difference {
        Difference(format!(
            "{what}\n{:04X?}, {}",
            self.options,
            shown(&self.list)
        ))
    }

    /// Compares the check, the total asked for, each writer in several rooms, and the library's with a slot too few.
    pub fn judge(&self, wanted: &Wanted) -> Result<(), Difference> {
        self.judge_asked(wanted)?;
        let rooms = match wanted {
            Ok(set) => &[set.len() + GUARD, set.len(), set.len() - 1, 0][..],
            Err(_) => &[AMPLE, 0],
        };
        for room in rooms {
            self.judge_write(*room, wanted)?;
        }
        let mut few = Table::drawn(SLOTS - 1, self.list.len() as u64);
        self.judge_write_in(&mut few, rooms[0], wanted)
    }

    /// Compares the check and the total asked for.
    pub fn judge_asked(&self, wanted: &Wanted) -> Result<(), Difference> {
        self.judge_check(wanted)?;
        self.judge_total(wanted)
    }

    fn judge_check(&self, wanted: &Wanted) -> Result<(), Difference> {
        let wanted = wanted.as_ref().err().copied();
        let got = library::check(&self.list, self.options.machine, self.options.mingw);
        if got == wanted {
            return Ok(());
        }
        Err(self.differs(&format!("crepedum_check: wanted {wanted:?}, got {got:?}")))
    }

    fn judge_total(&self, wanted: &Wanted) -> Result<(), Difference> {
        let wanted = wanted.as_ref().map(Vec::len).map_err(|refusal| *refusal);
        for (name, got) in [
            ("crepedum_total", library::total(&self.list, self.options)),
            ("the plain total", plain::total(&self.list, self.options)),
        ] {
            if got != wanted {
                return Err(self.differs(&format!("{name}: wanted {wanted:?}, got {got:?}")));
            }
        }
        Ok(())
    }

    /// Compares each writer in one room, the library's in a table with anything in it.
    pub fn judge_write(&self, room: usize, wanted: &Wanted) -> Result<(), Difference> {
        let mut table = Table::drawn(SLOTS, (self.list.len() + room) as u64);
        self.judge_write_in(&mut table, room, wanted)?;
        let write = |out: &mut [u8]| plain::write(&self.list, self.options, out);
        let Err(what) = written(write, room, given(wanted, SLOTS, room)) else {
            return Ok(());
        };
        Err(self.differs(&format!("the plain program, room {room}: {what}")))
    }

    /// Compares the library's writer in one table and one room. On 19 every slot stays as it was, and always those not lent.
    pub fn judge_write_in(
        &self,
        table: &mut Table,
        room: usize,
        wanted: &Wanted,
    ) -> Result<(), Difference> {
        let slots = table.len();
        let given = given(wanted, slots, room);
        let write = |out: &mut [u8]| library::write(&self.list, self.options, table.lend(), out);
        let told = |what| {
            let lent = format!("{slots} slots, room {room}");
            self.differs(&format!("crepedum_write, {lent}: {what}"))
        };
        written(write, room, given).map_err(told)?;
        let changed = match given {
            Err(FEW_SLOTS) => table.changed(),
            _ => table.changed_around(),
        };
        match changed {
            Some(at) => Err(told(format!("slot {at} is not as it was"))),
            None => Ok(()),
        }
    }
}

/// Compares a writer in one room: its answer, the set, and that every other byte stays as it was.
fn written(
    write: impl FnOnce(&mut [u8]) -> Result<usize, Refusal>,
    room: usize,
    given: Result<&[u8], Refusal>,
) -> Result<(), String> {
    let before = pattern(room + 2 * GUARD);
    let mut bytes = before.clone();
    let answer = write(&mut bytes[GUARD..GUARD + room]);
    if answer != given.map(<[u8]>::len) {
        let wanted = given.map(<[u8]>::len);
        return Err(format!("wanted {wanted:?}, got {answer:?}"));
    }
    let mut after = before;
    let set = given.unwrap_or_default();
    after[GUARD..GUARD + set.len()].copy_from_slice(set);
    if bytes == after {
        return Ok(());
    }
    let mut pairs = bytes.iter().zip(&after);
    let at = pairs.position(|(got, wanted)| got != wanted);
    let at = at.expect("unlike bytes differ somewhere");
    Err(format!(
        "{answer:?}, but byte {} is {:02x} and not {:02x}",
        at as i64 - GUARD as i64,
        bytes[at],
        after[at]
    ))
}

/// Bytes of which no run stands in a member by chance.
fn pattern(length: usize) -> Vec<u8> {
    (0..length).map(|k| (k * 167 + 91) as u8).collect()
}

/// What the Rust's answer asks of the library. An empty public name is refusal 12, which the Rust does not have, and a free `#`
/// refusal 14, where it writes an import.
pub fn wanted(case: &Case, answer: &Answer) -> Wanted {
    match (refusal(case, answer), answer) {
        (Some(refusal), _) => Err(refusal),
        (None, Answer::Members(members)) => Ok(lay_out(members)),
        (None, other) => panic!("the Rust's answer to {case:?} is {other:?}"),
    }
}
