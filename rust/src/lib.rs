//! The members of Windows import libraries, written, read back and looked up by the proved library.
//!
//! `ExportList` makes a list, `total` asks how large its member set is and `write` writes it, `MemberSet` walks over one, `read`
//! reads a member and `lookup` says where a symbol leads. Every function takes any bytes; what it cannot take is a `Refusal`.

mod list;
mod machine;
mod member;
pub mod raw;
mod refusal;
mod set;
mod slots;

pub use list::{Export, ExportList};
pub use machine::{Machine, NoMachine};
pub use member::{Kind, Member, NameType, ShortImport, read};
pub use refusal::Refusal;
pub use set::{Led, Listed, MemberSet, lookup};

/// What is given beside a list.
#[derive(Clone, Copy, Debug, PartialEq, Eq)]
pub struct Options {
    pub machine: Machine,
    pub mingw: bool,
    pub whole_archive_compat: bool,
}

impl Options {
    /// Neither mingw nor whole_archive_compat.
    pub fn new(machine: Machine) -> Self {
        Self {
            machine,
            mingw: false,
            whole_archive_compat: false,
        }
    }
}

/// Whether a list would be written, given room: refusals 1 to 14.
pub fn check(list: &[u8], machine: Machine, mingw: bool) -> Result<(), Refusal> {
    Refusal::of(raw::check(list, machine.0, mingw)).map_or(Ok(()), Err)
}

/// How many bytes the member set of a list has. Whoever lends `write_into` as many is not refused.
pub fn total(list: &[u8], options: Options) -> Result<usize, Refusal> {
    let Options {
        machine,
        mingw,
        whole_archive_compat,
    } = options;
    let answer = raw::total(list, machine.0, mingw, whole_archive_compat);
    Refusal::of(answer).map_or(Ok(answer as usize), Err)
}

/// Writes the member set of a list into `out` and returns its total. On a refusal `out` is as it was.
pub fn write_into(list: &[u8], options: Options, out: &mut [u8]) -> Result<usize, Refusal> {
    let Options {
        machine,
        mingw,
        whole_archive_compat,
    } = options;
    let answer =
        slots::lend(|slots| raw::write(list, machine.0, mingw, whole_archive_compat, slots, out));
    Refusal::of(answer).map_or(Ok(answer as usize), Err)
}

/// The member set of a list.
pub fn write(list: &[u8], options: Options) -> Result<Vec<u8>, Refusal> {
    let mut set = vec![0; total(list, options)?];
    write_into(list, options, &mut set)?;
    Ok(set)
}
