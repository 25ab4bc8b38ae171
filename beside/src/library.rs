//! The library's answers as they come, by number and place.

use crate::order::Refusal;
use crepedum::raw::{self, Slot};
use oracle::Options;

/// The refusal that an answer stands for, if its upper half is a number.
fn refusal(word: u64) -> Option<Refusal> {
    (word >> 32 != 0).then_some(((word >> 32) as u32, word as u32))
}

/// Refusals 1 to 14: the number and place, or nothing.
pub fn check(list: &[u8], machine: u32, mingw: bool) -> Option<Refusal> {
    let word = raw::check(list, machine, mingw);
    assert!(word == 0 || word >> 32 != 0, "no answer of a check: {word}");
    refusal(word)
}

/// Asks for the total of a list's member set, or the refusal's number and place.
pub fn total(list: &[u8], options: Options) -> Result<usize, Refusal> {
    let Options {
        machine,
        mingw,
        compat,
    } = options;
    let word = raw::total(list, machine, mingw, compat);
    refusal(word).map_or(Ok(word as usize), Err)
}

/// Writes the member set of a list, in a table of slots, and returns its total, or the refusal's number and place.
pub fn write(
    list: &[u8],
    options: Options,
    slots: &mut [Slot],
    out: &mut [u8],
) -> Result<usize, Refusal> {
    let Options {
        machine,
        mingw,
        compat,
    } = options;
    let word = raw::write(list, machine, mingw, compat, slots, out);
    refusal(word).map_or(Ok(word as usize), Err)
}

/// Reads a member and returns its layout's number, or the refusal's number and place.
pub fn read(member: &[u8], fields: &mut [u32]) -> Result<u32, Refusal> {
    let word = raw::read(member, fields);
    refusal(word).map_or(Ok(word as u32), Err)
}

/// Looks a symbol up in a list of a member set and returns the answer's number, or the refusal's number and place.
pub fn lookup(set: &[u8], list: u32, symbol: &[u8], fields: &mut [u32]) -> Result<u32, Refusal> {
    let word = raw::lookup(set, list, symbol, fields);
    refusal(word).map_or(Ok(word as u32), Err)
}
