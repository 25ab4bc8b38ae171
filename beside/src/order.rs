//! Refusals 1 to 10 as the scope paper has them, written without the library: the earliest check answers.

use oracle::ask::MACHINES;
use oracle::list::{HEADER_SIZE, RECORD_SIZE};

/// A refusal's number and place.
pub type Refusal = (u32, u32);

pub fn word(bytes: &[u8], at: usize) -> usize {
    let bytes: [u8; 4] = bytes[at..at + 4].try_into().expect("four bytes");
    u32::from_le_bytes(bytes) as usize
}

/// The refusal of a string whose offset and length stand at a place.
fn string(bytes: &[u8], at: usize, names: &[u8], limit: usize, required: bool) -> Result<(), u32> {
    let (offset, length) = (word(bytes, at), word(bytes, at + 4));
    if offset + length > names.len() {
        return Err(5);
    }
    if length == 0 {
        return if offset != 0 || required {
            Err(6)
        } else {
            Ok(())
        };
    }
    if length > limit {
        return Err(7);
    }
    if names[offset..offset + length].contains(&0) {
        Err(8)
    } else {
        Ok(())
    }
}

fn dll(list: &[u8], names: &[u8]) -> Result<(), u32> {
    string(list, 20, names, 255, true)?;
    let name = &names[word(list, 20)..][..word(list, 24)];
    if name == b"." || name == b".." || name.iter().any(|byte| b"/\\:".contains(byte)) {
        Err(10)
    } else {
        Ok(())
    }
}

fn record(record: &[u8], names: &[u8]) -> Result<(), u32> {
    if u16::from_le_bytes([record[42], record[43]]) > 15 {
        return Err(9);
    }
    (0..5).try_for_each(|field| string(record, 8 * field, names, 4095, field == 0))
}

/// The number and place of the earliest of refusals 1 to 10.
pub fn refusal(list: &[u8], machine: u32) -> Option<Refusal> {
    checked(list, machine).err()
}

fn checked(list: &[u8], machine: u32) -> Result<(), Refusal> {
    if !MACHINES.contains(&machine) {
        return Err((1, 0));
    }
    if list.len() < HEADER_SIZE {
        return Err((2, 0));
    }
    let (first, native) = (word(list, 0), word(list, 4));
    if first > 4096 || native > 4096 {
        return Err((3, 0));
    }
    let names_at = HEADER_SIZE + RECORD_SIZE * (first + native);
    if word(list, 8) != HEADER_SIZE
        || word(list, 12) != names_at
        || list.len() != names_at + word(list, 16)
    {
        return Err((4, 0));
    }
    let (front, names) = list.split_at(names_at);
    dll(list, names).map_err(|number| (number, 0))?;
    let records = front[HEADER_SIZE..].chunks_exact(RECORD_SIZE);
    for (place, bytes) in records.enumerate() {
        record(bytes, names).map_err(|number| (number, place as u32))?;
    }
    Ok(())
}
