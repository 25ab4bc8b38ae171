//! Answers as numbers and bytes, one after the other.

use std::io::{self, ErrorKind, Read, Write};

use crate::ask::{Answer, answer};
use crate::case::{COMPAT, MINGW};
use crate::set::lay_out;

/// The answer where the Rust panics.
pub const PANIC: u64 = u64::MAX;
/// The answer to a list or machine that the Rust cannot be given.
pub const NOT_TAKEN: u64 = u64::MAX - 1;

/// Answers requests until the input ends between two of them.
pub fn serve(mut input: impl Read, mut output: impl Write) -> io::Result<()> {
    while let Some(machine) = first_u32(&mut input)? {
        let flags = u32_from(&mut input)?;
        let length = u32_from(&mut input)?;
        let list = bytes_from(&mut input, length)?;
        if flags & !(MINGW | COMPAT) != 0 {
            let text = format!("unknown flags {flags:x}");
            return Err(io::Error::new(ErrorKind::InvalidData, text));
        }
        let answer = answer(&list, machine, flags & MINGW != 0, flags & COMPAT != 0);
        output.write_all(&answer_bytes(&answer))?;
        output.flush()?;
    }
    Ok(())
}

/// An answer's number and, for members, the length and bytes of their set.
pub fn answer_bytes(answer: &Answer) -> Vec<u8> {
    let number = match answer {
        Answer::Members(members) => {
            let set = lay_out(members);
            let mut bytes = (set.len() as u64).to_le_bytes().to_vec();
            bytes.extend((set.len() as u32).to_le_bytes());
            bytes.extend(set);
            return bytes;
        }
        Answer::Error { number, place, .. } => u64::from(*number) << 32 | u64::from(*place),
        Answer::Panic => PANIC,
        Answer::NotUtf8 | Answer::Malformed | Answer::UnknownMachine => NOT_TAKEN,
    };
    number.to_le_bytes().to_vec()
}

/// Nothing if the input has ended.
fn first_u32(input: &mut impl Read) -> io::Result<Option<u32>> {
    let mut start = Vec::new();
    input.by_ref().take(4).read_to_end(&mut start)?;
    match <[u8; 4]>::try_from(start) {
        Ok(bytes) => Ok(Some(u32::from_le_bytes(bytes))),
        Err(start) if start.is_empty() => Ok(None),
        Err(_) => Err(ErrorKind::UnexpectedEof.into()),
    }
}

fn u32_from(input: &mut impl Read) -> io::Result<u32> {
    first_u32(input)?.ok_or_else(|| ErrorKind::UnexpectedEof.into())
}

fn bytes_from(input: &mut impl Read, length: u32) -> io::Result<Vec<u8>> {
    let mut bytes = Vec::new();
    input.take(u64::from(length)).read_to_end(&mut bytes)?;
    if bytes.len() as u64 != u64::from(length) {
        return Err(ErrorKind::UnexpectedEof.into());
    }
    Ok(bytes)
}
