//! A plain reader, part by part in the order of the bytes: what the library's is measured against.

use std::ffi::CStr;
use std::ops::RangeInclusive;

use oracle::ask::{AMD64, ARM64, ARM64EC, ARMNT, I386};

use crate::content::{LONGEST_DLL, LONGEST_SHORT, LONGEST_WEAK, Read};
use crate::pe::{IMPORT_CONST, IMPORT_NAME_EXPORTAS};
use crate::plain::stem;

const DESCRIPTOR: usize = 20;

const DATA_ALIGN_2: u32 = 0xC020_0040;
const DATA_ALIGN_4: u32 = 0xC030_0040;
const DATA_ALIGN_8: u32 = 0xC040_0040;
const LINKER_INFO: u32 = 0x0000_0A00;

const ABSOLUTE: u16 = 0xFFFF;
const EXTERNAL: u8 = 2;
const STATIC: u8 = 3;
const SECTION_CLASS: u8 = 104;
const WEAK_EXTERNAL: u8 = 105;

const DESCRIPTOR_NAME: &[u8] = b"__IMPORT_DESCRIPTOR_";
const NULL_NAME: &[u8] = b"__NULL_IMPORT_DESCRIPTOR";
const THUNK_PREFIX: &[u8] = b"\x7f";
const THUNK_SUFFIX: &[u8] = b"_NULL_THUNK_DATA";

/// Reads a member of one of the five layouts; every byte is looked at and none is copied.
pub fn read(member: &[u8]) -> Option<Read> {
    let eye = Eye { member, at: 0 };
    if member.starts_with(&[0, 0, 0xFF, 0xFF]) {
        return short_import(eye);
    }
    match member.get(20..28)? {
        b".idata$2" => descriptor(eye),
        b".idata$3" => null_descriptor(eye),
        b".idata$5" => null_thunk(eye),
        b".drectve" => weak_external(eye),
        _ => None,
    }
}

/// What a machine decides.
struct Machine {
    number: u16,
    characteristics: u16,
    relocation_type: u16,
    slot: u32,
    alignment: u32,
}

impl Machine {
    fn of(number: u16) -> Option<Self> {
        let (relocation_type, is_64_bit) = match u32::from(number) {
            I386 => (7, false),
            ARMNT => (2, false),
            AMD64 => (3, true),
            ARM64 => (2, true),
            _ => return None,
        };
        Some(Self {
            number,
            characteristics: if is_64_bit { 0 } else { 0x0100 },
            relocation_type,
            slot: if is_64_bit { 8 } else { 4 },
            alignment: if is_64_bit {
                DATA_ALIGN_8
            } else {
                DATA_ALIGN_4
            },
        })
    }
}

/// A name by its start and length.
type Name = (usize, usize);
const NO_NAME: Name = (0, 0);

fn told(layout: u32, machine: &Machine, compat: bool, names: [Name; 3]) -> Option<Read> {
    let numbers = [machine.number.into(), 0, 0, 0, compat.into()];
    Some(Read::new(layout, numbers, names))
}

fn is_barred(dll: &[u8]) -> bool {
    dll == b"." || dll == b".." || dll.iter().any(|byte| matches!(byte, b'/' | b'\\' | b':'))
}

fn descriptor(mut eye: Eye<'_>) -> Option<Read> {
    let (machine, symbols_at) = eye.file_header(2, 7)?;
    let size = eye.descriptor_sections()?;
    eye.bytes(&[0; DESCRIPTOR])?;
    for (at, symbol) in [(12, 2), (0, 3), (16, 4)] {
        eye.longs(&[at, symbol])?;
        eye.shorts(&[machine.relocation_type])?;
    }
    let (dll_at, dll_len) = eye.dll()?;
    if size as usize != dll_len + 1 || symbols_at as usize != 151 + dll_len {
        return None;
    }
    let stem = stem(&eye.member[dll_at..dll_at + dll_len]);
    eye.long_symbol(4, 1, EXTERNAL)?;
    eye.symbol(b".idata$2", 1, SECTION_CLASS)?;
    eye.symbol(b".idata$6", 2, STATIC)?;
    eye.symbol(b".idata$4", 0, SECTION_CLASS)?;
    eye.symbol(b".idata$5", 0, SECTION_CLASS)?;
    eye.long_symbol(4 + DESCRIPTOR_NAME.len() + stem.len() + 1, 0, EXTERNAL)?;
    eye.bytes(&[0; 4])?;
    let thunk_at = eye.long()? as usize;
    eye.symbol_rest(0, EXTERNAL, 0)?;
    let stem_at = eye.at + 4 + DESCRIPTOR_NAME.len();
    let compat = eye.descriptor_strings(stem, thunk_at)?;
    let names = [(dll_at, dll_len), (stem_at, stem.len()), NO_NAME];
    told(1, &machine, compat, names)
}

fn null_descriptor(mut eye: Eye<'_>) -> Option<Read> {
    let (machine, symbols_at) = eye.file_header(1, 1)?;
    if symbols_at != 80 {
        return None;
    }
    eye.bytes(b".idata$3")?;
    eye.longs(&[0, 0, 20, 60, 0, 0, 0, DATA_ALIGN_4])?;
    eye.bytes(&[0; DESCRIPTOR])?;
    eye.long_symbol(4, 1, EXTERNAL)?;
    eye.rest_size()?;
    eye.bytes(NULL_NAME)?;
    if eye.end_of_string() {
        eye.end()?;
        return told(2, &machine, false, [NO_NAME; 3]);
    }
    eye.bytes(b"_")?;
    let stem = eye.string(1..=LONGEST_DLL)?;
    eye.end()?;
    told(2, &machine, true, [stem, NO_NAME, NO_NAME])
}

fn null_thunk(mut eye: Eye<'_>) -> Option<Read> {
    let (machine, symbols_at) = eye.file_header(2, 1)?;
    if symbols_at != 100 + 2 * machine.slot {
        return None;
    }
    for (name, at) in [(b".idata$5", 100), (b".idata$4", 100 + machine.slot)] {
        eye.bytes(name)?;
        eye.longs(&[0, 0, machine.slot, at, 0, 0, 0, machine.alignment])?;
    }
    eye.bytes(&[0; 16][..2 * machine.slot as usize])?;
    eye.long_symbol(4, 1, EXTERNAL)?;
    eye.rest_size()?;
    eye.bytes(THUNK_PREFIX)?;
    let suffix = THUNK_SUFFIX.len();
    let (start, length) = eye.string(1 + suffix..=LONGEST_DLL + suffix)?;
    eye.end()?;
    let length = length - suffix;
    if &eye.member[start + length..][..suffix] != THUNK_SUFFIX {
        return None;
    }
    told(3, &machine, false, [(start, length), NO_NAME, NO_NAME])
}

fn short_import(mut eye: Eye<'_>) -> Option<Read> {
    eye.shorts(&[0, 0xFFFF, 0])?;
    let machine = eye.short()?;
    if u32::from(machine) != ARM64EC {
        Machine::of(machine)?;
    }
    eye.longs(&[0])?;
    if eye.long()? as usize != eye.member.len() - 20 {
        return None;
    }
    let (ordinal, types) = (eye.short()?, eye.short()?);
    let (name_type, kind) = (types >> 2, types & 3);
    if name_type > IMPORT_NAME_EXPORTAS || kind > IMPORT_CONST {
        return None;
    }
    let symbol = eye.string(1..=LONGEST_SHORT)?;
    let dll = eye.dll()?;
    let export = match name_type {
        IMPORT_NAME_EXPORTAS => eye.string(1..=LONGEST_SHORT)?,
        _ => NO_NAME,
    };
    eye.end()?;
    let numbers = [machine, ordinal, name_type, kind, 0].map(u32::from);
    Some(Read::new(4, numbers, [symbol, dll, export]))
}

fn weak_external(mut eye: Eye<'_>) -> Option<Read> {
    let machine = Machine::of(eye.short()?)?;
    eye.shorts(&[1])?;
    eye.longs(&[0, 60, 5])?;
    eye.shorts(&[0, 0])?;
    eye.bytes(b".drectve")?;
    eye.longs(&[0, 0, 0, 0, 0, 0, 0, LINKER_INFO])?;
    eye.symbol(b"@comp.id", ABSOLUTE, STATIC)?;
    eye.symbol(b"@feat.00", ABSOLUTE, STATIC)?;
    eye.long_symbol(4, 0, EXTERNAL)?;
    eye.bytes(&[0; 4])?;
    let alias_at = eye.long()? as usize;
    eye.symbol_rest(0, WEAK_EXTERNAL, 1)?;
    eye.longs(&[2, 3])?;
    eye.bytes(&[0; 10])?;
    eye.rest_size()?;
    let target = eye.string(1..=LONGEST_WEAK)?;
    if alias_at != 4 + target.1 + 1 {
        return None;
    }
    let alias = eye.string(1..=LONGEST_WEAK)?;
    eye.end()?;
    told(5, &machine, false, [target, alias, NO_NAME])
}

/// Looks at one thing behind the other. Nothing is answered where another thing stands.
struct Eye<'a> {
    member: &'a [u8],
    at: usize,
}

impl<'a> Eye<'a> {
    fn take<const N: usize>(&mut self) -> Option<&'a [u8; N]> {
        let part = self.member.get(self.at..)?.first_chunk()?;
        self.at += N;
        Some(part)
    }

    fn bytes(&mut self, wanted: &[u8]) -> Option<()> {
        self.member.get(self.at..)?.strip_prefix(wanted)?;
        self.at += wanted.len();
        Some(())
    }

    fn short(&mut self) -> Option<u16> {
        self.take().map(|bytes| u16::from_le_bytes(*bytes))
    }

    fn long(&mut self) -> Option<u32> {
        self.take().map(|bytes| u32::from_le_bytes(*bytes))
    }

    fn shorts(&mut self, wanted: &[u16]) -> Option<()> {
        wanted
            .iter()
            .try_for_each(|&wanted| (self.short()? == wanted).then_some(()))
    }

    fn longs(&mut self, wanted: &[u32]) -> Option<()> {
        wanted
            .iter()
            .try_for_each(|&wanted| (self.long()? == wanted).then_some(()))
    }

    /// Up to a NUL, which is looked at too.
    fn string(&mut self, lengths: RangeInclusive<usize>) -> Option<Name> {
        let start = self.at;
        let rest = self.member.get(start..)?;
        let length = CStr::from_bytes_until_nul(rest).ok()?.count_bytes();
        self.at += length + 1;
        lengths.contains(&length).then_some((start, length))
    }

    fn dll(&mut self) -> Option<Name> {
        let (start, length) = self.string(1..=LONGEST_DLL)?;
        let barred = is_barred(&self.member[start..start + length]);
        (!barred).then_some((start, length))
    }

    /// Whether a string ends here; its NUL is looked at.
    fn end_of_string(&mut self) -> bool {
        self.bytes(&[0]).is_some()
    }

    fn end(&self) -> Option<()> {
        (self.at == self.member.len()).then_some(())
    }

    /// The machine, and where the symbols are said to stand.
    fn file_header(&mut self, sections: u16, symbols: u32) -> Option<(Machine, u32)> {
        let machine = Machine::of(self.short()?)?;
        self.shorts(&[sections])?;
        self.longs(&[0])?;
        let symbols_at = self.long()?;
        self.longs(&[symbols])?;
        self.shorts(&[0, machine.characteristics])?;
        Some((machine, symbols_at))
    }

    fn symbol(&mut self, name: &[u8; 8], section: u16, class: u8) -> Option<()> {
        self.bytes(name)?;
        self.symbol_rest(section, class, 0)
    }

    fn long_symbol(&mut self, at: usize, section: u16, class: u8) -> Option<()> {
        self.longs(&[0, at as u32])?;
        self.symbol_rest(section, class, 0)
    }

    /// What follows a symbol's name.
    fn symbol_rest(&mut self, section: u16, class: u8, auxiliaries: u8) -> Option<()> {
        self.longs(&[0])?;
        self.shorts(&[section, 0])?;
        self.bytes(&[class, auxiliaries])
    }

    /// The size of a string table that ends with the member.
    fn rest_size(&mut self) -> Option<()> {
        let size = self.member.len() - self.at;
        (self.long()? as usize == size).then_some(())
    }

    /// The sections of an import descriptor; the size of the second's data.
    fn descriptor_sections(&mut self) -> Option<u32> {
        self.bytes(b".idata$2")?;
        self.longs(&[0, 0, 20, 100, 120, 0])?;
        self.shorts(&[3, 0])?;
        self.longs(&[DATA_ALIGN_4])?;
        self.bytes(b".idata$6")?;
        self.longs(&[0, 0])?;
        let size = self.long()?;
        self.longs(&[150, 0, 0, 0, DATA_ALIGN_2])?;
        Some(size)
    }

    /// The string table of an import descriptor; whether its null name is that of compat.
    fn descriptor_strings(&mut self, stem: &[u8], thunk_at: usize) -> Option<bool> {
        let table_at = self.at;
        self.rest_size()?;
        self.bytes(DESCRIPTOR_NAME)?;
        self.bytes(stem)?;
        self.bytes(&[0])?;
        self.bytes(NULL_NAME)?;
        let compat = !self.end_of_string();
        if compat {
            self.bytes(b"_")?;
            self.bytes(stem)?;
            self.bytes(&[0])?;
        }
        (self.at == table_at + thunk_at).then_some(())?;
        self.bytes(THUNK_PREFIX)?;
        self.bytes(stem)?;
        self.bytes(THUNK_SUFFIX)?;
        self.bytes(&[0])?;
        self.end()?;
        Some(compat)
    }
}
