//! The records of Microsoft's PE Format document, read from bytes at the offsets that it gives.

use std::ops::Range;

pub const IMAGE_FILE_32BIT_MACHINE: u16 = 0x0100;

pub const IMAGE_REL_I386_DIR32NB: u16 = 0x0007;
pub const IMAGE_REL_ARM_ADDR32NB: u16 = 0x0002;
pub const IMAGE_REL_AMD64_ADDR32NB: u16 = 0x0003;
pub const IMAGE_REL_ARM64_ADDR32NB: u16 = 0x0002;

pub const IMAGE_SCN_CNT_INITIALIZED_DATA: u32 = 0x0000_0040;
pub const IMAGE_SCN_LNK_INFO: u32 = 0x0000_0200;
pub const IMAGE_SCN_LNK_REMOVE: u32 = 0x0000_0800;
pub const IMAGE_SCN_ALIGN_2BYTES: u32 = 0x0020_0000;
pub const IMAGE_SCN_ALIGN_4BYTES: u32 = 0x0030_0000;
pub const IMAGE_SCN_ALIGN_8BYTES: u32 = 0x0040_0000;
pub const IMAGE_SCN_MEM_READ: u32 = 0x4000_0000;
pub const IMAGE_SCN_MEM_WRITE: u32 = 0x8000_0000;

pub const IMAGE_SYM_ABSOLUTE: i16 = -1;
pub const IMAGE_SYM_UNDEFINED: i16 = 0;

pub const IMAGE_SYM_CLASS_EXTERNAL: u8 = 2;
pub const IMAGE_SYM_CLASS_STATIC: u8 = 3;
pub const IMAGE_SYM_CLASS_SECTION: u8 = 104;
pub const IMAGE_SYM_CLASS_WEAK_EXTERNAL: u8 = 105;

pub const IMAGE_WEAK_EXTERN_SEARCH_ALIAS: u32 = 3;

pub const IMPORT_OBJECT_HDR_SIG2: u16 = 0xFFFF;

pub const IMPORT_CODE: u16 = 0;
pub const IMPORT_DATA: u16 = 1;
pub const IMPORT_CONST: u16 = 2;

pub const IMPORT_ORDINAL: u16 = 0;
pub const IMPORT_NAME: u16 = 1;
pub const IMPORT_NAME_NOPREFIX: u16 = 2;
pub const IMPORT_NAME_UNDECORATE: u16 = 3;
pub const IMPORT_NAME_EXPORTAS: u16 = 4;

const FILE_HEADER: usize = 20;
const SECTION_HEADER: usize = 40;
const RELOCATION: usize = 10;
const SYMBOL: usize = 18;
const IMPORT_HEADER: usize = 20;

/// The import header of a short import, with the strings behind it.
#[derive(Debug, PartialEq)]
pub struct ShortImport {
    pub sig1: u16,
    pub sig2: u16,
    pub version: u16,
    pub machine: u16,
    pub time_date_stamp: u32,
    pub size_of_data: u32,
    pub ordinal_or_hint: u16,
    pub import_type: u16,
    pub name_type: u16,
    pub reserved: u16,
    pub strings: Vec<String>,
}

/// A COFF object whose offsets were followed: no byte of it is without a use, and none has two.
#[derive(Debug, PartialEq)]
pub struct Object {
    pub machine: u16,
    pub pointer_to_symbol_table: u32,
    pub number_of_symbols: u32,
    pub characteristics: u16,
    pub sections: Vec<Section>,
    pub symbols: Vec<Symbol>,
}

#[derive(Debug, PartialEq)]
pub struct Section {
    pub name: String,
    pub data: Vec<u8>,
    pub relocations: Vec<Relocation>,
    pub characteristics: u32,
}

#[derive(Debug, PartialEq)]
pub struct Relocation {
    pub virtual_address: u32,
    /// Name of the symbol at SymbolTableIndex.
    pub symbol: String,
    pub relocation_type: u16,
}

#[derive(Debug, PartialEq)]
pub struct Symbol {
    pub name: String,
    pub section_number: i16,
    pub storage_class: u8,
    pub weak: Option<Weak>,
}

/// Auxiliary format 3.
#[derive(Debug, PartialEq)]
pub struct Weak {
    /// Name of the symbol at TagIndex.
    pub tag: String,
    pub characteristics: u32,
}

type Read<T> = Result<T, String>;

impl ShortImport {
    pub fn read(member: &[u8]) -> Read<Self> {
        let short = |at| u16_at(member, at);
        let types = short(18)?;
        Ok(Self {
            sig1: short(0)?,
            sig2: short(2)?,
            version: short(4)?,
            machine: short(6)?,
            time_date_stamp: u32_at(member, 8)?,
            size_of_data: u32_at(member, 12)?,
            ordinal_or_hint: short(16)?,
            import_type: types & 0b11,
            name_type: types >> 2 & 0b111,
            reserved: types >> 5,
            strings: strings(&member[IMPORT_HEADER..])?,
        })
    }
}

/// The strings of bytes that end with a NUL.
fn strings(bytes: &[u8]) -> Read<Vec<String>> {
    let [body @ .., 0] = bytes else {
        return Err("the last string has no end".into());
    };
    Ok(body.split(|&byte| byte == 0).map(text).collect())
}

impl Object {
    pub fn read(member: &[u8]) -> Read<Self> {
        let mut reader = Reader {
            member,
            symbols_at: u32_at(member, 8)? as usize,
            used: Vec::new(),
        };
        let object = reader.object()?;
        reader.tiled()?;
        Ok(object)
    }
}

/// Follows the offsets of an object and notes which bytes they lead to.
struct Reader<'a> {
    member: &'a [u8],
    symbols_at: usize,
    used: Vec<Range<usize>>,
}

impl<'a> Reader<'a> {
    fn take(&mut self, at: usize, size: usize) -> Read<&'a [u8]> {
        let bytes = part(self.member, at, size)?;
        self.used.push(at..at + size);
        Ok(bytes)
    }

    fn object(&mut self) -> Read<Object> {
        let header = self.take(0, FILE_HEADER)?;
        zero("TimeDateStamp", u32_at(header, 4)?)?;
        zero("SizeOfOptionalHeader", u16_at(header, 16)?)?;
        let sections = usize::from(u16_at(header, 2)?);
        let symbols = u32_at(header, 12)? as usize;
        Ok(Object {
            machine: u16_at(header, 0)?,
            pointer_to_symbol_table: u32_at(header, 8)?,
            number_of_symbols: u32_at(header, 12)?,
            characteristics: u16_at(header, 18)?,
            symbols: self.symbols(symbols)?,
            sections: (0..sections)
                .map(|k| self.section(FILE_HEADER + SECTION_HEADER * k))
                .collect::<Read<_>>()?,
        })
    }

    fn section(&mut self, at: usize) -> Read<Section> {
        let header = self.take(at, SECTION_HEADER)?;
        let long = |at| u32_at(header, at);
        zero("VirtualSize", long(8)?)?;
        zero("VirtualAddress", long(12)?)?;
        zero("PointerToLinenumbers", long(28)?)?;
        zero("NumberOfLinenumbers", u16_at(header, 34)?)?;
        let (size, data_at) = (long(16)? as usize, long(20)? as usize);
        let (count, relocations_at) = (u16_at(header, 32)?, long(24)? as usize);
        if (size == 0) != (data_at == 0) || (count == 0) != (relocations_at == 0) {
            return Err("a pointer to nothing, or something without a pointer".into());
        }
        Ok(Section {
            name: text(&header[..8]),
            data: self.take(data_at, size)?.to_vec(),
            relocations: (0..usize::from(count))
                .map(|k| self.relocation(relocations_at + RELOCATION * k))
                .collect::<Read<_>>()?,
            characteristics: long(36)?,
        })
    }

    fn relocation(&mut self, at: usize) -> Read<Relocation> {
        let relocation = self.take(at, RELOCATION)?;
        Ok(Relocation {
            virtual_address: u32_at(relocation, 0)?,
            symbol: self.name_of(u32_at(relocation, 4)? as usize)?,
            relocation_type: u16_at(relocation, 8)?,
        })
    }

    /// The symbol table, with the string table behind it.
    fn symbols(&mut self, count: usize) -> Read<Vec<Symbol>> {
        let strings_at = self.symbols_at + SYMBOL * count;
        let size = u32_at(self.take(strings_at, 4)?, 0)? as usize;
        if strings_at + size != self.member.len() {
            return Err("the string table does not end with the member".into());
        }
        let mut symbols = Vec::new();
        let mut index = 0;
        while index < count {
            let record = self.take(self.symbols_at + SYMBOL * index, SYMBOL)?;
            zero("Value", u32_at(record, 8)?)?;
            zero("Type", u16_at(record, 14)?)?;
            if let Some(at) = long_name(record)? {
                let length = string_at(self.member, strings_at + at)?.len();
                self.take(strings_at + at, length + 1)?;
            }
            symbols.push(Symbol {
                name: self.name_of(index)?,
                section_number: u16_at(record, 12)? as i16,
                storage_class: record[16],
                weak: match record[17] {
                    0 => None,
                    1 => Some(self.weak(index + 1)?),
                    more => return Err(format!("{more} auxiliary records")),
                },
            });
            index += 1 + usize::from(record[17]);
        }
        Ok(symbols)
    }

    fn weak(&mut self, index: usize) -> Read<Weak> {
        let record = self.take(self.symbols_at + SYMBOL * index, SYMBOL)?;
        if record[8..].iter().any(|&byte| byte != 0) {
            return Err("bytes behind a weak external's fields".into());
        }
        Ok(Weak {
            tag: self.name_of(u32_at(record, 0)? as usize)?,
            characteristics: u32_at(record, 4)?,
        })
    }

    fn name_of(&self, index: usize) -> Read<String> {
        let record = part(self.member, self.symbols_at + SYMBOL * index, SYMBOL)?;
        let count = u32_at(self.member, 12)? as usize;
        let strings_at = self.symbols_at + SYMBOL * count;
        match long_name(record)? {
            Some(at) => string_at(self.member, strings_at + at).map(text),
            None => Ok(text(&record[..8])),
        }
    }

    /// Every byte was led to once.
    fn tiled(&mut self) -> Read<()> {
        self.used.sort_by_key(|range| (range.start, range.end));
        let mut at = 0;
        for range in &self.used {
            if range.start != at && !range.is_empty() {
                return Err(format!("bytes {at} and {range:?} do not meet"));
            }
            at = at.max(range.end);
        }
        if at == self.member.len() {
            Ok(())
        } else {
            Err(format!("nothing leads to the bytes from {at}"))
        }
    }
}

/// The offset in the string table of a symbol's name, if it stands there.
fn long_name(record: &[u8]) -> Read<Option<usize>> {
    let offset = u32_at(record, 4)? as usize;
    Ok((u32_at(record, 0)? == 0).then_some(offset))
}

fn string_at(member: &[u8], at: usize) -> Read<&[u8]> {
    let rest = member.get(at..).ok_or("a string beyond the member")?;
    let end = rest.iter().position(|&byte| byte == 0);
    Ok(&rest[..end.ok_or("a string without an end")?])
}

fn zero(name: &str, number: impl Into<u32>) -> Read<()> {
    match number.into() {
        0 => Ok(()),
        number => Err(format!("{name} is {number}")),
    }
}

fn text(bytes: &[u8]) -> String {
    String::from_utf8_lossy(bytes).into_owned()
}

fn part(bytes: &[u8], at: usize, size: usize) -> Read<&[u8]> {
    let end = at.checked_add(size).ok_or("an offset that is too large")?;
    let part = bytes.get(at..end);
    part.ok_or_else(|| format!("{size} bytes at {at} of {}", bytes.len()))
}

fn u16_at(bytes: &[u8], at: usize) -> Read<u16> {
    let part = part(bytes, at, 2)?;
    Ok(u16::from_le_bytes([part[0], part[1]]))
}

pub fn u32_at(bytes: &[u8], at: usize) -> Read<u32> {
    let part = part(bytes, at, 4)?;
    Ok(u32::from_le_bytes([part[0], part[1], part[2], part[3]]))
}
