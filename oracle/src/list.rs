//! The export list: a header, records and names.

/// Size of the header.
pub const HEADER_SIZE: usize = 28;
/// Size of a record.
pub const RECORD_SIZE: usize = 44;

pub const NONAME: u16 = 1;
pub const DATA: u16 = 2;
pub const PRIVATE: u16 = 4;
pub const CONSTANT: u16 = 8;
const KNOWN_FLAGS: u16 = NONAME | DATA | PRIVATE | CONSTANT;

const STRINGS: usize = 5;
const RANGE_SIZE: usize = 8;
const ORDINAL_AT: usize = STRINGS * RANGE_SIZE;
const FLAGS_AT: usize = ORDINAL_AT + 2;

/// One export.
#[derive(Clone, Debug, Default, PartialEq, Eq)]
pub struct Record {
    pub name: Option<Vec<u8>>,
    pub ext_name: Option<Vec<u8>>,
    pub symbol_name: Option<Vec<u8>>,
    pub import_name: Option<Vec<u8>>,
    pub export_as: Option<Vec<u8>>,
    pub ordinal: u16,
    pub flags: u16,
}

impl Record {
    /// An export with this name and nothing else.
    pub fn new(name: &str) -> Self {
        Self {
            name: Some(name.into()),
            ..Self::default()
        }
    }

    pub fn ext_name(mut self, ext_name: &str) -> Self {
        self.ext_name = Some(ext_name.into());
        self
    }

    pub fn symbol_name(mut self, symbol_name: &str) -> Self {
        self.symbol_name = Some(symbol_name.into());
        self
    }

    pub fn import_name(mut self, import_name: &str) -> Self {
        self.import_name = Some(import_name.into());
        self
    }

    pub fn export_as(mut self, export_as: &str) -> Self {
        self.export_as = Some(export_as.into());
        self
    }

    pub fn ordinal(mut self, ordinal: u16) -> Self {
        self.ordinal = ordinal;
        self
    }

    /// Sets these flags beside those that are set.
    pub fn flags(mut self, flags: u16) -> Self {
        self.flags |= flags;
        self
    }

    pub fn has(&self, flag: u16) -> bool {
        self.flags & flag != 0
    }

    /// The strings in the order of the fields.
    pub fn strings(&self) -> [Option<&[u8]>; STRINGS] {
        [
            self.name.as_deref(),
            self.ext_name.as_deref(),
            self.symbol_name.as_deref(),
            self.import_name.as_deref(),
            self.export_as.as_deref(),
        ]
    }
}

/// A decoded list.
#[derive(Clone, Debug, Default, PartialEq, Eq)]
pub struct ExportList {
    pub dll: Vec<u8>,
    pub first: Vec<Record>,
    pub native: Vec<Record>,
}

impl ExportList {
    /// The records in the order in which places count them.
    pub fn records(&self) -> impl Iterator<Item = &Record> {
        self.first.iter().chain(&self.native)
    }
}

/// How the strings of a list stand in its names.
#[derive(Clone, Copy, Debug, PartialEq, Eq)]
pub enum Packing {
    /// One after the other, the DLL name first.
    Apart,
    /// Each where its bytes stand already, or over the end of the last one;
    /// the DLL name last.
    Shared,
    /// As `Apart`, each behind a byte that belongs to no string.
    Gaps,
}

/// Encodes a list whose strings stand apart.
pub fn encode_list(dll: &[u8], first: &[Record], native: &[Record]) -> Vec<u8> {
    encode_packed(Packing::Apart, dll, first, native)
}

/// Encodes a list whose strings stand as `packing` says.
pub fn encode_packed(packing: Packing, dll: &[u8], first: &[Record], native: &[Record]) -> Vec<u8> {
    let mut names = Names {
        packing,
        bytes: Vec::new(),
    };
    let early_dll = (packing != Packing::Shared).then(|| names.place(dll));
    let mut records = Vec::new();
    for record in first.iter().chain(native) {
        push_record(&mut records, record, &mut names);
    }
    let dll_range = early_dll.unwrap_or_else(|| names.place(dll));

    let mut list = Vec::new();
    push_u32(&mut list, first.len());
    push_u32(&mut list, native.len());
    push_u32(&mut list, HEADER_SIZE);
    push_u32(&mut list, HEADER_SIZE + records.len());
    push_u32(&mut list, names.bytes.len());
    push_range(&mut list, dll_range);
    list.extend(records);
    list.extend(names.bytes);
    list
}

/// Decodes a list, or gives nothing where its shape is not that of a list.
///
/// Counts, lengths, NUL bytes and the DLL name's spelling are not judged: the
/// Rust has an answer to those.
pub fn decode_list(list: &[u8]) -> Option<ExportList> {
    let first_count = u32_at(list, 0)?;
    let native_count = u32_at(list, 4)?;
    let records_size = first_count
        .checked_add(native_count)?
        .checked_mul(RECORD_SIZE)?;
    let names_at = HEADER_SIZE.checked_add(records_size)?;
    if u32_at(list, 8)? != HEADER_SIZE || u32_at(list, 12)? != names_at {
        return None;
    }
    let names = list.get(names_at..)?;
    if u32_at(list, 16)? != names.len() {
        return None;
    }
    let dll = string_at(list, 20, names)??;
    let records: Option<Vec<Record>> = list[HEADER_SIZE..names_at]
        .chunks_exact(RECORD_SIZE)
        .map(|record| decode_record(record, names))
        .collect();
    let mut first = records?;
    let native = first.split_off(first_count);
    Some(ExportList { dll, first, native })
}

/// Whether the list keeps to the limits on counts, lengths and bytes, so that
/// the port refuses it by none of the numbers 3, 7, 8 and 10.
pub fn within_limits(list: &ExportList) -> bool {
    let string = |s: &[u8], limit| (1..=limit).contains(&s.len()) && !s.contains(&0);
    let dll = &list.dll[..];
    list.first.len() <= 4096
        && list.native.len() <= 4096
        && string(dll, 255)
        && dll != b"."
        && dll != b".."
        && !dll.iter().any(|byte| br"/\:".contains(byte))
        && list
            .records()
            .flat_map(Record::strings)
            .flatten()
            .all(|s| string(s, 4095))
}

/// Where a string stands in the names.
type Range = (usize, usize);

struct Names {
    packing: Packing,
    bytes: Vec<u8>,
}

impl Names {
    fn place(&mut self, string: &[u8]) -> Range {
        let start = match self.packing {
            Packing::Apart => self.bytes.len(),
            Packing::Shared => self.place_for_sharing(string),
            Packing::Gaps => self.place_behind_gap(),
        };
        let end = start + string.len();
        if end > self.bytes.len() {
            let known = self.bytes.len() - start;
            self.bytes.extend(&string[known..]);
        }
        (start, string.len())
    }

    fn place_for_sharing(&self, string: &[u8]) -> usize {
        let names = &self.bytes;
        if string.is_empty() {
            return names.len();
        }
        let found = names.windows(string.len()).position(|part| part == string);
        found.unwrap_or_else(|| {
            let longest = string.len().min(names.len());
            let overlap = (0..=longest).rev().find(|&n| names.ends_with(&string[..n]));
            names.len() - overlap.unwrap_or(0)
        })
    }

    /// The byte in the gap is one that no name in UTF-8 holds.
    fn place_behind_gap(&mut self) -> usize {
        let byte = if self.bytes.len().is_multiple_of(2) {
            0
        } else {
            0xff
        };
        self.bytes.push(byte);
        self.bytes.len()
    }
}

fn push_record(records: &mut Vec<u8>, record: &Record, names: &mut Names) {
    let end = records.len() + RECORD_SIZE;
    for string in record.strings() {
        push_range(records, string.map_or((0, 0), |s| names.place(s)));
    }
    records.extend(record.ordinal.to_le_bytes());
    records.extend(record.flags.to_le_bytes());
    records.resize(end, 0);
}

fn decode_record(record: &[u8], names: &[u8]) -> Option<Record> {
    let string = |index: usize| string_at(record, index * RANGE_SIZE, names);
    let decoded = Record {
        name: Some(string(0)??),
        ext_name: string(1)?,
        symbol_name: string(2)?,
        import_name: string(3)?,
        export_as: string(4)?,
        ordinal: u16_at(record, ORDINAL_AT)?,
        flags: u16_at(record, FLAGS_AT)?,
    };
    (decoded.flags & !KNOWN_FLAGS == 0).then_some(decoded)
}

/// The string whose range stands at `at`: `Some(None)` if it is absent, `None`
/// if it is no string of these names.
fn string_at(bytes: &[u8], at: usize, names: &[u8]) -> Option<Option<Vec<u8>>> {
    let start = u32_at(bytes, at)?;
    let length = u32_at(bytes, at + 4)?;
    if (start, length) == (0, 0) {
        return Some(None);
    }
    if length == 0 {
        return None;
    }
    let string = names.get(start..start.checked_add(length)?)?;
    Some(Some(string.to_vec()))
}

fn push_range(bytes: &mut Vec<u8>, (start, length): Range) {
    push_u32(bytes, start);
    push_u32(bytes, length);
}

pub(crate) fn push_u32(bytes: &mut Vec<u8>, number: usize) {
    let number = u32::try_from(number).expect("a list or set is shorter than 4 GiB");
    bytes.extend(number.to_le_bytes());
}

fn u16_at(bytes: &[u8], at: usize) -> Option<u16> {
    let part = bytes.get(at..at + 2)?;
    Some(u16::from_le_bytes(part.try_into().ok()?))
}

fn u32_at(bytes: &[u8], at: usize) -> Option<usize> {
    let part = bytes.get(at..at + 4)?;
    Some(u32::from_le_bytes(part.try_into().ok()?) as usize)
}
