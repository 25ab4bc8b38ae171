//! Member sets made by a plain Rust program with the standard map: what the library is measured against.

use std::borrow::Cow;
use std::collections::HashMap;

use oracle::Options;
use oracle::ask::{ARM64EC, ARMNT, FIXED_MEMBERS, I386};
use oracle::list::{CONSTANT, DATA, NONAME, PRIVATE, RECORD_SIZE};
use oracle::{list, set};

use crate::order::{self, Refusal, word};
use crate::pe::{
    IMPORT_NAME, IMPORT_NAME_EXPORTAS, IMPORT_NAME_NOPREFIX, IMPORT_NAME_UNDECORATE, IMPORT_ORDINAL,
};

const FILE_HEADER: usize = 20;
const SECTION: usize = 40;
const RELOCATION: usize = 10;
const SYMBOL: usize = 18;
const DESCRIPTOR: usize = 20;
const SHORT_HEADER: usize = 20;

const DATA_ALIGN_2: u32 = 0xC020_0040;
const DATA_ALIGN_4: u32 = 0xC030_0040;
const DATA_ALIGN_8: u32 = 0xC040_0040;
const LINKER_INFO: u32 = 0x0000_0A00;

const ABSOLUTE: i16 = -1;
const EXTERNAL: u8 = 2;
const STATIC: u8 = 3;
const SECTION_CLASS: u8 = 104;
const WEAK_EXTERNAL: u8 = 105;

const CODE: u16 = 0;

/// The total of a list's member set, or the refusal's number and place.
pub fn total(list: &[u8], options: Options) -> Result<usize, Refusal> {
    with_set(list, options, |set| Ok(set.len()))
}

/// Writes the member set of a list and returns its total, or the refusal's number and place.
pub fn write(list: &[u8], options: Options, out: &mut [u8]) -> Result<usize, Refusal> {
    with_set(list, options, |set| {
        let total = set.len();
        if total > out.len() {
            return Err((15, 0));
        }
        set.write(&mut out[..total]);
        Ok(total)
    })
}

/// What is done with the set of a list, or its refusal.
fn with_set(
    list: &[u8],
    options: Options,
    then: impl FnOnce(&Set<'_>) -> Result<usize, Refusal>,
) -> Result<usize, Refusal> {
    if let Some(refusal) = order::refusal(list, options.machine) {
        return Err(refusal);
    }
    let native_machine = options.for_native().machine;
    let machine = if options.is_hybrid() {
        ARM64EC
    } else {
        options.machine
    };
    let names_at = word(list, 12);
    let names = &list[names_at..];
    let records = &list[list::HEADER_SIZE..names_at];
    let count = word(list, 0);
    let (first, native) = records.split_at(RECORD_SIZE * count);
    let first = Part::of(first, names, machine, options.mingw).map_err(behind(0))?;
    let native = Part::of(native, names, native_machine, options.mingw).map_err(behind(count))?;
    let dll = string(list, 20, names).expect("a checked list has a DLL name");
    let factory = Factory::new(dll, stem(dll), native_machine, options.compat);
    then(&Set {
        factory: &factory,
        first: first.members(),
        native: native.members(),
    })
}

/// A refusal in a list that stands behind so many records.
fn behind(records: usize) -> impl Fn(Refusal) -> Refusal {
    move |(number, place)| (number, place + records as u32)
}

/// The string whose offset and length stand at a place of a checked list.
fn string<'a>(bytes: &[u8], at: usize, names: &'a [u8]) -> Option<&'a [u8]> {
    let (offset, length) = (word(bytes, at), word(bytes, at + 4));
    (length != 0).then(|| &names[offset..offset + length])
}

struct Export<'a> {
    name: &'a [u8],
    ext_name: Option<&'a [u8]>,
    symbol_name: Option<&'a [u8]>,
    import_name: Option<&'a [u8]>,
    export_as: Option<&'a [u8]>,
    ordinal: u16,
    flags: u16,
}

impl<'a> Export<'a> {
    fn of(record: &[u8], names: &'a [u8]) -> Self {
        let string = |at| string(record, at, names);
        let numbers = word(record, 40);
        Self {
            name: string(0).expect("a checked record has a name"),
            ext_name: string(8),
            symbol_name: string(16),
            import_name: string(24),
            export_as: string(32),
            ordinal: numbers as u16,
            flags: (numbers >> 16) as u16,
        }
    }

    fn has(&self, flag: u16) -> bool {
        self.flags & flag != 0
    }

    fn kind(&self) -> u16 {
        match (self.has(CONSTANT), self.has(DATA)) {
            (true, _) => 2,
            (false, true) => 1,
            _ => CODE,
        }
    }

    fn base(&self) -> &'a [u8] {
        self.symbol_name.unwrap_or(self.name)
    }

    fn public_name(&self) -> Option<Cow<'a, [u8]>> {
        match self.ext_name {
            Some(ext_name) => replace(self.base(), self.name, ext_name).map(Cow::Owned),
            None => Some(Cow::Borrowed(self.base())),
        }
    }
}

fn find(text: &[u8], pattern: &[u8]) -> Option<usize> {
    let Some((first, rest)) = pattern.split_first() else {
        return Some(0);
    };
    let mut at = 0;
    loop {
        at += text[at..].iter().position(|byte| byte == first)? + 1;
        if text[at..].starts_with(rest) {
            return Some(at - 1);
        }
    }
}

fn replace_once(text: &[u8], from: &[u8], to: &[u8]) -> Option<Vec<u8>> {
    let at = find(text, from)?;
    Some([&text[..at], to, &text[at + from.len()..]].concat())
}

pub fn replace(text: &[u8], from: &[u8], to: &[u8]) -> Option<Vec<u8>> {
    replace_once(text, from, to).or_else(|| match (from, to) {
        ([b'_', from @ ..], [b'_', to @ ..]) => replace_once(text, from, to),
        _ => None,
    })
}

pub fn apply_name_type(name_type: u16, name: &[u8]) -> &[u8] {
    let trimmed = match name {
        [b'?' | b'@' | b'_', rest @ ..] => rest,
        name => name,
    };
    match name_type {
        IMPORT_NAME_NOPREFIX => trimmed,
        IMPORT_NAME_UNDECORATE => match find(trimmed, b"@") {
            Some(at) => &trimmed[..at],
            None => trimmed,
        },
        _ => name,
    }
}

pub fn get_name_type(base: &[u8], name: &[u8], machine: u32, mingw: bool) -> u16 {
    if name.starts_with(b"_") && name.contains(&b'@') && !mingw {
        IMPORT_NAME
    } else if base != name {
        IMPORT_NAME_UNDECORATE
    } else if machine == I386 && base.starts_with(b"_") {
        IMPORT_NAME_NOPREFIX
    } else {
        IMPORT_NAME
    }
}

pub fn demangled(name: &[u8]) -> Option<Vec<u8>> {
    if let [b'#', rest @ ..] = name {
        return (!rest.is_empty()).then(|| rest.to_vec());
    }
    let at = find(name, b"$$h")?;
    let rest = &name[at + 3..];
    (!rest.is_empty()).then(|| [&name[..at], rest].concat())
}

/// An import that is written at once.
struct Import<'a> {
    name: Cow<'a, [u8]>,
    export: Option<Cow<'a, [u8]>>,
    name_type: u16,
    kind: u16,
    ordinal: u16,
}

impl<'a> Import<'a> {
    /// ARM64EC code: the name gets its `#`, and a free import its export string.
    fn mangle(&mut self) -> Result<(), u32> {
        let free = self.name_type != IMPORT_ORDINAL && self.export.is_none();
        let plain = !matches!(self.name[0], b'?' | b'#');
        let tagged = self.name[0] == b'#' || find(&self.name, b"$$h").is_some();
        let export = match (free, plain, tagged) {
            (true, false, false) => return Err(13),
            (true, false, true) => Some(Cow::Owned(demangled(&self.name).ok_or(14_u32)?)),
            (true, true, _) => Some(self.name.clone()),
            (false, ..) => None,
        };
        if plain {
            self.name = [b"#", &self.name[..]].concat().into();
        }
        if free {
            self.export = export;
            self.name_type = IMPORT_NAME_EXPORTAS;
        }
        Ok(())
    }
}

/// An export that waits for the keys of its list.
struct Deferred<'a> {
    name: Cow<'a, [u8]>,
    wanted: &'a [u8],
    kind: u16,
    ordinal: u16,
}

/// The imports of one list.
struct Part<'a> {
    machine: u32,
    mingw: bool,
    imports: Vec<Import<'a>>,
    deferred: Vec<Deferred<'a>>,
}

impl<'a> Part<'a> {
    fn of(records: &[u8], names: &'a [u8], machine: u32, mingw: bool) -> Result<Self, Refusal> {
        let mut part = Self {
            machine,
            mingw,
            imports: Vec::with_capacity(records.len() / RECORD_SIZE),
            deferred: Vec::new(),
        };
        for (place, record) in records.chunks_exact(RECORD_SIZE).enumerate() {
            let export = Export::of(record, names);
            if !export.has(PRIVATE) {
                let added = part.add(&export);
                added.map_err(|number| (number, place as u32))?;
            }
        }
        Ok(part)
    }

    fn add(&mut self, export: &Export<'a>) -> Result<(), u32> {
        let name = export.public_name().ok_or(11_u32)?;
        if name.is_empty() {
            return Err(12);
        }
        let (kind, ordinal) = (export.kind(), export.ordinal);
        let Some((name_type, string)) = self.name_type(export, &name) else {
            let wanted = export.import_name.unwrap_or_default();
            self.deferred.push(Deferred {
                name,
                wanted,
                kind,
                ordinal,
            });
            return Ok(());
        };
        let mut import = Import {
            name,
            export: string.map(Cow::Borrowed),
            name_type,
            kind,
            ordinal,
        };
        if kind == CODE && self.machine == ARM64EC {
            import.mangle()?;
        }
        self.imports.push(import);
        Ok(())
    }

    /// The name type and the export string, or nothing for an export that waits.
    fn name_type(&self, export: &Export<'a>, name: &[u8]) -> Option<(u16, Option<&'a [u8]>)> {
        if export.has(NONAME) {
            return Some((IMPORT_ORDINAL, None));
        }
        if export.export_as.is_some() {
            return Some((IMPORT_NAME_EXPORTAS, export.export_as));
        }
        let Some(wanted) = export.import_name else {
            let name_type = get_name_type(export.base(), export.name, self.machine, self.mingw);
            return Some((name_type, None));
        };
        let gives = |name_type| apply_name_type(name_type, name) == wanted;
        match self.machine {
            I386 if gives(IMPORT_NAME_UNDECORATE) => Some((IMPORT_NAME_UNDECORATE, None)),
            I386 if gives(IMPORT_NAME_NOPREFIX) => Some((IMPORT_NAME_NOPREFIX, None)),
            ARM64EC => Some((IMPORT_NAME_EXPORTAS, export.import_name)),
            _ => gives(IMPORT_NAME).then_some((IMPORT_NAME, None)),
        }
    }

    fn members(&self) -> Vec<Member<'_>> {
        let mut members = Vec::with_capacity(self.imports.len() + 2 * self.deferred.len());
        members.extend(self.imports.iter().map(|import| self.short(import)));
        if self.deferred.is_empty() {
            return members;
        }
        let keys: HashMap<&[u8], &[u8]> = self
            .imports
            .iter()
            .map(|import| {
                (
                    apply_name_type(import.name_type, &import.name),
                    &*import.name,
                )
            })
            .collect();
        for deferred in &self.deferred {
            match keys.get(deferred.wanted) {
                Some(target) => self.push_alias(&mut members, deferred, target),
                None => members.push(self.found_nowhere(deferred)),
            }
        }
        members
    }

    fn short<'b>(&self, import: &'b Import<'_>) -> Member<'b> {
        Member::Short {
            machine: self.machine,
            symbol: &import.name,
            export: import.export.as_deref(),
            name_type: import.name_type,
            kind: import.kind,
            ordinal: import.ordinal,
        }
    }

    fn found_nowhere<'b>(&self, deferred: &'b Deferred<'_>) -> Member<'b> {
        Member::Short {
            machine: self.machine,
            symbol: &deferred.name,
            export: Some(deferred.wanted),
            name_type: IMPORT_NAME_EXPORTAS,
            kind: deferred.kind,
            ordinal: deferred.ordinal,
        }
    }

    fn push_alias<'b>(
        &self,
        members: &mut Vec<Member<'b>>,
        deferred: &'b Deferred<'_>,
        target: &'b [u8],
    ) {
        let weak = |prefix| Member::Weak {
            machine: self.machine,
            prefix,
            target,
            alias: &deferred.name,
        };
        if deferred.kind == CODE {
            members.push(weak(b""));
        }
        members.push(weak(b"__imp_"));
    }
}

/// A member behind the fixed ones.
pub enum Member<'a> {
    Short {
        machine: u32,
        symbol: &'a [u8],
        export: Option<&'a [u8]>,
        name_type: u16,
        kind: u16,
        ordinal: u16,
    },
    Weak {
        machine: u32,
        prefix: &'static [u8],
        target: &'a [u8],
        alias: &'a [u8],
    },
}

impl Member<'_> {
    pub fn len(&self, dll: &[u8]) -> usize {
        match self {
            Member::Short { symbol, export, .. } => {
                let export = export.map_or(0, |export| export.len() + 1);
                SHORT_HEADER + symbol.len() + 1 + dll.len() + 1 + export
            }
            Member::Weak {
                prefix,
                target,
                alias,
                ..
            } => object_len(
                1,
                0,
                5,
                &[prefix.len() + target.len(), prefix.len() + alias.len()],
            ),
        }
    }

    pub fn write(&self, pen: &mut Pen<'_>, dll: &[u8]) {
        match *self {
            Member::Short {
                machine,
                symbol,
                export,
                name_type,
                kind,
                ordinal,
            } => {
                let strings = self.len(dll) - SHORT_HEADER;
                pen.shorts(&[0, 0xFFFF, 0, machine as u16]);
                pen.longs(&[0, strings]);
                pen.shorts(&[ordinal, name_type << 2 | kind]);
                pen.string(&[symbol]);
                pen.string(&[dll]);
                if let Some(export) = export {
                    pen.string(&[export]);
                }
            }
            Member::Weak {
                machine,
                prefix,
                target,
                alias,
            } => write_weak(pen, machine, [prefix, target], [prefix, alias]),
        }
    }
}

fn write_weak(pen: &mut Pen<'_>, machine: u32, target: [&[u8]; 2], alias: [&[u8]; 2]) {
    let target_len = target[0].len() + target[1].len();
    pen.file_header(machine, 1, FILE_HEADER + SECTION, 5, 0);
    pen.section(b".drectve", 0, 0, LINKER_INFO);
    pen.symbol(b"@comp.id", ABSOLUTE, STATIC, 0);
    pen.symbol(b"@feat.00", ABSOLUTE, STATIC, 0);
    pen.symbol(&long(4), 0, EXTERNAL, 0);
    pen.symbol(&long(4 + target_len + 1), 0, WEAK_EXTERNAL, 1);
    pen.symbol(&[2, 0, 0, 0, 3, 0, 0, 0], 0, 0, 0);
    pen.string_table(&[&target, &alias]);
}

/// The bytes before the last dot; all of them where there is none, or only a leading one.
pub fn stem(dll: &[u8]) -> &[u8] {
    match dll.iter().rposition(|&byte| byte == b'.') {
        Some(dot @ 1..) => &dll[..dot],
        _ => dll,
    }
}

/// Makes the fixed members.
pub struct Factory<'a> {
    dll: &'a [u8],
    machine: u32,
    descriptor_name: Vec<u8>,
    null_name: Vec<u8>,
    thunk_name: Vec<u8>,
}

impl<'a> Factory<'a> {
    pub fn new(dll: &'a [u8], stem: &[u8], machine: u32, compat: bool) -> Self {
        let null_name = if compat {
            [b"__NULL_IMPORT_DESCRIPTOR_", stem].concat()
        } else {
            b"__NULL_IMPORT_DESCRIPTOR".to_vec()
        };
        Self {
            dll,
            machine,
            descriptor_name: [b"__IMPORT_DESCRIPTOR_", stem].concat(),
            null_name,
            thunk_name: [b"\x7f", stem, b"_NULL_THUNK_DATA"].concat(),
        }
    }

    fn is_64_bit(&self) -> bool {
        self.machine != I386 && self.machine != ARMNT
    }

    fn characteristics(&self) -> u16 {
        if self.is_64_bit() { 0 } else { 0x0100 }
    }

    fn relocation_type(&self) -> u16 {
        match self.machine {
            I386 => 7,
            oracle::ask::AMD64 => 3,
            _ => 2,
        }
    }

    fn slot(&self) -> (usize, u32) {
        if self.is_64_bit() {
            (8, DATA_ALIGN_8)
        } else {
            (4, DATA_ALIGN_4)
        }
    }

    pub fn lens(&self) -> [usize; FIXED_MEMBERS] {
        let [descriptor, null, thunk] =
            [&self.descriptor_name, &self.null_name, &self.thunk_name].map(Vec::len);
        let data = DESCRIPTOR + 3 * RELOCATION + self.dll.len() + 1;
        [
            object_len(2, data, 7, &[descriptor, null, thunk]),
            object_len(1, DESCRIPTOR, 1, &[null]),
            object_len(2, 2 * self.slot().0, 1, &[thunk]),
        ]
    }

    fn write(&self, pen: &mut Pen<'_>) {
        self.import_descriptor(pen);
        self.null_import_descriptor(pen);
        self.null_thunk(pen);
    }

    pub fn import_descriptor(&self, pen: &mut Pen<'_>) {
        let data_at = FILE_HEADER + 2 * SECTION;
        let relocations_at = data_at + DESCRIPTOR;
        let dll_at = relocations_at + 3 * RELOCATION;
        let symbols_at = dll_at + self.dll.len() + 1;
        let null_at = 4 + self.descriptor_name.len() + 1;
        let thunk_at = null_at + self.null_name.len() + 1;
        pen.file_header(self.machine, 2, symbols_at, 7, self.characteristics());
        pen.put(b".idata$2");
        pen.longs(&[0, 0, DESCRIPTOR, data_at, relocations_at, 0]);
        pen.shorts(&[3, 0]);
        pen.longs(&[DATA_ALIGN_4 as usize]);
        pen.section(b".idata$6", self.dll.len() + 1, dll_at, DATA_ALIGN_2);
        pen.put(&[0; DESCRIPTOR]);
        for (at, symbol) in [(12, 2), (0, 3), (16, 4)] {
            pen.longs(&[at, symbol]);
            pen.shorts(&[self.relocation_type()]);
        }
        pen.string(&[self.dll]);
        pen.symbol(&long(4), 1, EXTERNAL, 0);
        pen.symbol(b".idata$2", 1, SECTION_CLASS, 0);
        pen.symbol(b".idata$6", 2, STATIC, 0);
        pen.symbol(b".idata$4", 0, SECTION_CLASS, 0);
        pen.symbol(b".idata$5", 0, SECTION_CLASS, 0);
        pen.symbol(&long(null_at), 0, EXTERNAL, 0);
        pen.symbol(&long(thunk_at), 0, EXTERNAL, 0);
        pen.string_table(&[
            &[&self.descriptor_name],
            &[&self.null_name],
            &[&self.thunk_name],
        ]);
    }

    pub fn null_import_descriptor(&self, pen: &mut Pen<'_>) {
        let data_at = FILE_HEADER + SECTION;
        let symbols_at = data_at + DESCRIPTOR;
        pen.file_header(self.machine, 1, symbols_at, 1, self.characteristics());
        pen.section(b".idata$3", DESCRIPTOR, data_at, DATA_ALIGN_4);
        pen.put(&[0; DESCRIPTOR]);
        pen.symbol(&long(4), 1, EXTERNAL, 0);
        pen.string_table(&[&[&self.null_name]]);
    }

    pub fn null_thunk(&self, pen: &mut Pen<'_>) {
        let (slot, characteristics) = self.slot();
        let data_at = FILE_HEADER + 2 * SECTION;
        let symbols_at = data_at + 2 * slot;
        pen.file_header(self.machine, 2, symbols_at, 1, self.characteristics());
        pen.section(b".idata$5", slot, data_at, characteristics);
        pen.section(b".idata$4", slot, data_at + slot, characteristics);
        pen.put(&[0; 16][..2 * slot]);
        pen.symbol(&long(4), 1, EXTERNAL, 0);
        pen.string_table(&[&[&self.thunk_name]]);
    }
}

fn object_len(sections: usize, data: usize, symbols: usize, strings: &[usize]) -> usize {
    let strings: usize = strings.iter().map(|length| length + 1).sum();
    FILE_HEADER + SECTION * sections + data + SYMBOL * symbols + 4 + strings
}

/// A name that stands in the string table.
fn long(offset: usize) -> [u8; 8] {
    ((offset as u64) << 32).to_le_bytes()
}

struct Set<'a> {
    factory: &'a Factory<'a>,
    first: Vec<Member<'a>>,
    native: Vec<Member<'a>>,
}

impl Set<'_> {
    fn lens(&self) -> impl Iterator<Item = usize> {
        let rest = self.first.iter().chain(&self.native);
        let rest = rest.map(|member| member.len(self.factory.dll));
        self.factory.lens().into_iter().chain(rest)
    }

    fn count(&self) -> usize {
        FIXED_MEMBERS + self.first.len() + self.native.len()
    }

    fn first_at(&self) -> usize {
        set::HEADER_SIZE + set::ENTRY_SIZE * self.count()
    }

    fn len(&self) -> usize {
        self.first_at() + self.lens().sum::<usize>()
    }

    fn write(&self, out: &mut [u8]) {
        let mut pen = Pen::new(out);
        let mut at = self.first_at();
        pen.longs(&[self.count(), self.first.len(), self.native.len(), at]);
        for length in self.lens() {
            pen.longs(&[at, length]);
            at += length;
        }
        self.factory.write(&mut pen);
        for member in self.first.iter().chain(&self.native) {
            member.write(&mut pen, self.factory.dll);
        }
    }
}

/// Writes one thing behind the other.
pub struct Pen<'a> {
    out: &'a mut [u8],
    at: usize,
}

impl<'a> Pen<'a> {
    pub fn new(out: &'a mut [u8]) -> Self {
        Self { out, at: 0 }
    }

    fn put(&mut self, bytes: &[u8]) {
        self.out[self.at..self.at + bytes.len()].copy_from_slice(bytes);
        self.at += bytes.len();
    }

    fn shorts(&mut self, numbers: &[u16]) {
        for number in numbers {
            self.put(&number.to_le_bytes());
        }
    }

    fn longs(&mut self, numbers: &[usize]) {
        for &number in numbers {
            self.put(&(number as u32).to_le_bytes());
        }
    }

    fn string(&mut self, parts: &[&[u8]]) {
        for part in parts {
            self.put(part);
        }
        self.put(&[0]);
    }

    fn file_header(
        &mut self,
        machine: u32,
        sections: u16,
        symbols_at: usize,
        symbols: usize,
        characteristics: u16,
    ) {
        self.shorts(&[machine as u16, sections]);
        self.longs(&[0, symbols_at, symbols]);
        self.shorts(&[0, characteristics]);
    }

    /// A section without relocations.
    fn section(&mut self, name: &[u8; 8], size: usize, at: usize, characteristics: u32) {
        self.put(name);
        self.longs(&[0, 0, size, at, 0, 0, 0, characteristics as usize]);
    }

    fn symbol(&mut self, name: &[u8; 8], section: i16, class: u8, auxiliaries: u8) {
        self.put(name);
        self.longs(&[0]);
        self.put(&section.to_le_bytes());
        self.put(&[0, 0, class, auxiliaries]);
    }

    fn string_table(&mut self, strings: &[&[&[u8]]]) {
        let parts = strings.iter().flat_map(|parts| parts.iter());
        let size = 4 + strings.len() + parts.map(|part| part.len()).sum::<usize>();
        self.longs(&[size]);
        for parts in strings {
            self.string(parts);
        }
    }
}
