//! Export lists, built from Rust.

const HEADER_SIZE: usize = 28;
const RECORD_SIZE: usize = 44;

const NONAME: u16 = 1;
const DATA: u16 = 2;
const PRIVATE: u16 = 4;
const CONSTANT: u16 = 8;

/// One export: a name, and what is said of it.
#[derive(Clone, Debug, Default, PartialEq, Eq)]
pub struct Export {
    name: Vec<u8>,
    ext_name: Option<Vec<u8>>,
    symbol_name: Option<Vec<u8>>,
    import_name: Option<Vec<u8>>,
    export_as: Option<Vec<u8>>,
    ordinal: u16,
    flags: u16,
}

impl Export {
    /// An export of code with this name, and nothing else said.
    pub fn new(name: impl AsRef<[u8]>) -> Self {
        Self {
            name: name.as_ref().to_vec(),
            ..Self::default()
        }
    }

    /// The name that takes the name's place in the public name.
    pub fn ext_name(mut self, name: impl AsRef<[u8]>) -> Self {
        self.ext_name = Some(name.as_ref().to_vec());
        self
    }

    /// The base of the public name where it is not the name.
    pub fn symbol_name(mut self, name: impl AsRef<[u8]>) -> Self {
        self.symbol_name = Some(name.as_ref().to_vec());
        self
    }

    /// The DLL entry wanted; an alias where another import of the list answers to it.
    pub fn import_name(mut self, name: impl AsRef<[u8]>) -> Self {
        self.import_name = Some(name.as_ref().to_vec());
        self
    }

    /// The DLL entry wanted, as the export string of a short import.
    pub fn export_as(mut self, name: impl AsRef<[u8]>) -> Self {
        self.export_as = Some(name.as_ref().to_vec());
        self
    }

    /// The ordinal: a hint, unless the export is `noname`.
    pub fn ordinal(mut self, ordinal: u16) -> Self {
        self.ordinal = ordinal;
        self
    }

    /// Imported by its ordinal.
    pub fn noname(self) -> Self {
        self.flag(NONAME)
    }

    /// Data, which has no symbol without `__imp_`.
    pub fn data(self) -> Self {
        self.flag(DATA)
    }

    /// Checked as the others are, but not written.
    pub fn private(self) -> Self {
        self.flag(PRIVATE)
    }

    pub fn constant(self) -> Self {
        self.flag(CONSTANT)
    }

    fn flag(mut self, flag: u16) -> Self {
        self.flags |= flag;
        self
    }

    fn strings(&self) -> [Option<&[u8]>; 5] {
        [
            Some(&self.name),
            self.ext_name.as_deref(),
            self.symbol_name.as_deref(),
            self.import_name.as_deref(),
            self.export_as.as_deref(),
        ]
    }
}

/// A DLL name and the exports of the first and the native list. Only ARM64EC and ARM64X make a difference between the two.
#[derive(Clone, Debug, Default, PartialEq, Eq)]
pub struct ExportList {
    dll: Vec<u8>,
    first: Vec<Export>,
    native: Vec<Export>,
}

impl ExportList {
    pub fn new(dll: impl AsRef<[u8]>) -> Self {
        Self {
            dll: dll.as_ref().to_vec(),
            ..Self::default()
        }
    }

    /// Adds to the first list.
    pub fn export(mut self, export: Export) -> Self {
        self.first.push(export);
        self
    }

    /// Adds to the native list.
    pub fn native(mut self, export: Export) -> Self {
        self.native.push(export);
        self
    }

    /// The list's bytes, which `check` and `write` take. Nothing is judged here.
    ///
    /// # Panics
    ///
    /// Where the list is 4 GiB or longer.
    pub fn encode(&self) -> Vec<u8> {
        let mut names = Vec::new();
        let dll = place(&mut names, &self.dll);
        let mut records = Vec::new();
        for export in self.first.iter().chain(&self.native) {
            for string in export.strings() {
                let range = string.map_or([0, 0], |string| place(&mut names, string));
                records.extend(range.into_iter().flat_map(word));
            }
            records.extend(export.ordinal.to_le_bytes());
            records.extend(export.flags.to_le_bytes());
        }
        debug_assert_eq!(
            records.len(),
            RECORD_SIZE * (self.first.len() + self.native.len())
        );
        let counts = [self.first.len(), self.native.len()];
        let shape = [HEADER_SIZE, HEADER_SIZE + records.len(), names.len()];
        let header = counts.into_iter().chain(shape).chain(dll);
        let mut list: Vec<u8> = header.flat_map(word).collect();
        list.extend(records);
        list.extend(names);
        list
    }
}

/// Puts a string behind the names; its offset and length.
fn place(names: &mut Vec<u8>, string: &[u8]) -> [usize; 2] {
    let offset = names.len();
    names.extend(string);
    [offset, string.len()]
}

fn word(number: usize) -> [u8; 4] {
    let number = u32::try_from(number).expect("a list is shorter than 4 GiB");
    number.to_le_bytes()
}
