//! A list with what is given beside it.

use crate::ask::{Answer, Options, answer};
use crate::list::{ExportList, Packing, Record, encode_packed};

/// The flag that says mingw where a case stands in a file or a request.
pub const MINGW: u32 = 1;
/// The flag that says whole_archive_compat.
pub const COMPAT: u32 = 2;

#[derive(Clone, Debug, PartialEq, Eq)]
pub struct Case {
    pub options: Options,
    pub list: ExportList,
    pub packing: Packing,
}

impl Case {
    /// A case with a first list, a DLL name and nothing else.
    pub fn new(machine: u32, first: &[Record]) -> Self {
        Self {
            options: Options::of(machine),
            list: ExportList {
                dll: b"a.dll".to_vec(),
                first: first.to_vec(),
                native: Vec::new(),
            },
            packing: Packing::Apart,
        }
    }

    pub fn dll(mut self, dll: &str) -> Self {
        self.list.dll = dll.into();
        self
    }

    pub fn native(mut self, native: &[Record]) -> Self {
        self.list.native = native.to_vec();
        self
    }

    pub fn mingw(mut self) -> Self {
        self.options.mingw = true;
        self
    }

    pub fn compat(mut self) -> Self {
        self.options.compat = true;
        self
    }

    pub fn packing(mut self, packing: Packing) -> Self {
        self.packing = packing;
        self
    }

    /// The bytes of the list.
    pub fn bytes(&self) -> Vec<u8> {
        let list = &self.list;
        encode_packed(self.packing, &list.dll, &list.first, &list.native)
    }

    pub fn answer(&self) -> Answer {
        let options = self.options;
        answer(
            &self.bytes(),
            options.machine,
            options.mingw,
            options.compat,
        )
    }

    pub fn flags(&self) -> u32 {
        let flag = |set, flag| if set { flag } else { 0 };
        flag(self.options.mingw, MINGW) | flag(self.options.compat, COMPAT)
    }
}
