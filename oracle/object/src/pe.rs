//! The record kinds and constants of the PE Format document.

use crate::pod::Pod;
use crate::{LittleEndian as LE, U16, U32};

pub const IMAGE_FILE_MACHINE_I386: u16 = 0x014c;
pub const IMAGE_FILE_MACHINE_ARMNT: u16 = 0x01c4;
pub const IMAGE_FILE_MACHINE_AMD64: u16 = 0x8664;
pub const IMAGE_FILE_MACHINE_ARM64: u16 = 0xaa64;
pub const IMAGE_FILE_MACHINE_ARM64EC: u16 = 0xa641;

pub const IMAGE_FILE_32BIT_MACHINE: u16 = 0x0100;

pub const IMAGE_REL_I386_DIR32NB: u16 = 0x0007;
pub const IMAGE_REL_ARM_ADDR32NB: u16 = 0x0002;
pub const IMAGE_REL_AMD64_ADDR32NB: u16 = 0x0003;
pub const IMAGE_REL_ARM64_ADDR32NB: u16 = 0x0002;

pub const IMAGE_SCN_CNT_INITIALIZED_DATA: u32 = 0x0000_0040;
pub const IMAGE_SCN_LNK_INFO: u32 = 0x0000_0200;
pub const IMAGE_SCN_LNK_REMOVE: u32 = 0x0000_0800;
pub const IMAGE_SCN_ALIGN_2BYTES: u32 = 0x0020_0000;
pub const IMAGE_SCN_ALIGN_4BYTES: u32 = 0x0030_0000;
pub const IMAGE_SCN_ALIGN_8BYTES: u32 = 0x0040_0000;
pub const IMAGE_SCN_MEM_READ: u32 = 0x4000_0000;
pub const IMAGE_SCN_MEM_WRITE: u32 = 0x8000_0000;

pub const IMAGE_SYM_CLASS_NULL: u8 = 0;
pub const IMAGE_SYM_CLASS_EXTERNAL: u8 = 2;
pub const IMAGE_SYM_CLASS_STATIC: u8 = 3;
pub const IMAGE_SYM_CLASS_SECTION: u8 = 104;
pub const IMAGE_SYM_CLASS_WEAK_EXTERNAL: u8 = 105;

pub const IMAGE_WEAK_EXTERN_SEARCH_ALIAS: u32 = 3;

/// The bits of a short import's last field that hold its import type.
pub const IMPORT_OBJECT_TYPE_MASK: u16 = 0b11;

const IMPORT_OBJECT_HDR_SIG2: u16 = 0xffff;

#[repr(C)]
pub struct ImageFileHeader {
    pub machine: U16<LE>,
    pub number_of_sections: U16<LE>,
    pub time_date_stamp: U32<LE>,
    pub pointer_to_symbol_table: U32<LE>,
    pub number_of_symbols: U32<LE>,
    pub size_of_optional_header: U16<LE>,
    pub characteristics: U16<LE>,
}

#[repr(C)]
pub struct ImageSectionHeader {
    pub name: [u8; 8],
    pub virtual_size: U32<LE>,
    pub virtual_address: U32<LE>,
    pub size_of_raw_data: U32<LE>,
    pub pointer_to_raw_data: U32<LE>,
    pub pointer_to_relocations: U32<LE>,
    pub pointer_to_linenumbers: U32<LE>,
    pub number_of_relocations: U16<LE>,
    pub number_of_linenumbers: U16<LE>,
    pub characteristics: U32<LE>,
}

#[repr(C)]
pub struct ImageRelocation {
    pub virtual_address: U32<LE>,
    pub symbol_table_index: U32<LE>,
    pub typ: U16<LE>,
}

#[repr(C)]
pub struct ImageSymbol {
    pub name: [u8; 8],
    pub value: U32<LE>,
    pub section_number: U16<LE>,
    pub typ: U16<LE>,
    pub storage_class: u8,
    pub number_of_aux_symbols: u8,
}

#[repr(C)]
pub struct ImageImportDescriptor {
    pub original_first_thunk: U32<LE>,
    pub time_date_stamp: U32<LE>,
    pub forwarder_chain: U32<LE>,
    pub name: U32<LE>,
    pub first_thunk: U32<LE>,
}

#[repr(C)]
pub struct ImportObjectHeader {
    pub sig1: U16<LE>,
    pub sig2: U16<LE>,
    pub version: U16<LE>,
    pub machine: U16<LE>,
    pub time_date_stamp: U32<LE>,
    pub size_of_data: U32<LE>,
    pub ordinal_or_hint: U16<LE>,
    pub name_type: U16<LE>,
}

const _: () = assert!(size_of::<ImageFileHeader>() == 20);
const _: () = assert!(size_of::<ImageSectionHeader>() == 40);
const _: () = assert!(size_of::<ImageRelocation>() == 10);
const _: () = assert!(size_of::<ImageSymbol>() == 18);
const _: () = assert!(size_of::<ImageImportDescriptor>() == 20);
const _: () = assert!(size_of::<ImportObjectHeader>() == 20);

// SAFETY: every field is made of bytes, so there is no padding.
unsafe impl Pod for ImageFileHeader {}
// SAFETY: as above.
unsafe impl Pod for ImageSectionHeader {}
// SAFETY: as above.
unsafe impl Pod for ImageRelocation {}
// SAFETY: as above.
unsafe impl Pod for ImageSymbol {}
// SAFETY: as above.
unsafe impl Pod for ImageImportDescriptor {}
// SAFETY: as above.
unsafe impl Pod for ImportObjectHeader {}

/// The strings of a short import that its readers ask for.
pub struct ImportObjectData<'data> {
    symbol: &'data [u8],
}

impl<'data> ImportObjectData<'data> {
    pub fn symbol(&self) -> &'data [u8] {
        self.symbol
    }
}

impl ImportObjectHeader {
    /// Reads the header at `offset` and moves `offset` behind it.
    pub fn parse(data: &[u8], offset: &mut usize) -> Result<Self, &'static str> {
        let bytes = take(data, offset, size_of::<Self>()).ok_or("short import header is cut")?;
        let header = Self::from_bytes(bytes);
        if header.sig1.get(LE) != 0 || header.sig2.get(LE) != IMPORT_OBJECT_HDR_SIG2 {
            return Err("not a short import");
        }
        Ok(header)
    }

    /// Reads the strings at `offset` and moves `offset` behind them.
    pub fn parse_data<'data>(
        &self,
        data: &'data [u8],
        offset: &mut usize,
    ) -> Result<ImportObjectData<'data>, &'static str> {
        let size = self.size_of_data.get(LE) as usize;
        let strings = take(data, offset, size).ok_or("short import data is cut")?;
        let end = strings.iter().position(|&byte| byte == 0);
        let symbol = &strings[..end.ok_or("short import symbol has no end")?];
        Ok(ImportObjectData { symbol })
    }

    pub fn import_type(&self) -> u16 {
        self.name_type.get(LE) & IMPORT_OBJECT_TYPE_MASK
    }

    fn from_bytes(bytes: &[u8]) -> Self {
        let short = |at: usize| U16::new(LE, u16::from_le_bytes([bytes[at], bytes[at + 1]]));
        let long = |at: usize| {
            let number = [bytes[at], bytes[at + 1], bytes[at + 2], bytes[at + 3]];
            U32::new(LE, u32::from_le_bytes(number))
        };
        Self {
            sig1: short(0),
            sig2: short(2),
            version: short(4),
            machine: short(6),
            time_date_stamp: long(8),
            size_of_data: long(12),
            ordinal_or_hint: short(16),
            name_type: short(18),
        }
    }
}

fn take<'data>(data: &'data [u8], offset: &mut usize, size: usize) -> Option<&'data [u8]> {
    let end = offset.checked_add(size)?;
    let part = data.get(*offset..end)?;
    *offset = end;
    Some(part)
}
