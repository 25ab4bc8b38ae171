//! Stand-ins for the parts of the `object` crate that the Rust sources use.
//! Names, values and layouts are those of Microsoft's PE Format document.

pub mod pe;
pub mod pod;

use std::marker::PhantomData;

/// The byte order of every number in a COFF file.
#[derive(Clone, Copy)]
pub struct LittleEndian;

/// A u16 held as its bytes, so that a record of such fields has no padding.
#[derive(Clone, Copy)]
#[repr(transparent)]
pub struct U16<E>([u8; 2], PhantomData<E>);

impl U16<LittleEndian> {
    pub fn new(_: LittleEndian, value: u16) -> Self {
        Self(value.to_le_bytes(), PhantomData)
    }

    pub fn get(self, _: LittleEndian) -> u16 {
        u16::from_le_bytes(self.0)
    }
}

/// A u32 held as its bytes.
#[derive(Clone, Copy)]
#[repr(transparent)]
pub struct U32<E>([u8; 4], PhantomData<E>);

impl U32<LittleEndian> {
    pub fn new(_: LittleEndian, value: u32) -> Self {
        Self(value.to_le_bytes(), PhantomData)
    }

    pub fn get(self, _: LittleEndian) -> u32 {
        u32::from_le_bytes(self.0)
    }
}
