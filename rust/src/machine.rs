//! Machines by number and by name.

use std::fmt;
use std::str::FromStr;

/// A machine number. Any number can be asked for; one that is not in the table is refused.
#[derive(Clone, Copy, Debug, PartialEq, Eq, Hash)]
pub struct Machine(pub u32);

impl Machine {
    pub const I386: Self = Self(0x014C);
    pub const ARMNT: Self = Self(0x01C4);
    pub const AMD64: Self = Self(0x8664);
    pub const ARM64: Self = Self(0xAA64);
    pub const ARM64EC: Self = Self(0xA641);
    pub const ARM64X: Self = Self(0xA64E);

    /// The machines of the table with their names.
    pub const TABLE: [(&str, Self); 6] = [
        ("i386", Self::I386),
        ("armnt", Self::ARMNT),
        ("amd64", Self::AMD64),
        ("arm64", Self::ARM64),
        ("arm64ec", Self::ARM64EC),
        ("arm64x", Self::ARM64X),
    ];
}

/// A word that names no machine.
#[derive(Clone, Debug, PartialEq, Eq)]
pub struct NoMachine(pub String);

impl fmt::Display for NoMachine {
    fn fmt(&self, text: &mut fmt::Formatter<'_>) -> fmt::Result {
        let names = Machine::TABLE.map(|(name, _)| name).join(", ");
        let word = &self.0;
        write!(
            text,
            "`{word}` is no machine: {names}, or a number as 0x8664"
        )
    }
}

impl std::error::Error for NoMachine {}

impl FromStr for Machine {
    type Err = NoMachine;

    /// A name of the table, or `0x` and a hexadecimal number, which may be any.
    fn from_str(word: &str) -> Result<Self, NoMachine> {
        if let Some((_, machine)) = Self::TABLE.iter().find(|(name, _)| *name == word) {
            return Ok(*machine);
        }
        word.strip_prefix("0x")
            .and_then(|digits| u32::from_str_radix(digits, 16).ok())
            .map(Self)
            .ok_or_else(|| NoMachine(word.into()))
    }
}

impl fmt::Display for Machine {
    fn fmt(&self, text: &mut fmt::Formatter<'_>) -> fmt::Result {
        match Self::TABLE.iter().find(|(_, machine)| machine == self) {
            Some((name, _)) => text.pad(name),
            None => text.pad(&format!("0x{:04x}", self.0)),
        }
    }
}
