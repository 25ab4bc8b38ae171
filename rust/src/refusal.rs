//! Why the library refused.

use std::fmt;

/// A refusal of the scope paper, with the index of the record that it is about where it is about one (the first list's records
/// count from 0, the native list's after them).
///
/// A string that is refused is one of that record, or the DLL name, for which the place is 0 too. `Slots` comes of `raw::write`
/// only: the wrapper always lends enough.
#[derive(Clone, Copy, Debug, PartialEq, Eq)]
pub enum Refusal {
    Machine,
    ListTooShort,
    Count,
    Shape,
    StringOutside { place: u32 },
    StringEmpty { place: u32 },
    StringTooLong { place: u32 },
    StringNul { place: u32 },
    UnknownFlag { record: u32 },
    DllName,
    Renaming { record: u32 },
    PublicNameEmpty { record: u32 },
    Arm64ecUnmangled { record: u32 },
    Arm64ecDemangling { record: u32 },
    Room,
    NotAMember,
    NotASet,
    Slots,
}

impl Refusal {
    /// The refusal that an answer of the C interface stands for; nothing where its upper half is 0.
    ///
    /// # Panics
    ///
    /// On 18 and on a number above 19, which the library does not give.
    pub fn of(answer: u64) -> Option<Self> {
        let place = answer as u32;
        Some(match answer >> 32 {
            0 => return None,
            1 => Self::Machine,
            2 => Self::ListTooShort,
            3 => Self::Count,
            4 => Self::Shape,
            5 => Self::StringOutside { place },
            6 => Self::StringEmpty { place },
            7 => Self::StringTooLong { place },
            8 => Self::StringNul { place },
            9 => Self::UnknownFlag { record: place },
            10 => Self::DllName,
            11 => Self::Renaming { record: place },
            12 => Self::PublicNameEmpty { record: place },
            13 => Self::Arm64ecUnmangled { record: place },
            14 => Self::Arm64ecDemangling { record: place },
            15 => Self::Room,
            16 => Self::NotAMember,
            17 => Self::NotASet,
            19 => Self::Slots,
            number => panic!("no refusal has the number {number}"),
        })
    }

    /// The number that the scope paper gives it.
    pub fn number(self) -> u8 {
        match self {
            Self::Machine => 1,
            Self::ListTooShort => 2,
            Self::Count => 3,
            Self::Shape => 4,
            Self::StringOutside { .. } => 5,
            Self::StringEmpty { .. } => 6,
            Self::StringTooLong { .. } => 7,
            Self::StringNul { .. } => 8,
            Self::UnknownFlag { .. } => 9,
            Self::DllName => 10,
            Self::Renaming { .. } => 11,
            Self::PublicNameEmpty { .. } => 12,
            Self::Arm64ecUnmangled { .. } => 13,
            Self::Arm64ecDemangling { .. } => 14,
            Self::Room => 15,
            Self::NotAMember => 16,
            Self::NotASet => 17,
            Self::Slots => 19,
        }
    }

    /// The index of the record that it is about; 0 outside records.
    pub fn place(self) -> u32 {
        match self {
            Self::StringOutside { place }
            | Self::StringEmpty { place }
            | Self::StringTooLong { place }
            | Self::StringNul { place } => place,
            Self::UnknownFlag { record }
            | Self::Renaming { record }
            | Self::PublicNameEmpty { record }
            | Self::Arm64ecUnmangled { record }
            | Self::Arm64ecDemangling { record } => record,
            _ => 0,
        }
    }

    /// When it is given, in words.
    pub fn meaning(self) -> &'static str {
        match self {
            Self::Machine => "the machine is not in the table",
            Self::ListTooShort => "the list is shorter than 28 bytes",
            Self::Count => "a count is above 4,096",
            Self::Shape => "offsets or total length are not those of a list",
            Self::StringOutside { .. } => "a string's offset + length is above the names' length",
            Self::StringEmpty { .. } => {
                "a string is empty (and not absent), or a required one is absent"
            }
            Self::StringTooLong { .. } => "a string is above 4,095 bytes (the DLL name: 255)",
            Self::StringNul { .. } => "a string holds NUL",
            Self::UnknownFlag { .. } => "unknown flag bit",
            Self::DllName => "the DLL name is `.` or `..`, or holds `/`, `\\` or `:`",
            Self::Renaming { .. } => "renaming failed: the name does not occur in the symbol name",
            Self::PublicNameEmpty { .. } => "the public name is empty",
            Self::Arm64ecUnmangled { .. } => "a free ARM64EC code name starts `?` without `$$h`",
            Self::Arm64ecDemangling { .. } => {
                "a free ARM64EC code name that starts `?` or `#` can't be demangled"
            }
            Self::Room => "the total is larger than the output",
            Self::NotAMember => "not one of the five layouts of members",
            Self::NotASet => "not a member set",
            Self::Slots => "the table has fewer than 8,192 slots",
        }
    }

    fn where_it_is(self) -> String {
        match self {
            Self::StringOutside { place: 0 }
            | Self::StringEmpty { place: 0 }
            | Self::StringTooLong { place: 0 }
            | Self::StringNul { place: 0 } => "the DLL name or record 0".into(),
            Self::StringOutside { place: record }
            | Self::StringEmpty { place: record }
            | Self::StringTooLong { place: record }
            | Self::StringNul { place: record }
            | Self::UnknownFlag { record }
            | Self::Renaming { record }
            | Self::PublicNameEmpty { record }
            | Self::Arm64ecUnmangled { record }
            | Self::Arm64ecDemangling { record } => format!("record {record}"),
            Self::DllName => "the DLL name".into(),
            _ => "outside records".into(),
        }
    }
}

impl fmt::Display for Refusal {
    fn fmt(&self, text: &mut fmt::Formatter<'_>) -> fmt::Result {
        let (number, place, meaning) = (self.number(), self.place(), self.meaning());
        let at = self.where_it_is();
        write!(text, "refusal {number}, place {place} ({at}): {meaning}")
    }
}

impl std::error::Error for Refusal {}
