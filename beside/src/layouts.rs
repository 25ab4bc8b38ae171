//! The members that the library writes, read by the PE Format document alone and held to the scope paper's five layouts.

use oracle::Record;
use oracle::ask::{AMD64, ARM64, ARM64EC, ARMNT, I386, MACHINES, Options};
use oracle::list::{CONSTANT, DATA, NONAME, PRIVATE, encode_list};

use crate::judge::{Difference, same};
use crate::library;
use crate::pe::*;
use crate::pe::{
    IMPORT_CODE as CODE_KIND, IMPORT_CONST as CONST_KIND, IMPORT_DATA as DATA_KIND,
    IMPORT_NAME as NAME, IMPORT_NAME_EXPORTAS as EXPORTAS, IMPORT_NAME_NOPREFIX as NOPREFIX,
    IMPORT_NAME_UNDECORATE as UNDECORATE, IMPORT_ORDINAL as ORDINAL,
};
use crate::tables::{SLOTS, Table};

const ROOM: usize = 1 << 16;
const STEMS: [(&str, &str); 5] = [
    ("att.dll", "att"),
    ("a", "a"),
    (".a", ".a"),
    ("a.", "a"),
    ("a.b.dll", "a.b"),
];
const DATA_SECTION: u32 = IMAGE_SCN_CNT_INITIALIZED_DATA | IMAGE_SCN_MEM_READ | IMAGE_SCN_MEM_WRITE;
const NULL_DESCRIPTOR: &str = "__NULL_IMPORT_DESCRIPTOR";

/// A member as the document reads it.
#[derive(Debug, PartialEq)]
enum Member {
    Short(ShortImport),
    Object(Object),
}

pub fn layouts() -> Result<String, Difference> {
    let mut members = 0;
    for machine in MACHINES {
        for (mingw, compat) in [(false, false), (false, true), (true, false), (true, true)] {
            let options = Options {
                machine,
                mingw,
                compat,
            };
            for (dll, stem) in STEMS {
                let paper = Paper { options, dll, stem };
                let told = |what| Difference(format!("{options:04X?}, DLL name {dll}: {what}"));
                members += paper.hold().map_err(told)?;
            }
        }
    }
    Ok(format!(
        "layouts: {members} members stand as the PE Format document reads them"
    ))
}

/// What the paper says of the list below under some options.
struct Paper {
    options: Options,
    dll: &'static str,
    stem: &'static str,
}

/// Exports of every kind and name type, aliases of code and of data, one whose target is the last of two with its key, and one
/// whose name no other has.
fn records() -> Vec<Record> {
    vec![
        Record::new("att_far").import_name("elsewhere").ordinal(9),
        Record::new("att_go").import_name("att_step"),
        Record::new("att_step").ordinal(5),
        Record::new("att_data").flags(DATA),
        Record::new("att_const")
            .flags(CONSTANT | DATA)
            .ordinal(65535),
        Record::new("att_number").flags(NONAME).ordinal(256),
        Record::new("att_shown").export_as("att_other"),
        Record::new("att_hidden").flags(PRIVATE),
        Record::new("_att_low"),
        Record::new("_att_std@8"),
        Record::new("att_dec"),
        Record::new("att_dec").symbol_name("_att_dec@8"),
        Record::new("f").ext_name("_g"),
        Record::new("att_view").flags(DATA).import_name("att_data"),
        Record::new("att_run").import_name("att_dec"),
    ]
}

impl Paper {
    /// Writes the list, reads every member back and compares; the number of members.
    fn hold(&self) -> Result<usize, String> {
        let list = encode_list(self.dll.as_bytes(), &records(), &records());
        let mut set = vec![0xA5; ROOM];
        let mut table = Table::drawn(SLOTS, 0);
        let total = library::write(&list, self.options, table.lend(), &mut set);
        let total = total.map_err(|refusal| format!("refused {refusal:?}"))?;
        set.truncate(total);

        let [first, native] = self.machines().map(|machine| self.imports(machine));
        let fixed = [self.descriptor(), self.null_descriptor(), self.null_thunk()];
        let lists = [first.len(), native.len()];
        let wanted: Vec<Member> = fixed.into_iter().chain(first).chain(native).collect();
        let members = members(&set, lists)?;
        same("count", wanted.len(), members.len())?;
        for (index, (wanted, bytes)) in wanted.into_iter().zip(&members).enumerate() {
            let got = read(bytes).map_err(|what| format!("member {index}: {what}"))?;
            same(&format!("member {index}"), wanted, got)?;
        }
        Ok(members.len())
    }

    /// Of the first list, and of the native one and the fixed members.
    fn machines(&self) -> [u32; 2] {
        if self.options.is_hybrid() {
            [ARM64EC, ARM64]
        } else {
            [self.options.machine; 2]
        }
    }

    fn machine(&self) -> u32 {
        self.machines()[1]
    }

    fn is_64_bit(&self) -> bool {
        ![I386, ARMNT].contains(&self.machine())
    }

    fn null_name(&self) -> String {
        if self.options.compat {
            format!("{NULL_DESCRIPTOR}_{}", self.stem)
        } else {
            NULL_DESCRIPTOR.into()
        }
    }

    fn thunk_name(&self) -> String {
        format!("\x7f{}_NULL_THUNK_DATA", self.stem)
    }

    fn relocation_type(&self) -> u16 {
        match self.machine() {
            I386 => IMAGE_REL_I386_DIR32NB,
            ARMNT => IMAGE_REL_ARM_ADDR32NB,
            AMD64 => IMAGE_REL_AMD64_ADDR32NB,
            _ => IMAGE_REL_ARM64_ADDR32NB,
        }
    }

    fn object(&self, symbols_at: usize, sections: Vec<Section>, symbols: Vec<Symbol>) -> Member {
        Member::Object(Object {
            machine: self.machine() as u16,
            pointer_to_symbol_table: symbols_at as u32,
            number_of_symbols: symbols.len() as u32,
            characteristics: if self.is_64_bit() {
                0
            } else {
                IMAGE_FILE_32BIT_MACHINE
            },
            sections,
            symbols,
        })
    }

    fn descriptor(&self) -> Member {
        let relocation = |at, name: &str| Relocation {
            virtual_address: at,
            symbol: name.into(),
            relocation_type: self.relocation_type(),
        };
        let mut descriptor = section(".idata$2", &[0; 20], IMAGE_SCN_ALIGN_4BYTES);
        descriptor.relocations = vec![
            relocation(12, ".idata$6"),
            relocation(0, ".idata$4"),
            relocation(16, ".idata$5"),
        ];
        let dll = format!("{}\0", self.dll);
        let name = section(".idata$6", dll.as_bytes(), IMAGE_SCN_ALIGN_2BYTES);
        let symbols = vec![
            external(&format!("__IMPORT_DESCRIPTOR_{}", self.stem), 1),
            symbol(".idata$2", 1, IMAGE_SYM_CLASS_SECTION),
            symbol(".idata$6", 2, IMAGE_SYM_CLASS_STATIC),
            symbol(".idata$4", IMAGE_SYM_UNDEFINED, IMAGE_SYM_CLASS_SECTION),
            symbol(".idata$5", IMAGE_SYM_UNDEFINED, IMAGE_SYM_CLASS_SECTION),
            external(&self.null_name(), IMAGE_SYM_UNDEFINED),
            external(&self.thunk_name(), IMAGE_SYM_UNDEFINED),
        ];
        self.object(151 + self.dll.len(), vec![descriptor, name], symbols)
    }

    fn null_descriptor(&self) -> Member {
        let sections = vec![section(".idata$3", &[0; 20], IMAGE_SCN_ALIGN_4BYTES)];
        self.object(80, sections, vec![external(&self.null_name(), 1)])
    }

    fn null_thunk(&self) -> Member {
        let (symbols_at, slot, align) = if self.is_64_bit() {
            (116, &[0; 8][..], IMAGE_SCN_ALIGN_8BYTES)
        } else {
            (108, &[0; 4][..], IMAGE_SCN_ALIGN_4BYTES)
        };
        let sections = [".idata$5", ".idata$4"].map(|name| section(name, slot, align));
        self.object(
            symbols_at,
            sections.into(),
            vec![external(&self.thunk_name(), 1)],
        )
    }

    fn imports(&self, machine: u32) -> Vec<Member> {
        match machine {
            ARM64EC => self.hybrid_imports(),
            _ => self.plain_imports(machine),
        }
    }

    /// At once in order, then deferred in order.
    fn plain_imports(&self, machine: u32) -> Vec<Member> {
        let short = |symbol, ordinal, name_type, kind, export: &[&str]| {
            self.short(machine, symbol, ordinal, (name_type, kind), export)
        };
        let weak = |target, alias| weak(machine, target, alias);
        let low = match machine {
            I386 => NOPREFIX,
            _ => NAME,
        };
        let std = if self.options.mingw { low } else { NAME };
        vec![
            short("att_step", 5, NAME, CODE_KIND, &[]),
            short("att_data", 0, NAME, DATA_KIND, &[]),
            short("att_const", 65535, NAME, CONST_KIND, &[]),
            short("att_number", 256, ORDINAL, CODE_KIND, &[]),
            short("att_shown", 0, EXPORTAS, CODE_KIND, &["att_other"]),
            short("_att_low", 0, low, CODE_KIND, &[]),
            short("_att_std@8", 0, std, CODE_KIND, &[]),
            short("att_dec", 0, NAME, CODE_KIND, &[]),
            short("_att_dec@8", 0, UNDECORATE, CODE_KIND, &[]),
            short("_g", 0, NAME, CODE_KIND, &[]),
            short("att_far", 9, EXPORTAS, CODE_KIND, &["elsewhere"]),
            weak("att_step", "att_go"),
            weak("__imp_att_step", "__imp_att_go"),
            weak("__imp_att_data", "__imp_att_view"),
            weak("_att_dec@8", "att_run"),
            weak("__imp__att_dec@8", "__imp_att_run"),
        ]
    }

    /// No ARM64EC export is deferred.
    fn hybrid_imports(&self) -> Vec<Member> {
        let short = |symbol, ordinal, name_type, kind, export: &[&str]| {
            self.short(ARM64EC, symbol, ordinal, (name_type, kind), export)
        };
        vec![
            short("#att_far", 9, EXPORTAS, CODE_KIND, &["elsewhere"]),
            short("#att_go", 0, EXPORTAS, CODE_KIND, &["att_step"]),
            short("#att_step", 5, EXPORTAS, CODE_KIND, &["att_step"]),
            short("att_data", 0, NAME, DATA_KIND, &[]),
            short("att_const", 65535, NAME, CONST_KIND, &[]),
            short("#att_number", 256, ORDINAL, CODE_KIND, &[]),
            short("#att_shown", 0, EXPORTAS, CODE_KIND, &["att_other"]),
            short("#_att_low", 0, EXPORTAS, CODE_KIND, &["_att_low"]),
            short("#_att_std@8", 0, EXPORTAS, CODE_KIND, &["_att_std@8"]),
            short("#att_dec", 0, EXPORTAS, CODE_KIND, &["att_dec"]),
            short("#_att_dec@8", 0, EXPORTAS, CODE_KIND, &["_att_dec@8"]),
            short("#_g", 0, EXPORTAS, CODE_KIND, &["_g"]),
            short("att_view", 0, EXPORTAS, DATA_KIND, &["att_data"]),
            short("#att_run", 0, EXPORTAS, CODE_KIND, &["att_dec"]),
        ]
    }

    fn short(
        &self,
        machine: u32,
        symbol: &str,
        ordinal: u16,
        (name_type, import_type): (u16, u16),
        export: &[&str],
    ) -> Member {
        let strings = [&[symbol, self.dll], export].concat();
        let strings: Vec<String> = strings.into_iter().map(String::from).collect();
        let size: usize = strings.iter().map(|string| string.len() + 1).sum();
        Member::Short(ShortImport {
            sig1: 0,
            sig2: IMPORT_OBJECT_HDR_SIG2,
            version: 0,
            machine: machine as u16,
            time_date_stamp: 0,
            size_of_data: size as u32,
            ordinal_or_hint: ordinal,
            import_type,
            name_type,
            reserved: 0,
            strings,
        })
    }
}

fn section(name: &str, data: &[u8], align: u32) -> Section {
    Section {
        name: name.into(),
        data: data.into(),
        relocations: Vec::new(),
        characteristics: align | DATA_SECTION,
    }
}

fn symbol(name: &str, section_number: i16, storage_class: u8) -> Symbol {
    Symbol {
        name: name.into(),
        section_number,
        storage_class,
        weak: None,
    }
}

fn external(name: &str, section_number: i16) -> Symbol {
    symbol(name, section_number, IMAGE_SYM_CLASS_EXTERNAL)
}

/// Characteristics are 0 here on every machine.
fn weak(machine: u32, target: &str, alias: &str) -> Member {
    let mut drectve = section(".drectve", &[], 0);
    drectve.characteristics = IMAGE_SCN_LNK_INFO | IMAGE_SCN_LNK_REMOVE;
    let mut weak = symbol(alias, IMAGE_SYM_UNDEFINED, IMAGE_SYM_CLASS_WEAK_EXTERNAL);
    weak.weak = Some(Weak {
        tag: target.into(),
        characteristics: IMAGE_WEAK_EXTERN_SEARCH_ALIAS,
    });
    Member::Object(Object {
        machine: machine as u16,
        pointer_to_symbol_table: 60,
        number_of_symbols: 5,
        characteristics: 0,
        sections: vec![drectve],
        symbols: vec![
            symbol("@comp.id", IMAGE_SYM_ABSOLUTE, IMAGE_SYM_CLASS_STATIC),
            symbol("@feat.00", IMAGE_SYM_ABSOLUTE, IMAGE_SYM_CLASS_STATIC),
            external(target, IMAGE_SYM_UNDEFINED),
            weak,
        ],
    })
}

/// A short import starts with a machine that is unknown, and 65,535 sections.
fn read(member: &[u8]) -> Result<Member, String> {
    if member.starts_with(&[0, 0, 0xFF, 0xFF]) {
        ShortImport::read(member).map(Member::Short)
    } else {
        Object::read(member).map(Member::Object)
    }
}

/// The members of a set with lists of so many, which stand back to back up to its end.
pub fn members(set: &[u8], [first, native]: [usize; 2]) -> Result<Vec<&[u8]>, String> {
    let number = |at| u32_at(set, at).map(|number| number as usize);
    let count = 3 + first + native;
    let mut at = 16 + 8 * count;
    let header = [number(0)?, number(4)?, number(8)?, number(12)?];
    same("header", [count, first, native, at], header)?;
    let mut members = Vec::new();
    for entry in 0..count {
        let length = number(16 + 8 * entry + 4)?;
        same("offset", at, number(16 + 8 * entry)?)?;
        members.push(set.get(at..at + length).ok_or("a member beyond the set")?);
        at += length;
    }
    same("end", set.len(), at)?;
    Ok(members)
}
