//! Which rules a case reaches.
//!
//! A fact is a short text. Statistics count facts, and the fixed list is
//! chosen so that each one stands in it.

use crate::ask::{
    AMD64, ARM64, ARM64EC, ARM64X, ARMNT, Answer, I386, Member, Members, Options,
    empty_public_name, hash_alone, is_free, public_names,
};
use crate::case::Case;
use crate::imports::{Deferred, ShortImport, Written, type_alone};
use crate::list::{CONSTANT, DATA, NONAME, PRIVATE, Packing, Record};

/// Every fact, in the order in which statistics show them.
pub const EVERY: [&str; 91] = [
    "machine: I386",
    "machine: ARMNT",
    "machine: AMD64",
    "machine: ARM64",
    "machine: ARM64EC",
    "machine: ARM64X",
    "option: mingw",
    "option: whole_archive_compat",
    "names: apart",
    "names: shared",
    "names: with gaps",
    "DLL name: no dot",
    "DLL name: leading dot only",
    "DLL name: one dot",
    "DLL name: several dots",
    "DLL name: not ASCII",
    "DLL name: 255 bytes",
    "lists: no records",
    "lists: first only",
    "lists: native only",
    "lists: both",
    "answer: members",
    "answer: 11",
    "answer: 12",
    "answer: 13",
    "answer: 14",
    "answer: 11 to 14 behind a private record",
    "answer: 11 or 12 in the native list",
    "the Rust: panics",
    "record: ext_name",
    "record: no ext_name",
    "record: symbol_name",
    "record: no symbol_name",
    "record: import_name",
    "record: no import_name",
    "record: export_as",
    "record: no export_as",
    "record: noname",
    "record: private",
    "record: private, would be refused",
    "record: data and constant",
    "record: noname and export_as",
    "record: noname and import_name",
    "record: export_as and import_name",
    "record: not ASCII",
    "record: string of 4,095 bytes",
    "rename: at the only place",
    "rename: at the first of several places",
    "rename: after dropping `_`",
    "rename: by the empty pattern",
    "rename: fails, `_` on both",
    "rename: fails, `_` on one or none",
    "rename: public name empty",
    "type: 0 ordinal",
    "type: 1 name",
    "type: 2 noprefix",
    "type: 3 undecorate",
    "type: 4 exportas",
    "type: public name would give another",
    "type: depends on mingw",
    "type: 1, import_name is the public name",
    "type: 2, import_name is without prefix",
    "type: 3, import_name is undecorated",
    "type: 4, import_name on ARM64EC",
    "kind: 0 code",
    "kind: 1 data",
    "kind: 2 constant",
    "ARM64EC code: prefixed, free",
    "ARM64EC code: prefixed, not free",
    "ARM64EC code: `#`, free",
    "ARM64EC code: `#`, not free",
    "ARM64EC code: `#` alone, not free",
    "ARM64EC code: `?` with `$$h`, free",
    "ARM64EC code: `?` with `$$h`, not free",
    "ARM64EC code: `?` without `$$h`, not free",
    "ARM64EC code: two `$$h`",
    "ARM64EC: data or constant",
    "key: empty",
    "wanted: no key",
    "wanted: key of the other list only",
    "wanted: name of a deferred one only",
    "alias: code",
    "alias: data",
    "alias: constant",
    "alias: of type 0",
    "alias: of type 1",
    "alias: of type 2",
    "alias: of type 3",
    "alias: of type 4",
    "alias: the first equal key is another name's",
    "alias: deferred before a written one",
];

/// The facts of a case, each as often as it holds.
pub fn facts(case: &Case, answer: &Answer) -> Vec<&'static str> {
    let mut facts = Facts(Vec::new());
    facts.of_options(case);
    facts.of_dll_name(&case.list.dll);
    facts.of_counts(case);
    facts.of_answer(case, answer);
    let native = case.options.for_native();
    facts.of_records(&case.list.first, case.options);
    facts.of_records(&case.list.native, native);
    if let Answer::Members(members) = answer {
        facts.of_members(&members.first);
        facts.of_members(&members.native);
        facts.of_both_lists(case, members);
    }
    facts.0
}

/// The number and place that the port gives to a list, if it refuses it.
///
/// The Rust knows no 12, and no 14 for `#` alone; an empty public name and a free
/// `#` count when they stand before the record that the Rust refuses.
pub fn refusal(case: &Case, answer: &Answer) -> Option<(u32, u32)> {
    let refused = match answer {
        Answer::Error { number, place, .. } => Some((*number, *place)),
        _ => None,
    };
    let empty = empty_public_name(&case.list).map(|place| (12, place));
    let alone = hash_alone(&case.list, case.options).map(|place| (14, place));
    let refusals = [empty, alone, refused].into_iter().flatten();
    refusals.min_by_key(|&(_, place)| place)
}

struct Facts(Vec<&'static str>);

impl Facts {
    fn add(&mut self, fact: &'static str) {
        self.0.push(fact);
    }

    fn add_if(&mut self, holds: bool, fact: &'static str) {
        if holds {
            self.add(fact);
        }
    }

    fn of_options(&mut self, case: &Case) {
        self.add(match case.options.machine {
            I386 => "machine: I386",
            ARMNT => "machine: ARMNT",
            AMD64 => "machine: AMD64",
            ARM64 => "machine: ARM64",
            ARM64EC => "machine: ARM64EC",
            ARM64X => "machine: ARM64X",
            other => panic!("machine {other:x} is none of the six"),
        });
        self.add_if(case.options.mingw, "option: mingw");
        self.add_if(case.options.compat, "option: whole_archive_compat");
        self.add(match case.packing {
            Packing::Apart => "names: apart",
            Packing::Shared => "names: shared",
            Packing::Gaps => "names: with gaps",
        });
    }

    fn of_dll_name(&mut self, dll: &[u8]) {
        let dots = dll.iter().filter(|&&byte| byte == b'.').count();
        self.add(match dots {
            0 => "DLL name: no dot",
            1 if dll[0] == b'.' => "DLL name: leading dot only",
            1 => "DLL name: one dot",
            _ => "DLL name: several dots",
        });
        self.add_if(!dll.is_ascii(), "DLL name: not ASCII");
        self.add_if(dll.len() == 255, "DLL name: 255 bytes");
    }

    fn of_counts(&mut self, case: &Case) {
        let (first, native) = (&case.list.first, &case.list.native);
        self.add(match (first.is_empty(), native.is_empty()) {
            (true, true) => "lists: no records",
            (false, true) => "lists: first only",
            (true, false) => "lists: native only",
            (false, false) => "lists: both",
        });
    }

    fn of_answer(&mut self, case: &Case, answer: &Answer) {
        self.add_if(matches!(answer, Answer::Panic), "the Rust: panics");
        let Some((number, place)) = refusal(case, answer) else {
            self.add("answer: members");
            return;
        };
        self.add(match number {
            11 => "answer: 11",
            12 => "answer: 12",
            13 => "answer: 13",
            _ => "answer: 14",
        });
        let place = place as usize;
        let behind = case.list.records().take(place).any(|r| r.has(PRIVATE));
        self.add_if(behind, "answer: 11 to 14 behind a private record");
        let native = place >= case.list.first.len();
        self.add_if(native, "answer: 11 or 12 in the native list");
    }

    fn of_records(&mut self, records: &[Record], options: Options) {
        for (record, public_name) in records.iter().zip(public_names(records)) {
            let public_name = public_name.as_deref();
            self.of_strings(record);
            self.of_flags(record);
            self.of_renaming(record, public_name);
            if record.has(PRIVATE) {
                let refused = public_name.is_none_or(<[u8]>::is_empty);
                self.add_if(refused, "record: private, would be refused");
            } else if let Some(public_name) = public_name {
                self.of_name_type(record, public_name, options);
                self.of_hybrid(record, public_name, options);
            }
        }
    }

    fn of_strings(&mut self, record: &Record) {
        let mut either = |there: bool, yes, no| self.add(if there { yes } else { no });
        either(
            record.ext_name.is_some(),
            "record: ext_name",
            "record: no ext_name",
        );
        either(
            record.symbol_name.is_some(),
            "record: symbol_name",
            "record: no symbol_name",
        );
        either(
            record.import_name.is_some(),
            "record: import_name",
            "record: no import_name",
        );
        either(
            record.export_as.is_some(),
            "record: export_as",
            "record: no export_as",
        );
        let any = |holds: fn(&[u8]) -> bool| record.strings().into_iter().flatten().any(holds);
        self.add_if(any(|s| !s.is_ascii()), "record: not ASCII");
        self.add_if(any(|s| s.len() == 4095), "record: string of 4,095 bytes");
    }

    fn of_flags(&mut self, record: &Record) {
        let noname = record.has(NONAME);
        let export_as = record.export_as.is_some();
        let import_name = record.import_name.is_some();
        let both = record.has(DATA) && record.has(CONSTANT);
        self.add_if(noname, "record: noname");
        self.add_if(record.has(PRIVATE), "record: private");
        self.add_if(both, "record: data and constant");
        self.add_if(noname && export_as, "record: noname and export_as");
        self.add_if(noname && import_name, "record: noname and import_name");
        self.add_if(
            export_as && import_name,
            "record: export_as and import_name",
        );
    }

    fn of_renaming(&mut self, record: &Record, public_name: Option<&[u8]>) {
        let (Some(name), Some(ext_name)) = (&record.name, &record.ext_name) else {
            return;
        };
        let base = record.symbol_name.as_ref().unwrap_or(name);
        let places = base.windows(name.len()).filter(|part| part == name).count();
        let both = name[0] == b'_' && ext_name[0] == b'_';
        self.add(match (public_name, places) {
            (Some(_), 1) => "rename: at the only place",
            (Some(_), 2..) => "rename: at the first of several places",
            (Some(_), 0) if name.len() == 1 => "rename: by the empty pattern",
            (Some(_), 0) => "rename: after dropping `_`",
            (None, _) if both => "rename: fails, `_` on both",
            (None, _) => "rename: fails, `_` on one or none",
        });
        let empty = public_name.is_some_and(<[u8]>::is_empty);
        self.add_if(empty, "rename: public name empty");
    }

    fn of_name_type(&mut self, record: &Record, public_name: &[u8], options: Options) {
        if record.has(NONAME) || record.export_as.is_some() {
            return;
        }
        let Some(name_type) = type_alone(record.clone(), options) else {
            return;
        };
        if record.import_name.is_some() {
            self.of_type_by_import_name(name_type, options);
        } else {
            self.of_type_by_name(name_type, record, public_name, options);
        }
    }

    fn of_type_by_import_name(&mut self, name_type: u16, options: Options) {
        match name_type {
            1 => self.add("type: 1, import_name is the public name"),
            2 => self.add("type: 2, import_name is without prefix"),
            3 => self.add("type: 3, import_name is undecorated"),
            _ => self.add_if(options.is_hybrid(), "type: 4, import_name on ARM64EC"),
        }
    }

    fn of_type_by_name(
        &mut self,
        name_type: u16,
        record: &Record,
        public_name: &[u8],
        options: Options,
    ) {
        let other_mingw = Options {
            mingw: !options.mingw,
            ..options
        };
        let by_mingw = type_alone(record.clone(), other_mingw);
        self.add_if(by_mingw != Some(name_type), "type: depends on mingw");
        let by_public_name = Record {
            symbol_name: Some(public_name.to_vec()),
            ext_name: None,
            ..record.clone()
        };
        self.add_if(
            record.ext_name.is_some() && type_alone(by_public_name, options) != Some(name_type),
            "type: public name would give another",
        );
    }

    fn of_hybrid(&mut self, record: &Record, public: &[u8], options: Options) {
        if !options.is_hybrid() || public.is_empty() {
            return;
        }
        if record.has(DATA | CONSTANT) {
            self.add("ARM64EC: data or constant");
            return;
        }
        let free = is_free(record);
        let tags = public.windows(3).filter(|part| part == b"$$h").count();
        match (public[0], free, tags) {
            (b'#', true, _) => self.add("ARM64EC code: `#`, free"),
            (b'#', false, _) => self.add("ARM64EC code: `#`, not free"),
            (b'?', false, 0) => self.add("ARM64EC code: `?` without `$$h`, not free"),
            (b'?', true, 0) => {}
            (b'?', true, _) => self.add("ARM64EC code: `?` with `$$h`, free"),
            (b'?', false, _) => self.add("ARM64EC code: `?` with `$$h`, not free"),
            (_, true, _) => self.add("ARM64EC code: prefixed, free"),
            (_, false, _) => self.add("ARM64EC code: prefixed, not free"),
        }
        self.add_if(!free && public == b"#", "ARM64EC code: `#` alone, not free");
        self.add_if(
            free && public[0] == b'?' && tags > 1,
            "ARM64EC code: two `$$h`",
        );
    }

    fn of_members(&mut self, members: &[Member]) {
        for import in members.iter().filter_map(ShortImport::of) {
            self.add(match import.name_type {
                0 => "type: 0 ordinal",
                1 => "type: 1 name",
                2 => "type: 2 noprefix",
                3 => "type: 3 undecorate",
                _ => "type: 4 exportas",
            });
            self.add(match import.kind {
                0 => "kind: 0 code",
                1 => "kind: 1 data",
                _ => "kind: 2 constant",
            });
            self.add_if(import.key().is_empty(), "key: empty");
        }
    }

    fn of_both_lists(&mut self, case: &Case, members: &Members) {
        let (options, list) = (case.options, &case.list);
        let first = Written::of(&list.first, &members.first, options);
        let native = Written::of(&list.native, &members.native, options.for_native());
        self.of_deferred(&first, &native);
        self.of_deferred(&native, &first);
    }

    fn of_deferred(&mut self, list: &Written, other: &Written) {
        for deferred in &list.deferred {
            let wanted = deferred.wanted;
            let equal: Vec<_> = list.with_key(wanted).collect();
            if let (Some(first), Some(last)) = (equal.first(), equal.last()) {
                self.of_alias(deferred, first, last);
                continue;
            }
            self.add("wanted: no key");
            let elsewhere = other.with_key(wanted).next().is_some();
            self.add_if(elsewhere, "wanted: key of the other list only");
            let public = list.deferred.iter().any(|d| d.public_name == wanted);
            self.add_if(public, "wanted: name of a deferred one only");
        }
    }

    fn of_alias(&mut self, deferred: &Deferred, first: &ShortImport, last: &ShortImport) {
        let record = deferred.record;
        self.add(match (record.has(CONSTANT), record.has(DATA)) {
            (true, _) => "alias: constant",
            (false, true) => "alias: data",
            (false, false) => "alias: code",
        });
        self.add(match last.name_type {
            0 => "alias: of type 0",
            1 => "alias: of type 1",
            2 => "alias: of type 2",
            3 => "alias: of type 3",
            _ => "alias: of type 4",
        });
        self.add_if(
            first.symbol != last.symbol,
            "alias: the first equal key is another name's",
        );
        self.add_if(
            deferred.before_written,
            "alias: deferred before a written one",
        );
    }
}
