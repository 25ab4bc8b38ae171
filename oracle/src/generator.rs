//! Random lists that reach every rule.
//!
//! Names come from a tiny alphabet and from the names before them, so that
//! keys collide and renamings and demanglings hit their edges.

use crate::ask::{MACHINES, Options, import_alone, short_symbol};
use crate::case::Case;
use crate::list::{CONSTANT, DATA, ExportList, NONAME, PRIVATE, Packing, Record};
use crate::rng::Rng;

const PIECES: [&str; 18] = [
    "a", "a", "a", "b", "b", "h", "_", "_", "@", "@", "?", "#", "$", ".", "$$h", "__imp_", "é",
    "日",
];
const ODD_DLLS: [&str; 12] = [
    "a", ".a", "a.", "..a", "...", ".a.b", "a.b.c", "a..b", "_", "é.日", "日", ".é",
];
const ORDINALS: [u16; 8] = [0, 0, 1, 5, 255, 256, 32768, 65535];
const FIRST_COUNTS: [usize; 14] = [0, 1, 1, 2, 2, 3, 3, 3, 4, 4, 5, 6, 8, 12];
const NATIVE_COUNTS: [usize; 9] = [0, 0, 0, 0, 0, 1, 2, 3, 5];
const LONG: [usize; 6] = [200, 255, 256, 1000, 4094, 4095];
const STRING_LIMIT: usize = 4095;
const DLL_LIMIT: usize = 255;

/// The endless row of cases of a seed.
pub fn cases(seed: u64) -> impl Iterator<Item = Case> {
    (0..).map(move |index| case(seed, index))
}

/// One case of a seed, which can be had without those before it.
pub fn case(seed: u64, index: u64) -> Case {
    // Drawn twice, so that neighbours in seed or index have nothing in common.
    let start = Rng::new(seed).draw() ^ index;
    let mut rng = Rng::new(Rng::new(start).draw());
    let options = Options {
        machine: rng.pick(&MACHINES),
        mingw: rng.one_in(3),
        compat: rng.one_in(3),
    };
    let packing = rng.pick(&[Packing::Apart, Packing::Shared, Packing::Gaps]);
    let first_count = rng.pick(&FIRST_COUNTS);
    let native_count = rng.pick(&NATIVE_COUNTS);
    let troubled = rng.one_in(4);
    let mut maker = Maker::new(rng);
    let dll = maker.dll().into();
    let first = maker.records(first_count, options, troubled);
    let native = maker.records(native_count, options.for_native(), troubled);
    Case {
        options,
        list: ExportList { dll, first, native },
        packing,
    }
}

/// Makes the DLL name and the records of one list.
struct Maker {
    rng: Rng,
    /// Names that later ones repeat or vary.
    pool: Vec<String>,
    /// Records whose keys later ones may want.
    earlier: Vec<Record>,
    long: bool,
}

impl Maker {
    fn new(mut rng: Rng) -> Self {
        let long = rng.one_in(100);
        Self {
            rng,
            pool: vec!["a".into(), "_a".into()],
            earlier: Vec::new(),
            long,
        }
    }

    fn dll(&mut self) -> String {
        if self.rng.one_in(3) {
            return self.rng.pick(&ODD_DLLS).into();
        }
        let mut dll = self.fresh();
        if self.long && self.rng.one_in(2) {
            dll = self.stretched(DLL_LIMIT);
        }
        if !self.rng.one_in(4) {
            dll = format!("{dll}.{}", self.piece());
        }
        clip(&mut dll, DLL_LIMIT);
        if dll == "." || dll == ".." {
            dll.push('a');
        }
        dll
    }

    fn records(&mut self, count: usize, options: Options, troubled: bool) -> Vec<Record> {
        if !troubled {
            return (0..count).map(|_| self.taken_record(options)).collect();
        }
        let mut records: Vec<Record> = (0..count).map(|_| self.record()).collect();
        if count > 0 && self.rng.one_in(2) {
            let place = self.rng.below(count);
            records[place] = self.trouble(options.is_hybrid());
        }
        records
    }

    /// A record that does not make the port refuse the list: most lists shall
    /// be taken, and a list is only as good as its worst record.
    fn taken_record(&mut self, options: Options) -> Record {
        let mut record = self.record();
        for _ in 0..4 {
            if is_taken(&record, options) {
                return record;
            }
            record = self.record();
        }
        record.flags(PRIVATE)
    }

    fn record(&mut self) -> Record {
        let mut record = match self.rng.below(16) {
            0..=3 => self.plain(),
            4..=5 => self.with_symbol(),
            6..=9 => self.renamed(),
            10..=13 => self.wanting(),
            _ => self.anything(),
        };
        for field in [&mut record.import_name, &mut record.export_as] {
            if self.rng.one_in(12) {
                *field = Some(self.word().into());
            }
        }
        record.ordinal = self.rng.pick(&ORDINALS);
        record.flags = self.flags();
        self.earlier.push(record.clone());
        record
    }

    fn flags(&mut self) -> u16 {
        let mut flags = 0;
        for (flag, n) in [(NONAME, 8), (DATA, 6), (PRIVATE, 12), (CONSTANT, 8)] {
            if self.rng.one_in(n) {
                flags |= flag;
            }
        }
        flags
    }

    fn plain(&mut self) -> Record {
        Record::new(&self.word())
    }

    fn with_symbol(&mut self) -> Record {
        let name = self.word();
        let symbol = if self.rng.one_in(2) {
            self.varied(&name)
        } else {
            self.word()
        };
        Record::new(&name).symbol_name(&symbol)
    }

    fn wanting(&mut self) -> Record {
        let mut record = match self.rng.below(4) {
            0 => self.with_symbol(),
            1 => self.renamed(),
            _ => self.plain(),
        };
        let wanted = match self.rng.below(8) {
            0..=1 => self.bared(&record),
            2..=4 if !self.earlier.is_empty() => {
                let earlier = self.rng.below(self.earlier.len());
                self.bared(&self.earlier[earlier].clone())
            }
            _ => self.word().into(),
        };
        record.import_name = Some(wanted);
        record
    }

    /// The record's name with less decoration, which a name type may give.
    fn bared(&mut self, record: &Record) -> Vec<u8> {
        let name = record.symbol_name.as_ref().or(record.name.as_ref());
        let mut bared = name.cloned().unwrap_or_default();
        if bared.len() > 1 && bared[0].is_ascii() && !self.rng.one_in(4) {
            bared.remove(0);
        }
        let cut = bared.iter().position(|&byte| byte == b'@');
        if let Some(cut @ 1..) = cut
            && self.rng.one_in(2)
        {
            bared.truncate(cut);
        }
        bared
    }

    /// A record where each string but the name may be there or not.
    fn anything(&mut self) -> Record {
        let mut record = self.plain();
        for field in [
            &mut record.ext_name,
            &mut record.symbol_name,
            &mut record.import_name,
            &mut record.export_as,
        ] {
            if self.rng.one_in(2) {
                *field = Some(self.word().into());
            }
        }
        record
    }

    fn renamed(&mut self) -> Record {
        match self.rng.below(6) {
            0 => self.plain().ext_name(&self.word()),
            1 | 2 => self.renamed_inside(),
            3 => self.renamed_after_retry(),
            4 => self.renamed_by_empty_pattern(),
            _ => self.with_symbol().ext_name(&self.word()),
        }
    }

    fn renamed_inside(&mut self) -> Record {
        let name = self.word();
        let symbol = self.around(&name);
        Record::new(&name)
            .symbol_name(&symbol)
            .ext_name(&self.word())
    }

    fn renamed_after_retry(&mut self) -> Record {
        let bare = self.word();
        let symbol = self.around(&bare).replace(&format!("_{bare}"), &bare);
        Record::new(&clipped(format!("_{bare}")))
            .symbol_name(&symbol)
            .ext_name(&clipped(format!("_{}", self.word())))
    }

    fn renamed_by_empty_pattern(&mut self) -> Record {
        let symbol = self.word().replace('_', "b");
        let ext_name = match self.rng.below(3) {
            0 => "_".into(),
            _ => clipped(format!("_{}", self.word())),
        };
        Record::new("_").symbol_name(&symbol).ext_name(&ext_name)
    }

    /// A record that is likely to be refused.
    fn trouble(&mut self, hybrid: bool) -> Record {
        let word = self.fresh();
        let record = match self.rng.below(if hybrid { 6 } else { 2 }) {
            0 => Record::new(&format!("{word}h"))
                .symbol_name(&word)
                .ext_name(&self.word()),
            1 => Record::new(&format!("_{word}"))
                .symbol_name(&word)
                .ext_name("_"),
            2 | 3 => Record::new(&format!("?{}", word.replace("$$h", "h"))),
            _ => Record::new(&format!("?{}$$h", word.replace("$$h", "h"))),
        };
        match self.rng.below(4) {
            0 => record.flags(self.flags()),
            _ => record,
        }
    }

    fn word(&mut self) -> String {
        let word = match self.rng.below(8) {
            0..=2 => self.known(),
            3..=4 => {
                let known = self.known();
                self.varied(&known)
            }
            _ if self.long && self.rng.one_in(2) => self.stretched(STRING_LIMIT),
            _ if self.rng.one_in(6) => self.mangled(),
            _ => self.fresh(),
        };
        if self.pool.len() < 6 {
            self.pool.push(word.clone());
        }
        word
    }

    fn known(&mut self) -> String {
        self.pool[self.rng.below(self.pool.len())].clone()
    }

    fn fresh(&mut self) -> String {
        (0..=self.rng.below(3)).map(|_| self.piece()).collect()
    }

    /// A C++ name with its ARM64EC tag.
    fn mangled(&mut self) -> String {
        let tail = match self.rng.below(4) {
            0 => format!("$$h{}", self.piece()),
            _ => self.piece().into(),
        };
        format!("?{}$$h{tail}", self.piece())
    }

    fn stretched(&mut self, limit: usize) -> String {
        let length = self.rng.pick(&LONG).min(limit);
        let mut word = String::new();
        while word.len() < length {
            word.push_str(self.piece());
        }
        clip(&mut word, length);
        word
    }

    fn piece(&mut self) -> &'static str {
        self.rng.pick(&PIECES)
    }

    /// The word inside a longer one, or twice.
    fn around(&mut self, word: &str) -> String {
        let around = match self.rng.below(4) {
            0 => word.into(),
            1 => format!("{word}{}{word}", self.piece()),
            2 => format!("{}{word}", self.piece()),
            _ => format!("{}{word}{}", self.piece(), self.piece()),
        };
        clipped(around)
    }

    /// The word with its decoration changed.
    fn varied(&mut self, word: &str) -> String {
        let varied = match self.rng.below(10) {
            0 | 1 => format!("_{word}"),
            2 => format!("?{word}"),
            3 => format!("@{word}"),
            4 => format!("#{word}"),
            5 => format!("{word}@{}", self.piece()),
            6 => format!("{word}$$h{}", self.piece()),
            7 => format!("__imp_{word}"),
            8 => word.chars().skip(1).collect(),
            _ => word.split('@').next().unwrap_or_default().into(),
        };
        if varied.is_empty() {
            return word.into();
        }
        clipped(varied)
    }
}

fn is_taken(record: &Record, options: Options) -> bool {
    record.has(PRIVATE)
        || import_alone(record.clone(), options)
            .is_some_and(|member| !short_symbol(&member.bytes).is_empty())
}

fn clipped(mut word: String) -> String {
    clip(&mut word, STRING_LIMIT);
    word
}

/// Cuts a word down to a number of bytes without splitting a character.
fn clip(word: &mut String, limit: usize) {
    word.truncate(word.floor_char_boundary(limit));
}
