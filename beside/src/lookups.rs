//! Symbols of generated lists, looked up in the sets that are written of them, and in damaged sets.

use std::collections::{BTreeMap, BTreeSet};
use std::fmt;

use oracle::ask::{self, ARM64EC, MACHINES};
use oracle::list::{CONSTANT, DATA, NONAME, PRIVATE};
use oracle::rng::Rng;
use oracle::{Answer, Case, Members, Record, generator, picked};

use crate::asked::{Asked, Maker, Where};
use crate::content::Content;
use crate::damaged_sets::{self, Damaged};
use crate::judge::{Difference, same, wanted};
use crate::looks::Question;
use crate::member_set::{IMP, Looked, MemberSet, symbols};

/// Numbers of no list.
const NO_LISTS: [u32; 3] = [0, 3, u32::MAX];
/// How many symbols like it are asked beside each symbol.
const ALIKE: usize = 3;

/// How many lists meet the conditions under which each symbol leads where its record asks, how many do not, and how many
/// symbols had each answer.
#[derive(Default)]
struct Tally {
    kept: u64,
    others: u64,
    answers: BTreeMap<&'static str, u64>,
}

impl fmt::Display for Tally {
    fn fmt(&self, text: &mut fmt::Formatter<'_>) -> fmt::Result {
        let Self { kept, others, .. } = self;
        write!(
            text,
            "{kept} lists whose records decide, {others} others; symbols:"
        )?;
        for (index, (answer, count)) in self.answers.iter().enumerate() {
            let comma = if index == 0 { "" } else { "," };
            write!(text, "{comma} {count} {answer}")?;
        }
        Ok(())
    }
}

/// Every damage to small sets. Then hand-picked and generated lists, and as many of records that want each other: each symbol of
/// an export and some like it, in both lists of the written set, and one damage at random to that set.
pub fn lookups(count: u64, seed: u64) -> Result<String, Difference> {
    let mut rng = Rng::new(seed);
    let mut tally = Tally::default();
    let mut damaged = Damaged::default();
    damaged_sets::every(&mut damaged)?;
    let mut pool_rng = Rng::new(!seed);
    let pooled = (0..count).map(|_| pooled(&mut pool_rng));
    let generated = generator::cases(seed).take(count as usize);
    for case in picked::cases().into_iter().chain(generated).chain(pooled) {
        let answer = case.answer();
        if let (Ok(set), Answer::Members(members)) = (wanted(&case, &answer), &answer) {
            same_symbols(members)?;
            tally.look(&case, &set, &mut rng)?;
            damaged_sets::random(&set, &mut rng, &mut damaged)?;
        }
    }
    Ok(format!("lookups: {tally}; damaged sets: {damaged}"))
}

/// Few records with few names: aliases of each kind, their targets, and those that take a symbol from them.
fn pooled(rng: &mut Rng) -> Case {
    let mut records = || -> Vec<Record> {
        let count = rng.below(7);
        (0..count).map(|_| pooled_record(rng)).collect()
    };
    let (first, native) = (records(), records());
    let case = Case::new(rng.pick(&MACHINES), &first).native(&native);
    if rng.one_in(3) { case.mingw() } else { case }
}

fn pooled_record(rng: &mut Rng) -> Record {
    let flags = [0, 0, DATA, DATA, CONSTANT, CONSTANT | DATA, NONAME, PRIVATE];
    let flags = rng.pick(&flags);
    let named = |names: [&str; 4], rng: &mut Rng| {
        let ordinal = rng.below(3) as u16;
        Record::new(rng.pick(&names)).ordinal(ordinal).flags(flags)
    };
    match rng.below(10) {
        0..4 => {
            let wanted = rng.pick(&["a", "a", "a", "b", "_a", "z"]);
            named(["a", "d", "e", "f"], rng).import_name(wanted)
        }
        4 => named(["a", "b", "h", "i"], rng).export_as("a"),
        5 => {
            let ext_name = rng.pick(&["k", "_a", "__imp_a"]);
            named(["a", "b", "h", "i"], rng).ext_name(ext_name)
        }
        _ => named(["a", "a", "_a", "b"], rng),
    }
}

/// The symbols of short imports are the Rust's, but for ARM64EC's `#` alone.
fn same_symbols(members: &Members) -> Result<(), Difference> {
    for member in members.first.iter().chain(&members.native) {
        let content = Content::of(&member.bytes);
        if let Some(content @ Content::ShortImport(short)) = content
            && (short.machine, short.symbol) != (ARM64EC, b"#")
        {
            let what = format!("the symbols of {content:?}");
            let theirs = ask::symbols(member);
            same(&what, theirs, Some(symbols(&content))).map_err(Difference)?;
        }
    }
    Ok(())
}

/// The symbols of the lists and of the members, with some like them, and those that prefixes alone make.
fn asked_symbols(own: &BTreeSet<Vec<u8>>, rng: &mut Rng) -> BTreeSet<Vec<u8>> {
    let alone = ["", "__imp_", "__imp_aux_", "__imp___imp_", "#", "\0"];
    let mut symbols: BTreeSet<Vec<u8>> = alone.map(|symbol| symbol.into()).into();
    for symbol in own {
        symbols.extend((0..ALIKE).map(|_| alike(symbol, rng)));
    }
    symbols.extend(own.iter().cloned());
    symbols
}

/// A symbol with something cut, put before it or behind it.
fn alike(symbol: &[u8], rng: &mut Rng) -> Vec<u8> {
    let behind = |prefix: &[u8]| [prefix, symbol].concat();
    let before = |suffix: &[u8]| [symbol, suffix].concat();
    match rng.below(9) {
        0 => behind(IMP),
        1 => behind(b"__imp_aux_"),
        2 => behind(b"#"),
        3 => behind(b"_"),
        4 => before(b"a"),
        5 => before(b"\0"),
        6 => symbol.strip_prefix(IMP).unwrap_or(symbol).to_vec(),
        7 => symbol[symbol.len().min(1)..].to_vec(),
        _ => symbol[..symbol.len().saturating_sub(1)].to_vec(),
    }
}

/// What an answer says of a set.
pub fn meaning(set: &[u8], looked: Looked) -> Where {
    match looked {
        Looked::NotFound => Where::NotFound,
        Looked::Nowhere => Where::Nowhere,
        Looked::Ordinal(ordinal) => Where::Ordinal(ordinal),
        Looked::Name(start, length) => {
            let (start, length) = (start as usize, length as usize);
            Where::Name(set[start..start + length].to_vec())
        }
    }
}

/// What both lists ask for.
fn asked(case: &Case) -> [Asked; 2] {
    let [first, native] = Maker::both(case.options);
    [
        Asked::of(first, &case.list.first),
        Asked::of(native, &case.list.native),
    ]
}

/// The symbols that the members of a set define, and those of the exports.
fn own_symbols(set: &MemberSet<'_>, asked: &[Asked; 2]) -> BTreeSet<Vec<u8>> {
    let listed = [1, 2].into_iter().flat_map(|list| set.list(list));
    let defined = listed.flat_map(|member| &member.symbols);
    let leadings = asked.iter().flat_map(|asked| &asked.leadings);
    let led = leadings.map(|(symbol, _)| symbol);
    defined.chain(led).cloned().collect()
}

impl Tally {
    /// Looks up in a written set the symbols of both lists, each in both and in no list.
    fn look(&mut self, case: &Case, bytes: &[u8], rng: &mut Rng) -> Result<(), Difference> {
        let question = Question::of(bytes);
        let told = |Difference(what)| Difference(format!("{what}\n{case:?}"));
        let Some(set) = &question.set else {
            let difference = question.differs(0, b"", "a written set is no member set");
            return Err(told(difference));
        };
        let asked = asked(case);
        let own = own_symbols(set, &asked);
        let symbols = asked_symbols(&own, rng);
        for (list, asked) in (1..).zip(&asked) {
            let is_kept = set.is_distinct(list) && asked.is_unprefixed;
            let lists = if is_kept {
                &mut self.kept
            } else {
                &mut self.others
            };
            *lists += 1;
            for symbol in &symbols {
                self.look_up(&question, list, asked, is_kept, symbol)
                    .map_err(told)?;
            }
        }
        for list in NO_LISTS {
            let looked = own.iter().map(|symbol| question.judge(list, symbol));
            for looked in looked {
                assert_eq!(looked?, Some(Looked::NotFound), "list {list}");
            }
        }
        Ok(())
    }

    fn look_up(
        &mut self,
        question: &Question<'_>,
        list: u32,
        asked: &Asked,
        is_kept: bool,
        symbol: &[u8],
    ) -> Result<(), Difference> {
        let looked = question.judge(list, symbol)?.expect("a member set");
        let answer = match looked {
            Looked::NotFound => "not found",
            Looked::Nowhere => "nowhere",
            Looked::Ordinal(_) => "by ordinal",
            Looked::Name(..) => "by name",
        };
        *self.answers.entry(answer).or_default() += 1;
        let found = meaning(question.bytes, looked);
        asked
            .hold(symbol, &found, is_kept)
            .map_err(|what| question.differs(list, symbol, &what))
    }
}
