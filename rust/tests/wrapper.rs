//! The wrapper: lists built, sets written, members read back, symbols looked up, and each refusal.

use std::cell::RefCell;
use std::sync::mpsc::{Sender, channel};
use std::thread;

use crepedum::raw::{self, SLOTS, Slot};
use crepedum::{
    Export, ExportList, Kind, Led, Machine, Member, MemberSet, NameType, Options, Refusal, check,
    lookup, read, total, write, write_into,
};

const AMD64: Options = Options {
    machine: Machine::AMD64,
    mingw: false,
    whole_archive_compat: false,
};

/// What examples/att.exports says.
fn att() -> ExportList {
    ExportList::new("att.dll")
        .export(Export::new("att_step").ordinal(5))
        .export(Export::new("att_hidden").ordinal(7).noname())
        .export(Export::new("att_table").data())
        .export(Export::new("att_limit").constant())
        .export(Export::new("att_far").export_as("att_distant"))
        .export(Export::new("att_go").import_name("att_step"))
        .export(Export::new("att_secret").import_name("att_hidden"))
        .export(Export::new("att_mirror").import_name("att_table").data())
        .export(Export::new("att_ghost").import_name("att_table"))
        .export(Export::new("att_inner").private())
}

#[test]
fn the_example_is_what_the_builder_makes() {
    assert_eq!(att().encode(), include_bytes!("../../examples/att.list"));
}

#[test]
fn a_set_is_walked_and_read() {
    let list = ExportList::new("att.dll").export(Export::new("att_step").ordinal(5));
    let set = write(&list.encode(), AMD64).expect("the list is good");
    let set = MemberSet::of(&set).expect("it is a set");
    let listed: Vec<_> = set.members().collect();
    let lists: Vec<_> = listed.iter().map(|listed| listed.list).collect();
    assert_eq!(lists, [None, None, None, Some(1)]);
    let Ok(Member::ShortImport(import)) = read(listed[3].bytes) else {
        panic!("no short import");
    };
    assert_eq!(import.symbol, b"att_step");
    assert_eq!(import.dll, b"att.dll");
    assert_eq!(
        (import.ordinal, import.name_type, import.kind),
        (5, NameType::Name, Kind::Code)
    );
    let whole = set.bytes().as_ptr_range();
    assert!(whole.contains(&import.symbol.as_ptr()), "names are parts");
}

#[test]
fn symbols_lead_where_they_should() {
    let set = write(&att().encode(), AMD64).expect("the list is good");
    let led = |symbol: &str| lookup(&set, 1, symbol.as_bytes()).expect("it is a set");
    assert_eq!(led("__imp_att_go"), Led::Name(b"att_step"));
    assert_eq!(led("att_secret"), Led::Ordinal(7));
    assert_eq!(led("att_far"), Led::Name(b"att_distant"));
    assert_eq!(led("att_ghost"), Led::Nowhere);
    assert_eq!(led("att_table"), Led::NotFound);
    assert_eq!(lookup(&set, 2, b"att_step"), Ok(Led::NotFound));
}

#[test]
fn every_symbol_of_a_member_is_found() {
    let mangled = ["plain", "#sharp", "?f$$hgo", "?odd"].map(Export::new);
    let [plain, sharp, middle, odd] = mangled;
    let data = Export::new("words").data();
    let list = ExportList::new("a.dll")
        .export(plain)
        .export(sharp)
        .export(middle)
        .export(odd.noname().ordinal(3))
        .export(Export::new("?end$$h").noname().ordinal(4))
        .export(Export::new("#").noname().ordinal(5))
        .export(data)
        .native(Export::new("plain"));
    let set = write(&list.encode(), Options::new(Machine::ARM64X)).expect("the list is good");
    let set = MemberSet::of(&set).expect("it is a set");
    let mut counts = Vec::new();
    for listed in set.members() {
        let symbols = read(listed.bytes).expect("it is a member").symbols();
        for symbol in &symbols {
            let list = listed.list.expect("fixed members have no symbols");
            assert_ne!(set.lookup(list, symbol), Led::NotFound);
        }
        counts.push(symbols.len());
    }
    assert_eq!(counts, [0, 0, 0, 4, 4, 4, 3, 3, 3, 1, 2]);
}

#[test]
fn the_room_asked_for_is_exactly_enough() {
    let aliases = (0..200).map(|k| Export::new(format!("a{k}")).import_name("f"));
    let list = aliases
        .fold(
            ExportList::new("a").export(Export::new("f")),
            ExportList::export,
        )
        .encode();
    let compat = Options {
        whole_archive_compat: true,
        ..AMD64
    };
    for options in [AMD64, compat] {
        let room = total(&list, options).expect("the list is good");
        let mut out = vec![7; room];
        assert_eq!(
            write_into(&list, options, &mut out[1..]),
            Err(Refusal::Room)
        );
        assert!(
            out.iter().all(|byte| *byte == 7),
            "a refusal changes nothing"
        );
        assert_eq!(write_into(&list, options, &mut out), Ok(room));
        assert_eq!(write(&list, options), Ok(out));
    }
}

/// The answer with so many slots, each holding the same numbers before, and the slots after.
fn written_in(slots: usize, held: Slot, out: &mut [u8]) -> (u64, Vec<Slot>) {
    let mut table = vec![held; slots];
    let answer = raw::write(
        &att().encode(),
        Machine::AMD64.0,
        false,
        false,
        &mut table,
        out,
    );
    (answer, table)
}

#[test]
fn what_the_slots_hold_does_not_matter() {
    let set = write(&att().encode(), AMD64).expect("the list is good");
    for number in [0, 1, 2, u32::MAX] {
        let held = Slot {
            state: number,
            hash: number,
            record: number,
        };
        for slots in [SLOTS, SLOTS + 1] {
            let mut out = vec![7; set.len()];
            let (answer, _) = written_in(slots, held, &mut out);
            assert_eq!(answer, set.len() as u64);
            assert_eq!(out, set);
        }
    }
}

#[test]
fn with_too_few_slots_nothing_is_changed() {
    let held = Slot {
        state: 1,
        hash: 2,
        record: 3,
    };
    for slots in [0, 1, SLOTS - 1] {
        for room in [0, 1 << 12] {
            let mut out = vec![7; room];
            let (answer, table) = written_in(slots, held, &mut out);
            assert_eq!(Refusal::of(answer), Some(Refusal::Slots));
            assert_eq!(table, vec![held; slots]);
            assert_eq!(out, vec![7; room]);
        }
    }
}

/// Writes when its thread ends.
struct AtTheEnd(Sender<Vec<u8>>);

impl Drop for AtTheEnd {
    fn drop(&mut self) {
        let set = write(&att().encode(), AMD64).expect("the list is good");
        self.0.send(set).expect("somebody waits");
    }
}

thread_local! {
    static LAST: RefCell<Option<AtTheEnd>> = const { RefCell::new(None) };
}

#[test]
fn a_thread_writes_until_its_very_end() {
    let set = write(&att().encode(), AMD64).expect("the list is good");
    // Whichever of the two the thread has first, one of them finds the table given back.
    for writes_first in [false, true] {
        let (sender, sets) = channel();
        let running = thread::spawn(move || {
            if writes_first {
                write(&att().encode(), AMD64).expect("the list is good");
            }
            LAST.set(Some(AtTheEnd(sender)));
            write(&att().encode(), AMD64).expect("the list is good")
        });
        assert_eq!(running.join().expect("it does not panic"), set);
        assert_eq!(sets.recv(), Ok(set.clone()));
    }
}

#[test]
fn machines_have_names() {
    for (name, machine) in Machine::TABLE {
        assert_eq!(name.parse(), Ok(machine));
        assert_eq!(machine.to_string(), name);
    }
    assert_eq!("0x1234".parse(), Ok(Machine(0x1234)));
    assert!("AMD64".parse::<Machine>().is_err());
}

/// The refusal of a list on ARM64EC, where every number from 2 to 14 can be had.
fn refused(list: &[u8]) -> Refusal {
    let machine = Machine::ARM64EC;
    let refusal = check(list, machine, false).expect_err("the list is bad");
    assert_eq!(total(list, Options::new(machine)), Err(refusal));
    assert_eq!(write(list, Options::new(machine)), Err(refusal));
    refusal
}

fn two(second: Export) -> Vec<u8> {
    let list = ExportList::new("a.dll").export(Export::new("f"));
    list.export(second).encode()
}

/// A list with one byte of it set.
fn with(mut list: Vec<u8>, at: usize, byte: u8) -> Vec<u8> {
    list[at] = byte;
    list
}

#[test]
fn every_refusal_has_its_number_place_and_words() {
    let good = two(Export::new("g"));
    let record = 28 + 44;
    let cases = [
        (
            check(&good, Machine(0), false).unwrap_err(),
            1,
            0,
            "machine",
        ),
        (refused(&good[..27]), 2, 0, "shorter than 28 bytes"),
        (refused(&with(good.clone(), 1, 0x20)), 3, 0, "above 4,096"),
        (
            refused(&with(good.clone(), 8, 29)),
            4,
            0,
            "not those of a list",
        ),
        (
            refused(&with(good.clone(), record, 99)),
            5,
            1,
            "offset + length",
        ),
        (
            refused(&with(good.clone(), record + 4, 0)),
            6,
            1,
            "is empty",
        ),
        (refused(&two(Export::new("g".repeat(4096)))), 7, 1, "4,095"),
        (refused(&two(Export::new("g\0"))), 8, 1, "NUL"),
        (refused(&with(good.clone(), record + 42, 16)), 9, 1, "flag"),
        (
            refused(&ExportList::new("..").encode()),
            10,
            0,
            "`.` or `..`",
        ),
        (
            refused(&two(Export::new("g").symbol_name("h").ext_name("i"))),
            11,
            1,
            "renaming failed",
        ),
        (
            refused(&two(Export::new("_a").symbol_name("a").ext_name("_"))),
            12,
            1,
            "public name is empty",
        ),
        (refused(&two(Export::new("?g"))), 13, 1, "without `$$h`"),
        (refused(&two(Export::new("?g$$h"))), 14, 1, "demangled"),
        (refused(&two(Export::new("#"))), 14, 1, "demangled"),
        (
            write_into(&good, AMD64, &mut []).unwrap_err(),
            15,
            0,
            "larger than the output",
        ),
        (read(&good).unwrap_err(), 16, 0, "five layouts"),
        (
            lookup(&good, 1, b"f").unwrap_err(),
            17,
            0,
            "not a member set",
        ),
        (
            Refusal::of(written_in(0, Slot::default(), &mut []).0).expect("there is no slot"),
            19,
            0,
            "fewer than 8,192 slots",
        ),
    ];
    for (refusal, number, place, words) in cases {
        assert_eq!((refusal.number(), refusal.place()), (number, place));
        let text = refusal.to_string();
        assert!(
            text.starts_with(&format!("refusal {number}, place {place} (")),
            "{text}"
        );
        assert!(text.contains(words), "{text}");
    }
}

#[test]
fn a_string_at_place_0_may_be_the_dll_name() {
    let long = refused(&ExportList::new("d".repeat(256)).encode());
    assert_eq!(long, Refusal::StringTooLong { place: 0 });
    assert!(long.to_string().contains("(the DLL name or record 0)"));
}
