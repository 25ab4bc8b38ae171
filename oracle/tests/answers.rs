//! The doors of the oracle: answers to lists of any kind, places, requests.

use oracle::ask::{AMD64, ARM64EC, ARM64X, answer};
use oracle::list::{PRIVATE, decode_list, encode_list, encode_packed};
use oracle::serve::{NOT_TAKEN, PANIC, serve};
use oracle::{Answer, Case, Packing, Record};

fn number_and_place(case: &Case) -> Option<(u32, u32)> {
    match case.answer() {
        Answer::Error { number, place, .. } => Some((number, place)),
        _ => None,
    }
}

fn broken() -> Record {
    Record::new("f").symbol_name("x").ext_name("g")
}

#[test]
fn places_count_private_records_and_both_lists() {
    let a = Record::new("a");
    let hidden = broken().flags(PRIVATE);
    let first = [hidden.clone(), a.clone(), a];
    let native = [hidden, Record::new("?f"), broken(), broken()];
    let plain = Case::new(AMD64, &first).native(&native);
    assert_eq!(number_and_place(&plain), Some((11, 5)));

    let tagged = [first[0].clone(), Record::new("?f$$h"), Record::new("?f")];
    let hybrid = Case::new(ARM64X, &tagged).native(&native);
    assert_eq!(number_and_place(&hybrid), Some((14, 1)));
    let bare = Case::new(ARM64EC, &tagged[2..]);
    assert_eq!(number_and_place(&bare), Some((13, 0)));
}

#[test]
fn the_dll_name_has_no_place() {
    let dots = Case::new(AMD64, &[Record::new("a")]).dll("..");
    assert_eq!(number_and_place(&dots), Some((10, 0)));
}

/// Names in an error's text cannot make it look like another error.
#[test]
fn texts_are_told_apart_by_their_own_words() {
    let text = "?Invalid ARM64EC function name: replacing 'a' with 'b' failed";
    let bare = Case::new(ARM64EC, &[Record::new(text)]);
    assert_eq!(number_and_place(&bare), Some((13, 0)));
    let renamed = Record::new("x").symbol_name("Invalid ARM64EC function name \"");
    let renamed = Case::new(ARM64EC, &[renamed.ext_name("set the `export_name`.")]);
    assert_eq!(number_and_place(&renamed), Some((11, 0)));
}

#[test]
fn lists_that_the_rust_cannot_be_given() {
    let list = encode_list(b"a.dll", &[Record::new("f")], &[]);
    assert!(matches!(
        answer(&list, AMD64, false, false),
        Answer::Members(_)
    ));
    for machine in [0, 0x1014c, 0xa64f] {
        let unknown = answer(&list, machine, false, false);
        assert!(matches!(unknown, Answer::UnknownMachine));
    }
    for cut in 0..list.len() {
        let cut = answer(&list[..cut], AMD64, false, false);
        assert!(matches!(cut, Answer::Malformed));
    }
    let bytes = Record {
        name: Some(vec![0xff]),
        ..Record::default()
    };
    let list = encode_list(b"a.dll", &[bytes], &[]);
    assert!(matches!(
        answer(&list, AMD64, false, false),
        Answer::NotUtf8
    ));
}

#[test]
fn every_packing_decodes_to_the_same_list() {
    let first = [
        Record::new("abc").ext_name("bcd").symbol_name("ab"),
        Record::new("d").import_name("abcd").flags(PRIVATE),
    ];
    let native = [Record::new("dx").export_as("bc").ordinal(7)];
    let encode = |packing| encode_packed(packing, b"xd.b", &first, &native);
    let apart = encode(Packing::Apart);
    let shared = encode(Packing::Shared);
    let gaps = encode(Packing::Gaps);
    assert!(shared.len() < apart.len() && apart.len() < gaps.len());
    let list = decode_list(&apart).expect("a list");
    assert_eq!(
        (&list.first[..], &list.native[..]),
        (&first[..], &native[..])
    );
    assert_eq!(decode_list(&shared), Some(list.clone()));
    assert_eq!(decode_list(&gaps), Some(list));
}

fn request(machine: u32, flags: u32, list: &[u8]) -> Vec<u8> {
    let mut request = Vec::new();
    request.extend(machine.to_le_bytes());
    request.extend(flags.to_le_bytes());
    request.extend((list.len() as u32).to_le_bytes());
    request.extend(list);
    request
}

#[test]
fn requests_are_answered_in_a_row() {
    let empty = encode_list(b"att.dll", &[], &[]);
    let refused = encode_list(b"att.dll", &[Record::new("a"), broken()], &[]);
    let panicking = Record::new("_a").symbol_name("a").ext_name("_");
    let panicking = encode_list(b"att.dll", &[panicking], &[]);
    let requests = [
        request(AMD64, 2, &empty),
        request(AMD64, 0, &refused),
        request(ARM64EC, 1, &panicking),
        request(AMD64, 0, b""),
        request(0, 0, &empty),
    ]
    .concat();
    let mut answers = Vec::new();
    serve(&requests[..], &mut answers).expect("whole requests");

    let number = |at: usize| u64::from_le_bytes(answers[at..at + 8].try_into().unwrap());
    let set_end = 8 + 4 + 692;
    assert_eq!(number(0), 692);
    assert_eq!(answers[8..12], 692_u32.to_le_bytes());
    assert_eq!(number(set_end), (11 << 32) + 1);
    assert_eq!(number(set_end + 8), PANIC);
    assert_eq!(number(set_end + 16), NOT_TAKEN);
    assert_eq!(number(set_end + 24), NOT_TAKEN);
    assert_eq!(answers.len(), set_end + 32);
}

#[test]
fn a_cut_request_is_an_error() {
    let whole = request(AMD64, 0, &encode_list(b"att.dll", &[], &[]));
    for length in 1..whole.len() {
        assert!(serve(&whole[..length], Vec::new()).is_err());
    }
    assert!(serve(&request(AMD64, 4, b"")[..], Vec::new()).is_err());
}
