//! The view of an archive and the packing of one: what is packed is viewed, record by record, and
//! lies where the library finds it.

mod common;
mod oracle;

use common::archives::{check_view, packed, Parts};
use common::worked::NO_CAP;
use common::{Random, Trial};
use oracle::archive::{LONGEST_REEL, MOST_RECORDS};
use oracle::identity;
use poqewan::{find_record, pack, Archive, PackError, Refusal};

/// Packs records, views them, and finds each by its number.
fn round_trip(records: &[&[u8]]) {
    let archive = pack(records).expect("few and short");
    assert_eq!(archive, packed(records));
    assert_eq!(check_view(&archive), Ok(records.len()));

    let view = Archive::open(&archive).expect("packed");
    assert_eq!(view.len(), records.len());
    assert_eq!(view.is_empty(), records.is_empty());
    assert!(view.records().eq(records.iter().copied()));
    assert!(view.records().rev().eq(records.iter().rev().copied()));
    for (r, &record) in records.iter().enumerate() {
        assert_eq!(view.record(r), Some(record));
        let range = find_record(&archive, r as u64).expect("packed");
        let range = range.expect("there");
        let found = &archive[range.clone()];
        assert_eq!(found, record);
        // Not a copy: the view has the very bytes that the library searches.
        assert!(std::ptr::eq(view.record(r).expect("there"), found));
    }
    assert_eq!(view.record(records.len()), None);
    assert_eq!(find_record(&archive, records.len() as u64), Ok(None));
}

/// Written by hand.
#[test]
fn three_records_are_packed_as_the_request_has_it() {
    let archive = b"abacab\
        \x00\x00\x00\x00\x03\x00\x00\x00\
        \x03\x00\x00\x00\x00\x00\x00\x00\
        \x03\x00\x00\x00\x03\x00\x00\x00\
        \x06\x00\x00\x00\x03\x00\x00\x00\x52\x45\x45\x4C";
    assert_eq!(pack(&["aba", "", "cab"]), Ok(archive.to_vec()));

    let view = Archive::open(archive).expect("as the request has it");
    assert_eq!(view.len(), 3);
    assert_eq!(view.bytes(), archive);
    let records: Vec<&[u8]> = view.records().collect();
    assert_eq!(records, [&b"aba"[..], b"", b"cab"]);
    assert_eq!(find_record(archive, 2), Ok(Some(3..6)));
}

#[test]
fn no_record_and_empty_records() {
    let none: [&[u8]; 0] = [];
    assert_eq!(pack(&none), Ok(b"\0\0\0\0\0\0\0\0REEL".to_vec()));
    round_trip(&none);
    round_trip(&[b""]);
    round_trip(&[b"", b"aba", b"", b"", b"ab", b""]);
    let empty = pack(&none).expect("nothing is packed");
    assert!(Archive::open(&empty).is_ok_and(|view| view.is_empty()));
    let one = pack(&[b""]).expect("little is packed");
    assert!(Archive::open(&one).is_ok_and(|view| !view.is_empty()));
}

/// Any bytes, also whole archives, and many lengths about those of a number's bytes.
#[test]
fn random_records_are_packed_and_viewed() {
    let mut random = Random::new(116);
    for round in 0..400 {
        let number = random.below(40);
        let longest = [1, 4, 20, 300, 3_000][round % 5];
        let mut records: Vec<Vec<u8>> = (0..number)
            .map(|_| {
                let len = random.below(longest);
                random.word(&identity(), len)
            })
            .collect();
        let inner = records.iter().map(|record| &record[..]).collect::<Vec<_>>();
        records.push(packed(&inner));
        let all: Vec<&[u8]> = records.iter().map(|record| &record[..]).collect();
        round_trip(&all);
        assert_eq!(pack(&records), pack(&all));
    }
    let text = random.word(b"ab", 70_000);
    round_trip(&[&text[..255], &text[..256], &text[..257], &text[..65_535]]);
    round_trip(&[&text[..65_536], b"", &text[..65_537], &text]);
}

/// The view is only as good as the searches: each record of it is what they search.
#[test]
fn the_searches_of_a_record_are_those_of_the_view() {
    let mut random = Random::new(117);
    let mut trial = Trial::of(b"aba");
    for _ in 0..300 {
        let number = 1 + random.below(9);
        let records: Vec<Vec<u8>> = (0..number)
            .map(|_| {
                let len = random.below(30);
                random.word(b"aab\0", len)
            })
            .collect();
        let archive = pack(&records).expect("few and short");
        let view = Archive::open(&archive).expect("packed");
        for (r, record) in view.records().enumerate() {
            let of_the_record = trial.check_record(&archive, r as u64, NO_CAP, 30);
            assert_eq!(of_the_record, Ok(Some(trial.check(record, NO_CAP, 30))));
        }
        let none = trial.check_record(&archive, number as u64, NO_CAP, 30);
        assert_eq!(none, Ok(None));
    }
}

#[test]
fn up_to_4096_records_are_packed() {
    let records = vec!["ab"; MOST_RECORDS + 1];
    for number in [MOST_RECORDS - 1, MOST_RECORDS] {
        let archive = pack(&records[..number]).expect("just not too many");
        assert_eq!(check_view(&archive), Ok(number));
        let view = Archive::open(&archive).expect("packed");
        assert!(view.records().all(|record| record == b"ab"));
    }
    assert_eq!(pack(&records), Err(PackError::ManyRecords));
    assert_eq!(pack(&vec![""; 10_000]), Err(PackError::ManyRecords));

    // Both at once: the number is tested first.
    let long = vec![0; LONGEST_REEL];
    let both = vec![&long; MOST_RECORDS + 1];
    assert_eq!(pack(&both), Err(PackError::ManyRecords));
    assert_eq!(pack(&both[1..]), Err(PackError::LongArchive));
}

/// One record costs 8 bytes besides its own, and the trailer 12.
#[test]
fn an_archive_of_up_to_16777216_bytes_is_packed() {
    let text = vec![b'a'; LONGEST_REEL];
    let most = LONGEST_REEL - 12 - 8;
    let archive = pack(&[&text[..most]]).expect("just not too long");
    assert_eq!(archive.len(), LONGEST_REEL);
    assert_eq!(check_view(&archive), Ok(1));
    assert_eq!(pack(&[&text[..=most]]), Err(PackError::LongArchive));

    let halves = [&text[..most / 2 - 4], b"", &text[..most / 2 - 12]];
    let archive = pack(&halves).expect("just not too long");
    assert_eq!(archive.len(), LONGEST_REEL);
    assert_eq!(check_view(&archive), Ok(3));
    let [one, two, three] = halves;
    let more = pack(&[one, two, three, b""]);
    assert_eq!(more, Err(PackError::LongArchive));
    let more = pack(&[one, b"a", three]);
    assert_eq!(more, Err(PackError::LongArchive));
}

/// Each refusal of the view; `refused_archives.rs` has them at their edges.
#[test]
fn a_view_of_what_is_no_archive_is_refused() {
    let good = Parts::of(&[b"aba", b"ab"]);
    let long = packed(&[&vec![0; LONGEST_REEL]]);
    let mut apart = good.clone();
    apart.entries[1][0] = 2;
    let mut inexact = good.clone();
    inexact.start = 6;
    let mut open_end = good.clone();
    open_end.closing[3] = b'l';
    for (bytes, why) in [
        (long, Refusal::LongText),
        (open_end.bytes(), Refusal::NoTrailer),
        (inexact.bytes(), Refusal::FalseDirectory),
        (apart.bytes(), Refusal::RecordsApart),
        (b"".to_vec(), Refusal::NoTrailer),
    ] {
        assert_eq!(Archive::open(&bytes), Err(why));
        assert_eq!(find_record(&bytes, 0), Err(why));
        assert_eq!(find_record(&bytes, u64::MAX), Err(why));
    }
    assert!(Archive::open(&good.bytes()).is_ok());
}
