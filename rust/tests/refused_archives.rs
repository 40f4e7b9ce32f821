//! Request C-11's refusals: 7, 8, 9, and their place among 4, 5 and "no such record". Damage at
//! every byte stands in `damaged_archives.rs`.

mod common;
mod oracle;

use common::archives::{assert_record_refused, check_view, packed, Asker, Parts, CLOSING, TRAILER};
use common::worked::NO_CAP;
use common::{Method, Trial};
use oracle::archive::{LONGEST_REEL, MOST_RECORDS};
use poqewan::Refusal;
use poqewan::Refusal::{FalseDirectory, FalsePattern, LongText, NoTrailer, RecordsApart};

#[test]
fn the_constants_and_numbers_are_those_of_the_request() {
    assert_eq!(poqewan::LONGEST_TEXT, 16_777_216);
    assert_eq!(poqewan::MOST_RECORDS, 4_096);
    assert_eq!([LONGEST_REEL, MOST_RECORDS], [16_777_216, 4_096]);
    let numbers = [
        FalsePattern,
        LongText,
        NoTrailer,
        FalseDirectory,
        RecordsApart,
    ];
    assert_eq!(numbers.map(Refusal::number), [4, 5, 7, 8, 9]);
}

/// All must answer as a test has it by hand.
fn check_all(archives: &[(&[u8], Result<usize, Refusal>)]) {
    let mut asker = Asker::new();
    for &(archive, expected) in archives {
        let answer = asker.ask(archive);
        assert_eq!(answer, expected, "\"{}\"", archive.escape_ascii());
    }
}

/// Written by hand, byte by byte. REEL is 52 45 45 4C.
#[test]
fn archives_of_no_record_and_of_one() {
    check_all(&[
        (b"\0\0\0\0\0\0\0\0REEL", Ok(0)),
        // No record, and a directory that starts at 1: after one byte, or one before the trailer.
        (b"a\x01\0\0\0\0\0\0\0REEL", Err(RecordsApart)),
        (b"\x01\0\0\0\0\0\0\0REEL", Err(FalseDirectory)),
        (b"a\0\0\0\0\0\0\0\0REEL", Err(FalseDirectory)),
        (b"abababab\x08\0\0\0\0\0\0\0REEL", Err(RecordsApart)),
        // One record, empty and of three bytes.
        (b"\0\0\0\0\0\0\0\0\0\0\0\0\x01\0\0\0REEL", Ok(1)),
        (b"aba\0\0\0\0\x03\0\0\0\x03\0\0\0\x01\0\0\0REEL", Ok(1)),
        // It starts at 1; it ends one byte before or after the directory's start.
        (
            b"aba\x01\0\0\0\x02\0\0\0\x03\0\0\0\x01\0\0\0REEL",
            Err(RecordsApart),
        ),
        (
            b"aba\0\0\0\0\x02\0\0\0\x03\0\0\0\x01\0\0\0REEL",
            Err(RecordsApart),
        ),
        (
            b"aba\0\0\0\0\x04\0\0\0\x03\0\0\0\x01\0\0\0REEL",
            Err(RecordsApart),
        ),
        // The directory is told to start one byte before, and after.
        (
            b"aba\0\0\0\0\x03\0\0\0\x02\0\0\0\x01\0\0\0REEL",
            Err(FalseDirectory),
        ),
        (
            b"aba\0\0\0\0\x03\0\0\0\x04\0\0\0\x01\0\0\0REEL",
            Err(FalseDirectory),
        ),
        // One record less is told, and one more.
        (
            b"aba\0\0\0\0\x03\0\0\0\x03\0\0\0\0\0\0\0REEL",
            Err(FalseDirectory),
        ),
        (
            b"aba\0\0\0\0\x03\0\0\0\x03\0\0\0\x02\0\0\0REEL",
            Err(FalseDirectory),
        ),
        // Numbers with the highest byte first.
        (
            b"aba\0\0\0\0\0\0\0\x03\0\0\0\x03\0\0\0\x01REEL",
            Err(FalseDirectory),
        ),
        // Closing bytes in another order, small, and with one more behind them.
        (b"\0\0\0\0\0\0\0\0LEER", Err(NoTrailer)),
        (b"\0\0\0\0\0\0\0\0reel", Err(NoTrailer)),
        (b"\0\0\0\0\0\0\0\0REEL\0", Err(NoTrailer)),
    ]);
}

/// Empty records first, in the middle, last, and all.
#[test]
fn empty_records_are_allowed() {
    for records in [
        &[&b""[..]][..],
        &[b"", b"aba"],
        &[b"aba", b""],
        &[b"aba", b"", b"aba"],
        &[b"", b"", b"aba", b"", b""],
        &[b"", b"", b"", b""],
    ] {
        check_all(&[(&packed(records), Ok(records.len()))]);
    }
}

/// Below 12 bytes there is no trailer, even where a byte before would complete one.
#[test]
fn archives_of_up_to_13_bytes() {
    let mut asker = Asker::new();
    let whole = b"aba\0\0\0\0\0\0\0\0REEL";
    for len in 0..12 {
        let end = &whole[whole.len() - len..];
        assert_eq!(asker.ask(end), Err(NoTrailer), "{len} bytes");
        assert_eq!(asker.ask(&whole[..len]), Err(NoTrailer), "{len} bytes");
        assert_eq!(asker.ask(&vec![0; len]), Err(NoTrailer), "{len} bytes");
    }
    assert_eq!(asker.ask(&whole[3..]), Ok(0));
    assert_eq!(asker.ask(&whole[2..]), Err(FalseDirectory));
    assert_eq!(asker.ask(b"\0\0\0\0\0\0\0REEL"), Err(NoTrailer));
}

#[test]
fn each_closing_byte_is_tested() {
    let mut asker = Asker::new();
    for records in [&[][..], &[&b"aba"[..], b"ab"]] {
        let good = Parts::of(records);
        for (place, right) in CLOSING.into_iter().enumerate() {
            for byte in (0..=255).filter(|&byte| byte != right) {
                let mut wrong = good.clone();
                wrong.closing[place] = byte;
                assert_eq!(asker.ask(&wrong.bytes()), Err(NoTrailer));
            }
        }
        assert_eq!(asker.ask(&good.bytes()), Ok(records.len()));
    }
}

/// With so many records the directory fits exactly, and their number alone decides.
#[test]
fn up_to_4096_records() {
    let mut trial = Trial::of(b"aba");
    for record in [&b""[..], b"aba"] {
        for number in [4_095, 4_096, 4_097, 4_098, 8_192, 65_536, 65_537] {
            let archive = packed(&vec![record; number]);
            let expected = if number <= 4_096 {
                Ok(number)
            } else {
                Err(FalseDirectory)
            };
            assert_eq!(check_view(&archive), expected, "{number} records");
            for record in [0, 4_094, 4_095, 4_096, 4_097, u64::MAX] {
                let reports = trial.check_record(&archive, record, NO_CAP, 4);
                let there = reports.map(|reports| reports.is_some());
                assert_eq!(there, expected.map(|number| record < number as u64));
            }
        }
    }
}

/// Sums of numbers of 4 bytes do not wrap at 2^32. Each of these would be accepted, or refused by
/// another number, if they did.
#[test]
fn a_directory_start_or_a_number_that_wraps_is_refused() {
    let mut asker = Asker::new();
    let good = Parts::of(&[b"aba", b"ab"]);
    let len = good.bytes().len() as u32;
    let with = |start: u32, number: u32| {
        let parts = Parts {
            start,
            number,
            ..good.clone()
        };
        parts.bytes()
    };
    const MAX: u32 = u32::MAX;
    for (start, number) in [
        (MAX, 2),
        (5, MAX),
        (MAX, MAX),
        (0, MAX),
        (MAX, 0),
        (MAX - 11, 2),
        (1 << 31, 2),
        (5, 1 << 31),
        // 8 times the number is 16 more than a multiple of 2^32.
        (5, (1 << 29) + 2),
        (5, (1 << 30) + 2),
        (5, (1 << 31) + 2),
        (5, (7 << 29) + 2),
        // The number would be right if cut to 8 or 16 bits, and so would the start.
        (5, (1 << 8) + 2),
        (5, (1 << 16) + 2),
        (5 + (1 << 16), 2),
        (5 + (1 << 24), 2),
        (5 + (1 << 31), 2),
    ] {
        assert_eq!(asker.ask(&with(start, number)), Err(FalseDirectory));
    }

    // Start, 8 times the number and 12 add up to the length and 2^32.
    for number in (0..=4_096).chain([4_097, 1 << 20, 1 << 29, (1 << 29) + 2]) {
        let start = len.wrapping_sub(8u32.wrapping_mul(number) + TRAILER as u32);
        let sum = u64::from(start) + 8 * u64::from(number) + 12;
        assert_eq!(sum % (1 << 32), u64::from(len));
        let archive = with(start, number);
        let expected = match number {
            2 => Ok(2),
            // The directory starts later, and the entry there is not the first.
            1 => Err(RecordsApart),
            0 => Err(RecordsApart),
            _ => Err(FalseDirectory),
        };
        // The first are asked in full, and some of the rest.
        if number < 8 || number % 64 == 0 || number > 4_095 {
            assert_eq!(asker.ask(&archive), expected, "{start}, {number}");
        } else {
            assert_eq!(check_view(&archive), expected, "{start}, {number}");
        }
    }

    // In the shortest archive of all, just below 2^32.
    for number in 1..=16 {
        let parts = Parts {
            start: 0u32.wrapping_sub(8 * number),
            number,
            ..Parts::of(&[])
        };
        assert_eq!(asker.ask(&parts.bytes()), Err(FalseDirectory));
    }
}

/// The records' bytes, their entries as told, and what is wrong with them.
#[test]
fn records_that_do_not_touch_are_refused() {
    const MAX: u32 = u32::MAX;
    const HALF: u32 = 1 << 31;
    let mut asker = Asker::new();
    for entries in [
        // A gap: at the front, between two, and at the end.
        &[[1, 2], [3, 3]][..],
        &[[0, 2], [3, 3]],
        &[[0, 3], [4, 2]],
        &[[0, 3], [3, 2]],
        &[[0, 3], [3, 0]],
        &[[0, 0], [0, 5]],
        // An overlap: of the first by the second, of the second by the first, and of all.
        &[[0, 3], [2, 4]],
        &[[0, 4], [3, 3]],
        &[[0, 6], [0, 6]],
        &[[0, 6], [6, 6]],
        // A wrong order, also of an empty one.
        &[[3, 3], [0, 3]],
        &[[6, 0], [0, 6]],
        &[[0, 6], [0, 0]],
        &[[0, 2], [4, 2], [2, 2]],
        // The last ends one byte before the directory, or after, or in its middle, or at the end.
        &[[0, 5]],
        &[[0, 7]],
        &[[0, 3], [3, 4]],
        &[[0, 6], [6, 1]],
        &[[0, 6], [6, 16]],
        &[[0, 6], [6, 28]],
        // The first starts at 6, and ends there.
        &[[6, 0]],
        // A start or a length of 2^32 - 1.
        &[[MAX, 6]],
        &[[0, MAX]],
        &[[MAX, MAX]],
        &[[MAX, 7]],
        &[[0, 3], [MAX, 3]],
        &[[0, 3], [3, MAX]],
        // The lengths add up to 6 and 2^32, with each start where the record before ends, as far as
        // 4 bytes can tell it.
        &[[0, MAX], [MAX, 7]],
        &[[0, HALF], [HALF, HALF + 6]],
        &[[0, HALF], [HALF, HALF], [0, 6]],
        &[[0, MAX], [MAX, 1], [0, 6]],
        &[[0, 3], [3, MAX], [2, 4]],
        &[[0, 7], [7, MAX]],
        &[[0, 6], [6, MAX], [5, 1]],
        &[[0, HALF + 3], [HALF + 3, HALF + 3]],
        &[[0, MAX], [MAX, MAX], [MAX - 1, 8]],
    ] {
        let parts = Parts {
            entries: entries.to_vec(),
            number: entries.len() as u32,
            ..Parts::of(&[b"abaaba"])
        };
        assert_eq!(parts.start, 6);
        let answer = asker.ask(&parts.bytes());
        assert_eq!(answer, Err(RecordsApart), "{entries:?}");
    }
    for entries in [&[[0, 3], [3, 3]][..], &[[0, 6]], &[[0, 6], [6, 0]]] {
        let parts = Parts {
            entries: entries.to_vec(),
            number: entries.len() as u32,
            ..Parts::of(&[b"abaaba"])
        };
        assert_eq!(asker.ask(&parts.bytes()), Ok(entries.len()));
    }
}

/// The longest archive is accepted, and one byte more refused, whatever it holds.
#[test]
fn archives_of_16777216_and_16777217_bytes() {
    let mut asker = Asker::new();
    for len in [LONGEST_REEL - 1, LONGEST_REEL, LONGEST_REEL + 1] {
        let text = vec![b'c'; len - 20];
        let archive = packed(&[&text]);
        assert_eq!(archive.len(), len);
        let expected = if len <= LONGEST_REEL {
            Ok(1)
        } else {
            Err(LongText)
        };
        assert_eq!(check_view(&archive), expected);
        for record in [0, 1, u64::MAX] {
            let reports = asker.trial.check_record(&archive, record, NO_CAP, 4);
            let there = reports.map(|reports| reports.is_some());
            assert_eq!(there, expected.map(|_| record == 0));
        }
    }
    // A multiple of 2^24 bytes, and one of which the last 12 are a good archive.
    let mut long = vec![0; 2 * LONGEST_REEL];
    let end = long.len();
    assert_eq!(check_view(&long), Err(LongText));
    long[end - 4..].copy_from_slice(&CLOSING);
    assert_eq!(check_view(&long), Err(LongText));
    let reports = asker.trial.check_record(&long, 0, NO_CAP, 4);
    assert_eq!(reports, Err(LongText));
}

/// What may be wrong with a search of a record, in the order of the tests.
#[derive(Clone, Copy, Debug, PartialEq)]
enum Wrong {
    Pattern,
    Length,
    Closing,
    Directory,
    Records,
    Record,
}

use Wrong::{Closing, Directory, Length, Pattern as OfPattern, Record, Records};

const IN_ORDER: [Wrong; 6] = [OfPattern, Length, Closing, Directory, Records, Record];

impl Wrong {
    /// What is answered where nothing before it is wrong.
    fn answer(self) -> Result<Option<()>, Refusal> {
        match self {
            OfPattern => Err(FalsePattern),
            Length => Err(LongText),
            Closing => Err(NoTrailer),
            Directory => Err(FalseDirectory),
            Records => Err(RecordsApart),
            Record => Ok(None),
        }
    }
}

/// An archive with all this wrong with it, in one of two ways.
fn archive_with(wrong: &[Wrong], way: usize) -> Vec<u8> {
    let has = |one: Wrong| wrong.contains(&one);
    // Too many records, or too few for the directory's start and end.
    let number = if has(Directory) && way == 0 { 4_097 } else { 3 };
    let mut records = vec![&b"aba"[..]; number];
    let long = vec![b'a'; LONGEST_REEL];
    if has(Length) {
        records[1] = &long;
    }
    let mut parts = Parts::of(&records);
    if has(Closing) {
        parts.closing[way] ^= 1;
    }
    if has(Directory) && way == 1 {
        parts.start += 8;
    }
    if has(Records) && way == 0 {
        parts.entries[0][0] += 1;
    }
    if has(Records) && way == 1 {
        parts.entries[2][1] += 1;
    }
    parts.bytes()
}

/// Every choice of what is wrong, so every pair, neighbours among them: the first test tells.
#[test]
fn the_first_test_that_fails_is_told() {
    let mut trial = Trial::of(b"aba");
    let mut false_one = *trial.pattern();
    false_one.shift[0] += 1;
    for choice in 0..1 << IN_ORDER.len() {
        let wrong: Vec<_> = (0..IN_ORDER.len())
            .filter(|bit| choice >> bit & 1 == 1)
            .map(|bit| IN_ORDER[bit])
            .collect();
        let expected = match wrong.first() {
            Some(first) => first.answer(),
            None => Ok(Some(())),
        };
        for way in 0..2 {
            let archive = archive_with(&wrong, way);
            // The number of records, as far as the trailer tells it.
            let number = oracle::archive::records(&archive).map_or(3, |records| records.len());
            let records = if wrong.contains(&Record) {
                [number as u64, 5_000, u64::MAX]
            } else {
                [0, 1, 2]
            };
            for record in records {
                if let Some(OfPattern) = wrong.first() {
                    for method in Method::BOTH {
                        assert_record_refused(method, &false_one, &archive, record, FalsePattern);
                    }
                } else {
                    let reports = trial.check_record(&archive, record, NO_CAP, 4);
                    let told = reports.map(|reports| reports.map(|_| ()));
                    assert_eq!(told, expected, "{wrong:?}, {way}, record {record}");
                }
            }
            // The view is opened whatever the pattern and the record are.
            let of_the_view = wrong
                .iter()
                .find(|one| ![OfPattern, Record].contains(one))
                .and_then(|one| one.answer().err());
            assert_eq!(check_view(&archive).err(), of_the_view, "{wrong:?}");
        }
    }
}
