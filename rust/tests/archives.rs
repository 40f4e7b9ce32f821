//! Request C-11: a search of one record of an archive runs over that part, and numbers places from
//! its own first byte. What is refused stands in `refused_archives.rs`.

mod common;
mod oracle;

use common::archives::packed;
use common::classes::{c_in_b, directions, letters, one_but_0, Drawn};
use common::worked::{Counts, NO_CAP};
use common::{fibonacci, repeated, words_of_lengths, Method, Random, Trial, UNWRITTEN};
use oracle::archive::{LONGEST_REEL, MOST_RECORDS};
use oracle::identity;
use poqewan::Ending::{Done, Full, Spent};
use poqewan::{Ending, Report};
use std::ops::Range;

/// Four records, written by hand: aba, none, cababa and abab, of 3, 0, 6 and 4 bytes.
const FOUR: &[u8] = b"abacababaabab\
    \x00\x00\x00\x00\x03\x00\x00\x00\
    \x03\x00\x00\x00\x00\x00\x00\x00\
    \x03\x00\x00\x00\x06\x00\x00\x00\
    \x09\x00\x00\x00\x04\x00\x00\x00\
    \x0D\x00\x00\x00\x04\x00\x00\x00\x52\x45\x45\x4C";

/// A record of it, where it lies, and what a search for aba answers with a cap and a list.
type Worked = (
    u64,
    Range<usize>,
    u64,
    usize,
    &'static [u32],
    Ending,
    Counts,
    Counts,
);

/// Worked by hand from document 01's rules. The order of aba is 120, its only nohole place 1.
#[rustfmt::skip]
const WORKED: [Worked; 12] = [
    // 120; KMP 012.
    (0, 0..3, NO_CAP, 9, &[0], Done, [3, 1, 2], [3, 1, 2]),
    (0, 0..3, 2, 9, &[], Spent(0), [2, 1, 1], [2, 1, 1]),
    (0, 0..3, NO_CAP, 0, &[], Full(0), [3, 1, 2], [3, 1, 2]),
    (1, 3..3, NO_CAP, 9, &[], Done, [0, 0, 0], [0, 0, 0]),
    (1, 3..3, 0, 0, &[], Done, [0, 0, 0], [0, 0, 0]),
    // 1, 120 and 12, as the known edge covers 0; KMP 0, 012 and 12.
    (2, 3..9, NO_CAP, 9, &[1, 3], Done, [6, 3, 3], [6, 2, 4]),
    (2, 3..9, 6, 2, &[1, 3], Done, [6, 3, 3], [6, 2, 4]),
    (2, 3..9, 5, 2, &[1], Spent(3), [5, 3, 2], [5, 2, 3]),
    (2, 3..9, NO_CAP, 1, &[1], Full(3), [6, 3, 3], [6, 2, 4]),
    (2, 3..9, 0, 9, &[], Spent(0), [0, 0, 0], [0, 0, 0]),
    // 120; KMP 012. The next window would end after the record.
    (3, 9..13, NO_CAP, 9, &[0], Done, [3, 1, 2], [3, 1, 2]),
    (3, 9..13, 1, 9, &[], Spent(0), [1, 1, 0], [1, 0, 1]),
];

#[test]
fn every_record_has_the_answer_worked_by_hand() {
    assert_eq!(packed(&[b"aba", b"", b"cababa", b"abab"]), FOUR);
    let mut trial = Trial::of(b"aba");
    for (record, bounds, cap, list_len, positions, ending, colussi, kmp) in WORKED {
        let case = format!("record {record}, cap {cap}, list of {list_len}");
        assert_eq!(poqewan::find_record(FOUR, record), Ok(Some(bounds)));
        let expected = [colussi, kmp].map(|[count, at_noholes, at_holes]| Report {
            ending,
            count,
            at_noholes,
            at_holes,
            written: positions.len(),
        });
        let reports = trial.check_record(FOUR, record, cap, list_len);
        assert_eq!(reports, Ok(Some(expected)), "{case}");
        for method in Method::BOTH {
            let mut list = vec![UNWRITTEN; list_len];
            let answer = method.run_record(trial.pattern(), FOUR, record, cap, &mut list);
            assert!(matches!(answer, Ok(Some(_))), "{case}");
            assert_eq!(list[..positions.len()], *positions, "{case}");
            assert!(list[positions.len()..].iter().all(|&e| e == UNWRITTEN));
        }
    }
}

/// At the number of records and above; also where a number cut to 8, 16 or 32 bits, or taken eight
/// times, would be that of a record.
#[test]
fn a_record_that_is_not_there_is_no_such_record() {
    let archives = [
        (packed(&[]), 0),
        (packed(&[b""]), 1),
        (packed(&[b"aba"]), 1),
        (FOUR.to_vec(), 4),
        (packed(&[&b"aba"[..]; 256]), 256),
    ];
    let mut trial = Trial::of(b"aba");
    for (archive, number) in archives {
        for r in (0..number).chain([0]) {
            for high in [8, 16, 32, 40, 48, 61, 62, 63].map(|bit| 1 << bit) {
                let record = high + r;
                if record >= number {
                    assert_eq!(trial.check_record(&archive, record, NO_CAP, 4), Ok(None));
                }
            }
        }
        for record in [number, number + 1, u64::MAX / 8, u64::MAX - 1, u64::MAX] {
            for (cap, list_len) in [(NO_CAP, 8), (0, 8), (NO_CAP, 0), (0, 0)] {
                let answer = trial.check_record(&archive, record, cap, list_len);
                assert_eq!(answer, Ok(None), "record {record}");
            }
        }
        if number > 0 {
            let answer = trial.check_record(&archive, number - 1, NO_CAP, 8);
            assert!(matches!(answer, Ok(Some(_))));
        }
    }
}

/// Asks for each record of an archive.
fn check_each_record(trial: &mut Trial, records: &[&[u8]]) -> Vec<[Report; 2]> {
    let archive = packed(records);
    let number = records.len() as u64;
    assert_eq!(trial.check_record_to_the_end(&archive, number), Ok(None));
    (0..number)
        .map(|record| {
            let reports = trial.check_record_to_the_end(&archive, record);
            let reports = reports.expect("accepted").expect("there");
            assert!(reports.iter().all(|report| report.ending == Done));
            reports
        })
        .collect()
}

/// Every text cut into three records in every way, empty ones among them.
#[test]
fn every_short_pattern_in_every_archive_of_three_short_records() {
    let texts = words_of_lengths(b"ab", 0, 6);
    for bytes in words_of_lengths(b"ab", 1, 3) {
        let mut trial = Trial::of(&bytes);
        for text in &texts {
            for first in 0..=text.len() {
                for second in first..=text.len() {
                    let (one, rest) = text.split_at(first);
                    let (two, three) = rest.split_at(second - first);
                    check_each_record(&mut trial, &[one, two, three]);
                }
            }
        }
    }
}

/// Every cap up to one more than is spent, and every list up to one entry more than is filled.
#[test]
fn caps_and_lists_at_every_edge() {
    for (bytes, root) in [
        (&b"a"[..], &b"a"[..]),
        (b"aa", b"aab"),
        (b"aba", b"ab"),
        (b"aab", b"a"),
        (b"aabaa", b"aabaa"),
        (b"abaab", b"aba"),
    ] {
        let mut trial = Trial::of(bytes);
        let text = repeated(root, 30);
        let archive = packed(&[bytes, &text, b"", &text[1..], bytes]);
        for record in 0..5 {
            let reports = trial.check_record_to_the_end(&archive, record);
            let [colussi, kmp] = reports.expect("accepted").expect("there");
            // And one that never binds, which is 0 in its lower half.
            for cap in (0..=colussi.count.max(kmp.count) + 1).chain([1 << 32]) {
                for list_len in 0..=colussi.written + 1 {
                    let reports = trial.check_record(&archive, record, cap, list_len);
                    assert!(matches!(reports, Ok(Some(_))));
                }
            }
        }
    }
}

/// The ends of both limits, with the endings that they must have.
#[test]
fn one_less_than_is_needed_cuts_the_search_off_in_the_record() {
    let text = repeated(b"aabaa", 40);
    let archive = packed(&[b"aabaaaabaa", &text, b"aabaa"]);
    let mut trial = Trial::of(b"aabaa");
    let reports = trial.check_record_to_the_end(&archive, 1);
    let [colussi, kmp] = reports.expect("accepted").expect("there");
    // Eight repetitions. The first costs 5 comparisons and each more 7: 2, 2, 24310 in Colussi's
    // order, and 2, 12, 1234 by KMP.
    assert_eq!([colussi.written, kmp.written], [8, 8]);
    assert_eq!([colussi.count, kmp.count], [5 + 7 * 7; 2]);

    for (method, full) in Method::BOTH.into_iter().zip([colussi, kmp]) {
        let k = full.written;
        for (cap, list_len, ending) in [
            (0, k, Spent(0)),
            (1, k, Spent(0)),
            (full.count - 1, k, Spent(35)),
            (full.count, k, Done),
            (NO_CAP, 0, Full(0)),
            (NO_CAP, 1, Full(5)),
            (NO_CAP, k - 1, Full(35)),
            (NO_CAP, k, Done),
        ] {
            let mut list = vec![UNWRITTEN; list_len];
            let answer = method.run_record(trial.pattern(), &archive, 1, cap, &mut list);
            let report = answer.expect("accepted").expect("there");
            assert_eq!(report.ending, ending, "{method:?}, {cap}, {list_len}");
            trial
                .check_record(&archive, 1, cap, list_len)
                .expect("accepted");
        }
    }
}

/// A pattern cut in two at every place, with and without more around it: it occurs across the
/// border and nowhere else, so neither record has it.
#[test]
fn no_occurrence_reaches_across_a_border() {
    let mut random = Random::new(111);
    for m in [2, 3, 5, 8, 64, 256] {
        // The last letter is nowhere else, so the pattern occurs once.
        let mut bytes = random.word(b"ab", m);
        bytes[m - 1] = b'z';
        let mut trial = Trial::of(&bytes);
        for cut in 1..m {
            let (left, right) = bytes.split_at(cut);
            let (more_left, more_right) = ([&[b'c'; 300][..], left].concat(), {
                [right, &[b'c'; 300][..]].concat()
            });
            for records in [
                &[left, right][..],
                &[&more_left, &more_right],
                &[&more_left, b"", &more_right],
                &[b"", left, right, b""],
            ] {
                for reports in check_each_record(&mut trial, records) {
                    assert!(reports.iter().all(|report| report.written == 0));
                }
            }
            // Whole in one of them, it is found there.
            let whole = [left, right].concat();
            let reports = check_each_record(&mut trial, &[left, &whole, right]);
            let written: Vec<_> = reports.iter().map(|[one, _]| one.written).collect();
            assert_eq!(written, [0, 1, 0]);
        }
    }
}

/// The closing bytes spell REEL. They belong to no record, and neither do those of the directory.
#[test]
fn nothing_is_found_in_the_directory_or_the_trailer() {
    for bytes in [&b"REEL"[..], b"EEL", b"E", b"L", b"\x04", b"\x02"] {
        let mut trial = Trial::of(bytes);
        for reports in check_each_record(&mut trial, &[b"abab", b"abab"]) {
            assert!(reports.iter().all(|report| report.written == 0));
        }
    }
    // A record may hold them, and even a whole archive.
    let mut trial = Trial::of(b"REEL");
    let inner = packed(&[b"REEL"]);
    let reports = check_each_record(&mut trial, &[b"REEL", &inner, b"REE", b"L"]);
    let written: Vec<_> = reports.iter().map(|[one, _]| one.written).collect();
    assert_eq!(written, [1, 2, 0, 0]);
}

/// A text cut into records at random places, some of them twice.
fn cut<'a>(text: &'a [u8], pieces: usize, random: &mut Random) -> Vec<&'a [u8]> {
    let mut places: Vec<usize> = (1..pieces).map(|_| random.below(text.len() + 1)).collect();
    places.extend([0, text.len()]);
    if pieces > 4 {
        places[1] = places[0];
    }
    places.sort_unstable();
    places.windows(2).map(|p| &text[p[0]..p[1]]).collect()
}

#[test]
fn archives_of_drawn_records_through_drawn_classes() {
    let mut random = Random::new(112);
    let seen_through = [identity(), letters(), directions(), one_but_0(), c_in_b()];
    let mut drawn: Vec<_> = seen_through.into_iter().map(Drawn::new).collect();
    for number in [2, 3, 16, 255, 256] {
        drawn.push(Drawn::of(number, number % 2 == 0, &mut random));
    }
    let (mut empty, mut found) = (0, 0);
    for drawn in &drawn {
        for len in [1, 2, 3, 5, 16, 64, 255, 256] {
            for bytes in drawn.patterns(len, &mut random) {
                let mut trial = Trial::with_classes(&bytes, &drawn.classes);
                for text in drawn.texts(&bytes, &mut random) {
                    let pieces = 1 + random.below(6);
                    let records = cut(&text, pieces, &mut random);
                    empty += records.iter().filter(|record| record.is_empty()).count();
                    let reports = check_each_record(&mut trial, &records);
                    found += reports.iter().map(|[one, _]| one.written).sum::<usize>();
                }
            }
        }
    }
    assert!(empty > 100 && found > 10_000, "{empty}, {found}");
}

/// Records that begin, end or consist of what stands at a border: bytes 0 and fellows of a class.
#[test]
fn classes_hold_inside_the_record_only() {
    let mut trial = Trial::with_classes(b"aBa", &letters());
    let reports = check_each_record(&mut trial, &[b"AbAb", b"aBA", b"b", b"ABAbA\0", b"\0aB"]);
    let written: Vec<_> = reports.iter().map(|[one, _]| one.written).collect();
    assert_eq!(written, [1, 1, 0, 2, 0]);
}

#[test]
fn each_of_4096_records() {
    let mut random = Random::new(113);
    let text = random.word(b"aab", 3 * MOST_RECORDS);
    let mut at = 0;
    let records: Vec<&[u8]> = (0..MOST_RECORDS)
        .map(|r| {
            let record = &text[at..at + r % 6];
            at += r % 4;
            record
        })
        .collect();
    let archive = packed(&records);
    let pattern = *Trial::of(b"aab").pattern();
    let mut found = 0;
    for (r, record) in records.iter().enumerate() {
        for method in Method::BOTH {
            let [mut list, mut alone] = [[UNWRITTEN; 8]; 2];
            let answer = method.run_record(&pattern, &archive, r as u64, NO_CAP, &mut list);
            let plain = method.run(&pattern, record, NO_CAP, &mut alone);
            assert_eq!(answer, plain.map(Some), "record {r}");
            assert_eq!(list, alone, "record {r}");
            let expected = oracle::occurrences(b"aab", &identity(), record);
            assert_eq!(list[..expected.len()], expected, "record {r}");
            found += expected.len();
        }
    }
    assert!(found > 500, "{found}");

    let mut trial = Trial::of(b"aab");
    for record in [0, 1, 2, 2_047, 2_048, 4_094, 4_095] {
        let reports = trial.check_record_to_the_end(&archive, record);
        assert!(matches!(reports, Ok(Some(_))));
    }
    let none = trial.check_record_to_the_end(&archive, MOST_RECORDS as u64);
    assert_eq!(none, Ok(None));
}

/// Archives of the greatest length: one record with all the bytes, and three of which the last one
/// starts so far behind that a position in the archive is not one in the record.
#[test]
fn archives_of_the_greatest_length() {
    let all = LONGEST_REEL - 20;
    let mut text = vec![b'a'; all];
    text[all - 1] = b'b';
    let mut trial = Trial::of(b"aab");
    let archive = packed(&[&text]);
    assert_eq!(archive.len(), LONGEST_REEL);
    let reports = trial.check_record(&archive, 0, NO_CAP, 2);
    let [colussi, kmp] = reports.expect("accepted").expect("there");
    for report in [colussi, kmp] {
        assert_eq!((report.ending, report.written), (Done, 1));
    }
    // Place 2 is compared in every window, and the two others in the last one.
    assert_eq!(colussi.count, all as u64);
    assert_eq!(trial.check_record(&archive, 1, NO_CAP, 2), Ok(None));

    let last = fibonacci(1_000);
    let first = &text[..LONGEST_REEL - 36 - 1_000];
    let archive = packed(&[first, b"", &last]);
    assert_eq!(archive.len(), LONGEST_REEL);
    let mut trial = Trial::of(b"abaab");
    let reports = trial.check_record_to_the_end(&archive, 2);
    let [colussi, _] = reports.expect("accepted").expect("there");
    assert!(colussi.written > 100, "{}", colussi.written);
    let expected = oracle::occurrences(b"abaab", &identity(), &last);
    let mut list = vec![UNWRITTEN; expected.len()];
    for method in Method::BOTH {
        let answer = method.run_record(trial.pattern(), &archive, 2, NO_CAP, &mut list);
        assert!(matches!(answer, Ok(Some(Report { ending: Done, .. }))));
        assert_eq!(list, expected);
        list.fill(UNWRITTEN);
    }
    for record in [0, 1] {
        let reports = trial.check_record(&archive, record, NO_CAP, 1);
        let [colussi, _] = reports.expect("accepted").expect("there");
        assert_eq!((colussi.ending, colussi.written), (Done, 0));
    }
}
