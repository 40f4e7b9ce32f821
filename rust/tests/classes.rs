//! Request C-19: two bytes count as equal when their classes are, in the pattern and in the text.

mod common;
mod oracle;

use common::classes::{
    c_in_b, directions, letters, one_but_0, shuffled, with_classes, Classes, Drawn,
};
use common::worked::{row, Row, LONG, NO_CAP};
use common::{
    changed, check_preparation, preparation, prepared, repeated, words, Method, Random, Trial,
    UNWRITTEN,
};
use oracle::{identity, CLASSES, LONGEST_PATTERN, SCRATCH};
use poqewan::Ending::{Done, Full, Spent};
use poqewan::{Pattern, Report, LONGEST_TEXT};

/// First document 01's worked records, spelled in small and capital letters. Then records worked by
/// hand from its rules: bca with c in b's class, and abAB, each with the tables below; and aba in
/// directions, with a byte 0 in the last text. The columns of the first are those of document 01's
/// words; of the others, the places that are compared are given, window by window.
#[rustfmt::skip]
const ROWS: [Row; 19] = [
    row(letters, b"a", b"Aab", NO_CAP, LONG, &[0, 1], Done, [3, 0, 3], [3, 0, 3]),
    row(letters, b"Aa", b"aAAa", NO_CAP, LONG, &[0, 1, 2], Done, [4, 0, 4], [4, 0, 4]),
    row(letters, b"aB", b"AaaA", NO_CAP, LONG, &[], Done, [3, 3, 0], [6, 3, 3]),
    row(letters, b"aBa", b"AbaBA", NO_CAP, LONG, &[0, 2], Done, [5, 2, 3], [5, 2, 3]),
    row(letters, b"abA", b"aBAba", 3, LONG, &[0], Spent(2), [3, 1, 2], [3, 1, 2]),
    row(letters, b"Aba", b"abABa", 4, LONG, &[0], Spent(2), [4, 2, 2], [4, 2, 2]),
    row(letters, b"ABa", b"aBabA", 5, LONG, &[0, 2], Done, [5, 2, 3], [5, 2, 3]),
    row(letters, b"aBa", b"ABAba", NO_CAP, 1, &[0], Full(2), [5, 2, 3], [5, 2, 3]),
    row(letters, b"AabaA", b"aABAaAabAa", NO_CAP, LONG, &[0, 5], Done, [12, 4, 8], [12, 4, 8]),
    row(letters, b"aBa", b"Ab", 0, LONG, &[], Done, [0, 0, 0], [0, 0, 0]),
    row(letters, b"aBa", b"AbA", 0, LONG, &[], Spent(0), [0, 0, 0], [0, 0, 0]),
    // The only nohole is place 2. 210, 2, 2, 210 at 0, 3, 4, 5; KMP 012, 01, 012 at 0, 3, 5.
    row(c_in_b, b"bca", b"bbacabca", NO_CAP, LONG, &[0, 5], Done, [8, 4, 4], [8, 2, 6]),
    // 210, 2, 2, 210; KMP 012, 0, 0, 012, both at 0, 3, 4, 5.
    row(c_in_b, b"bca", b"cbaCAbba", NO_CAP, LONG, &[0, 5], Done, [8, 4, 4], [8, 2, 6]),
    // The noholes are places 1 and 3. 1320, then 32, as the known edge covers 0; KMP 0123, 23.
    row(letters, b"abAB", b"aBAbAba", NO_CAP, LONG, &[0, 2], Done, [6, 3, 3], [6, 3, 3]),
    row(letters, b"abAB", b"aBAbAba", NO_CAP, 1, &[0], Full(2), [6, 3, 3], [6, 3, 3]),
    row(letters, b"abAB", b"aBAbAba", 5, LONG, &[0], Spent(2), [5, 3, 2], [5, 2, 3]),
    // The only nohole is place 1, in all three. 120, 12; KMP 012, 12.
    row(directions, b"\x12\x25\x1F", b"\x10\x2F\x1A\x20\x13", NO_CAP, LONG, &[0, 2], Done, [5, 2, 3], [5, 2, 3]),
    // 1, 1, 120; KMP 01, 0, 012.
    row(directions, b"\x12\x25\x1F", b"\x10\x30\x1A\x20\x13", NO_CAP, LONG, &[2], Done, [5, 3, 2], [6, 2, 4]),
    // 120, 1, 1, 120; KMP 012, 1, 0, 012, both at 0, 2, 3, 4.
    row(directions, b"\x01\x25\x0F", b"\x0E\x2F\x01\0\x0B\x22\x01", NO_CAP, LONG, &[0, 4], Done, [8, 4, 4], [8, 3, 5]),
];

#[test]
fn every_row_has_the_result_worked_by_hand() {
    ROWS.iter().for_each(Row::check);
}

/// What preparation gives: the number of noholes, the tables and the cost.
struct Prepared {
    classes: fn() -> Classes,
    pattern: &'static [u8],
    noholes: usize,
    order: &'static [u8],
    shift: &'static [u16],
    next: &'static [u16],
    compared: u32,
}

/// Document 01's tables for aba and aabaa, of words that have other tables without classes. Then,
/// worked by hand from its definitions: bca with c in b's class is bba, and without it has one
/// nohole more; abAB is abab, and without classes has no period but 4; of one class, abc is aaa.
#[rustfmt::skip]
const PREPARED: [Prepared; 9] = [
    tables(letters, b"abA", 1, &[1, 2, 0], &[1, 3, 2, 2], &[0, 0, 0, 0], 2),
    tables(directions, b"\x12\x25\x1F", 1, &[1, 2, 0], &[1, 3, 2, 2], &[0, 0, 0, 0], 2),
    tables(letters, b"aAbAa", 1, &[2, 4, 3, 1, 0], &[1, 5, 4, 3, 3, 3], &[0, 0, 0, 0, 0, 0], 5),
    tables(c_in_b, b"bca", 1, &[2, 1, 0], &[1, 3, 3, 3], &[0, 0, 0, 0], 3),
    tables(identity, b"bca", 2, &[1, 2, 0], &[1, 2, 3, 3], &[0, 0, 0, 0], 2),
    tables(letters, b"abAB", 2, &[1, 3, 2, 0], &[1, 3, 4, 2, 2], &[0, 0, 0, 1, 1], 3),
    tables(identity, b"abAB", 3, &[1, 2, 3, 0], &[1, 2, 3, 4, 4], &[0, 0, 0, 0, 0], 3),
    tables(one_but_0, b"abc", 0, &[2, 1, 0], &[3, 2, 1, 1], &[0, 0, 0, 0], 2),
    tables(identity, b"abc", 2, &[1, 2, 0], &[1, 2, 3, 3], &[0, 0, 0, 0], 2),
];

const fn tables(
    classes: fn() -> Classes,
    pattern: &'static [u8],
    noholes: usize,
    order: &'static [u8],
    shift: &'static [u16],
    next: &'static [u16],
    compared: u32,
) -> Prepared {
    Prepared {
        classes,
        pattern,
        noholes,
        order,
        shift,
        next,
        compared,
    }
}

#[test]
fn the_tables_are_those_worked_by_hand_and_the_bytes_stay_as_they_were_lent() {
    for worked in &PREPARED {
        let case = worked.pattern.escape_ascii();
        let classes = (worked.classes)();
        let m = worked.pattern.len();
        let given = preparation(worked.pattern, &classes);
        assert_eq!(given.compared, worked.compared, "{case}");
        assert_eq!(given.pattern.noholes, worked.noholes, "{case}");
        assert_eq!(&given.pattern.bytes[..m], worked.pattern, "{case}");
        assert_eq!(given.pattern.classes, classes, "{case}");
        assert_eq!(&given.pattern.order[..m], worked.order, "{case}");
        assert_eq!(&given.pattern.shift[..=m], worked.shift, "{case}");
        assert_eq!(&given.pattern.next[..=m], worked.next, "{case}");
    }
}

#[test]
fn the_identity_gives_each_value_itself() {
    assert_eq!(poqewan::identity(), identity());
    for value in 0..=255 {
        assert_eq!(poqewan::identity()[usize::from(value)], value);
    }
}

/// The numbers of classes that are drawn, 0's among them.
const NUMBERS: [usize; 6] = [2, 3, 16, 128, 255, 256];

/// Searches for drawn patterns in drawn texts by drawn classes, to the end and with limits. Joined
/// values must give occurrences that the bytes alone do not have.
fn search_by_drawn_classes(number: usize) {
    let mut random = Random::new(190 + number as u64);
    let (mut by_classes, mut by_bytes) = (0, 0);
    for len in [1, 2, 3, 5, 8, 16, 33, 64, 65, 128, 192, 255, 256] {
        for zero_is_0 in [true, false] {
            let drawn = Drawn::of(number, zero_is_0, &mut random);
            for bytes in drawn.patterns(len, &mut random) {
                check_preparation(&bytes, &drawn.classes, SCRATCH);
                let mut trial = Trial::with_classes(&bytes, &drawn.classes);
                for text in drawn.texts(&bytes, &mut random) {
                    let [colussi, kmp] = trial.check_to_the_end(&text);
                    by_classes += colussi.written;
                    by_bytes += oracle::occurrences(&bytes, &identity(), &text).len();
                    for _ in 0..3 {
                        let most = colussi.count.max(kmp.count) as usize;
                        let cap = random.below(most + 2) as u64;
                        let list_len = random.below(colussi.written + 2);
                        trial.check(&text, cap, text.len());
                        trial.check(&text, NO_CAP, list_len);
                        trial.check(&text, cap, list_len);
                    }
                }
            }
        }
    }
    assert!(by_bytes > 0);
    if number < CLASSES {
        assert!(by_classes > by_bytes, "{by_classes}, {by_bytes}");
    } else {
        assert_eq!(by_classes, by_bytes);
    }
}

// The two tests that follow do about the same work.

#[test]
fn many_drawn_classes() {
    NUMBERS[3..]
        .iter()
        .for_each(|&number| search_by_drawn_classes(number));
}

#[test]
fn few_drawn_classes() {
    NUMBERS[..3]
        .iter()
        .for_each(|&number| search_by_drawn_classes(number));
}

/// The texts hold byte 0 as well.
#[test]
fn every_way_of_joining_three_letters_with_every_short_pattern_and_text() {
    let texts: Vec<_> = (0..=5).flat_map(|len| words(b"abc\0", len)).collect();
    for of_letters in [b"abc", b"aac", b"aba", b"abb", b"aaa"] {
        let mut classes = identity();
        classes[usize::from(b'a')..][..3].copy_from_slice(of_letters);
        for bytes in (1..=4).flat_map(|len| words(b"abc", len)) {
            let mut trial = Trial::with_classes(&bytes, &classes);
            for text in &texts {
                trial.check_to_the_end(text);
            }
        }
    }
}

#[test]
fn every_cap_and_every_list_where_occurrences_overlap() {
    let mut random = Random::new(197);
    let drawn = Drawn::new(letters());
    for root in [&b"a"[..], b"ab", b"aab", b"aabaa", b"abacabad"] {
        let bytes = drawn.disguised(&repeated(root, root.len() + 2), &mut random);
        let text = drawn.disguised(&repeated(root, 60), &mut random);
        let mut trial = Trial::with_classes(&bytes, &drawn.classes);
        let [colussi, kmp] = trial.check_to_the_end(&text);
        assert!(colussi.written > 1);
        for cap in (0..=colussi.count.max(kmp.count) + 1).chain([NO_CAP]) {
            for list_len in 0..=colussi.written + 1 {
                trial.check(&text, cap, list_len);
            }
        }
    }
}

/// A pattern in disguise is found in the last window of the longest text, and with no entry in the
/// list the search is full there.
#[test]
fn the_last_window_of_the_longest_text() {
    let mut random = Random::new(191);
    let drawn = Drawn::of(16, false, &mut random);
    // The first value of each class but 0's.
    let different: Vec<u8> = (1..=255)
        .filter(|&value| drawn.fellows[usize::from(value)][0] == value)
        .collect();
    let [a, b, end] = [different[0], different[1], different[2]];
    let bytes = changed(
        &repeated(&[a, a, b], LONGEST_PATTERN),
        LONGEST_PATTERN - 1,
        end,
    );
    let mut text = drawn.disguised(&repeated(&[a, a, b], LONGEST_TEXT), &mut random);
    let last = LONGEST_TEXT - LONGEST_PATTERN;
    text[last..].copy_from_slice(&drawn.disguised(&bytes, &mut random));

    let mut trial = Trial::with_classes(&bytes, &drawn.classes);
    for report in trial.check(&text, NO_CAP, 1) {
        assert_eq!((report.ending, report.written), (Done, 1));
    }
    for report in trial.check(&text, NO_CAP, 0) {
        assert_eq!(report.ending, Full(last));
    }
}

/// What both searches report of a text, with the positions.
fn answers(pattern: &Pattern, text: &[u8]) -> [(Report, Vec<u32>); 2] {
    Method::BOTH.map(|method| {
        let mut list = vec![UNWRITTEN; text.len()];
        let report = method
            .run(pattern, text, NO_CAP, &mut list)
            .expect("the pattern is prepared and the text short");
        (report, list)
    })
}

/// With other names for the classes, a name each, the tables, the cost, the positions and the counts
/// stay. So classes that are all different give those of the identity.
#[test]
fn other_names_of_the_classes_change_nothing() {
    let mut random = Random::new(192);
    for number in NUMBERS {
        for round in 0..20 {
            let drawn = match number {
                CLASSES => Drawn::new(identity()),
                _ => Drawn::of(number, round % 2 == 0, &mut random),
            };
            let names = shuffled(&mut random);
            let renamed = drawn.classes.map(|class| names[usize::from(class)]);
            let len = 1 + random.below(40);
            for bytes in drawn.patterns(len, &mut random) {
                let one = preparation(&bytes, &drawn.classes);
                let other = preparation(&bytes, &renamed);
                assert_eq!(one.compared, other.compared);
                assert_eq!(with_classes(&one.pattern, renamed), other.pattern);
                for text in drawn.texts(&bytes, &mut random) {
                    assert_eq!(answers(&one.pattern, &text), answers(&other.pattern, &text));
                }
            }
        }
    }
}

/// Where the class of 0 is 0, a search by classes is the search for the classes of the pattern in
/// those of the text, with each value its own class.
#[test]
fn a_search_by_classes_is_one_among_the_classes() {
    let mut random = Random::new(193);
    for number in NUMBERS {
        for _ in 0..10 {
            let drawn = Drawn::of(number, true, &mut random);
            let classes_of = |word: &[u8]| -> Vec<u8> {
                word.iter()
                    .map(|&v| drawn.classes[usize::from(v)])
                    .collect()
            };
            let len = 1 + random.below(40);
            for bytes in drawn.patterns(len, &mut random) {
                let pattern = preparation(&bytes, &drawn.classes).pattern;
                let among = prepared(&classes_of(&bytes));
                for text in drawn.texts(&bytes, &mut random) {
                    assert_eq!(
                        answers(&pattern, &text),
                        answers(&among, &classes_of(&text))
                    );
                }
            }
        }
    }
}
