//! Request C-16: two columns on the report. Each comparison is made at a place of the pattern; those
//! at noholes and those at holes are counted apart, in both searches, and the count is their sum.

mod common;
mod oracle;

use common::classes::{c_in_b, letters, one_but_0, Classes, Drawn};
use common::worked::{row, Row, LONG, NO_CAP};
use common::{changed, fibonacci, repeated, words, Method, Random, Trial, UNWRITTEN};
use oracle::{identity, Listed, Tables, LONGEST_PATTERN};
use poqewan::Ending::{Done, Full, Spent};
use poqewan::{Report, LONGEST_TEXT};

/// Worked by hand from document 01's rules. Above each, the noholes, and the places that are compared
/// window by window, by Colussi's order and by KMP.
#[rustfmt::skip]
const ROWS: [Row; 10] = [
    // 2: 2, 2, 2, 210; 012, 12, 12, 12.
    row(identity, b"aab", b"aaaaab", NO_CAP, LONG, &[3], Done, [6, 4, 2], [9, 4, 5]),
    // 1, 3: 13, 1, 1320; 0123, 0, 0123, both at 0, 3, 4.
    row(identity, b"abab", b"abacabab", NO_CAP, LONG, &[4], Done, [7, 5, 2], [9, 4, 5]),
    // 1: 12, 120; 012, 012, both at 0, 3.
    row(identity, b"aba", b"abcaba", NO_CAP, LONG, &[3], Done, [5, 2, 3], [6, 2, 4]),
    // 2: 2, 24310; 012, 1234.
    row(identity, b"aabaa", b"aaabaa", NO_CAP, LONG, &[1], Done, [6, 2, 4], [7, 2, 5]),
    // 1, 2: 12, 120; 012, 012, both at 0, 2.
    row(identity, b"abb", b"ababb", NO_CAP, LONG, &[2], Done, [5, 4, 1], [6, 4, 2]),
    // 1, 2: 1, 120; 0, 012.
    row(identity, b"abb", b"cabb", NO_CAP, LONG, &[1], Done, [4, 3, 1], [4, 2, 2]),
    // 1, 3: 1320; 0123. The list has no entry.
    row(identity, b"abab", b"ababab", NO_CAP, 0, &[], Full(0), [4, 2, 2], [4, 2, 2]),
    // 1, 3: 1320, 3; 0123, 2. The cap cuts the second window.
    row(identity, b"abab", b"ababab", 5, LONG, &[0], Spent(2), [5, 3, 2], [5, 2, 3]),
    // None: 2, 210; 012, 012.
    row(identity, b"aaa", b"aabaaa", NO_CAP, LONG, &[3], Done, [4, 0, 4], [6, 0, 6]),
    // One class for all letters, so none: 2, 210; 012, 012.
    row(one_but_0, b"abc", b"ab\0aaa", NO_CAP, LONG, &[3], Done, [4, 0, 4], [6, 0, 6]),
];

#[test]
fn every_row_has_the_columns_worked_by_hand() {
    ROWS.iter().for_each(Row::check);
}

/// The columns of a report: at noholes, and at holes.
fn columns(report: &Report) -> [u64; 2] {
    [report.at_noholes, report.at_holes]
}

/// Runs both searches, which must have the oracle's columns, and these must have the count for their
/// sum. Gives the reports.
fn check(trial: &mut Trial, text: &[u8], cap: u64, list_len: usize) -> [Report; 2] {
    let by_rules = trial.check(text, cap, list_len);
    for (method, expected) in Method::BOTH.into_iter().zip(&by_rules) {
        let mut list = vec![UNWRITTEN; list_len];
        let report = method
            .run(trial.pattern(), text, cap, &mut list)
            .expect("the pattern is prepared and the text short");
        assert_eq!(report.at_noholes, expected.at_noholes, "{method:?}");
        assert_eq!(report.at_holes, expected.at_holes, "{method:?}");
        assert_eq!(report.at_noholes + report.at_holes, report.count);
    }
    by_rules
}

/// Runs both searches to the end.
fn check_to_the_end(trial: &mut Trial, text: &[u8]) -> [Report; 2] {
    let reports = check(trial, text, NO_CAP, text.len() + 1);
    assert!(reports.iter().all(|report| report.ending == Done));
    reports
}

/// Runs both searches with every cap up to one more than is spent. With each cap one column has one
/// comparison more than with the cap before. Gives which, of each search: n or h.
fn kinds(trial: &mut Trial, text: &[u8]) -> [String; 2] {
    let whole = check_to_the_end(trial, text);
    let most = whole[0].count.max(whole[1].count);
    let mut kinds = [String::new(), String::new()];
    let mut before = [[0, 0]; 2];
    for cap in 0..=most + 1 {
        let reports = check(trial, text, cap, text.len() + 1);
        for (i, report) in reports.iter().enumerate() {
            let now = columns(report);
            if cap > whole[i].count {
                assert_eq!(*report, whole[i]);
            } else if cap > 0 {
                let grown = [now[0] - before[i][0], now[1] - before[i][1]];
                kinds[i].push(match grown {
                    [1, 0] => 'n',
                    [0, 1] => 'h',
                    _ => panic!("cap {cap}: {:?}, then {now:?}", before[i]),
                });
            } else {
                assert_eq!(now, [0, 0]);
            }
            before[i] = now;
        }
    }
    kinds
}

/// Searches worked by hand, comparison by comparison. A digit is the place of one; a word has those
/// of a window.
struct Worked {
    classes: fn() -> Classes,
    pattern: &'static str,
    text: &'static str,
    /// The pattern's noholes, and those that its bytes have by themselves.
    noholes: &'static str,
    of_bytes: &'static str,
    /// By Colussi's order, and by KMP.
    compared: [&'static str; 2],
}

#[rustfmt::skip]
const WORKED: [Worked; 10] = [
    worked(identity, "aba", "ababa", "1", "1", ["120 12", "012 12"]),
    worked(identity, "aabaa", "aabaaaabaa", "2", "2", ["24310 2 2 24310", "01234 2 12 1234"]),
    worked(identity, "abab", "abacabab", "13", "13", ["13 1 1320", "0123 0 0123"]),
    worked(identity, "aab", "aaaaab", "2", "2", ["2 2 2 210", "012 12 12 12"]),
    worked(identity, "aba", "abcaba", "1", "1", ["12 120", "012 012"]),
    worked(identity, "abb", "cababb", "12", "12", ["1 12 120", "0 012 012"]),
    worked(identity, "aaa", "aabaaa", "", "", ["2 210", "012 012"]),
    worked(letters, "abAB", "aBAbAba", "13", "123", ["1320 32", "0123 23"]),
    worked(c_in_b, "bca", "bbacabca", "2", "12", ["210 2 2 210", "012 01 012"]),
    worked(one_but_0, "abc", "ab\0aaa", "", "12", ["2 210", "012 012"]),
];

const fn worked(
    classes: fn() -> Classes,
    pattern: &'static str,
    text: &'static str,
    noholes: &'static str,
    of_bytes: &'static str,
    compared: [&'static str; 2],
) -> Worked {
    Worked {
        classes,
        pattern,
        text,
        noholes,
        of_bytes,
        compared,
    }
}

/// The kinds of comparisons that were made at these places.
fn kinds_of(compared: &str, noholes: &str) -> String {
    compared
        .chars()
        .filter(char::is_ascii_digit)
        .map(|place| if noholes.contains(place) { 'n' } else { 'h' })
        .collect()
}

/// The cap ends at each comparison in turn. Between some two of them one column ends and the other
/// goes on, in both ways and in both searches.
#[test]
fn at_every_cap_the_columns_are_those_worked_by_hand() {
    let mut cuts = [[0, 0]; 2];
    for worked in &WORKED {
        let mut trial = Trial::with_classes(worked.pattern.as_bytes(), &(worked.classes)());
        let by_hand = worked
            .compared
            .map(|compared| kinds_of(compared, worked.noholes));
        let case = format!("{} in {}", worked.pattern, worked.text);
        assert_eq!(kinds(&mut trial, worked.text.as_bytes()), by_hand, "{case}");
        for (cuts, kinds) in cuts.iter_mut().zip(&by_hand) {
            cuts[0] += kinds.matches("nh").count();
            cuts[1] += kinds.matches("hn").count();
        }
    }
    assert!(cuts.iter().flatten().all(|&cuts| cuts > 3), "{cuts:?}");
}

/// Where classes join letters, bytes by themselves have other noholes, and columns that went by them
/// would be others.
#[test]
fn the_noholes_are_those_of_the_letters_and_not_of_the_bytes() {
    let mut differ = 0;
    for worked in &WORKED {
        let noholes_by = |classes: &Classes| -> String {
            let tables = Tables::of(worked.pattern.as_bytes(), classes);
            (0..worked.pattern.len())
                .filter(|&p| tables.nohole[p])
                .map(|p| p.to_string())
                .collect()
        };
        assert_eq!(noholes_by(&(worked.classes)()), worked.noholes);
        assert_eq!(noholes_by(&identity()), worked.of_bytes);
        if worked.noholes != worked.of_bytes {
            differ += 1;
            for compared in worked.compared {
                let at = |noholes| kinds_of(compared, noholes).matches('n').count();
                assert_ne!(at(worked.noholes), at(worked.of_bytes), "{compared}");
            }
        }
    }
    assert_eq!(differ, 3);
}

/// Columns that would go by the noholes of the bytes by themselves.
fn columns_by_bytes(bytes: &[u8], classes: &Classes, text: &[u8]) -> [[u64; 2]; 2] {
    let tables = Tables {
        nohole: Tables::of(bytes, &identity()).nohole,
        ..Tables::of(bytes, classes)
    };
    let mut listed = Listed::default();
    [oracle::search_by_rules, oracle::kmp_by_rules]
        .map(|search| columns(&search(&tables, text, NO_CAP, usize::MAX, &mut listed)))
}

/// With fewer than 256 classes the columns by bytes are often others; with 256 they are the same.
#[test]
fn columns_through_drawn_classes() {
    let mut random = Random::new(161);
    for number in [2, 3, 16, 255, 256] {
        let (mut searches, mut others) = (0, [0, 0]);
        for len in [2, 3, 5, 8, 33, 64, 65, 128, 192, 256] {
            let drawn = Drawn::of(number, len % 2 == 0, &mut random);
            for bytes in drawn.patterns(len, &mut random) {
                let mut trial = Trial::with_classes(&bytes, &drawn.classes);
                for text in drawn.texts(&bytes, &mut random) {
                    let reports = check_to_the_end(&mut trial, &text);
                    let by_bytes = columns_by_bytes(&bytes, &drawn.classes, &text);
                    searches += 1;
                    for i in 0..2 {
                        others[i] += usize::from(columns(&reports[i]) != by_bytes[i]);
                    }
                    let cap = random.below(reports[0].count as usize + 2) as u64;
                    check(&mut trial, &text, cap, text.len());
                }
            }
        }
        match number {
            256 => assert_eq!(others, [0, 0]),
            255 => assert!(others.iter().all(|&others| others > 0), "{others:?}"),
            _ => assert!(
                others.iter().all(|&others| others > searches / 8),
                "{number}: {others:?} of {searches}"
            ),
        }
    }
}

/// Both searches for every pattern in every text. Gives how many searches of each kind have
/// comparisons in both columns.
fn search_all(letters: &[u8], longest_pattern: usize, longest_text: usize) -> [usize; 2] {
    let texts: Vec<_> = (0..=longest_text)
        .flat_map(|len| words(letters, len))
        .collect();
    let mut in_both = [0, 0];
    for bytes in (1..=longest_pattern).flat_map(|len| words(letters, len)) {
        let mut trial = Trial::of(&bytes);
        for text in &texts {
            let reports = check_to_the_end(&mut trial, text);
            for (in_both, report) in in_both.iter_mut().zip(&reports) {
                *in_both += usize::from(!columns(report).contains(&0));
            }
        }
    }
    in_both
}

#[test]
fn every_short_pattern_of_two_letters_in_every_text() {
    let in_both = search_all(b"ab", 7, 11);
    assert!(in_both.iter().all(|&n| n > 100_000), "{in_both:?}");
}

#[test]
fn every_short_pattern_of_three_letters_in_every_text() {
    let in_both = search_all(b"abc", 4, 7);
    assert!(in_both.iter().all(|&n| n > 100_000), "{in_both:?}");
}

#[test]
fn every_cap_for_short_patterns_in_short_texts() {
    let mut cuts = [[0, 0]; 2];
    for (letters, longest_pattern, longest_text) in [(&b"ab"[..], 5, 8), (b"abc", 3, 5)] {
        for bytes in (1..=longest_pattern).flat_map(|len| words(letters, len)) {
            let mut trial = Trial::of(&bytes);
            for text in (0..=longest_text).flat_map(|len| words(letters, len)) {
                for (cuts, kinds) in cuts.iter_mut().zip(kinds(&mut trial, &text)) {
                    cuts[0] += kinds.matches("nh").count();
                    cuts[1] += kinds.matches("hn").count();
                }
            }
        }
    }
    assert!(cuts.iter().flatten().all(|&cuts| cuts > 5_000), "{cuts:?}");
}

#[test]
fn every_cap_for_longer_patterns() {
    let mut random = Random::new(162);
    for (bytes, root) in [
        (&b"aabaabaa"[..], &b"aabaabaabb"[..]),
        (b"abaababa", b"abaababb"),
        (b"abacabadabacaba", b"abacabad"),
        (&fibonacci(34), &fibonacci(55)),
        (&repeated(b"aab", 65), b"aabaabaaab"),
        (&random.word(b"ab", 130), &random.word(b"ab", 7)),
    ] {
        let text = [&repeated(root, 90)[..], bytes, &bytes[1..]].concat();
        let mut trial = Trial::of(bytes);
        for kinds in kinds(&mut trial, &text) {
            assert!(kinds.contains("nh") && kinds.contains("hn"), "{kinds}");
        }
    }
}

/// A search that is full has the columns of one that is cut off by a cap after as many comparisons.
#[test]
fn a_list_that_is_full_cuts_the_columns_too() {
    let mut full = 0;
    for bytes in (1..=4).flat_map(|len| words(b"ab", len)) {
        let mut trial = Trial::of(&bytes);
        for text in (0..=9).flat_map(|len| words(b"ab", len)) {
            let [whole, _] = check_to_the_end(&mut trial, &text);
            for list_len in 0..whole.written {
                let reports = check(&mut trial, &text, NO_CAP, list_len);
                for (i, report) in reports.iter().enumerate() {
                    assert!(matches!(report.ending, Full(_)));
                    let capped = &check(&mut trial, &text, report.count, text.len())[i];
                    assert_eq!(columns(report), columns(capped));
                    full += 1;
                }
            }
        }
    }
    assert!(full > 10_000, "{full}");
}

/// Lengths around the words of the marks.
const LENGTHS: [usize; 14] = [1, 2, 3, 63, 64, 65, 127, 128, 129, 191, 192, 193, 255, 256];

/// The columns of both searches, run to the end.
fn both_columns(trial: &mut Trial, text: &[u8]) -> [[u64; 2]; 2] {
    check_to_the_end(trial, text).map(|report| columns(&report))
}

#[test]
fn one_letter_has_no_nohole() {
    for m in 1..=LONGEST_PATTERN {
        let mut trial = Trial::of(&repeated(b"a", m));
        let n = 3 * m + 2;
        let [n64, m64] = [n, m].map(|length| length as u64);
        // Each byte is compared once.
        let columns = both_columns(&mut trial, &repeated(b"a", n));
        assert_eq!(columns, [[0, n64]; 2]);
        // Colussi's order misses at the last place and moves by m; KMP misses at the first.
        let columns = both_columns(&mut trial, &repeated(b"b", n));
        assert_eq!(columns, [[0, n64 / m64], [0, n64 - m64 + 1]]);
    }
}

/// One letter, and another from place 1 on: every place but 0 is a nohole.
#[test]
fn every_place_but_0_is_a_nohole() {
    for m in 2..=LONGEST_PATTERN {
        let bytes = changed(&repeated(b"b", m), 0, b'a');
        assert!(Tables::of(&bytes, &identity()).nohole[1..]
            .iter()
            .all(|&nohole| nohole));
        let mut trial = Trial::of(&bytes);
        let m64 = m as u64;
        // Each byte is compared once.
        let columns = both_columns(&mut trial, &repeated(&bytes, 3 * m));
        assert_eq!(columns, [[3 * (m64 - 1), 3]; 2]);
        // Every window misses at place 1; KMP compares place 0 before it.
        let windows = 2 * m64 + 2;
        let columns = both_columns(&mut trial, &repeated(b"a", 3 * m + 1));
        assert_eq!(columns, [[windows, 0], [windows, windows]]);
        // Colussi's order misses at place 0, its last, and moves by m; KMP misses there first.
        let columns = both_columns(&mut trial, &repeated(b"b", 3 * m + 1));
        assert_eq!(columns, [[3 * (m64 - 1), 3], [0, windows]]);
    }
}

/// The only nohole of a pattern at each place from 1 to 255: a's, b at the place, and a's again, no
/// more than before.
#[test]
fn a_nohole_alone_at_each_place() {
    for place in 1..LONGEST_PATTERN {
        let m = (2 * place + 1).min(LONGEST_PATTERN);
        let bytes = changed(&repeated(b"a", m), place, b'b');
        let noholes = Tables::of(&bytes, &identity()).nohole;
        assert!((0..m).all(|p| noholes[p] == (p == place)));

        let mut trial = Trial::of(&bytes);
        let [m, p] = [m, place].map(|number| number as u64);
        assert_eq!(both_columns(&mut trial, &bytes), [[1, m - 1]; 2]);
        // Colussi's order begins with it; KMP comes to it after those before.
        let columns = both_columns(&mut trial, &changed(&bytes, place, 0));
        assert_eq!(columns, [[1, 0], [1, p]]);
    }
}

/// The only hole of a pattern but place 0, at each place from 1 to 255: an a there and at 0, b's
/// between, c's after.
#[test]
fn a_hole_alone_at_each_place() {
    for place in 1..LONGEST_PATTERN {
        let mut bytes = repeated(b"b", LONGEST_PATTERN);
        bytes[place..].fill(b'c');
        bytes[0] = b'a';
        bytes[place] = b'a';
        let noholes = Tables::of(&bytes, &identity()).nohole;
        assert!((0..LONGEST_PATTERN).all(|p| noholes[p] == (p != 0 && p != place)));

        let mut trial = Trial::of(&bytes);
        assert_eq!(both_columns(&mut trial, &bytes), [[254, 2]; 2]);
        // Colussi's order comes to it after all noholes; KMP after those before it, and place 0.
        let columns = both_columns(&mut trial, &changed(&bytes, place, 0));
        assert_eq!(columns, [[254, 1], [place as u64 - 1, 2]]);
    }
}

/// Words of a length with few noholes, with many, and with some in every word of the marks.
fn words_of_many_kinds(m: usize, random: &mut Random) -> Vec<Vec<u8>> {
    let all_but_0: Vec<u8> = (1..=255).collect();
    vec![
        repeated(b"a", m),
        changed(&repeated(b"a", m), m - 1, b'b'),
        changed(&repeated(b"b", m), 0, b'a'),
        repeated(b"aabaa", m),
        fibonacci(m),
        random.word(b"ab", m),
        random.word(b"aaab", m),
        random.word(&all_but_0, m),
    ]
}

/// One window alone, with a byte at each place that differs from all: how far each search comes is
/// plain.
#[test]
fn one_window_that_differs_at_one_place() {
    let mut random = Random::new(163);
    for m in LENGTHS {
        for bytes in words_of_many_kinds(m, &mut random) {
            let Tables {
                nohole,
                below,
                noholes: d,
                ..
            } = Tables::of(&bytes, &identity());
            let numbers = |columns: [usize; 2]| columns.map(|number| number as u64);
            let mut trial = Trial::of(&bytes);
            assert_eq!(both_columns(&mut trial, &bytes), [numbers([d, m - d]); 2]);
            for p in 0..m {
                let colussi = if nohole[p] {
                    [below[p] + 1, 0]
                } else {
                    // All noholes, and the holes from the last down to this one.
                    [d, (m - p) - (d - below[p])]
                };
                let kmp = [below[p + 1], p + 1 - below[p + 1]];
                assert_eq!(
                    both_columns(&mut trial, &changed(&bytes, p, 0)),
                    [numbers(colussi), numbers(kmp)],
                    "{}, {p}",
                    bytes.escape_ascii()
                );
            }
        }
    }
}

/// 128 holes and 128 noholes, and no period but 256: each repetition is compared once, and the
/// columns are above 2^16.
#[test]
fn the_longest_pattern_with_columns_of_128_000() {
    let mut bytes = repeated(b"a", LONGEST_PATTERN);
    bytes[128..].fill(b'b');
    let mut trial = Trial::of(&bytes);
    let text = repeated(&bytes, 1_000 * LONGEST_PATTERN);
    assert_eq!(both_columns(&mut trial, &text), [[128_000, 128_000]; 2]);

    // Half of a repetition goes to one column, then half to the other.
    for (cap, expected) in [
        (65_535, [[32_768, 32_767], [32_767, 32_768]]),
        (65_536, [[32_768, 32_768], [32_768, 32_768]]),
        (65_537, [[32_769, 32_768], [32_768, 32_769]]),
        (131_072 + 128, [[65_664, 65_536], [65_536, 65_664]]),
        (131_072 + 129, [[65_664, 65_537], [65_537, 65_664]]),
    ] {
        let reports = check(&mut trial, &text, cap, text.len());
        assert_eq!(reports.map(|report| columns(&report)), expected, "{cap}");
    }
}

/// Long patterns of many kinds in long texts of pieces of them. In some of each length both columns
/// are above 2^16 in both searches.
#[test]
fn long_patterns_in_long_texts() {
    let mut random = Random::new(164);
    for m in [64, 65, 193, 256] {
        let mut large = 0;
        for bytes in words_of_many_kinds(m, &mut random) {
            let mut trial = Trial::of(&bytes);
            let mut text = Vec::new();
            while text.len() < 300_000 {
                let from = random.below(m);
                let to = from + 1 + random.below(3 * m);
                text.extend(&repeated(&bytes, to)[from..]);
            }
            let [colussi, kmp] = both_columns(&mut trial, &text);
            large += usize::from([colussi, kmp].iter().flatten().all(|&n| n > 65_536));
        }
        assert!(large > 0, "{m}");
    }
}

/// Windows that miss at the first comparison, at every length and cap about a few of them: these are
/// all at noholes in Colussi's order, and in KMP all at place 0, a hole.
#[test]
fn windows_that_miss_at_once() {
    for bytes in [&b"ab"[..], b"aab", b"abab", b"aaaabaaaa", &fibonacci(70)] {
        let mut trial = Trial::of(bytes);
        for windows in 0..=24 {
            let text = repeated(b"c", bytes.len() - 1 + windows);
            let windows = windows as u64;
            let columns = both_columns(&mut trial, &text);
            assert_eq!(columns, [[windows, 0], [0, windows]]);
            for cap in 0..windows {
                let [colussi, kmp] = check(&mut trial, &text, cap, 0);
                assert_eq!([colussi.ending, kmp.ending], [Spent(cap as usize); 2]);
                assert_eq!(colussi.at_noholes, cap);
                assert_eq!(kmp.at_holes, cap);
            }
        }
    }
}

/// aab after j misses and before k bytes more, of which all but two begin a window.
#[test]
fn misses_before_and_after_an_occurrence() {
    let mut trial = Trial::of(b"aab");
    for j in 0..=20 {
        for k in 0..=20 {
            let text = [&repeated(b"c", j)[..], b"aab", &repeated(b"c", k)].concat();
            let missed = (j + k.saturating_sub(2)) as u64;
            let columns = both_columns(&mut trial, &text);
            assert_eq!(columns, [[missed + 1, 2], [1, missed + 2]], "{j}, {k}");
        }
    }
}

/// The longest text, of misses but for an occurrence in its last window.
#[test]
fn misses_to_the_last_window_of_the_longest_text() {
    let mut trial = Trial::of(b"aab");
    let mut text = vec![b'c'; LONGEST_TEXT];
    let last = LONGEST_TEXT - 3;
    text[last..].copy_from_slice(b"aab");
    let missed = last as u64;
    let expected = [[missed + 1, 2], [1, missed + 2]];
    let reports = check(&mut trial, &text, NO_CAP, 1);
    assert_eq!(reports.map(|report| columns(&report)), expected);

    // The cap ends with the misses, and with each comparison of the last window.
    for (more, expected) in [
        (0, [[missed, 0], [0, missed]]),
        (1, [[missed + 1, 0], [0, missed + 1]]),
        (2, [[missed + 1, 1], [0, missed + 2]]),
    ] {
        let reports = check(&mut trial, &text, missed + more, 1);
        assert_eq!(reports.map(|report| report.ending), [Spent(last); 2]);
        assert_eq!(reports.map(|report| columns(&report)), expected, "{more}");
    }
}
