//! Request C-12: does it occur at all? The first position or absent, by Colussi's order without a
//! cap. The count is that of the full search when it lists this position, or for absent at its end.

mod common;
mod oracle;

use common::classes::{c_in_b, letters, one_but_0, Classes, Drawn};
use common::worked::NO_CAP;
use common::{
    assert_refused, changed, ended, fibonacci, prepared, repeated, words_of_lengths, Method,
    Random, Trial, UNWRITTEN,
};
use oracle::{identity, LONGEST_PATTERN};
use poqewan::Ending::{self, Done, Spent};
use poqewan::{colussi, find_first, First, Pattern, Refusal, LONGEST_TEXT};

/// A pattern by its classes in a text, with where it occurs first. A digit is the place of a
/// comparison; a word has those of a window.
struct Worked {
    classes: fn() -> Classes,
    pattern: &'static [u8],
    text: &'static [u8],
    position: Option<usize>,
    compared: &'static str,
}

const fn worked(
    classes: fn() -> Classes,
    pattern: &'static [u8],
    text: &'static [u8],
    position: Option<usize>,
    compared: &'static str,
) -> Worked {
    Worked {
        classes,
        pattern,
        text,
        position,
        compared,
    }
}

/// Worked by hand from document 01's rules. The orders are 0 of a; 10 of aa and ab; 210 of aaa, aab
/// and bba; 120 of aba and abb; 1320 of abab; 24310 of aabaa.
#[rustfmt::skip]
const WORKED: [Worked; 45] = [
    // Document 01's records.
    worked(identity, b"a", b"aab", Some(0), "0"),
    worked(identity, b"aa", b"aaaa", Some(0), "10"),
    worked(identity, b"ab", b"aaaa", None, "1 1 1"),
    worked(identity, b"aba", b"ababa", Some(0), "120"),
    worked(identity, b"aabaa", b"aabaaaabaa", Some(0), "24310"),
    worked(identity, b"aba", b"ab", None, ""),
    worked(identity, b"aba", b"aba", Some(0), "120"),
    // Records of C-16.
    worked(identity, b"aab", b"aaaaab", Some(3), "2 2 2 210"),
    worked(identity, b"abab", b"abacabab", Some(4), "13 1 1320"),
    worked(identity, b"aba", b"abcaba", Some(3), "12 120"),
    worked(identity, b"aabaa", b"aaabaa", Some(1), "2 24310"),
    worked(identity, b"abb", b"ababb", Some(2), "12 120"),
    worked(identity, b"abb", b"cabb", Some(1), "1 120"),
    worked(identity, b"aaa", b"aabaaa", Some(3), "2 210"),
    worked(one_but_0, b"abc", b"ab\0aaa", Some(3), "2 210"),
    worked(letters, b"abAB", b"aBAbAba", Some(0), "1320"),
    worked(c_in_b, b"bca", b"bbacabca", Some(0), "210"),
    // A miss at a hole sets the known edge, and the next window is not compared left of it.
    worked(identity, b"aa", b"baa", Some(1), "10 1"),
    worked(identity, b"aaa", b"baaa", Some(1), "210 2"),
    worked(identity, b"aba", b"cbaba", Some(2), "120 12"),
    worked(identity, b"abab", b"cbabab", Some(2), "1320 32"),
    worked(identity, b"aabaa", b"cabaabaa", Some(3), "24310 243"),
    worked(identity, b"aba", b"cbaca", None, "120 1"),
    worked(identity, b"aa", b"baba", None, "10 1"),
    worked(letters, b"aBa", b"CbAbA", Some(2), "120 12"),
    // In the middle, with another occurrence after it or none.
    worked(identity, b"aba", b"cabac", Some(1), "1 120"),
    worked(identity, b"aba", b"cabababa", Some(1), "1 120"),
    worked(c_in_b, b"bca", b"cabba", Some(2), "2 2 210"),
    worked(one_but_0, b"ab", b"\0x\0yzz", Some(3), "10 1 10"),
    // Nowhere.
    worked(identity, b"abb", b"ababab", None, "12 12"),
    worked(identity, b"abab", b"abacabac", None, "13 1 13"),
    // A text as long as the pattern.
    worked(identity, b"abab", b"abab", Some(0), "1320"),
    worked(identity, b"aba", b"aaa", None, "1"),
    worked(identity, b"aba", b"abb", None, "12"),
    worked(identity, b"aba", b"bba", None, "120"),
    worked(one_but_0, b"abc", b"xyz", Some(0), "210"),
    // A shorter text, and none.
    worked(identity, b"abab", b"aba", None, ""),
    worked(identity, b"aa", b"", None, ""),
    // One byte.
    worked(identity, b"a", b"", None, ""),
    worked(identity, b"a", b"a", Some(0), "0"),
    worked(identity, b"a", b"b", None, "0"),
    worked(identity, b"a", b"bbbab", Some(3), "0 0 0 0"),
    worked(letters, b"a", b"bBA", Some(2), "0 0 0"),
    // Byte 0 breaks what would be an occurrence.
    worked(identity, b"aba", b"ab\0aba", Some(3), "12 120"),
    worked(one_but_0, b"aba", b"xx\0yz", None, "2"),
];

fn answer(position: Option<usize>, count: u64) -> First {
    match position {
        Some(position) => First::At { position, count },
        None => First::Absent { count },
    }
}

#[test]
fn every_row_has_the_answer_worked_by_hand() {
    for worked in &WORKED {
        let compared = worked.compared.matches(|c: char| c.is_ascii_digit());
        let expected = answer(worked.position, compared.count() as u64);
        let [pattern, text] = [worked.pattern, worked.text].map(<[u8]>::escape_ascii);
        let mut trial = Trial::with_classes(worked.pattern, &(worked.classes)());
        let first = check_beside_the_searches(&mut trial, worked.text);
        assert_eq!(first, expected, "{pattern} in {text}");
    }
}

/// Asks for the first position, checks it, and compares it with what the library's own searches
/// report of the text.
fn check_beside_the_searches(trial: &mut Trial, text: &[u8]) -> First {
    let first = trial.check_first(text);
    let (ending, count) = ended(first);

    // With no entry in the list the full search is cut off at the same moment, and one comparison
    // less would not do.
    for cap in [NO_CAP, count] {
        assert_eq!(with_an_empty_list(trial, text, cap), (ending, count));
    }
    if count > 0 {
        check_spent(trial, text, count - 1, first);
    }

    // The first entry of either list.
    for method in Method::BOTH {
        let mut list = vec![UNWRITTEN; text.len() + 1];
        let report = method.run(trial.pattern(), text, NO_CAP, &mut list);
        assert_eq!(report.map(|report| report.ending), Ok(Done));
        match first {
            First::At { position, .. } => assert_eq!(list[0] as usize, position),
            First::Absent { .. } => assert_eq!(list[0], UNWRITTEN),
        }
    }
    first
}

/// How the search in Colussi's order ends that has a cap and no entry in its list, and its count.
fn with_an_empty_list(trial: &Trial, text: &[u8], cap: u64) -> (Ending, u64) {
    let report = colussi(trial.pattern(), text, cap, &mut [])
        .expect("the pattern is prepared and the text short");
    (report.ending, report.count)
}

/// With a cap below the count, the search is spent in a window up to the first position.
fn check_spent(trial: &Trial, text: &[u8], cap: u64, first: First) {
    let (ending, count) = with_an_empty_list(trial, text, cap);
    let Spent(window) = ending else {
        panic!("cap {cap}: {ending:?}, and {first:?}");
    };
    assert_eq!(count, cap);
    if let First::At { position, .. } = first {
        assert!(window <= position, "cap {cap}: {window}, and {first:?}");
    }
}

/// Asks for every pattern in every text. Gives how often it occurs, and how often it is absent.
fn ask_all(
    patterns: &[Vec<u8>],
    classes: &Classes,
    texts: &[Vec<u8>],
    ask: impl Fn(&mut Trial, &[u8]) -> First,
) -> [usize; 2] {
    let mut answers = [0, 0];
    for bytes in patterns {
        let mut trial = Trial::with_classes(bytes, classes);
        for text in texts {
            let first = ask(&mut trial, text);
            answers[usize::from(matches!(first, First::Absent { .. }))] += 1;
        }
    }
    answers
}

#[test]
fn every_short_pattern_of_two_letters_in_every_text() {
    let (patterns, texts) = (
        words_of_lengths(b"ab", 1, 5),
        words_of_lengths(b"ab", 0, 10),
    );
    let answers = ask_all(&patterns, &identity(), &texts, check_beside_the_searches);
    assert!(answers.iter().all(|&n| n > 40_000), "{answers:?}");
}

/// With and without classes that join two of the letters, in texts with bytes 0.
#[test]
fn every_short_pattern_of_three_letters_in_every_text() {
    let (patterns, texts) = (
        words_of_lengths(b"abc", 1, 3),
        words_of_lengths(b"abc\0", 0, 5),
    );
    for classes in [identity(), c_in_b(), one_but_0()] {
        let answers = ask_all(&patterns, &classes, &texts, check_beside_the_searches);
        assert!(answers.iter().all(|&n| n > 5_000), "{answers:?}");
    }
}

/// The comparisons of the full search begin with exactly these: with any cap below the count it is
/// spent before it comes to the first position, or to its end.
#[test]
fn every_cap_up_to_the_count() {
    let at_every_cap = |trial: &mut Trial, text: &[u8]| {
        let first = trial.check_first(text);
        let (ending, count) = ended(first);
        for cap in 0..count {
            check_spent(trial, text, cap, first);
        }
        for cap in [count, count + 1] {
            assert_eq!(with_an_empty_list(trial, text, cap), (ending, count));
        }
        first
    };
    let (patterns, texts) = (words_of_lengths(b"ab", 1, 4), words_of_lengths(b"ab", 0, 9));
    let answers = ask_all(&patterns, &identity(), &texts, at_every_cap);
    assert!(answers.iter().all(|&n| n > 8_000), "{answers:?}");

    let long = repeated(b"aabaabaabb", 200);
    for bytes in [
        &b"aabaabaa"[..],
        b"bbaabb",
        b"aabbaabaabaabbaabaab",
        b"abab",
    ] {
        at_every_cap(&mut Trial::of(bytes), &long);
    }
}

/// The text with the pattern in disguise at a place, or nowhere, and no occurrence before: where
/// there was one, a byte of it that lies before is now 0.
fn planted(
    drawn: &Drawn,
    bytes: &[u8],
    text: &[u8],
    place: Option<usize>,
    random: &mut Random,
) -> Vec<u8> {
    let mut text = text.to_vec();
    if let Some(b) = place {
        text[b..][..bytes.len()].copy_from_slice(&drawn.disguised(bytes, random));
    }
    let end = place.unwrap_or(text.len());
    loop {
        let occurrences = oracle::occurrences(bytes, &drawn.classes, &text);
        match occurrences.first().map(|&b| b as usize) {
            Some(b) if b < end => text[b + random.below(bytes.len().min(end - b))] = 0,
            _ => return text,
        }
    }
}

/// Plants drawn patterns of a length in drawn texts: in turn first of all, anywhere, last of all
/// and nowhere.
fn ask_for_planted(drawn: &Drawn, len: usize, random: &mut Random) {
    for (turn, bytes) in drawn.patterns(len, random).into_iter().enumerate() {
        let mut trial = Trial::with_classes(&bytes, &drawn.classes);
        for (kind, text) in drawn.texts(&bytes, random).iter().enumerate() {
            let last = text.len() - len;
            let place = match (turn + kind + len) % 4 {
                0 => Some(0),
                1 => Some(random.below(last + 1)),
                2 => Some(last),
                _ => None,
            };
            let text = planted(drawn, &bytes, text, place, random);
            let first = trial.check_first(&text);
            assert_eq!(first, answer(place, ended(first).1));
        }
    }
}

#[test]
fn planted_patterns_of_every_length() {
    let mut random = Random::new(121);
    let drawn = Drawn::new(identity());
    for len in 1..=LONGEST_PATTERN {
        ask_for_planted(&drawn, len, &mut random);
    }
}

#[test]
fn planted_patterns_through_drawn_classes() {
    let mut random = Random::new(122);
    for number in [2, 3, 16, 255, 256] {
        for len in [1, 2, 3, 5, 8, 33, 64, 65, 128, 192, 255, 256] {
            let drawn = Drawn::of(number, len % 2 == 0, &mut random);
            ask_for_planted(&drawn, len, &mut random);
        }
    }
}

/// Near misses at every period, then the pattern.
#[test]
fn long_patterns_after_many_near_misses() {
    let mut random = Random::new(123);
    for m in [2, 3, 5, 16, 63, 64, 65, 128, 255, 256] {
        let nearly = changed(&repeated(b"a", m), m / 2, b'b');
        for bytes in [
            repeated(b"aab", m),
            fibonacci(m),
            nearly,
            random.word(b"ab", m),
        ] {
            let mut trial = Trial::of(&bytes);
            for place in [0, m / 3, m / 2, m - 1] {
                let misses = repeated(&changed(&bytes, place, b'c'), 20 * m);
                assert!(matches!(
                    check_beside_the_searches(&mut trial, &misses),
                    First::Absent { .. }
                ));
                // It may begin with what follows the last miss.
                let text = [&misses[..], &bytes, &bytes].concat();
                let first = check_beside_the_searches(&mut trial, &text);
                let after = misses.len() - m + place + 1..=misses.len();
                assert!(matches!(first, First::At { position, .. } if after.contains(&position)));
            }
        }
    }
}

/// What stands after the first occurrence is no matter, and without its last byte there is none.
#[test]
fn what_follows_the_first_occurrence_changes_nothing() {
    let mut random = Random::new(124);
    let mut found = 0;
    for bytes in words_of_lengths(b"ab", 1, 5) {
        let mut trial = Trial::of(&bytes);
        for _ in 0..200 {
            let len = random.below(40);
            let text = random.word(b"abb\0", len);
            let first = trial.check_first(&text);
            let First::At { position, .. } = first else {
                continue;
            };
            found += 1;
            let end = position + bytes.len();
            for rest in [&b""[..], &bytes, &random.word(b"ab", 60), &[0; 60]] {
                let text = [&text[..end], rest].concat();
                assert_eq!(trial.check_first(&text), first);
            }
            let first = trial.check_first(&text[..end - 1]);
            assert!(matches!(first, First::Absent { .. }));
        }
    }
    assert!(found > 3_000, "{found}");
}

/// An occurrence in the first window costs m, and so does a miss there at place 0, which Colussi's
/// order compares last: both ceilings are met.
#[test]
fn the_ceilings_are_met_in_the_first_window() {
    let mut random = Random::new(125);
    for m in 1..=LONGEST_PATTERN {
        let count = m as u64;
        for bytes in [repeated(b"a", m), fibonacci(m), random.word(b"ab", m)] {
            let mut trial = Trial::of(&bytes);
            let first = trial.check_first(&[&bytes[..], b"aab"].concat());
            assert_eq!(first, First::At { position: 0, count });
            let first = trial.check_first(&changed(&bytes, 0, b'c'));
            assert_eq!(first, First::Absent { count });
        }
    }
}

/// The pattern a^k b a^k after r near misses, each with c for its first letter. A near miss costs
/// m, and then k windows miss at place k before the next one. So twice the count is 3b + 2m - r for
/// the occurrence at b = r * m, and 3n - m - (r - 1) for absent.
#[test]
fn the_ceilings_are_met_up_to_one_for_each_repetition() {
    for k in (1..=32).chain([63, 64, 127]) {
        let m = 2 * k + 1;
        let bytes = changed(&repeated(b"a", m), k, b'b');
        let mut trial = Trial::of(&bytes);
        for r in 1..=12 {
            let misses = repeated(&changed(&bytes, 0, b'c'), r * m);
            let (position, n) = (r * m, r * m);
            let absent = trial.check_first(&misses);
            let first = trial.check_first(&[&misses[..], &bytes].concat());

            let count = (r * m + (r - 1) * k) as u64;
            assert_eq!(absent, First::Absent { count });
            assert_eq!(2 * count, (3 * n - m - (r - 1)) as u64);
            let count = (r * (m + k) + m) as u64;
            assert_eq!(first, First::At { position, count });
            assert_eq!(2 * count, (3 * position + 2 * m - r) as u64);
        }
    }
}

/// The first position is that of the first segment that has one.
#[test]
fn an_occurrence_covers_no_byte_0() {
    let in_segments = |trial: &mut Trial, text: &[u8]| {
        let first = trial.check_first(text);
        let expected = oracle::segments(text)
            .into_iter()
            .find_map(|(begin, segment)| match trial.check_first(segment) {
                First::At { position, .. } => Some(begin + position),
                First::Absent { .. } => None,
            });
        assert_eq!(first, answer(expected, ended(first).1));
        first
    };
    let (patterns, texts) = (
        words_of_lengths(b"ab", 1, 3),
        words_of_lengths(b"ab\0", 0, 7),
    );
    let answers = ask_all(&patterns, &identity(), &texts, in_segments);
    assert!(answers.iter().all(|&n| n > 10_000), "{answers:?}");

    for m in [1, 2, 64, 256] {
        let bytes = repeated(b"aab", m);
        let mut trial = Trial::of(&bytes);
        for place in 0..m {
            let broken = changed(&bytes, place, 0);
            let first = in_segments(&mut trial, &[&broken[..], &bytes].concat());
            assert!(matches!(first, First::At { position, .. } if position > place));
        }
        let zeros = trial.check_first(&vec![0; 3 * m]);
        assert!(matches!(zeros, First::Absent { .. }));
    }
}

/// Each change of a pattern is refused too, in `refusals.rs` and `refused_classes.rs`.
#[test]
fn a_false_pattern_is_refused_whatever_the_text() {
    let pattern = prepared(b"aba");
    let false_one = Pattern {
        noholes: 2,
        ..pattern
    };
    for text in [&b""[..], b"ab", b"aba", b"ccc", b"cababa"] {
        assert_refused(&false_one, text, Refusal::FalsePattern);
        assert_refused(&oracle::ZERO, text, Refusal::FalsePattern);
        assert!(find_first(&pattern, text).is_ok());
    }
}

/// aab misses in every window at place 2, its only nohole, and moves by 1; it occurs in the last
/// window, in the first, or nowhere.
#[test]
fn texts_of_the_greatest_length_and_about_it() {
    let mut trial = Trial::of(b"aab");
    let mut text = vec![b'c'; LONGEST_TEXT + 1];
    for n in [LONGEST_TEXT - 1, LONGEST_TEXT] {
        let last = n - 3;
        let absent = trial.check_first(&text[..n]);
        let count = last as u64 + 1;
        assert_eq!(absent, First::Absent { count });

        text[last..n].copy_from_slice(b"aab");
        let (position, count) = (last, last as u64 + 3);
        let first = trial.check_first(&text[..n]);
        assert_eq!(first, First::At { position, count });
        text[last..n].fill(b'c');
    }

    assert_refused(trial.pattern(), &text, Refusal::LongText);
    text[..3].copy_from_slice(b"aab");
    let (position, count) = (0, 3);
    let first = trial.check_first(&text[..LONGEST_TEXT]);
    assert_eq!(first, First::At { position, count });
    assert_refused(trial.pattern(), &text, Refusal::LongText);

    // Both at once: the pattern is tested first.
    assert_refused(&oracle::ZERO, &text, Refusal::FalsePattern);
    let mut false_one = *trial.pattern();
    false_one.marks[0] = 0;
    assert_refused(&false_one, &text, Refusal::FalsePattern);
}
