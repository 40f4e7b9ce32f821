//! Request C-14's list: what of it is written, and refusal 11, with its place behind 4 and 5. Each
//! change of a pattern is refused too, in `refusals.rs` and `refused_classes.rs`.

mod common;
mod oracle;

use common::classes::{joined, with_classes};
use common::lengths::assert_lengths_refused;
use common::{
    changed, fibonacci, number_of, prepared, repeated, words_of_lengths, Random, Trial, LONG_OR_NOT,
};
use oracle::lengths::LONGEST_RECORD;
use oracle::{identity, LONGEST_PATTERN};
use poqewan::Refusal::{FalsePattern, LongText, ShortLengths};
use poqewan::{prefix_lengths, Pattern, Refusal, LONGEST_TEXT};

#[test]
fn the_constants_and_numbers_are_those_of_the_request() {
    assert_eq!([LONGEST_TEXT, LONGEST_RECORD], [16_777_216; 2]);
    let numbers = [FalsePattern, LongText, ShortLengths].map(Refusal::number);
    assert_eq!(numbers, [4, 5, 11]);
    let told = ShortLengths.to_string();
    assert!(told.contains("lengths") && told.contains("fewer"), "{told}");
}

/// Asks with a list of so many entries. It is refused exactly where it is shorter than the text.
fn check_list(trial: &Trial, text: &[u8], list_len: usize) {
    let (answer, _) = trial.check_lengths_with(text, list_len);
    let refusal = (list_len < text.len()).then_some(ShortLengths);
    assert_eq!(answer.err(), refusal, "list of {list_len}");
}

#[test]
fn lists_of_every_size_for_short_texts() {
    for bytes in words_of_lengths(b"ab", 1, 3) {
        let trial = Trial::of(&bytes);
        for text in words_of_lengths(b"ab", 0, 6) {
            for list_len in 0..=text.len() + 3 {
                check_list(&trial, &text, list_len);
            }
        }
    }
}

/// n - 1, n, n + 1 and many more entries; where n is 0, from none on. Among the lengths are those at
/// which a number of 8 or 16 bits would wrap.
#[test]
fn lists_about_the_length_of_a_text() {
    let mut random = Random::new(148);
    for m in [1, 2, 3, 64, 255, 256] {
        for bytes in [
            repeated(b"aab", m),
            fibonacci(m),
            changed(&repeated(b"a", m), m - 1, b'b'),
        ] {
            let trial = Trial::of(&bytes);
            let any = random.below(1_000);
            for n in [0, 1, 2, m - 1, m, m + 1, 255, 256, 257, any] {
                for text in [repeated(&bytes, n), random.word(b"aab\0", n)] {
                    for list_len in [0, 1, n / 2, n, n + 1, n + 2, 2 * n + 300, 5_000] {
                        check_list(&trial, &text, list_len);
                    }
                    if n > 0 {
                        check_list(&trial, &text, n - 1);
                    }
                }
            }
        }
    }
    let trial = Trial::of(b"aabaa");
    for n in [65_535, 65_536, 65_537, 131_072] {
        let text = repeated(b"aabaaab", n);
        for list_len in [0, n - 65_535, n - 1, n, n + 1, n + 65_536, 2 * n] {
            check_list(&trial, &text, list_len);
        }
    }
}

/// The entries past the text's length keep whatever they held: lengths as well.
#[test]
fn what_the_list_held_before_is_no_matter() {
    for bytes in [&b"a"[..], b"aba", b"aabaa", &repeated(b"ab", 256)] {
        let trial = Trial::of(bytes);
        let m = bytes.len();
        for n in [0, 1, m - 1, m, 3 * m + 1] {
            let text = repeated(b"aabaaab", n);
            let (lengths, count) = trial.check_lengths(&text);
            for held in [0, 1, m as u16, 256, u16::MAX] {
                let mut list = vec![held; n + 300];
                let answer = prefix_lengths(trial.pattern(), &text, &mut list);
                assert_eq!(answer, Ok(count));
                assert_eq!(list[..n], lengths);
                assert_eq!(list[n..], [held; 300]);
            }
        }
    }
}

/// Patterns that preparation gives.
fn true_patterns() -> [Pattern; 2] {
    [
        prepared(b"aab"),
        prepared(&repeated(b"ab", LONGEST_PATTERN)),
    ]
}

/// Patterns that it does not give, false in a field each, and one in all.
fn false_patterns() -> Vec<Pattern> {
    let mut all = vec![oracle::ZERO];
    for good in true_patterns() {
        let m = good.len;
        for len in [0, m - 1, m + 1, LONGEST_PATTERN + 1, usize::MAX] {
            all.push(Pattern { len, ..good });
        }
        for noholes in [0, good.noholes + 1, usize::MAX] {
            all.push(Pattern { noholes, ..good });
        }
        all.push(with_classes(&good, joined(b'c', 0)));
        all.push(with_classes(&good, joined(b'b', b'a')));
        all.push(with_classes(&good, [0; 256]));

        let mut change = |change: fn(&mut Pattern)| {
            let mut pattern = good;
            change(&mut pattern);
            all.push(pattern);
        };
        change(|pattern| pattern.bytes[0] = 0);
        change(|pattern| pattern.bytes[0] = b'b');
        change(|pattern| pattern.bytes[1] ^= 3);
        change(|pattern| pattern.order[0] ^= 1);
        change(|pattern| pattern.order[2] ^= 0x80);
        change(|pattern| pattern.shift[0] += 1);
        change(|pattern| pattern.shift[pattern.len] ^= 0x8000);
        change(|pattern| pattern.next[pattern.len] += 1);
        change(|pattern| pattern.next[1] ^= 0x100);
        change(|pattern| pattern.marks[0] ^= 1);
        change(|pattern| pattern.marks[3] ^= 1 << 63);
    }
    // Nothing may stand past the entries defined.
    let good = true_patterns()[0];
    for past in [3, 4, 255] {
        let [mut bytes, mut order, mut shift, mut next] = [good; 4];
        bytes.bytes[past] = b'a';
        order.order[past] = 1;
        shift.shift[past + 1] = 1;
        next.next[past + 1] = 1;
        all.extend([bytes, order, shift, next]);
    }
    all
}

#[test]
fn a_false_pattern_is_refused_whatever_the_text_and_the_list() {
    let text = repeated(b"aab", 600);
    for pattern in false_patterns() {
        assert!(oracle::tables_if_true(&pattern).is_none(), "{pattern:?}");
        for n in [0, 1, 2, 3, 4, 255, 256, 600] {
            for list_len in [0, n / 2, n, n + 1, n + 50] {
                assert_lengths_refused(&pattern, &text[..n], list_len, FalsePattern);
            }
        }
    }
    for pattern in true_patterns() {
        assert!(prefix_lengths(&pattern, &text, &mut [0; 600]).is_ok());
    }
}

/// Each set of the conditions of 4, 5 and 11, each condition true in two ways and false in two. The
/// first in this order is given, and nothing is written.
#[test]
fn of_4_5_and_11_the_first_that_applies_is_given() {
    let text = vec![b'a'; LONGEST_TEXT + 2];
    let [one, other] = true_patterns();
    let noholes = one.noholes + 1;
    let patterns = [
        (false, one),
        (false, other),
        (true, oracle::ZERO),
        (true, Pattern { noholes, ..one }),
    ];
    let mut met = [0; 8];
    for (is_long, n) in LONG_OR_NOT {
        let text = &text[..n];
        for (is_short, list_len) in [(false, n), (false, n + 1), (true, n - 1), (true, 0)] {
            for (is_false, pattern) in &patterns {
                match (*is_false, is_long, is_short) {
                    (true, _, _) => assert_lengths_refused(pattern, text, list_len, FalsePattern),
                    (_, true, _) => assert_lengths_refused(pattern, text, list_len, LongText),
                    (_, _, true) => assert_lengths_refused(pattern, text, list_len, ShortLengths),
                    _ => assert!(prefix_lengths(pattern, text, &mut vec![7; list_len]).is_ok()),
                }
                met[number_of([*is_false, is_long, is_short])] += 1;
            }
        }
    }
    assert_eq!(met, [8; 8]);
}

/// Asks for a pattern in the longest text of a letter that is accepted, in one of a byte less and of
/// one more. The lengths are as given by the distance to the text's end, and so is the count.
fn ask_in_the_longest_runs(bytes: &[u8], longest: usize, count_in: fn(usize) -> usize) {
    let pattern = prepared(bytes);
    let text = vec![b'a'; LONGEST_TEXT + 1];
    for n in [LONGEST_TEXT - 1, LONGEST_TEXT] {
        let mut list = vec![u16::MAX; n + 1];
        let answer = prefix_lengths(&pattern, &text[..n], &mut list);
        assert_eq!(answer, Ok(count_in(n) as u64));
        assert!((0..n).all(|x| usize::from(list[x]) == longest.min(n - x)));
        assert_eq!(list[n], u16::MAX);
        assert_lengths_refused(&pattern, &text[..n], n - 1, ShortLengths);
    }
    for list_len in [0, LONGEST_TEXT, LONGEST_TEXT + 1, LONGEST_TEXT + 2] {
        assert_lengths_refused(&pattern, &text, list_len, LongText);
    }
}

/// Each text byte is compared once.
#[test]
fn the_longest_pattern_in_the_longest_text() {
    ask_in_the_longest_runs(&[b'a'; LONGEST_PATTERN], LONGEST_PATTERN, |n| n);
}

/// A match and a miss in every window, but for the last, which only has the match: 2n - 1 is the
/// most that there is.
#[test]
fn the_most_comparisons_in_the_longest_text() {
    ask_in_the_longest_runs(b"ab", 1, |n| 2 * n - 1);
}

/// m in the first window, then a match and a miss up to window n - m, and then a match.
#[test]
fn near_misses_of_255_in_the_longest_text() {
    let bytes = changed(&[b'a'; LONGEST_PATTERN], LONGEST_PATTERN - 1, b'b');
    ask_in_the_longest_runs(&bytes, 255, |n| 2 * n - 255);
}

/// Against the oracle, with the pattern in the last window, and its half behind it or not.
#[test]
fn random_letters_in_the_longest_text() {
    let mut random = Random::new(149);
    let bytes = random.word(b"ab", 64);
    let trial = Trial::of(&bytes);
    let mut text = random.word(b"ab", LONGEST_TEXT);
    for end in [LONGEST_TEXT, LONGEST_TEXT - 32] {
        text[end - 64..end].copy_from_slice(&bytes);
        text[end..].copy_from_slice(&bytes[..LONGEST_TEXT - end]);
        let (answer, list) = trial.check_lengths_with(&text, LONGEST_TEXT);
        assert!(answer.is_ok());
        assert_eq!(list[end - 64], 64);
        if end < LONGEST_TEXT {
            assert_eq!(list[end], 32);
        }
    }
}

/// The pattern that is given stays as it is, and so does the text: two calls answer the same.
#[test]
fn a_call_leaves_no_trace() {
    let mut random = Random::new(150);
    for m in [1, 5, 64, 256] {
        let bytes = random.word(b"aab", m);
        let (trial, pattern) = (Trial::of(&bytes), prepared(&bytes));
        let text = random.word(b"aab\0", 3 * m);
        let lent = text.clone();
        let first = trial.check_lengths(&text);
        assert_lengths_refused(&pattern, &text, text.len() - 1, ShortLengths);
        assert_lengths_refused(&oracle::ZERO, &text, text.len(), FalsePattern);
        assert_eq!(trial.check_lengths(&text), first);
        assert_eq!((text, *trial.pattern()), (lent, pattern));
        assert_eq!(pattern.classes, identity());
    }
}
