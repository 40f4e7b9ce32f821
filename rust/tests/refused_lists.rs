//! Request C-22's refusals: 19 and 20, each after 4 and 5; and the longest texts. Each change of a pattern
//! is refused too, in `refusals.rs` and `refused_classes.rs`.

mod common;
mod oracle;

use common::corrections::{assert_correct_refused, assert_correction_refused, drawn_list};
use common::journals::Lent;
use common::{
    changed, false_patterns, fibonacci, first_of, number_of, prepared, repeated, Random, Trial,
    LONG_OR_NOT,
};
use oracle::lengths::LONGEST_RECORD;
use oracle::{tables_if_true, LONGEST_PATTERN};
use poqewan::Refusal::{FalseList, FalsePattern, LongText, ShortList};
use poqewan::{correct, Pattern, Refusal, LONGEST_TEXT};

#[test]
fn the_constants_and_numbers_are_those_of_the_request() {
    assert_eq!([LONGEST_TEXT, LONGEST_RECORD], [16_777_216; 2]);
    let numbers = [FalsePattern, LongText, FalseList, ShortList].map(Refusal::number);
    assert_eq!(numbers, [4, 5, 19, 20]);
    let told = FalseList.to_string();
    assert!(
        told.contains("list") && told.contains("ascending"),
        "{told}"
    );
    let told = ShortList.to_string();
    assert!(told.contains("list") && told.contains("fewer"), "{told}");
}

/// Must refuse so, at places in the text and outside it.
fn refused_everywhere(trial: &Trial, text: &[u8], list: &Lent, used: usize, why: Refusal) {
    let n = text.len();
    for place in [0, n / 2, n.wrapping_sub(1), n, n + 1, usize::MAX] {
        assert_correct_refused(trial.pattern(), text, place, list, used, why);
        let refused = trial.check_correct_in(text, place, &mut list.clone(), used);
        assert_eq!(refused, Err(why));
    }
}

/// As many entries in use as the list has are accepted, and one more is refused: also where the list has
/// none, and where the numbers have a small lower half.
#[test]
fn more_entries_in_use_than_the_list_has_are_refused() {
    for bytes in [&b"a"[..], b"aba", b"aabaa", &repeated(b"ab", 256)] {
        let trial = Trial::of(bytes);
        for text in [&[][..], &bytes[1..], bytes, &repeated(bytes, 700)] {
            let n = text.len();
            for list_len in [0, 1, 2, 3, 8, 300] {
                // Past the text, so none is looked at.
                let entries: Vec<u32> = (0..list_len).map(|i| 1_000 + 2 * i).collect();
                let list_len = list_len as usize;
                let list = Lent::beginning_with(list_len, &entries);
                for used in [0, list_len / 2, list_len] {
                    for place in [n, n + 1, usize::MAX] {
                        let answer = trial.check_correct_in(text, place, &mut list.clone(), used);
                        assert_eq!(answer, Ok(used));
                    }
                }
                for used in [
                    list_len + 1,
                    list_len + 2,
                    2 * list_len + 1,
                    list_len + (1 << 16),
                    1 << 32,
                    list_len + (1 << 32),
                    (1 << 32) + 1,
                    1 << 62,
                    1 << 63,
                    list_len + (1 << 63),
                    usize::MAX - 1,
                    usize::MAX,
                ] {
                    refused_everywhere(&trial, text, &list, used, FalseList);
                }
            }
        }
    }
}

/// Two neighbours that do not ascend.
const FALSE_PAIRS: [[u32; 2]; 12] = [
    [0, 0],
    [1, 0],
    [7, 7],
    [8, 7],
    [256, 255],
    [256, 1],
    [65_536, 1],
    [0x8000_0000, 0x7FFF_FFFF],
    [0x8000_0000, 0],
    [u32::MAX, 0],
    [u32::MAX, u32::MAX - 1],
    [u32::MAX, u32::MAX],
];

/// Two neighbours that do.
const TRUE_PAIRS: [[u32; 2]; 7] = [
    [0, 1],
    [0, u32::MAX],
    [255, 256],
    [65_535, 65_536],
    [0x7FFF_FFFF, 0x8000_0000],
    [0x7FFF_FFFF, u32::MAX],
    [u32::MAX - 1, u32::MAX],
];

#[test]
fn a_pair_that_does_not_ascend_is_refused() {
    for bytes in [&b"a"[..], b"aba", &repeated(b"ab", 256)] {
        let trial = Trial::of(bytes);
        for text in [&[][..], b"ababa", &repeated(b"ab", 600)] {
            let n = text.len();
            for pair in FALSE_PAIRS {
                for spare in [0, 1, 9] {
                    let list = Lent::beginning_with(2 + spare, &pair);
                    refused_everywhere(&trial, text, &list, 2, FalseList);
                    // One entry alone is no pair, and none is neither.
                    for (used, place) in [(0, n), (1, n), (1, usize::MAX), (0, n + 1)] {
                        let answer = trial.check_correct_in(text, place, &mut list.clone(), used);
                        assert_eq!(answer, Ok(used));
                    }
                }
            }
            for pair in TRUE_PAIRS {
                for place in [0, n / 2, n.wrapping_sub(1), n, usize::MAX] {
                    let answer = trial.check_correct(text, place, 2 + bytes.len(), &pair);
                    assert!(answer.is_ok(), "{pair:?}");
                }
            }
        }
    }
}

/// The only pair that does not ascend stands first, in the middle and last. Where the entries in use end
/// before it or within it, it is no matter.
#[test]
fn a_pair_that_does_not_ascend_anywhere_in_the_list() {
    let trial = Trial::of(b"aba");
    let text = repeated(b"ab", 40);
    for len in [2, 3, 4, 5, 8, 9, 16, 17, 31, 32, 33, 64, 100] {
        for at in 1..len {
            // The first entries are the text's own positions, in part; the rest is past its end.
            let ascending: Vec<u32> = (0..len as u32).map(|i| 10 + 10 * i).collect();
            for other in [ascending[at - 1], ascending[at - 1] - 1, 0] {
                let mut entries = ascending.clone();
                entries[at] = other;
                let list = Lent::beginning_with(len + 4, &entries);
                for used in [at + 1, (at + 1 + len) / 2, len] {
                    refused_everywhere(&trial, &text, &list, used, FalseList);
                }
                for used in [0, at / 2, at - 1, at] {
                    for place in [0, 39, text.len() - 1, text.len()] {
                        let answer = trial.check_correct_in(&text, place, &mut list.clone(), used);
                        assert!(answer.is_ok(), "{used} of {entries:?}");
                    }
                }
            }
        }
    }
}

/// Lists that are false in one place, drawn.
#[test]
fn drawn_lists_with_one_entry_made_false() {
    let mut random = Random::new(361);
    let mut refused = 0;
    for round in 0..3_000 {
        let m = 1 + random.below(6);
        let trial = Trial::of(&random.word(b"ab", m));
        let n = random.below(60);
        let text = random.word(b"ab", n);
        let mut list = drawn_list(n, 12, &mut random);
        if list.len() > 1 && round % 4 > 0 {
            let at = 1 + random.below(list.len() - 1);
            list[at] = list[random.below(at)];
        }
        let mut lent = Lent::beginning_with(list.len() + random.below(8), &list);
        let answer = trial.check_correct_in(&text, random.below(n + 2), &mut lent, list.len());
        refused += usize::from(answer == Err(FalseList));
    }
    assert!(refused > 1_000, "{refused}");
}

/// A list grows into its last entry, and one past it is refused: from no entry on, by each number up to m,
/// and with entries in front and behind that are kept.
#[test]
fn a_list_that_is_one_entry_too_short_is_refused() {
    for m in [1, 2, 3, 5, 64, 255, 256] {
        let trial = Trial::of(&repeated(b"a", m));
        let n = 3 * m;
        let text = repeated(b"a", n);
        let all: Vec<u32> = (0..=2 * m as u32).collect();
        let place = 3 * m / 2;
        let first = place + 1 - m;
        for grown in [1, m / 2, m - 1, m] {
            // So many of the windows that cover the place are not in the list yet.
            let mut missing = all.clone();
            missing.drain(first..first + grown);
            let [front, behind] = [&missing[..first], &missing[first..]];
            for entries in [&missing, front, behind, &[][..]] {
                let comes = trial
                    .check_correct(&text, place, all.len() + 1, entries)
                    .expect("there is an entry for each position, and one to spare");
                let (used, now) = (entries.len(), comes.len());
                assert!(now <= used + m);
                let fitting = trial.check_correct(&text, place, now, entries);
                assert_eq!(fitting, Ok(comes));
                for list_len in [used, now.saturating_sub(1)] {
                    if (used..now).contains(&list_len) {
                        let list = Lent::beginning_with(list_len, entries);
                        let pattern = trial.pattern();
                        assert_correct_refused(pattern, &text, place, &list, used, ShortList);
                        let refused = trial.check_correct(&text, place, list_len, entries);
                        assert_eq!(refused, Err(ShortList));
                    }
                }
            }
        }
    }
}

/// Where as many entries go as come, or more, a full list is long enough.
#[test]
fn a_full_list_that_does_not_grow_is_accepted() {
    let trial = Trial::of(b"ab");
    for (text, place, before, after) in [
        (&b"abb"[..], 1, &[1][..], &[0][..]),
        (b"aab", 1, &[0], &[1]),
        (b"abbab", 1, &[1, 3], &[0, 3]),
        (b"aab", 1, &[0, 1], &[1]),
        (b"bbb", 1, &[0, 1], &[]),
        (b"bbb", 1, &[], &[]),
        (b"", 0, &[], &[]),
    ] {
        let mut list = Lent::beginning_with(before.len(), before);
        let answer = correct(
            trial.pattern(),
            text,
            place,
            list.entries_mut(),
            before.len(),
        );
        assert_eq!(answer, Ok(after.len()));
        assert_eq!(list.entries()[..after.len()], *after);
        assert_eq!(list.entries()[after.len()..], before[after.len()..]);
        let checked = trial.check_correct(text, place, before.len(), before);
        assert_eq!(checked.as_deref(), Ok(after));
    }
}

/// A list of no entries: accepted as long as nothing is to be in use.
#[test]
fn a_list_of_no_entries() {
    for bytes in [&b"a"[..], b"aba", &repeated(b"ab", 256)] {
        let trial = Trial::of(bytes);
        let text = repeated(bytes, 3 * bytes.len());
        let n = text.len();
        for place in [n, n + 1, usize::MAX] {
            assert_eq!(trial.check_correct(&text, place, 0, &[]), Ok(vec![]));
        }
        for place in [0, n - 1] {
            let nothing = changed(&text, place, 0);
            assert_eq!(trial.check_correct(&nothing, place, 0, &[]), Ok(vec![]));
            let listed = trial.check_correct(&text, place, 0, &[]);
            let covered = place == 0 || trial.listed(&text).contains(&((n - bytes.len()) as u32));
            assert_eq!(listed.err(), covered.then_some(ShortList));
        }
        refused_everywhere(&trial, &text, &Lent::of(0), 1, FalseList);
        refused_everywhere(&trial, &text, &Lent::of(0), usize::MAX, FalseList);
    }
}

/// Two patterns that preparation gives, and two that it does not; the last is aa's but for a field.
fn patterns() -> [(bool, Pattern); 4] {
    let good = prepared(b"aa");
    let noholes = good.noholes + 1;
    [
        (false, prepared(b"a")),
        (false, good),
        (true, oracle::ZERO),
        (true, Pattern { noholes, ..good }),
    ]
}

/// For place 5 of a run: whether the list is false, whether its entries would be too few, its length, its
/// first entries and how many are in use. Windows 4 and 5 cover the place, or 5 alone. Of a false list the
/// entries are counted as they stand.
type Case = (bool, bool, usize, &'static [u32], usize);

/// Each of the two conditions is true in more than one way and false in more than one.
#[rustfmt::skip]
const LISTS: [Case; 12] = [
    (false, false, 8, &[100, 200], 2),
    (false, false, 2, &[4, 5], 2),
    (false, false, 3, &[0, 4, 5], 3),
    (false, true, 2, &[100, 200], 2),
    (false, true, 0, &[], 0),
    (false, true, 3, &[0, 1, 200], 3),
    (true, false, 8, &[200, 100], 2),
    (true, false, 8, &[100, 100], 2),
    (true, false, 3, &[4, 5, 5], 3),
    (true, true, 2, &[200, 100], 2),
    (true, true, 2, &[100, 100], 2),
    (true, true, 2, &[100, 200], 3),
];

/// Each set of the conditions of 4, 5, 19 and 20. The first in this order is given, and nothing is written.
#[test]
fn of_4_5_19_and_20_the_first_that_applies_is_given() {
    let text = vec![b'a'; LONGEST_TEXT + 2];
    let mut met = [0; 16];
    for (is_long, n) in LONG_OR_NOT {
        let text = &text[..n];
        for (tells_false, is_short, list_len, entries, used) in LISTS {
            for (is_false, pattern) in &patterns() {
                let conditions = [*is_false, is_long, tells_false, is_short];
                let first = first_of(conditions, [FalsePattern, LongText, FalseList, ShortList]);

                let list = Lent::beginning_with(list_len, entries);
                let mut by_request = list.clone();
                let expected = oracle::corrections::answer(
                    tables_if_true(pattern).as_ref(),
                    text,
                    5,
                    by_request.entries_mut(),
                    used,
                );
                assert_eq!(expected.err(), first, "{list_len}, {entries:?}");
                match first {
                    Some(why) => assert_correct_refused(pattern, text, 5, &list, used, why),
                    None => {
                        let mut lent = list.clone();
                        let answer = correct(pattern, text, 5, lent.entries_mut(), used);
                        assert_eq!((answer, lent), (expected, by_request));
                    }
                }
                met[number_of(conditions)] += 1;
            }
        }
    }
    assert_eq!(met, [12; 16]);
}

/// A place outside the text is no refusal, and saves from none of 4, 5 and 19.
#[test]
fn a_place_outside_the_text_comes_after_the_refusals() {
    let text = vec![b'a'; LONGEST_TEXT + 1];
    for (is_false, pattern) in &patterns() {
        for n in [0, 1, 5, 1_000, LONGEST_TEXT, LONGEST_TEXT + 1] {
            for place in [n, n + 1, (1 << 32) + 5, usize::MAX] {
                for (tells_false, _, list_len, entries, used) in LISTS {
                    let list = Lent::beginning_with(list_len, entries);
                    let text = &text[..n];
                    let why = match (*is_false, n > LONGEST_TEXT, tells_false) {
                        (true, _, _) => FalsePattern,
                        (_, true, _) => LongText,
                        (_, _, true) => FalseList,
                        _ => {
                            let mut lent = list.clone();
                            let answer = correct(pattern, text, place, lent.entries_mut(), used);
                            assert_eq!(answer, Ok(used));
                            assert_eq!(lent, list);
                            continue;
                        }
                    };
                    assert_correct_refused(pattern, text, place, &list, used, why);
                }
            }
        }
    }
}

/// A false pattern is refused, whatever the rest: also where its length would have windows reach before
/// the text's begin or past its end.
#[test]
fn a_false_pattern_is_refused_whatever_the_place_and_the_list() {
    for pattern in &false_patterns() {
        for text in [&b""[..], b"a", b"aab", b"aabaabaab", &repeated(b"aab", 600)] {
            assert_correction_refused(pattern, text, FalsePattern);
            let n = text.len();
            for place in [0, 1, 2, n / 2, n.wrapping_sub(1), n, n + 1, usize::MAX] {
                for (_, _, list_len, entries, used) in LISTS {
                    let list = Lent::beginning_with(list_len, entries);
                    assert_correct_refused(pattern, text, place, &list, used, FalsePattern);
                }
            }
        }
    }
}

/// One byte more than the most is refused, wherever the place is and whatever the list.
#[test]
fn one_byte_more_is_refused() {
    let text = vec![b'a'; LONGEST_TEXT + 1];
    let n = LONGEST_TEXT;
    for bytes in [&b"a"[..], b"aba", &repeated(b"ab", 256)] {
        let pattern = prepared(bytes);
        for place in [0, 5, n - 1, n, n + 1, usize::MAX] {
            for (_, _, list_len, entries, used) in LISTS {
                let list = Lent::beginning_with(list_len, entries);
                assert_correct_refused(&pattern, &text, place, &list, used, LongText);
            }
            let most = &text[1..];
            assert!(correct(&pattern, most, place, &mut [0; 300], 1).is_ok());
        }
    }
}

/// The most positions, in the longest text: a run that is broken and mended at its ends and between. All
/// entries behind the place move, by as many as go and come.
#[test]
fn the_most_positions() {
    let n = LONGEST_TEXT;
    let mut text = vec![b'a'; n];
    for m in [1, LONGEST_PATTERN] {
        let pattern = prepared(&repeated(b"a", m));
        let all: Vec<u32> = (0..=(n - m) as u32).collect();
        let mut list = Lent::beginning_with(all.len(), &all);
        for place in [0, m - 1, n / 2, n - m, n - 1] {
            let first = place.saturating_sub(m - 1);
            let past = (place + 1).min(n - m + 1);
            let now = all.len() - (past - first);
            text[place] = b'b';
            let answer = correct(&pattern, &text, place, list.entries_mut(), all.len());
            assert_eq!(answer, Ok(now));
            let (in_use, rest) = list.entries().split_at(now);
            assert!(in_use[..first] == all[..first] && in_use[first..] == all[past..]);
            assert!(*rest == all[now..]);

            text[place] = b'a';
            let mut short = Lent::beginning_with(all.len() - 1, in_use);
            let answer = correct(&pattern, &text, place, short.entries_mut(), now);
            assert_eq!(answer, Err(ShortList));
            assert!(short == Lent::beginning_with(all.len() - 1, in_use));
            let answer = correct(&pattern, &text, place, list.entries_mut(), now);
            assert_eq!(answer, Ok(all.len()));
            assert!(list == Lent::beginning_with(all.len(), &all));
        }
        for place in [n, n + 1, usize::MAX] {
            let answer = correct(&pattern, &text, place, list.entries_mut(), all.len());
            assert_eq!(answer, Ok(all.len()));
            assert!(list == Lent::beginning_with(all.len(), &all));
        }
        // The last pair of all is the only one that does not ascend.
        let last = all.len() - 1;
        list.entries_mut()[last] -= 1;
        assert_correct_refused(&pattern, &text, n, &list, all.len(), FalseList);
        let answer = correct(&pattern, &text, n, list.entries_mut(), last);
        assert_eq!(answer, Ok(last));
    }
}

/// Against the oracle: drawn letters, with the pattern in the first window, the last, and in others.
#[test]
fn random_letters_in_the_longest_text() {
    let mut random = Random::new(362);
    let bytes = fibonacci(64);
    let trial = Trial::of(&bytes);
    let n = LONGEST_TEXT;
    let mut text = random.word(b"ab", n / 8).repeat(8);
    for b in [0, n / 2, n - 64] {
        text[b..b + 64].copy_from_slice(&bytes);
    }
    let right = trial.listed(&text);
    assert!(right.len() >= 3);
    for place in [0, 63, n / 2, n / 2 + 40, n - 64, n - 1] {
        let byte = text[place];
        text[place] = 0;
        let broken = trial.check_right(&text, place, &right);
        assert_eq!(broken.len() + 1, right.len());
        text[place] = byte;
        assert_eq!(trial.check_right(&text, place, &broken), right);
    }
}
