//! Request C-20's refusals: 16 and its place between 4 and 5; and the longest texts. Each change of a
//! pattern is refused too, in `refusals.rs` and `refused_classes.rs`.

mod common;
mod oracle;

use common::orders::{
    arrangements, assert_order_refused, drawn_order, left_to_right, right_to_left,
};
use common::worked::NO_CAP;
use common::{
    changed, false_patterns, fibonacci, first_of, number_of, prepared, repeated, words_of_lengths,
    Random, Trial, LONG_OR_NOT, UNWRITTEN,
};
use oracle::lengths::LONGEST_RECORD;
use oracle::ordered::{are_places, refusal};
use oracle::{identity, tables_if_true, Tables, LONGEST_PATTERN};
use poqewan::Ending::{Done, Full, Spent};
use poqewan::Refusal::{FalseOrder, FalsePattern, LongText};
use poqewan::{ordered, Pattern, Refusal, Report, LONGEST_TEXT};

#[test]
fn the_constants_and_numbers_are_those_of_the_request() {
    assert_eq!([LONGEST_TEXT, LONGEST_RECORD], [16_777_216; 2]);
    let numbers = [FalsePattern, FalseOrder, LongText].map(Refusal::number);
    assert_eq!(numbers, [4, 16, 5]);
    let told = FalseOrder.to_string();
    assert!(told.contains("order") && told.contains("place"), "{told}");
}

/// Searches the pattern twice over in an order, which is accepted or refused as the oracle says. Gives
/// whether it is accepted.
fn check_order(trial: &mut Trial, order: &[u8]) -> bool {
    let bytes = &trial.tables().bytes;
    let text = [&bytes[..], bytes].concat();
    match refusal(Some(trial.tables()), order, text.len()) {
        Some(why) => {
            assert_eq!(why, FalseOrder);
            assert_order_refused(trial.pattern(), order, &text, why);
            false
        }
        None => {
            let custom = trial.custom(order);
            trial.check_ordered_to_the_end(&custom, &text);
            true
        }
    }
}

/// Every byte for one place, and every two bytes for two.
#[test]
fn all_bytes_for_one_place_and_for_two() {
    let (mut one, mut two) = (Trial::of(b"a"), Trial::of(b"ab"));
    let mut accepted = Vec::new();
    for first in 0..=255 {
        if check_order(&mut one, &[first]) {
            accepted.push(vec![first]);
        }
        for second in 0..=255 {
            if check_order(&mut two, &[first, second]) {
                accepted.push(vec![first, second]);
            }
        }
    }
    assert_eq!(accepted, [&[0][..], &[0, 1], &[1, 0]]);
}

/// Every word of small numbers and of great ones, of about as many bytes as there are places.
#[test]
fn words_of_places_are_accepted_exactly_where_they_are_arrangements() {
    for bytes in [&b"a"[..], b"ab", b"aa", b"aba", b"aab", b"abaa"] {
        let mut trial = Trial::of(bytes);
        let m = bytes.len();
        let mut letters = left_to_right(m + 2);
        letters.extend([127, 128, 255]);
        let all = arrangements(m);
        let mut accepted = 0;
        for order in words_of_lengths(&letters, 0, m + 1) {
            let is_accepted = check_order(&mut trial, &order);
            assert_eq!(is_accepted, all.contains(&order), "{order:?}");
            accepted += usize::from(is_accepted);
        }
        assert_eq!(accepted, all.len());
    }
}

/// Patterns of the lengths at which a number or a word of marks ends.
fn lengths() -> [usize; 12] {
    [1, 2, 3, 5, 63, 64, 65, 127, 128, 129, 255, 256]
}

/// The places are all there, and one too many, or one too few, or none; or more by as many as wrap a
/// number of 8 bits. The bytes that would make up an order stand behind.
#[test]
fn another_number_of_bytes_than_m_is_refused() {
    let mut random = Random::new(221);
    for m in lengths() {
        let mut trial = Trial::of(&random.word(b"ab", m));
        for places in [
            left_to_right(m),
            right_to_left(m),
            drawn_order(m, &mut random),
        ] {
            assert!(check_order(&mut trial, &places));
            for len in 0..m {
                assert!(!check_order(&mut trial, &places[..len]), "{len} of {m}");
            }
            let twice = places.repeat(2);
            for len in [m + 1, 2 * m - 1, 2 * m] {
                let is_m = len == m;
                assert_eq!(check_order(&mut trial, &twice[..len]), is_m, "{len} of {m}");
            }
            for more in [1, 2, 255, 256, 257, 512, 65_536] {
                for next in [0, m as u8, 255] {
                    let longer = [&places[..], &vec![next; more]].concat();
                    assert!(!check_order(&mut trial, &longer), "{more} more than {m}");
                }
            }
        }
        // The next place, where there is one.
        if m < LONGEST_PATTERN {
            assert!(!check_order(&mut trial, &left_to_right(m + 1)));
        }
    }
}

/// At each rank the place of another one, in place of its own. For many places, some of the other
/// ranks: the neighbours, the ends and a drawn one.
#[test]
fn a_place_that_stands_twice_is_refused() {
    let mut random = Random::new(222);
    for m in lengths() {
        let mut trial = Trial::of(&random.word(b"ab", m));
        for order in [left_to_right(m), drawn_order(m, &mut random)] {
            for rank in 0..m {
                let others = match m {
                    0..=5 => (0..m).collect(),
                    _ => vec![
                        0,
                        rank.saturating_sub(1),
                        (rank + 1).min(m - 1),
                        m - 1,
                        random.below(m),
                    ],
                };
                for other in others {
                    let word = changed(&order, rank, order[other]);
                    assert_eq!(check_order(&mut trial, &word), rank == other, "{word:?}");
                }
            }
        }
        // One place at all ranks, and each of the places but one twice.
        for place in [0, m - 1] {
            assert_eq!(check_order(&mut trial, &vec![place as u8; m]), m == 1);
        }
        let halves: Vec<u8> = left_to_right(m).iter().map(|p| p / 2).collect();
        assert_eq!(check_order(&mut trial, &halves), m == 1);
    }
}

/// At each rank m in place of its place, m + 1, and others up to 255. With 256 places there is no
/// such byte.
#[test]
fn a_place_from_m_on_is_refused() {
    let mut random = Random::new(223);
    for m in lengths() {
        let mut trial = Trial::of(&random.word(b"ab", m));
        let order = drawn_order(m, &mut random);
        for rank in 0..m {
            for place in [m, m + 1, (m + 256) / 2, m | 0x80, 254, 255] {
                if (m..LONGEST_PATTERN).contains(&place) {
                    let word = changed(&order, rank, place as u8);
                    assert!(!check_order(&mut trial, &word), "{place} of {m}");
                }
            }
        }
        // The places from 1 to m.
        if m < LONGEST_PATTERN {
            assert!(!check_order(&mut trial, &left_to_right(m + 1)[1..]));
        }
    }
}

/// All 256 bytes are places of the longest pattern, and each may be compared at each rank.
#[test]
fn every_byte_is_a_place_of_the_longest_pattern() {
    let mut random = Random::new(224);
    let mut trial = Trial::of(&random.word(b"ab", LONGEST_PATTERN));
    let mut order = left_to_right(LONGEST_PATTERN);
    assert_eq!(order, identity());
    for _ in 0..LONGEST_PATTERN {
        assert!(check_order(&mut trial, &order));
        order.rotate_left(1);
    }
    for _ in 0..20 {
        assert!(check_order(
            &mut trial,
            &drawn_order(LONGEST_PATTERN, &mut random)
        ));
    }
}

/// The order is tested before the search begins: also where there is nothing to search, and where the
/// first places would tell enough.
#[test]
fn a_false_order_is_refused_whatever_the_text() {
    for bytes in [&b"a"[..], b"aba", &repeated(b"ab", 256)] {
        let pattern = prepared(bytes);
        let m = bytes.len();
        let right = left_to_right(m);
        let strange = vec![b'z'; 3 * m];
        for text in [&[][..], &bytes[1..], bytes, &strange, &repeated(bytes, 600)] {
            assert_order_refused(&pattern, &[], text, FalseOrder);
            assert_order_refused(&pattern, &right[1..], text, FalseOrder);
            assert_order_refused(&pattern, &[&right[..], &[0]].concat(), text, FalseOrder);
            if m > 1 {
                let twice = changed(&right, m - 1, 0);
                assert_order_refused(&pattern, &twice, text, FalseOrder);
            }
            assert!(ordered(&pattern, &right, text, NO_CAP, &mut [0; 600]).is_ok());
        }
    }
}

/// A false pattern is refused first: with an order of as many places as it names or has, and with
/// none.
#[test]
fn a_false_pattern_is_refused_whatever_the_order() {
    for pattern in &false_patterns() {
        for order in [
            &[][..],
            &[0],
            &[0, 1],
            &[0, 1, 2],
            &[2, 1, 0],
            &[0, 1, 1],
            &[0, 1, 3],
            &[0, 1, 2, 3],
            &left_to_right(256),
        ] {
            for text in [&b""[..], b"aab", b"aabaabaab"] {
                assert_order_refused(pattern, order, text, FalsePattern);
            }
        }
    }
    assert!(ordered(&prepared(b"aab"), &[2, 1, 0], b"aab", NO_CAP, &mut [0]).is_ok());
}

/// The pattern's own order is tested with the rest of it, and is no matter after that.
#[test]
fn the_lent_order_counts_and_not_the_patterns_own() {
    // The pattern's own order compares place 2 first, and the lent one place 0.
    let pattern = prepared(b"aab");
    assert_eq!(pattern.order[..3], [2, 1, 0]);
    let report = ordered(&pattern, &[0, 1, 2], b"cab", NO_CAP, &mut []).expect("all is well");
    assert_eq!([report.count, report.at_noholes], [1, 0]);
    let report = ordered(&pattern, &[2, 1, 0], b"cab", NO_CAP, &mut []).expect("all is well");
    assert_eq!([report.count, report.at_noholes], [3, 1]);
}

/// Each set of the conditions of 4, 16 and 5, each condition true in two ways and false in two. The
/// first in this order is given, and nothing is written.
#[test]
fn of_4_16_and_5_the_first_that_applies_is_given() {
    let text = vec![b'a'; LONGEST_TEXT + 2];
    let good = prepared(b"aab");
    let other = prepared(b"aaa");
    let patterns = [
        (false, good),
        (false, other),
        (true, oracle::ZERO),
        (
            true,
            Pattern {
                noholes: good.noholes + 1,
                ..good
            },
        ),
    ];
    let orders = [
        (false, &[0, 1, 2][..]),
        (false, &[2, 0, 1]),
        (true, &[0, 1, 0]),
        (true, &[0, 1, 2, 3]),
    ];
    let mut met = [0; 8];
    for (is_long, n) in LONG_OR_NOT {
        let text = &text[..n];
        for (is_none, order) in orders {
            for (is_false, pattern) in &patterns {
                let tables = tables_if_true(pattern);
                let conditions = [*is_false, is_none, is_long];
                let first = first_of(conditions, [FalsePattern, FalseOrder, LongText]);
                assert_eq!(refusal(tables.as_ref(), order, n), first);
                match first {
                    Some(why) => assert_order_refused(pattern, order, text, why),
                    None => assert!(ordered(pattern, order, text, 10, &mut [0; 8]).is_ok()),
                }
                met[number_of(conditions)] += 1;
            }
        }
    }
    assert_eq!(met, [8; 8]);
}

/// ab from right to left in a run of a, with the pattern in the last window: a comparison in every
/// window, two in the last. One that is one too few is due there, and so is an entry.
#[test]
fn the_last_window_of_the_longest_text() {
    let mut trial = Trial::of(b"ab");
    let custom = trial.custom(&[1, 0]);
    for n in [LONGEST_TEXT - 1, LONGEST_TEXT] {
        let mut text = vec![b'a'; n];
        text[n - 1] = b'b';
        let report = trial.check_ordered(&custom, &text, NO_CAP, 1);
        assert_eq!((report.ending, report.written), (Done, 1));
        assert_eq!([report.count, report.at_holes], [n as u64, 1]);
        let report = trial.check_ordered(&custom, &text, n as u64, 0);
        assert_eq!(report.ending, Full(n - 2));
        let report = trial.check_ordered(&custom, &text, n as u64 - 1, 1);
        assert_eq!((report.ending, report.written), (Spent(n - 2), 0));
    }
}

/// One byte more is refused, whatever the order.
#[test]
fn one_byte_more_is_refused() {
    let text = vec![b'a'; LONGEST_TEXT + 1];
    for bytes in [&b"a"[..], b"aba", &repeated(b"ab", 256)] {
        let pattern = prepared(bytes);
        for order in [left_to_right(bytes.len()), right_to_left(bytes.len())] {
            assert_order_refused(&pattern, &order, &text, LongText);
            let within = ordered(&pattern, &order, &text[1..], 5, &mut [0; 8]);
            assert!(within.is_ok());
        }
    }
}

/// A run of the most letters in a long one: every window is compared at every place and has an
/// occurrence, so no text of this length costs more. The cap and the list just suffice.
#[test]
fn many_comparisons_and_many_positions() {
    let n = 1 << 20;
    let pattern = prepared(&[b'a'; LONGEST_PATTERN]);
    let order = drawn_order(LONGEST_PATTERN, &mut Random::new(227));
    let windows = n - LONGEST_PATTERN + 1;
    let count = (windows * LONGEST_PATTERN) as u64;
    let expected = Report {
        ending: Done,
        count,
        at_noholes: 0,
        at_holes: count,
        written: windows,
    };
    let mut list = vec![UNWRITTEN; windows];
    let answer = ordered(&pattern, &order, &vec![b'a'; n], count, &mut list);
    assert_eq!(answer, Ok(expected));
    assert!(list.iter().enumerate().all(|(b, &at)| at as usize == b));
}

/// Against the oracle: drawn letters, with the pattern in the last window.
#[test]
fn random_letters_in_the_longest_text() {
    let mut random = Random::new(225);
    let bytes = random.word(b"ab", 64);
    let mut trial = Trial::of(&bytes);
    let mut text = random.word(b"ab", LONGEST_TEXT);
    text[LONGEST_TEXT - 64..].copy_from_slice(&bytes);
    let custom = trial.custom(&drawn_order(64, &mut random));
    let report = trial.check_ordered(&custom, &text, NO_CAP, 8);
    assert_eq!(report.ending, Done);
    assert!(report.written > 0);
}

/// What is lent stays as it is, but for the list: two calls answer the same.
#[test]
fn a_call_leaves_no_trace() {
    let mut random = Random::new(226);
    for m in [1, 5, 64, 256] {
        let bytes = fibonacci(m);
        let (mut trial, pattern) = (Trial::of(&bytes), prepared(&bytes));
        let order = drawn_order(m, &mut random);
        let custom = trial.custom(&order);
        let text = random.word(b"aab\0", 3 * m);
        let lent = (text.clone(), order.clone());
        let first = trial.check_ordered_to_the_end(&custom, &text);
        assert_order_refused(&pattern, &order[1..], &text, FalseOrder);
        assert_order_refused(&oracle::ZERO, &order, &text, FalsePattern);
        assert_eq!(trial.check_ordered_to_the_end(&custom, &text), first);
        assert_eq!((text, order), lent);
        assert_eq!(*trial.pattern(), pattern);
    }
}

/// Entries past those written keep whatever they held: positions as well.
#[test]
fn what_the_list_held_before_is_no_matter() {
    for bytes in [&b"a"[..], b"aba", b"aabaa", &repeated(b"ab", 256)] {
        let trial = Trial::of(bytes);
        let text = repeated(bytes, 3 * bytes.len() + 1);
        let order = right_to_left(bytes.len());
        let whole = ordered(trial.pattern(), &order, &text, NO_CAP, &mut [0; 800]);
        let written = whole.expect("the order is an arrangement").written;
        for held in [0, 1, u32::MAX, UNWRITTEN] {
            for list_len in [written, written + 1, written + 300] {
                let mut list = vec![held; list_len];
                let answer = ordered(trial.pattern(), &order, &text, NO_CAP, &mut list);
                assert_eq!(answer, whole);
                assert!(list[written..].iter().all(|&entry| entry == held));
                let occurrences = oracle::occurrences(bytes, &identity(), &text);
                assert_eq!(list[..written], occurrences);
            }
        }
    }
}

/// The oracle's own test of an order, on what the request names.
#[test]
fn the_oracle_tells_places_from_others() {
    assert!(are_places(&[0], 1) && are_places(&[1, 0], 2) && are_places(&identity(), 256));
    for (bytes, m) in [
        (&[][..], 1),
        (&[1][..], 1),
        (&[0, 0], 2),
        (&[0, 2], 2),
        (&[0, 255], 2),
        (&[0, 1], 1),
        (&[0], 2),
    ] {
        assert!(!are_places(bytes, m), "{bytes:?} for {m}");
    }
    let tables = Tables::of(b"ab", &identity());
    assert_eq!(
        refusal(None, &[0, 0], LONGEST_RECORD + 1),
        Some(FalsePattern)
    );
    assert_eq!(
        refusal(Some(&tables), &[0, 0], LONGEST_RECORD + 1),
        Some(FalseOrder)
    );
    assert_eq!(
        refusal(Some(&tables), &[1, 0], LONGEST_RECORD + 1),
        Some(LongText)
    );
    assert_eq!(refusal(Some(&tables), &[1, 0], LONGEST_RECORD), None);
}
