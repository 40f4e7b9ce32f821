//! Request C-21's refusals: 17 and 18, each after 4 and 5; and the longest texts. Each change of a
//! pattern is refused too, in `refusals.rs` and `refused_classes.rs`; and each false journal in
//! `replay.rs`.

mod common;
mod oracle;

use common::journals::{
    assert_journal_refused, assert_journaled_refused, assert_replay_refused, Lent,
};
use common::worked::NO_CAP;
use common::{
    false_patterns, fibonacci, first_of, number_of, prepared, repeated, Random, Trial, LONG_OR_NOT,
};
use oracle::lengths::LONGEST_RECORD;
use oracle::{tables_if_true, LONGEST_PATTERN};
use poqewan::Ending::{Done, Full, Spent};
use poqewan::Refusal::{FalseJournal, FalsePattern, LongText, ShortJournal};
use poqewan::{journaled, replay, Pattern, Refusal, Report, LONGEST_TEXT};

#[test]
fn the_constants_and_numbers_are_those_of_the_request() {
    assert_eq!([LONGEST_TEXT, LONGEST_RECORD], [16_777_216; 2]);
    let numbers = [FalsePattern, LongText, ShortJournal, FalseJournal].map(Refusal::number);
    assert_eq!(numbers, [4, 5, 17, 18]);
    let told = ShortJournal.to_string();
    assert!(told.contains("journal") && told.contains("cap"), "{told}");
    let told = FalseJournal.to_string();
    assert!(
        told.contains("journal") && told.contains("position"),
        "{told}"
    );
}

/// A journal of as many entries as the cap is long enough, and of one less is not: also where the search
/// needs fewer, or none. Caps that have a small lower half are great.
#[test]
fn a_journal_with_fewer_entries_than_the_cap_is_refused() {
    for bytes in [&b"a"[..], b"aba", b"aabaa", &repeated(b"ab", 256)] {
        let trial = Trial::of(bytes);
        let strange = repeated(b"z", 3 * bytes.len());
        for text in [
            &[][..],
            &bytes[1..],
            bytes,
            &strange,
            &repeated(bytes, 2 * bytes.len() + 3),
        ] {
            for journal_len in [0, 1, 2, 3, 5, 20, 600, 1_200] {
                for cap in [0, 1, journal_len / 2, journal_len] {
                    let cap = cap.min(journal_len) as u64;
                    for list_len in [0, 8] {
                        trial.check_round_trip(text, cap, list_len, journal_len);
                    }
                }
                let len = journal_len as u64;
                for cap in [
                    len + 1,
                    len + 2,
                    2 * len + 1,
                    len + (1 << 16),
                    len + (1 << 32),
                    1 << 32,
                    len + (1 << 63),
                    1 << 63,
                    NO_CAP - 1,
                    NO_CAP,
                ] {
                    for list_len in [0, 1, 8] {
                        let lens = [list_len, journal_len];
                        assert_journaled_refused(trial.pattern(), text, cap, lens, ShortJournal);
                        let refused = trial.check_journaled(text, cap, list_len, journal_len);
                        assert_eq!(refused.err(), Some(ShortJournal));
                    }
                }
            }
        }
    }
}

/// Two patterns that preparation gives, and two that it does not. Both of the first compare position 2
/// first, and then 1 and 0.
fn patterns() -> [(bool, Pattern); 4] {
    let good = prepared(b"aab");
    let noholes = good.noholes + 1;
    [
        (false, good),
        (false, prepared(b"aaa")),
        (true, oracle::ZERO),
        (true, Pattern { noholes, ..good }),
    ]
}

/// Each set of the conditions of 4, 5 and 17, each condition true in two ways and false in two. The
/// first in this order is given, and nothing is written.
#[test]
fn of_4_5_and_17_the_first_that_applies_is_given() {
    let text = vec![b'a'; LONGEST_TEXT + 2];
    let mut met = [0; 8];
    for (is_long, n) in LONG_OR_NOT {
        let text = &text[..n];
        for (is_short, cap, journal_len) in [
            (false, 8, 8),
            (false, 0, 3),
            (true, 9, 8),
            (true, NO_CAP, 0),
        ] {
            for (is_false, pattern) in &patterns() {
                let conditions = [*is_false, is_long, is_short];
                let first = first_of(conditions, [FalsePattern, LongText, ShortJournal]);
                let [mut list, mut journal] = [4, journal_len].map(Lent::of);
                let by_request = oracle::journal::journaled(
                    tables_if_true(pattern).as_ref(),
                    text,
                    cap,
                    list.entries_mut(),
                    journal.entries_mut(),
                );
                assert_eq!(by_request.err(), first);
                let [mut lent, mut told] = [4, journal_len].map(Lent::of);
                let (list_of, journal_of) = (lent.entries_mut(), told.entries_mut());
                let answer = journaled(pattern, text, cap, list_of, journal_of);
                assert_eq!(answer, by_request);
                assert_eq!((lent, told), (list, journal));
                if let Some(why) = first {
                    for list_len in [0, 8] {
                        assert_journaled_refused(pattern, text, cap, [list_len, journal_len], why);
                    }
                }
                met[number_of(conditions)] += 1;
            }
        }
    }
    assert_eq!(met, [8; 8]);
}

/// The same of 4, 5 and 18.
#[test]
fn of_4_5_and_18_the_first_that_applies_is_given() {
    let mut met = [0; 8];
    for (is_long, n) in [
        (false, 1_000),
        (false, LONGEST_TEXT),
        (true, LONGEST_TEXT + 1),
        (true, usize::MAX),
    ] {
        for (tells_false, journal) in [
            (false, &[][..]),
            (false, &[4]),
            (true, &[u32::MAX]),
            (true, &[5, 3, 1, 0]),
        ] {
            for (is_false, pattern) in &patterns() {
                let conditions = [*is_false, is_long, tells_false];
                let first = first_of(conditions, [FalsePattern, LongText, FalseJournal]);
                for list_len in [0, 1, 8] {
                    let mut list = Lent::of(list_len);
                    let by_request = oracle::journal::replay(
                        tables_if_true(pattern).as_ref(),
                        n,
                        list.entries_mut(),
                        journal,
                    );
                    assert_eq!(by_request.err(), first);
                    match first {
                        Some(why) => assert_replay_refused(pattern, n, list_len, journal, why),
                        None => {
                            let mut lent = Lent::of(list_len);
                            let answer = replay(pattern, n, lent.entries_mut(), journal);
                            assert_eq!((answer, lent), (by_request, list));
                        }
                    }
                }
                met[number_of(conditions)] += 1;
            }
        }
    }
    assert_eq!(met, [8; 8]);
}

/// A false pattern is refused, whatever the rest: also where its false tables would have the window
/// stand still, or compare a place that is none.
#[test]
fn a_false_pattern_is_refused_whatever_the_journal() {
    for pattern in &false_patterns() {
        for text in [&b""[..], b"aab", b"aabaabaab"] {
            assert_journal_refused(pattern, text, FalsePattern);
            for journal in [&[5][..], &[4, 6], &[5, 3, 1], &[5, 3, 1, 11, 9, 7], &[1, 0]] {
                assert_replay_refused(pattern, text.len(), 8, journal, FalsePattern);
            }
        }
    }
}

/// A replay has only the text's length to go by, and refuses more than the most, however much more.
#[test]
fn the_longest_text_of_a_replay() {
    for bytes in [&b"a"[..], b"aba", &repeated(b"ab", 256)] {
        let trial = Trial::of(bytes);
        let first = 2 * u32::from(trial.pattern().order[0]);
        for n in [LONGEST_TEXT - 1, LONGEST_TEXT] {
            for list_len in [0, 3] {
                for journal in [&[][..], &[first], &[first + 1]] {
                    assert!(trial.check_replay(n, list_len, journal).is_ok());
                }
                let refused = trial.check_replay(n, list_len, &[first + 2]);
                assert_eq!(refused, Err(FalseJournal));
            }
        }
        for n in [
            LONGEST_TEXT + 1,
            LONGEST_TEXT + 2,
            2 * LONGEST_TEXT,
            1 << 32,
            (1 << 32) + bytes.len(),
            (1 << 32) + LONGEST_TEXT,
            1 << 63,
            usize::MAX - 1,
            usize::MAX,
        ] {
            for journal in [&[][..], &[first], &[first + 1], &[first + 2], &[u32::MAX]] {
                for list_len in [0, 3] {
                    assert_replay_refused(trial.pattern(), n, list_len, journal, LongText);
                    let refused = trial.check_replay(n, list_len, journal);
                    assert_eq!(refused, Err(LongText));
                }
            }
        }
    }
}

/// One byte more than the most is refused by the search, with a journal that is long enough.
#[test]
fn one_byte_more_is_refused() {
    let text = vec![b'a'; LONGEST_TEXT + 1];
    for bytes in [&b"a"[..], b"aba", &repeated(b"ab", 256)] {
        let pattern = prepared(bytes);
        for (cap, journal_len) in [(0, 0), (5, 5), (5, 9)] {
            assert_journaled_refused(&pattern, &text, cap, [8, journal_len], LongText);
            let (list, journal) = (&mut [0; 8], &mut [0; 9][..journal_len]);
            assert!(journaled(&pattern, &text[1..], cap, list, journal).is_ok());
        }
    }
}

/// The greatest entry is twice the last position of the longest text, and 1.
const GREATEST: u32 = 33_554_431;

/// A run of 256 letters moves its window by 256 at the first mismatch, and so its journal is short. It
/// compares the last byte of the longest text, which alone is equal.
#[test]
fn the_greatest_entry_of_a_short_journal() {
    let trial = Trial::of(&[b'a'; LONGEST_PATTERN]);
    for (n, last) in [
        (LONGEST_TEXT, GREATEST),
        (LONGEST_TEXT - 256, GREATEST - 512),
    ] {
        let mut text = vec![b'b'; n];
        text[n - 1] = b'a';
        let windows = n / LONGEST_PATTERN;
        let told = trial.check_round_trip(&text, windows as u64 + 1, 1, windows + 1);
        assert_eq!(told.report.ending, Done);
        assert_eq!(told.journal.len(), windows + 1);
        assert_eq!(told.journal[windows - 1..], [last, last - 3]);
        let firsts = told.journal[..windows - 1].iter().zip(1..);
        assert!(firsts
            .into_iter()
            .all(|(&entry, b)| entry == 2 * (256 * b - 1)));

        let spent = trial.check_round_trip(&text, windows as u64, 1, windows);
        assert_eq!(spent.report.ending, Spent(n - LONGEST_PATTERN));
        let mut journal = told.journal;
        for other in [last - 2, last + 2, last ^ 1 << 24, u32::MAX] {
            journal[windows - 1] = other;
            let refused = trial.check_replay(n, 1, &journal[..windows]);
            assert_eq!(refused, Err(FalseJournal));
        }
    }
}

/// ab in a run of a, with the pattern in the last window: a comparison in every window and two in the
/// last. The cap just suffices, or is one too few; and then there is no entry for the position.
#[test]
fn the_greatest_entry_of_a_long_journal() {
    let trial = Trial::of(b"ab");
    let n = LONGEST_TEXT;
    let mut text = vec![b'a'; n];
    text[n - 1] = b'b';
    // Position 1 in window 0, and so on.
    let mut expected: Vec<u32> = (1..n as u32 - 1).map(|position| 2 * position).collect();
    expected.extend([GREATEST, GREATEST - 2]);
    assert_eq!(expected.len(), n);
    for (cap, list_len, ending, written) in [
        (n, 1, Done, 1),
        (n - 1, 1, Spent(n - 2), 0),
        (n, 0, Full(n - 2), 0),
    ] {
        let report = Report {
            ending,
            count: cap as u64,
            at_noholes: n as u64 - 1,
            at_holes: u64::from(cap == n),
            written,
        };
        let positions = [n as u32 - 2];
        let listed = Lent::beginning_with(list_len, &positions[..written]);
        let [mut list, mut journal] = [list_len, n].map(Lent::of);
        let answer = journaled(
            trial.pattern(),
            &text,
            cap as u64,
            list.entries_mut(),
            journal.entries_mut(),
        );
        assert_eq!(answer, Ok(report));
        assert_eq!(list, listed);
        assert!(journal == Lent::beginning_with(n, &expected[..cap]));

        let mut list = Lent::of(list_len);
        let answer = replay(trial.pattern(), n, list.entries_mut(), &expected[..cap]);
        assert_eq!(answer, Ok(report));
        assert_eq!(list, listed);
    }
    // One entry more than the longest search needs.
    expected.push(GREATEST);
    assert_replay_refused(trial.pattern(), n, 1, &expected, FalseJournal);
}

/// As many positions, and as many entries, as the longest text has bytes. The last entry alone tells
/// that the journal is false, and not one position is listed.
#[test]
fn the_most_positions() {
    let pattern = prepared(b"a");
    let n = LONGEST_TEXT;
    let mut journal: Vec<u32> = (0..n as u32).map(|position| 2 * position + 1).collect();
    assert_eq!(journal[n - 1], GREATEST);
    let report = Report {
        ending: Done,
        count: n as u64,
        at_noholes: 0,
        at_holes: n as u64,
        written: n,
    };
    let mut list = Lent::of(n);
    let answer = replay(&pattern, n, list.entries_mut(), &journal);
    assert_eq!(answer, Ok(report));
    let all = list.entries().iter().zip(0..);
    assert!(all.into_iter().all(|(&at, b)| at == b));

    journal[n - 1] -= 2;
    assert_replay_refused(&pattern, n, n, &journal, FalseJournal);
}

/// Against the oracle: drawn letters, with the pattern in the last window.
#[test]
fn random_letters_in_the_longest_text() {
    let mut random = Random::new(321);
    let bytes = fibonacci(64);
    let trial = Trial::of(&bytes);
    let mut text = random.word(b"ab", LONGEST_TEXT / 8).repeat(8);
    text[LONGEST_TEXT - 64..].copy_from_slice(&bytes);
    let told = trial.check_round_trip(&text, LONGEST_TEXT as u64, 8, LONGEST_TEXT);
    assert_eq!(told.report.ending, Done);
    assert!(told.report.written > 0);
}
