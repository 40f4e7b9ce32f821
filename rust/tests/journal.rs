//! Request C-21: a search in Colussi's order that writes a journal of its comparisons. What it writes
//! is replayed here too; other journals are in `replay.rs`. Refusals and the longest texts stand in
//! `refused_journals.rs`.

mod common;
mod oracle;

use common::classes::{c_in_b, in_disguise, one_but_0, Drawn};
use common::journals::{never_spent, Lent, WORKED};
use common::{families, fibonacci, repeated, words_of_lengths, Random, Trial, OVERLAPPING};
use oracle::{identity, LONGEST_PATTERN};
use poqewan::Ending::{Done, Full, Spent};
use poqewan::{journaled, Refusal, Report};

/// The numbers of a row are those of its comparisons: each has the position of the comparison's place in
/// its window.
#[test]
fn the_numbers_of_every_row_are_those_of_its_comparisons() {
    for worked in &WORKED {
        let positions = worked.comparisons().into_iter();
        let positions: Vec<_> = positions.map(|(window, place)| window + place).collect();
        let told = worked.journal.iter().map(|&entry| entry as usize / 2);
        assert_eq!(told.collect::<Vec<_>>(), positions, "{}", worked.name());
    }
}

#[test]
fn every_row_has_the_journal_worked_by_hand() {
    for worked in &WORKED {
        let trial = worked.trial();
        let count = worked.journal.len();
        let whole =
            trial.check_round_trip(worked.text, count as u64, worked.positions.len(), count);
        assert_eq!(whole.report.ending, Done, "{}", worked.name());
        assert_eq!(whole.journal, worked.journal, "{}", worked.name());
        assert_eq!(whole.list.entries(), worked.positions, "{}", worked.name());
    }
}

/// Each row with every cap up to one more than is spent, every list up to one entry more than is filled,
/// and journals that just suffice and longer ones. What they leave follows from what was worked by hand.
#[test]
fn every_row_with_every_cap_every_list_and_longer_journals() {
    for worked in &WORKED {
        let trial = worked.trial();
        for cap in 0..=worked.journal.len() + 1 {
            for list_len in 0..=worked.positions.len() + 1 {
                for journal_len in [cap, cap + 1, cap + 9] {
                    let [mut list, mut journal] = [list_len, journal_len].map(Lent::of);
                    let answer = journaled(
                        trial.pattern(),
                        worked.text,
                        cap as u64,
                        list.entries_mut(),
                        journal.entries_mut(),
                    );
                    let expected = worked.report(cap as u64, list_len);
                    let [written, count] = [expected.written, expected.count as usize];
                    let case = format!("{}, cap {cap}, list of {list_len}", worked.name());
                    assert_eq!(answer, Ok(expected), "{case}");
                    let listed = Lent::beginning_with(list_len, &worked.positions[..written]);
                    assert_eq!(list, listed, "{case}");
                    let told = Lent::beginning_with(journal_len, &worked.journal[..count]);
                    assert_eq!(journal, told, "{case}");
                    trial.check_round_trip(worked.text, cap as u64, list_len, journal_len);
                }
            }
        }
    }
}

/// aba in ababa compares positions 1, 2 and 0 in window 0, and 3 and 4 in window 2. Place 1, the first
/// of each window, is the only nohole.
#[test]
fn caps_and_lists_of_aba_in_ababa_worked_by_hand() {
    let trial = Trial::of(b"aba");
    for (cap, list_len, ending, [count, at_noholes, at_holes], listed, told) in [
        (0, 2, Spent(0), [0, 0, 0], &[][..], &[][..]),
        (1, 2, Spent(0), [1, 1, 0], &[], &[3]),
        (2, 2, Spent(0), [2, 1, 1], &[], &[3, 5]),
        (3, 2, Spent(2), [3, 1, 2], &[0], &[3, 5, 1]),
        (4, 2, Spent(2), [4, 2, 2], &[0], &[3, 5, 1, 7]),
        (5, 2, Done, [5, 2, 3], &[0, 2], &[3, 5, 1, 7, 9]),
        (6, 2, Done, [5, 2, 3], &[0, 2], &[3, 5, 1, 7, 9]),
        (6, 3, Done, [5, 2, 3], &[0, 2], &[3, 5, 1, 7, 9]),
        (6, 1, Full(2), [5, 2, 3], &[0], &[3, 5, 1, 7, 9]),
        (5, 1, Full(2), [5, 2, 3], &[0], &[3, 5, 1, 7, 9]),
        (4, 1, Spent(2), [4, 2, 2], &[0], &[3, 5, 1, 7]),
        (6, 0, Full(0), [3, 1, 2], &[], &[3, 5, 1]),
        (3, 0, Full(0), [3, 1, 2], &[], &[3, 5, 1]),
        (2, 0, Spent(0), [2, 1, 1], &[], &[3, 5]),
    ] {
        let [mut list, mut journal] = [list_len, 6].map(Lent::of);
        let answer = journaled(
            trial.pattern(),
            b"ababa",
            cap,
            list.entries_mut(),
            journal.entries_mut(),
        );
        let expected = Report {
            ending,
            count,
            at_noholes,
            at_holes,
            written: listed.len(),
        };
        assert_eq!(answer, Ok(expected), "cap {cap}, list of {list_len}");
        assert_eq!(list, Lent::beginning_with(list_len, listed));
        assert_eq!(journal, Lent::beginning_with(6, told));
    }
}

/// The whole search, and the caps and lists at the edges of what it spends and fills.
fn round_trips_at_the_edges(trial: &Trial, text: &[u8]) {
    let whole = trial.check_round_trip_to_the_end(text).report;
    let [count, written] = [whole.count as usize, whole.written];
    let caps = [0, 1, count / 2, count.saturating_sub(1), count, count + 1];
    let lists = [0, written / 2, written.saturating_sub(1), written];
    for (i, cap) in caps.into_iter().enumerate() {
        for (j, list_len) in lists.into_iter().enumerate() {
            // Edges that fall together are tried once.
            if caps[..i].contains(&cap) || lists[..j].contains(&list_len) {
                continue;
            }
            trial.check_round_trip(text, cap as u64, list_len, cap + (i + j) % 3);
        }
    }
}

#[test]
fn every_pattern_of_up_to_4_letters_in_every_text_of_up_to_8_at_the_edges() {
    for bytes in words_of_lengths(b"ab", 1, 4) {
        let trial = Trial::of(&bytes);
        for text in words_of_lengths(b"ab", 0, 8) {
            round_trips_at_the_edges(&trial, &text);
        }
    }
}

#[test]
fn every_pattern_of_5_and_6_letters_in_every_text_of_up_to_9() {
    let mut random = Random::new(301);
    let texts = words_of_lengths(b"ab", 0, 9);
    for bytes in words_of_lengths(b"ab", 5, 6) {
        let trial = Trial::of(&bytes);
        for text in &texts {
            let whole = trial.check_round_trip_to_the_end(text).report;
            let cap = random.below(whole.count as usize + 2);
            let list_len = random.below(whole.written + 1);
            trial.check_round_trip(text, cap as u64, list_len, cap + random.below(3));
        }
    }
}

/// With and without classes that join two of the letters, in texts with bytes 0.
#[test]
fn every_pattern_of_three_letters_in_every_text_at_the_edges() {
    let texts = words_of_lengths(b"abc\0", 0, 4);
    for classes in [identity(), c_in_b(), one_but_0()] {
        for bytes in words_of_lengths(b"abc", 1, 3) {
            let trial = Trial::with_classes(&bytes, &classes);
            for text in &texts {
                round_trips_at_the_edges(&trial, text);
            }
        }
    }
}

/// Every cap and every list, with a journal that just suffices.
fn round_trips_with_all_limits(trial: &Trial, text: &[u8]) {
    let whole = trial.check_round_trip_to_the_end(text);
    for cap in 0..=whole.journal.len() + 1 {
        for list_len in 0..=whole.report.written + 1 {
            let cut_off = trial.check_round_trip(text, cap as u64, list_len, cap);
            let [report, count] =
                [cut_off.report, whole.report].map(|report| report.count as usize);
            assert_eq!(cut_off.journal, whole.journal[..report]);
            match cut_off.report.ending {
                Done => assert_eq!(report, count),
                Spent(_) => assert!(report == cap && cap < count),
                Full(_) => assert!(cut_off.report.written == list_len),
            }
        }
    }
}

#[test]
fn all_limits_for_every_pattern_of_up_to_3_letters_in_every_text_of_up_to_7() {
    for bytes in words_of_lengths(b"ab", 1, 3) {
        let trial = Trial::of(&bytes);
        for text in words_of_lengths(b"ab", 0, 7) {
            round_trips_with_all_limits(&trial, &text);
        }
    }
}

#[test]
fn all_limits_where_occurrences_overlap_and_where_they_just_fail() {
    for (bytes, root) in OVERLAPPING {
        round_trips_with_all_limits(&Trial::of(bytes), &repeated(root, 40));
    }
}

/// A cap of (3 * n - m) / 2 is never spent, and there are searches that need all of it. One of 0 is
/// enough where the text is shorter than the pattern.
#[test]
fn a_journal_of_half_of_3_n_less_m_is_long_enough() {
    assert_eq!(never_spent(3, 5), 6);
    assert_eq!(never_spent(3, 3), 3);
    assert_eq!(never_spent(3, 2), 0);
    let mut just_enough = 0;
    for bytes in words_of_lengths(b"ab", 1, 4) {
        let trial = Trial::of(&bytes);
        for text in words_of_lengths(b"ab", 0, 7) {
            let enough = never_spent(bytes.len(), text.len());
            for list_len in [0, 1] {
                let cut_off = trial.check_round_trip(&text, enough as u64, list_len, enough);
                assert!(!matches!(cut_off.report.ending, Spent(_)));
                just_enough += usize::from(cut_off.journal.len() == enough && enough > 0);
            }
        }
    }
    assert!(just_enough > 0);
}

/// In drawn texts, also with a cap and a list that may bind.
fn round_trips_in_drawn_texts(drawn: &Drawn, bytes: &[u8], random: &mut Random) {
    let trial = Trial::with_classes(bytes, &drawn.classes);
    for text in drawn.texts(bytes, random) {
        let whole = trial.check_round_trip_to_the_end(&text);
        let cap = random.below(whole.journal.len() + 2);
        let list_len = random.below(whole.report.written + 1);
        let enough = never_spent(bytes.len(), text.len());
        trial.check_round_trip(&text, cap as u64, text.len(), cap);
        trial.check_round_trip(&text, enough as u64, list_len, enough + 5);
        trial.check_round_trip(&text, cap as u64, list_len, cap + random.below(300));
    }
}

#[test]
fn drawn_texts_for_patterns_of_every_length() {
    let mut random = Random::new(302);
    let drawn = Drawn::new(identity());
    for m in 1..=LONGEST_PATTERN {
        let families = families(m, &mut random);
        let others = if m == LONGEST_PATTERN {
            families.len()
        } else {
            1
        };
        for family in 0..others {
            let bytes = &families[(m + family) % families.len()];
            round_trips_in_drawn_texts(&drawn, bytes, &mut random);
        }
    }
}

#[test]
fn drawn_texts_through_drawn_classes() {
    let mut random = Random::new(303);
    for number in [2, 3, 4, 16, 100, 255, 256] {
        for len in [1, 2, 3, 8, 64, 65, 256] {
            let drawn = Drawn::of(number, len % 2 == 0, &mut random);
            for bytes in drawn.patterns(len, &mut random) {
                round_trips_in_drawn_texts(&drawn, &bytes, &mut random);
            }
        }
    }
}

/// The classes decide and not the bytes: a pattern and a text in disguise have the same journal.
#[test]
fn a_disguise_changes_nothing() {
    in_disguise(304, |drawn, bytes, [trial, other], random| {
        for text in drawn.texts(bytes, random) {
            let journal = trial.check_round_trip_to_the_end(&text).journal;
            let text = drawn.disguised(&text, random);
            assert_eq!(other.check_round_trip_to_the_end(&text).journal, journal);
        }
    });
}

/// Entries past the count keep whatever they held: true entries as well, and those of another search.
#[test]
fn what_list_and_journal_held_before_is_no_matter() {
    for bytes in [&b"a"[..], b"aba", b"aabaa", &repeated(b"ab", 256)] {
        let trial = Trial::of(bytes);
        let text = repeated(bytes, 3 * bytes.len() + 1);
        let whole = trial.check_round_trip_to_the_end(&text);
        let [count, written] = [whole.journal.len(), whole.report.written];
        for held in [0, 1, 2, u32::MAX, whole.journal[0]] {
            for cap in [count / 2, count, count + 300] {
                let mut list = vec![held; written + 2];
                let mut journal = vec![held; cap + 7];
                let answer = journaled(trial.pattern(), &text, cap as u64, &mut list, &mut journal);
                let report = answer.expect("the journal is long enough");
                assert_eq!(report.count as usize, cap.min(count));
                let (told, rest) = journal.split_at(cap.min(count));
                assert_eq!(told, &whole.journal[..told.len()]);
                assert!(rest.iter().all(|&entry| entry == held));
                assert!(list[report.written..].iter().all(|&entry| entry == held));
            }
        }
    }
}

/// One that is refused is followed by one that is not: a call leaves no trace.
#[test]
fn a_call_leaves_no_trace() {
    let mut random = Random::new(305);
    for m in [1, 5, 64, 256] {
        let trial = Trial::of(&fibonacci(m));
        let (pattern, text) = (*trial.pattern(), random.word(b"aab\0", 3 * m));
        let lent = text.clone();
        let first = trial.check_round_trip_to_the_end(&text);
        let refused = trial.check_journaled(&text, 9, 8, 8);
        assert_eq!(refused.err(), Some(Refusal::ShortJournal));
        let again = trial.check_round_trip_to_the_end(&text);
        assert_eq!(
            (again.report, again.list, again.journal),
            (first.report, first.list, first.journal)
        );
        assert_eq!((*trial.pattern(), text), (pattern, lent));
    }
}
