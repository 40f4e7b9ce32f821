//! Request C-21: a search followed by its journal, without the text. What a search writes is replayed in
//! `journal.rs` too. Refusals other than 18, and the longest texts, stand in `refused_journals.rs`.

mod common;
mod oracle;

use common::classes::{c_in_b, in_disguise, one_but_0, Drawn};
use common::journals::{assert_replay_refused, never_spent, Lent, WORKED};
use common::{families, fibonacci, repeated, words, words_of_lengths, Random, Trial};
use oracle::journal::{answers, follow, follow_journal, some_record_answers};
use oracle::{identity, Comparison, LONGEST_PATTERN};
use poqewan::Ending::{self, Done, Full, Spent};
use poqewan::Refusal::FalseJournal;
use poqewan::{colussi, replay, Report};
use std::collections::HashMap;

/// Each row by every beginning of its journal, with every list up to one entry more than is filled:
/// entries that remain after full are refused, and every other beginning has the report that follows
/// from what was worked by hand.
#[test]
fn every_row_by_every_beginning_of_its_journal_with_every_list() {
    for worked in &WORKED {
        let trial = worked.trial();
        let n = worked.text.len();
        for list_len in 0..=worked.positions.len() + 1 {
            let due = worked.report(u64::MAX, list_len).count as usize;
            for len in 0..=worked.journal.len() {
                let (journal, case) = (&worked.journal[..len], worked.name());
                if len > due {
                    assert_replay_refused(trial.pattern(), n, list_len, journal, FalseJournal);
                    continue;
                }
                let expected = worked.report(len as u64, list_len);
                let mut list = Lent::of(list_len);
                let answer = replay(trial.pattern(), n, list.entries_mut(), journal);
                assert_eq!(answer, Ok(expected), "{case}, {len}, list of {list_len}");
                let listed = &worked.positions[..expected.written];
                assert_eq!(list, Lent::beginning_with(list_len, listed), "{case}");
            }
        }
    }
}

/// A journal worked by hand: of this pattern in n bytes, with a list of so many entries. The counts are
/// the whole and its two columns, at noholes and at holes.
type Hand = (
    &'static [u8],
    usize,
    usize,
    &'static [u32],
    Ending,
    [u64; 3],
    &'static [u32],
);

/// aba compares places 1, 2 and 0, and moves by 1, 3 and 2 on a mismatch there, by 2 after an
/// occurrence. Place 1 is the only nohole.
const BY_HAND: [Hand; 37] = [
    (b"aba", 5, 2, &[], Spent(0), [0, 0, 0], &[]),
    (b"aba", 5, 2, &[3], Spent(0), [1, 1, 0], &[]),
    (b"aba", 5, 2, &[3, 5], Spent(0), [2, 1, 1], &[]),
    (b"aba", 5, 2, &[3, 5, 1], Spent(2), [3, 1, 2], &[0]),
    (b"aba", 5, 2, &[3, 5, 1, 7], Spent(2), [4, 2, 2], &[0]),
    (b"aba", 5, 2, &[3, 5, 1, 7, 9], Done, [5, 2, 3], &[0, 2]),
    (b"aba", 5, 3, &[3, 5, 1, 7, 9], Done, [5, 2, 3], &[0, 2]),
    (b"aba", 5, 1, &[3, 5, 1, 7, 9], Full(2), [5, 2, 3], &[0]),
    (b"aba", 5, 1, &[3, 5, 1, 7], Spent(2), [4, 2, 2], &[0]),
    (b"aba", 5, 0, &[3, 5, 1], Full(0), [3, 1, 2], &[]),
    (b"aba", 5, 0, &[3, 5], Spent(0), [2, 1, 1], &[]),
    (b"aba", 5, 0, &[], Spent(0), [0, 0, 0], &[]),
    // The second answer of window 2 is another.
    (b"aba", 5, 2, &[3, 5, 1, 7, 8], Done, [5, 2, 3], &[0]),
    (b"aba", 5, 2, &[3, 5, 1, 6], Done, [4, 2, 2], &[0]),
    (b"aba", 5, 0, &[3, 5, 0], Spent(2), [3, 1, 2], &[]),
    (b"aba", 5, 2, &[3, 5, 0, 7, 9], Done, [5, 2, 3], &[2]),
    (b"aba", 5, 2, &[3, 5, 0, 7, 8], Done, [5, 2, 3], &[]),
    (b"aba", 5, 2, &[3, 5, 0, 6], Done, [4, 2, 2], &[]),
    (b"aba", 5, 2, &[3, 4], Done, [2, 1, 1], &[]),
    (b"aba", 5, 2, &[2], Spent(1), [1, 1, 0], &[]),
    (b"aba", 5, 2, &[2, 4], Spent(2), [2, 2, 0], &[]),
    (b"aba", 5, 2, &[2, 4, 6], Done, [3, 3, 0], &[]),
    (b"aba", 5, 2, &[2, 5, 7, 3], Done, [4, 2, 2], &[1]),
    (b"aba", 5, 0, &[2, 5, 7, 3], Full(1), [4, 2, 2], &[]),
    // In 4 bytes, in 3, and in fewer than the pattern has.
    (b"aba", 4, 2, &[2, 5, 7, 3], Done, [4, 2, 2], &[1]),
    (b"aba", 4, 2, &[3, 5, 1], Done, [3, 1, 2], &[0]),
    (b"aba", 3, 2, &[2], Done, [1, 1, 0], &[]),
    (b"aba", 3, 2, &[], Spent(0), [0, 0, 0], &[]),
    (b"aba", 2, 2, &[], Done, [0, 0, 0], &[]),
    (b"aba", 0, 0, &[], Done, [0, 0, 0], &[]),
    // 0; 1 1.
    (b"a", 1, 1, &[], Spent(0), [0, 0, 0], &[]),
    (b"a", 1, 1, &[1], Done, [1, 0, 1], &[0]),
    (b"a", 1, 0, &[1], Full(0), [1, 0, 1], &[]),
    (b"a", 3, 2, &[1, 2, 5], Done, [3, 0, 3], &[0, 2]),
    // babb: 1320; 1 2 3 3 3. The second entry says that position 3 is no b, and the last that it is.
    (
        b"babb",
        7,
        2,
        &[3, 6, 6, 9, 13, 11, 7],
        Done,
        [7, 5, 2],
        &[3],
    ),
    // abaabb: 134520; 1 2 4 3 6 6 6, and place 3 is next on a mismatch at place 5. The second entry says
    // that position 3 is an a, and the last that it is none.
    (
        b"abaabb",
        9,
        2,
        &[3, 7, 9, 10, 13, 15, 17, 11, 6],
        Done,
        [9, 7, 2],
        &[],
    ),
    (
        b"abaabb",
        9,
        0,
        &[3, 7, 9, 10, 13, 15, 17, 11, 7],
        Full(3),
        [9, 7, 2],
        &[],
    ),
];

#[test]
fn journals_worked_by_hand() {
    for (bytes, n, list_len, journal, ending, [count, at_noholes, at_holes], listed) in BY_HAND {
        let expected = Report {
            ending,
            count,
            at_noholes,
            at_holes,
            written: listed.len(),
        };
        let trial = Trial::of(bytes);
        let answer = trial.check_replay(n, list_len, journal);
        let list = Lent::beginning_with(list_len, listed);
        assert_eq!(
            answer,
            Ok((expected, list)),
            "{} in {n}: {journal:?}",
            bytes.escape_ascii()
        );
    }
}

/// Each is false in its last entry, and would be accepted without it: another position than the one
/// compared next, or an entry after done or full.
#[test]
fn false_journals_worked_by_hand() {
    for (bytes, n, list_len, journal) in [
        (&b"aba"[..], 5, 2, &[1][..]),
        (b"aba", 5, 2, &[0]),
        (b"aba", 5, 2, &[4]),
        (b"aba", 5, 2, &[5]),
        (b"aba", 5, 2, &[2, 2]),
        (b"aba", 5, 2, &[3, 3]),
        (b"aba", 5, 2, &[3, 5, 3]),
        (b"aba", 5, 2, &[3, 5, 1, 3]),
        (b"aba", 5, 2, &[3, 5, 1, 5]),
        (b"aba", 5, 2, &[3, 5, 1, 7, 5]),
        // Positions 2^31 and 2^15 more.
        (b"aba", 5, 2, &[0x8000_0003]),
        (b"aba", 5, 2, &[0x0001_0003]),
        (b"aba", 5, 2, &[3, 0xFFFF_FFFF]),
        // After done.
        (b"aba", 5, 2, &[3, 5, 1, 7, 9, 11]),
        (b"aba", 5, 2, &[3, 5, 1, 7, 9, 5]),
        (b"aba", 5, 2, &[2, 4, 6, 8]),
        (b"aba", 5, 2, &[3, 4, 9]),
        (b"aba", 3, 2, &[2, 5]),
        (b"aba", 2, 2, &[3]),
        (b"aba", 0, 2, &[0]),
        (b"a", 0, 0, &[0]),
        (b"a", 0, 0, &[1]),
        // After full.
        (b"aba", 5, 1, &[3, 5, 1, 7, 9, 5]),
        (b"aba", 5, 0, &[3, 5, 1, 7]),
        (b"a", 2, 0, &[1, 3]),
        (b"a", 2, 0, &[1, 1]),
        (b"aa", 4, 1, &[3, 1, 5, 7]),
    ] {
        let trial = Trial::of(bytes);
        let before = &journal[..journal.len() - 1];
        assert!(trial.check_replay(n, list_len, before).is_ok());
        assert_replay_refused(trial.pattern(), n, list_len, journal, FalseJournal);
        assert_eq!(trial.check_replay(n, list_len, journal), Err(FalseJournal));
    }
}

/// The two of the hand's journals that contradict themselves: no text of that length gives them. The
/// letters are the pattern's and one that it has not, so others would not help.
#[test]
fn no_text_gives_the_journals_that_contradict_themselves() {
    for (bytes, n, journal) in [
        (&b"babb"[..], 7, &[3, 6, 6, 9, 13, 11, 7][..]),
        (b"abaabb", 9, &[3, 7, 9, 10, 13, 15, 17, 11, 6]),
    ] {
        let trial = Trial::of(bytes);
        let made = comparisons(&trial, n, 2, journal);
        assert!(!some_record_answers(trial.tables(), &made));
        let texts = words(b"abc", n);
        assert!(!texts
            .iter()
            .any(|text| answers(trial.tables(), text, &made)));
        // Its beginning, without the last entry, has a text.
        let made = &made[..made.len() - 1];
        assert!(some_record_answers(trial.tables(), made));
        assert!(texts.iter().any(|text| answers(trial.tables(), text, made)));
    }
}

/// Entries for a text of n bytes: of all its positions and the next, and great ones.
fn entries(n: usize) -> Vec<u32> {
    let mut entries: Vec<u32> = (0..=2 * n as u32 + 2).collect();
    let half = 1 << 31;
    entries.extend([half - 1, half, half + 3, u32::MAX - 1, u32::MAX]);
    entries
}

/// How many journals were replayed, by what became of them.
#[derive(Debug, Default)]
struct Tally {
    done: usize,
    spent: usize,
    full: usize,
    refused: usize,
    /// Those accepted that no text could have given.
    given_by_none: usize,
}

impl Tally {
    /// Replays a journal, and checks all. Gives whether it is accepted.
    fn replay(&mut self, trial: &Trial, n: usize, list_len: usize, journal: &[u32]) -> bool {
        let Ok((report, _)) = trial.check_replay(n, list_len, journal) else {
            self.refused += 1;
            return false;
        };
        *match report.ending {
            Done => &mut self.done,
            Spent(_) => &mut self.spent,
            Full(_) => &mut self.full,
        } += 1;
        let made = comparisons(trial, n, list_len, journal);
        self.given_by_none += usize::from(!some_record_answers(trial.tables(), &made));
        true
    }

    /// Each ending and the refusal must have been met so often, at least.
    fn assert_met(&self, least: usize) {
        let met = [self.done, self.spent, self.full, self.refused];
        assert!(met.iter().all(|&number| number >= least), "{self:?}");
    }
}

/// The comparisons that the rules make with the answers of a journal that is accepted.
fn comparisons(trial: &Trial, n: usize, list_len: usize, journal: &[u32]) -> Vec<Comparison> {
    let by_rules = follow_journal(trial.tables(), n, list_len, journal);
    by_rules.expect("it is accepted").made
}

/// All journals of up to 4 entries for the shortest texts, and of up to 3 for others.
#[test]
fn all_short_journals() {
    let mut tally = Tally::default();
    for bytes in [&b"a"[..], b"aa", b"ab", b"aba", b"aab", b"aaa"] {
        let trial = Trial::of(bytes);
        for n in 0..=5 {
            let longest = if n <= 3 { 4 } else { 3 };
            let journals = words_of_lengths(&entries(n), 0, longest);
            for list_len in [0, 1, 2] {
                for journal in &journals {
                    tally.replay(&trial, n, list_len, journal);
                }
            }
        }
    }
    tally.assert_met(50);
}

/// All journals of so many entries and fewer whose beginnings are accepted: each that is accepted has
/// every entry for its next. Of one that is refused, so are those that begin with it.
fn replay_all(trial: &Trial, n: usize, list_len: usize, longest: usize, tally: &mut Tally) {
    let entries = entries(n);
    let mut open = vec![Vec::new()];
    while let Some(journal) = open.pop() {
        let more = |&entry| [&journal[..], &[entry]].concat();
        if !tally.replay(trial, n, list_len, &journal) {
            let last = journal[journal.len() - 1];
            assert!(!tally.replay(trial, n, list_len, &more(&last)));
        } else if journal.len() < longest {
            open.extend(entries.iter().map(more));
        }
    }
}

#[test]
fn all_journals_whose_beginnings_are_accepted() {
    let mut tally = Tally::default();
    for bytes in words_of_lengths(b"ab", 1, 4) {
        let trial = Trial::of(&bytes);
        let m = bytes.len();
        for n in [m - 1, m, m + 1, m + 3] {
            for list_len in [0, 1, 2, n] {
                replay_all(&trial, n, list_len, 8, &mut tally);
            }
        }
    }
    for classes in [c_in_b(), one_but_0()] {
        for bytes in [&b"bc"[..], b"bca", b"abc"] {
            let trial = Trial::with_classes(bytes, &classes);
            replay_all(&trial, 6, 2, 7, &mut tally);
        }
    }
    tally.assert_met(300);
    assert!(tally.given_by_none > 0, "{tally:?}");
}

/// Every journal that is accepted, beside every text: on each that answers those comparisons so, the
/// search capped at the journal's length gives the replay's report and list. The letters are the
/// pattern's and one that it has not, so where none of the texts answers so, none does at all.
#[test]
fn on_every_text_that_answers_so_the_search_gives_the_same() {
    // The journals that no text gives, one text, and more than one.
    let mut given_by = [0; 3];
    for bytes in words_of_lengths(b"ab", 1, 5) {
        let trial = Trial::of(&bytes);
        for n in 0..=7 {
            let texts = words(b"abc", n);
            for list_len in [1, n] {
                // Both answers to each comparison.
                let mut open = vec![Vec::new()];
                while let Some(journal) = open.pop() {
                    let answer = trial.check_replay(n, list_len, &journal);
                    let (report, _) = answer.as_ref().expect("it is as the rules compare");
                    if let Spent(_) = report.ending {
                        let next = 2 * next_position(&trial, n, list_len, &journal);
                        open.extend(
                            [next, next + 1].map(|entry| [&journal[..], &[entry]].concat()),
                        );
                    }

                    let made = comparisons(&trial, n, list_len, &journal);
                    let answering = texts
                        .iter()
                        .filter(|text| answers(trial.tables(), text, &made));
                    let mut given = 0;
                    for text in answering {
                        given += 1;
                        // All of a few, and of many some.
                        if given > 8 && given % 16 != 0 {
                            continue;
                        }
                        let mut list = Lent::of(list_len);
                        let cap = journal.len() as u64;
                        let searched = colussi(trial.pattern(), text, cap, list.entries_mut());
                        let searched = searched.map(|report| (report, list));
                        assert_eq!(searched, answer, "{journal:?}");
                    }
                    assert_eq!(some_record_answers(trial.tables(), &made), given > 0);
                    given_by[given.min(2)] += 1;
                }
            }
        }
    }
    assert!(
        given_by[0] > 3 && given_by[1] > 100 && given_by[2] > 1_000,
        "{given_by:?}"
    );
}

/// The position that the rules compare after those of a journal.
fn next_position(trial: &Trial, n: usize, list_len: usize, journal: &[u32]) -> u32 {
    let mut told = journal.iter();
    let cap = journal.len() as u64 + 1;
    let by_rules = follow(trial.tables(), n, cap, list_len, |_, _| {
        told.next().is_some_and(|entry| entry % 2 == 1)
    });
    let next = by_rules.made.last().expect("a comparison is due");
    (next.window + next.place) as u32
}

/// Texts that have the same journal have the same report and the same list, and the replay gives them.
#[test]
fn texts_of_one_journal_have_one_answer() {
    let mut of_many = 0;
    for bytes in words_of_lengths(b"ab", 1, 4) {
        let trial = Trial::of(&bytes);
        for (letters, n) in [(&b"ab"[..], 8), (b"abc", 5), (b"ab\0", 5)] {
            let texts = words(letters, n);
            for (cap, list_len) in [(3, 2), (never_spent(bytes.len(), n), 1)] {
                let mut texts_of: HashMap<Vec<u32>, Vec<&[u8]>> = HashMap::new();
                for text in &texts {
                    let told = trial.check_journaled(text, cap as u64, list_len, cap);
                    let journal = told.expect("the journal is long enough").journal;
                    texts_of.entry(journal).or_default().push(text);
                }
                for (journal, texts) in &texts_of {
                    let (report, list) = trial
                        .check_replay(n, list_len, journal)
                        .expect("a search has written it");
                    of_many += usize::from(texts.len() > 1);
                    for text in texts {
                        let mut plain = Lent::of(list_len);
                        let cap = journal.len() as u64;
                        let answer = colussi(trial.pattern(), text, cap, plain.entries_mut());
                        assert_eq!((answer, &plain), (Ok(report), &list), "{journal:?}");
                    }
                }
            }
        }
    }
    assert!(of_many > 1_000, "{of_many}");
}

/// Replays a journal with each entry changed: to the positions before and after, to the other answer, to
/// the neighbouring number, and to others. Of those that are accepted, only the answer was changed.
fn replay_with_each_entry_changed(trial: &Trial, n: usize, list_len: usize, journal: &[u32]) {
    for place in 0..journal.len() {
        let entry = journal[place];
        for other in [
            entry ^ 1,
            entry.wrapping_add(1),
            entry.wrapping_sub(1),
            entry.wrapping_add(2),
            entry.wrapping_sub(2),
            entry ^ 1 << 16,
            entry ^ 1 << 31,
            0,
            1,
            2 * n as u32,
            u32::MAX,
        ] {
            let mut changed = journal.to_vec();
            changed[place] = other;
            let is_ok = trial.check_replay(n, list_len, &changed).is_ok();
            assert!(!is_ok || other / 2 == entry / 2, "{changed:?}");
            // And where it is the last one.
            let is_ok = trial.check_replay(n, list_len, &changed[..=place]).is_ok();
            assert_eq!(is_ok, other / 2 == entry / 2, "{changed:?}");
        }
    }
}

/// Replays a journal with one entry more, at each place, and with one less.
fn replay_with_one_more_and_one_less(trial: &Trial, n: usize, list_len: usize, journal: &[u32]) {
    for place in 0..=journal.len() {
        for entry in [0, 1, 2 * n as u32 + 1, u32::MAX] {
            let mut longer = journal.to_vec();
            longer.insert(place, entry);
            let _ = trial.check_replay(n, list_len, &longer);
        }
        if place < journal.len() {
            let mut twice = journal.to_vec();
            twice.insert(place, journal[place]);
            let _ = trial.check_replay(n, list_len, &twice);
            let mut shorter = journal.to_vec();
            shorter.remove(place);
            let _ = trial.check_replay(n, list_len, &shorter);
        }
    }
}

#[test]
fn every_row_with_an_entry_changed_one_more_and_one_less() {
    for worked in &WORKED {
        let trial = worked.trial();
        let n = worked.text.len();
        for list_len in 0..=worked.positions.len() {
            let due = worked.report(u64::MAX, list_len).count as usize;
            let journal = &worked.journal[..due];
            replay_with_each_entry_changed(&trial, n, list_len, journal);
            replay_with_one_more_and_one_less(&trial, n, list_len, journal);
            // Another length of the text.
            for other in [0, n.saturating_sub(1), n + 1, n + 2, 2 * n, LONGEST_PATTERN] {
                let _ = trial.check_replay(other, list_len, journal);
            }
        }
    }
}

/// After done and after full nothing may follow, whatever it is; while a comparison is due, only an
/// entry for its position, with either answer.
#[test]
fn what_may_follow_a_journal() {
    for bytes in [&b"a"[..], b"aa", b"aba", b"aab", b"abab", b"aabaa"] {
        let trial = Trial::of(bytes);
        let text = repeated(bytes, 2 * bytes.len() + 1);
        let n = text.len();
        let whole = trial.check_round_trip_to_the_end(&text);
        for list_len in 0..=whole.report.written + 1 {
            for len in 0..=whole.journal.len() {
                let journal = &whole.journal[..len];
                let Ok((report, _)) = trial.check_replay(n, list_len, journal) else {
                    assert!(list_len < whole.report.written);
                    continue;
                };
                let due = match report.ending {
                    Spent(_) => Some(whole.journal[len] / 2),
                    Done | Full(_) => None,
                };
                for entry in entries(n) {
                    let longer = [journal, &[entry]].concat();
                    let is_ok = trial.check_replay(n, list_len, &longer).is_ok();
                    assert_eq!(is_ok, due == Some(entry / 2), "{longer:?}");
                }
            }
        }
    }
}

/// Of no entry: done where the text is shorter than the pattern, and else spent in window 0, also
/// where the list has no entry. Of one and more: refused where the text is shorter.
#[test]
fn an_empty_journal_and_texts_shorter_than_the_pattern() {
    let mut random = Random::new(311);
    for m in [1, 2, 3, 64, 65, 255, 256] {
        for bytes in [repeated(b"a", m), random.word(b"ab", m)] {
            let trial = Trial::of(&bytes);
            for n in [0, m / 2, m - 1, m, m + 1, 3 * m] {
                for list_len in [0, 1, 5] {
                    let answer = trial.check_replay(n, list_len, &[]);
                    let ending = if n < m { Done } else { Spent(0) };
                    let expected = Report {
                        ending,
                        count: 0,
                        at_noholes: 0,
                        at_holes: 0,
                        written: 0,
                    };
                    assert_eq!(answer, Ok((expected, Lent::of(list_len))));
                    if n < m {
                        let first = 2 * u32::from(trial.pattern().order[0]);
                        for journal in [&[0][..], &[1], &[first], &[first + 1, 5], &[u32::MAX]] {
                            let pattern = trial.pattern();
                            assert_replay_refused(pattern, n, list_len, journal, FalseJournal);
                        }
                    }
                }
            }
        }
    }
}

/// A list that is one entry too short: with as many entries as are compared up to the occurrence that
/// has none it is full, with one less spent, and with one more refused.
#[test]
fn a_list_that_is_too_short() {
    for bytes in [&b"a"[..], b"aa", b"aba", b"aabaa", &repeated(b"ab", 256)] {
        let trial = Trial::of(bytes);
        let text = repeated(bytes, 3 * bytes.len());
        let n = text.len();
        let whole = trial.check_round_trip_to_the_end(&text);
        for list_len in 0..whole.report.written {
            let enough = never_spent(bytes.len(), n);
            let full = trial.check_round_trip(&text, enough as u64, list_len, enough);
            let window = whole.list.entries()[list_len] as usize;
            assert_eq!(full.report.ending, Full(window));
            let count = full.journal.len();
            let (less, _) = trial
                .check_replay(n, list_len, &whole.journal[..count - 1])
                .expect("a search has written it");
            assert_eq!(less.ending, Spent(window));
            if count < whole.journal.len() {
                let more = trial.check_replay(n, list_len, &whole.journal[..=count]);
                assert_eq!(more, Err(FalseJournal));
            }
        }
    }
}

/// Many positions are to be listed before the last entry tells that the journal is false, or is one too
/// many: not one of them is.
#[test]
fn a_journal_that_is_false_in_its_last_entry_leaves_a_long_list_as_it_is() {
    for (bytes, n) in [
        (&b"a"[..], 100_000),
        (b"aa", 50_000),
        (b"aba", 50_000),
        (&repeated(b"ab", 256), 20_000),
    ] {
        let trial = Trial::of(bytes);
        let text = repeated(&bytes[..bytes.len().min(2)], n);
        let whole = trial.check_round_trip_to_the_end(&text);
        let (written, last) = (whole.report.written, whole.journal.len() - 1);
        assert!(written > 5_000);
        let entry = whole.journal[last];
        for other in [entry - 2, entry + 2, 0, u32::MAX] {
            let mut journal = whole.journal.clone();
            journal[last] = other;
            for list_len in [written, written + 1] {
                assert_replay_refused(trial.pattern(), n, list_len, &journal, FalseJournal);
            }
        }
        let longer = [&whole.journal[..], &[entry]].concat();
        for list_len in [written, written - 1] {
            assert_replay_refused(trial.pattern(), n, list_len, &longer, FalseJournal);
        }
        // In the middle, and at the start.
        for place in [0, 1, last / 2] {
            let mut journal = whole.journal.clone();
            journal[place] += 2;
            assert_replay_refused(trial.pattern(), n, written, &journal, FalseJournal);
        }
    }
}

/// Changes of a journal: an entry, two, or the order of two; some less or some more.
fn damaged(journal: &[u32], n: usize, random: &mut Random) -> Vec<Vec<u32>> {
    let place = random.below(journal.len());
    let other = random.below(journal.len());
    let mut all = vec![journal.to_vec(); 8];
    all[0][place] ^= 1;
    all[1][place] = random.number() as u32;
    all[2][place] = random.below(2 * n) as u32;
    all[3][place] ^= 1 << random.below(32);
    all[4].swap(place, other);
    all[5].remove(place);
    all[6].insert(place, journal[other]);
    all[7].truncate(place + 1);
    all[7][place] ^= 1;
    all
}

/// Journals with drawn answers, whole and damaged, and a search's own, damaged.
fn replay_drawn_journals(drawn: &Drawn, bytes: &[u8], tally: &mut Tally, random: &mut Random) {
    let trial = Trial::with_classes(bytes, &drawn.classes);
    let m = bytes.len();
    for (unequal, short) in [0, 1, 5, 20, 50, 100]
        .into_iter()
        .zip([true, false].repeat(3))
    {
        let n = m + random.below(3 * m + 20);
        let list_len = random.below(if short { 3 } else { n });
        let cap = 1 + random.below(2 * n);
        let journal = trial.drawn_journal(n, cap, list_len, unequal, random);
        assert!(tally.replay(&trial, n, list_len, &journal));
        let shorter = random.below(list_len + 1);
        tally.replay(&trial, n, shorter, &journal);
        if journal.is_empty() {
            continue;
        }
        for journal in damaged(&journal, n, random) {
            tally.replay(&trial, n, list_len, &journal);
        }
    }
    let [text, ..] = drawn.texts(bytes, random);
    let whole = trial.check_round_trip_to_the_end(&text);
    for journal in damaged(&whole.journal, text.len(), random) {
        tally.replay(&trial, text.len(), text.len(), &journal);
    }
}

#[test]
fn drawn_journals_for_patterns_of_every_length() {
    let mut random = Random::new(312);
    let mut tally = Tally::default();
    let drawn = Drawn::new(identity());
    for m in 1..=LONGEST_PATTERN {
        let families = families(m, &mut random);
        for family in [m, m + 5, m + 7] {
            let bytes = &families[family % families.len()];
            replay_drawn_journals(&drawn, bytes, &mut tally, &mut random);
        }
    }
    for bytes in families(LONGEST_PATTERN, &mut random) {
        replay_drawn_journals(&drawn, &bytes, &mut tally, &mut random);
    }
    tally.assert_met(1_000);
    assert!(tally.given_by_none > 100, "{tally:?}");
}

#[test]
fn drawn_journals_through_drawn_classes() {
    let mut random = Random::new(313);
    let mut tally = Tally::default();
    for number in [2, 3, 16, 255, 256] {
        for len in [1, 2, 3, 8, 64, 65, 256] {
            let drawn = Drawn::of(number, len % 2 == 0, &mut random);
            for bytes in drawn.patterns(len, &mut random) {
                replay_drawn_journals(&drawn, &bytes, &mut tally, &mut random);
            }
        }
    }
    tally.assert_met(100);
    assert!(tally.given_by_none > 20, "{tally:?}");
}

/// The classes have no part in a replay but by the pattern's tables, and the bytes none at all: two
/// patterns with the same tables have the same answers.
#[test]
fn a_disguise_changes_nothing() {
    in_disguise(314, |_, bytes, [trial, other], random| {
        let n = bytes.len() + random.below(2 * bytes.len() + 9);
        let journal = trial.drawn_journal(n, 2 * n, n, 5, random);
        let answer = trial.check_replay(n, n, &journal);
        assert_eq!(other.check_replay(n, n, &journal), answer);
    });
}

/// Entries of the list past those written keep whatever they held: positions as well.
#[test]
fn what_the_list_held_before_is_no_matter() {
    for bytes in [&b"a"[..], b"aba", b"aabaa", &repeated(b"ab", 256)] {
        let trial = Trial::of(bytes);
        let text = repeated(bytes, 3 * bytes.len() + 1);
        let n = text.len();
        let whole = trial.check_round_trip_to_the_end(&text);
        let written = whole.report.written;
        let mut longer = whole.journal.clone();
        longer.push(1);
        for held in [0, 1, u32::MAX] {
            for list_len in [written, written + 1, written + 300] {
                let mut list = vec![held; list_len];
                let refused = replay(trial.pattern(), n, &mut list, &longer);
                assert_eq!(refused, Err(FalseJournal));
                assert!(list.iter().all(|&entry| entry == held));
                let answer = replay(trial.pattern(), n, &mut list, &whole.journal);
                assert_eq!(answer, Ok(whole.report));
                assert_eq!(list[..written], whole.list.entries()[..written]);
                assert!(list[written..].iter().all(|&entry| entry == held));
            }
        }
    }
}

/// What is lent stays as it is, but for the list: two calls answer the same.
#[test]
fn a_call_leaves_no_trace() {
    let mut random = Random::new(315);
    for m in [1, 5, 64, 256] {
        let trial = Trial::of(&fibonacci(m));
        let pattern = *trial.pattern();
        let mut journal = trial.drawn_journal(4 * m, 4 * m, m, 3, &mut random);
        let lent = journal.clone();
        let first = trial.check_replay(4 * m, m, &journal);
        journal[0] += 2;
        assert_eq!(trial.check_replay(4 * m, m, &journal), Err(FalseJournal));
        journal[0] -= 2;
        assert_eq!(trial.check_replay(4 * m, m, &journal), first);
        assert_eq!((*trial.pattern(), journal), (pattern, lent));
    }
}
