//! What every test of a journaled search and of a replay checks; searches worked by hand, with their
//! journals; and journals to replay.

use super::classes::{c_in_b, letters, one_but_0, Classes};
use super::worked::{cut_off, windows_and_places};
use super::{case, Random, Trial, UNWRITTEN};
use crate::oracle::journal::{follow, journal_of};
use crate::oracle::{self, identity};
use poqewan::{colussi, journaled, replay, Ending, Pattern, Refusal, Report};

/// Entries that lie on either side of the lent ones and are not lent.
const AROUND: usize = 3;

/// Numbers to lend, with what lies around them. Before a call neighbours differ, and none is a position
/// or an entry of a journal.
#[derive(Clone, Debug, PartialEq, Eq)]
pub struct Lent(Vec<u32>);

impl Lent {
    pub fn of(len: usize) -> Self {
        let entries = 0..len + 2 * AROUND;
        Self(entries.map(|x| UNWRITTEN + x as u32).collect())
    }

    /// With other numbers in place of the first of those lent.
    pub fn beginning_with(len: usize, first: &[u32]) -> Self {
        let mut lent = Self::of(len);
        lent.entries_mut()[..first.len()].copy_from_slice(first);
        lent
    }

    pub fn entries(&self) -> &[u32] {
        &self.0[AROUND..self.0.len() - AROUND]
    }

    pub fn entries_mut(&mut self) -> &mut [u32] {
        let end = self.0.len() - AROUND;
        &mut self.0[AROUND..end]
    }

    /// The first place where the other differs, counted from the first entry that is lent.
    fn difference(&self, other: &Self) -> Option<(isize, u32, u32)> {
        assert_eq!(self.0.len(), other.0.len());
        let x = self
            .0
            .iter()
            .zip(&other.0)
            .position(|(one, two)| one != two)?;
        Some((x as isize - AROUND as isize, self.0[x], other.0[x]))
    }
}

/// What was lent must hold what the oracle says.
pub fn assert_holds(lent: &Lent, expected: &Lent, name: &str, case: &dyn Fn() -> String) {
    if let Some((at, entry, other)) = lent.difference(expected) {
        panic!(
            "{}: entry {at} of the {name} is {entry}, by the request {other}",
            case()
        );
    }
}

/// A number of comparisons that no search of n text bytes for m pattern bytes exceeds.
pub fn never_spent(m: usize, n: usize) -> usize {
    if n < m {
        0
    } else {
        (3 * n - m) / 2
    }
}

/// What a journaled search gave.
pub struct Journaled {
    pub report: Report,
    pub list: Lent,
    /// The entries written.
    pub journal: Vec<u32>,
}

impl Trial {
    /// Searches with a list and a journal of so many entries, and checks all that is promised of the
    /// answer.
    pub fn check_journaled(
        &self,
        text: &[u8],
        cap: u64,
        list_len: usize,
        journal_len: usize,
    ) -> Result<Journaled, Refusal> {
        let lend = || [list_len, journal_len].map(Lent::of);
        let [mut list, mut journal] = lend();
        let answer = journaled(
            &self.pattern,
            text,
            cap,
            list.entries_mut(),
            journal.entries_mut(),
        );
        let [mut expected_list, mut expected_journal] = lend();
        let expected = oracle::journal::journaled(
            Some(&self.tables),
            text,
            cap,
            expected_list.entries_mut(),
            expected_journal.entries_mut(),
        );

        let case = || {
            let case = case(&self.tables, text);
            format!("cap {cap}, list of {list_len}, journal of {journal_len}, {case}")
        };
        assert!(
            answer == expected,
            "{}: {answer:?}, by the request {expected:?}",
            case()
        );
        assert_holds(&list, &expected_list, "list", &case);
        assert_holds(&journal, &expected_journal, "journal", &case);
        let report = answer?;
        assert!(
            report.at_noholes + report.at_holes == report.count,
            "{}: the columns of {report:?} have another sum than its count",
            case()
        );
        let mut plain = Lent::of(list_len);
        let answer = colussi(&self.pattern, text, cap, plain.entries_mut());
        assert!(
            answer == Ok(report) && plain == list,
            "{}: {answer:?} without a journal, and {report:?} with it, or another list",
            case()
        );
        Ok(Journaled {
            report,
            list,
            journal: journal.entries()[..report.count as usize].to_vec(),
        })
    }

    /// Replays a journal, and checks all that is promised of the answer. Gives the report and the list.
    pub fn check_replay(
        &self,
        n: usize,
        list_len: usize,
        journal: &[u32],
    ) -> Result<(Report, Lent), Refusal> {
        let mut list = Lent::of(list_len);
        let answer = replay(&self.pattern, n, list.entries_mut(), journal);
        let mut expected_list = Lent::of(list_len);
        let expected =
            oracle::journal::replay(Some(&self.tables), n, expected_list.entries_mut(), journal);

        let case = || {
            let begin = &journal[..journal.len().min(40)];
            format!(
                "\"{}\" in {n} bytes, list of {list_len}, journal {begin:?} ({} entries)",
                self.tables.bytes.escape_ascii(),
                journal.len()
            )
        };
        assert!(
            answer == expected,
            "{}: {answer:?}, by the request {expected:?}",
            case()
        );
        assert_holds(&list, &expected_list, "list", &case);
        let report = answer?;
        assert!(
            report.at_noholes + report.at_holes == report.count
                && report.count == journal.len() as u64,
            "{}: {report:?} has not the count of the entries, or another sum of its columns",
            case()
        );
        Ok((report, list))
    }

    /// Searches with a journal, and replays what it writes: report and list must be the same.
    pub fn check_round_trip(
        &self,
        text: &[u8],
        cap: u64,
        list_len: usize,
        journal_len: usize,
    ) -> Journaled {
        let journaled = self
            .check_journaled(text, cap, list_len, journal_len)
            .expect("the pattern is prepared, the text short and the journal long enough");
        let replayed = self.check_replay(text.len(), list_len, &journaled.journal);
        assert!(
            replayed == Ok((journaled.report, journaled.list.clone())),
            "cap {cap}, list of {list_len}, {}: replayed to another report or list: {replayed:?}",
            case(&self.tables, text)
        );
        journaled
    }

    /// The same where nothing cuts the search off, with a list that has an entry to spare and a journal
    /// that just suffices.
    pub fn check_round_trip_to_the_end(&self, text: &[u8]) -> Journaled {
        let enough = never_spent(self.tables.bytes.len(), text.len());
        let whole = self.check_round_trip(text, enough as u64, text.len() + 1, enough);
        assert_eq!(whole.report.ending, Ending::Done);
        whole
    }

    /// The same with a cap and a list, where Colussi's search has this report. A cap that is never spent
    /// may stand for a greater one.
    pub fn check_beside_colussi(&self, text: &[u8], cap: u64, list_len: usize, expected: &Report) {
        let enough = never_spent(self.tables.bytes.len(), text.len());
        let cap = cap.min(enough as u64);
        let whole = self.check_round_trip(text, cap, list_len, cap as usize + 1);
        assert!(
            whole.report == *expected,
            "cap {cap}, list of {list_len}, {}: {:?} with a journal, {expected:?} without",
            case(&self.tables, text),
            whole.report
        );
    }

    /// A journal whose answers are drawn, so most likely one that no text could have given: of a
    /// hundred, so many say unequal.
    pub fn drawn_journal(
        &self,
        n: usize,
        cap: usize,
        list_len: usize,
        unequal: usize,
        random: &mut Random,
    ) -> Vec<u32> {
        let by_rules = follow(&self.tables, n, cap as u64, list_len, |_, _| {
            random.below(100) >= unequal
        });
        journal_of(&by_rules.made)
    }
}

/// The search must refuse so, and leave list and journal as they are.
pub fn assert_journaled_refused(
    pattern: &Pattern,
    text: &[u8],
    cap: u64,
    [list_len, journal_len]: [usize; 2],
    why: Refusal,
) {
    let [mut list, mut journal] = [list_len, journal_len].map(Lent::of);
    let answer = journaled(
        pattern,
        text,
        cap,
        list.entries_mut(),
        journal.entries_mut(),
    );
    let case = || {
        let n = text.len();
        format!("cap {cap}, list of {list_len}, journal of {journal_len}, {n} bytes, {pattern:?}")
    };
    assert!(
        answer == Err(why),
        "{}: {answer:?}, and not {why:?}",
        case()
    );
    assert_holds(&list, &Lent::of(list_len), "list", &case);
    assert_holds(&journal, &Lent::of(journal_len), "journal", &case);
}

/// The replay must refuse so, and leave the list as it is.
pub fn assert_replay_refused(
    pattern: &Pattern,
    n: usize,
    list_len: usize,
    journal: &[u32],
    why: Refusal,
) {
    let mut list = Lent::of(list_len);
    let answer = replay(pattern, n, list.entries_mut(), journal);
    let case = || {
        let begin = &journal[..journal.len().min(40)];
        format!("list of {list_len}, journal {begin:?}, {n} bytes, {pattern:?}")
    };
    assert!(
        answer == Err(why),
        "{}: {answer:?}, and not {why:?}",
        case()
    );
    assert_holds(&list, &Lent::of(list_len), "list", &case);
}

/// The journaled search and the replay must both refuse so, as a search without a journal does: also
/// where the journal is too short for the cap, and whatever is replayed. Both are tested last.
pub fn assert_journal_refused(pattern: &Pattern, text: &[u8], why: Refusal) {
    for (cap, lens) in [(8, [8, 8]), (0, [0, 0]), (3, [4, 2]), (u64::MAX, [2, 4])] {
        assert_journaled_refused(pattern, text, cap, lens, why);
    }
    for (list_len, journal) in [
        (8, &[][..]),
        (0, &[1]),
        (2, &[u32::MAX, 0]),
        (4, &[3, 5, 1]),
    ] {
        assert_replay_refused(pattern, text.len(), list_len, journal, why);
    }
}

/// A pattern by its classes in a text, with a digit for each of its noholes, and the positions where
/// it occurs. Each word of `compared` has a window and, behind the colon, a digit for each place that is
/// compared in it. The journal has a number for each of them.
pub struct Worked {
    classes: fn() -> Classes,
    pub pattern: &'static [u8],
    noholes: &'static str,
    pub text: &'static [u8],
    pub positions: &'static [u32],
    compared: &'static str,
    pub journal: &'static [u32],
}

const fn worked(
    classes: fn() -> Classes,
    (pattern, noholes): (&'static [u8], &'static str),
    text: &'static [u8],
    positions: &'static [u32],
    compared: &'static str,
    journal: &'static [u32],
) -> Worked {
    Worked {
        classes,
        pattern,
        noholes,
        text,
        positions,
        compared,
        journal,
    }
}

/// Worked by hand. Above each pattern its places by rank, and how far the window moves on a mismatch at
/// rank 0, 1, 2, .. and then after an occurrence.
#[rustfmt::skip]
pub const WORKED: [Worked; 45] = [
    // 120; 1 3 2 2. In window 2 of ababa, position 2 is known.
    worked(identity, (b"aba", "1"), b"ababa", &[0, 2], "0:120 2:12", &[3, 5, 1, 7, 9]),
    worked(identity, (b"aba", "1"), b"aba", &[0], "0:120", &[3, 5, 1]),
    worked(identity, (b"aba", "1"), b"abb", &[], "0:12", &[3, 4]),
    worked(identity, (b"aba", "1"), b"bba", &[], "0:120", &[3, 5, 0]),
    worked(identity, (b"aba", "1"), b"aaa", &[], "0:1", &[2]),
    worked(identity, (b"aba", "1"), b"bbaba", &[2], "0:120 2:12", &[3, 5, 0, 7, 9]),
    worked(identity, (b"aba", "1"), b"cababa", &[1, 3], "0:1 1:120 3:12", &[2, 5, 7, 3, 9, 11]),
    worked(identity, (b"aba", "1"), b"abaaba", &[0, 3], "0:120 2:1 3:120", &[3, 5, 1, 6, 9, 11, 7]),
    worked(identity, (b"aba", "1"), b"aaaaa", &[], "0:1 1:1 2:1", &[2, 4, 6]),
    // Shorter texts than the pattern, and none.
    worked(identity, (b"aba", "1"), b"ab", &[], "", &[]),
    worked(identity, (b"aba", "1"), b"", &[], "", &[]),
    worked(identity, (b"ab", "1"), b"\0", &[], "", &[]),
    // 210; 1 3 3 3.
    worked(identity, (b"aab", "2"), b"aaaab", &[2], "0:2 1:2 2:210", &[4, 6, 9, 7, 5]),
    worked(identity, (b"aab", "2"), b"abbaab", &[3], "0:21 3:210", &[5, 2, 11, 9, 7]),
    worked(identity, (b"aab", "2"), b"babaab", &[3], "0:210 3:210", &[5, 3, 0, 11, 9, 7]),
    worked(identity, (b"aab", "2"), b"aabaab", &[0, 3], "0:210 3:210", &[5, 3, 1, 11, 9, 7]),
    // 120; 1 2 3 3.
    worked(identity, (b"abc", "12"), b"ababc", &[2], "0:12 2:120", &[3, 4, 7, 9, 5]),
    worked(identity, (b"abc", "12"), b"xbcabc", &[3], "0:120 3:120", &[3, 5, 0, 9, 11, 7]),
    worked(identity, (b"abc", "12"), b"aabc", &[1], "0:1 1:120", &[2, 5, 7, 3]),
    worked(identity, (b"abc", "12"), b"abcc", &[0], "0:120", &[3, 5, 1]),
    // 0; 1 1.
    worked(identity, (b"a", ""), b"aab", &[0, 1], "0:0 1:0 2:0", &[1, 3, 4]),
    worked(identity, (b"a", ""), b"\0\0", &[], "0:0 1:0", &[0, 2]),
    worked(identity, (b"a", ""), b"a", &[0], "0:0", &[1]),
    worked(identity, (b"a", ""), b"b", &[], "0:0", &[0]),
    worked(identity, (b"a", ""), b"", &[], "", &[]),
    // 10; 1 2 2.
    worked(identity, (b"ab", "1"), b"a\0ab", &[2], "0:1 1:1 2:10", &[2, 4, 7, 5]),
    worked(identity, (b"ab", "1"), b"aaaa", &[], "0:1 1:1 2:1", &[2, 4, 6]),
    worked(identity, (b"ab", "1"), b"bbab", &[2], "0:10 2:10", &[3, 0, 7, 5]),
    worked(identity, (b"ab", "1"), b"abab", &[0, 2], "0:10 2:10", &[3, 1, 7, 5]),
    // 10; 2 1 1. In window 1, position 1 is known.
    worked(identity, (b"aa", ""), b"aaaa", &[0, 1, 2], "0:10 1:1 2:1", &[3, 1, 5, 7]),
    worked(identity, (b"aa", ""), b"aba", &[], "0:1", &[2]),
    worked(identity, (b"aa", ""), b"baa", &[1], "0:10 1:1", &[3, 0, 5]),
    // 210; 3 2 1 1.
    worked(identity, (b"aaa", ""), b"aabaaa", &[3], "0:2 3:210", &[4, 11, 9, 7]),
    worked(identity, (b"aaa", ""), b"abaaaa", &[2, 3], "0:21 2:21 3:2", &[5, 2, 9, 7, 11]),
    // 1320; 1 3 4 2 2. After an occurrence rank 1 is next, and after a mismatch at place 0.
    worked(identity, (b"abab", "13"), b"ababab", &[0, 2], "0:1320 2:32", &[3, 7, 5, 1, 11, 9]),
    worked(identity, (b"abab", "13"), b"cbabab", &[2], "0:1320 2:32", &[3, 7, 5, 0, 11, 9]),
    worked(identity, (b"abab", "13"), b"abacabab", &[4], "0:13 3:1 4:1320", &[3, 6, 8, 11, 15, 13, 9]),
    // 24310; 1 5 4 3 3 3. This one is document 01's.
    worked(identity, (b"aabaa", "2"), b"aabaaaabaa", &[0, 5], "0:24310 3:2 4:2 5:24310",
           &[5, 9, 7, 3, 1, 10, 12, 15, 19, 17, 13, 11]),
    // 254310; 1 4 6 6 3 3 3. After an occurrence rank 1 is next.
    worked(identity, (b"aabaab", "25"), b"aabaabaab", &[0, 3], "0:254310 3:543",
           &[5, 11, 9, 7, 3, 1, 17, 15, 13]),
    // By classes: aBa is aba; bca is bba, with 210 and 1 3 3 3, and without the classes as abc above; abc
    // is aaa, and so is bcb.
    worked(letters, (b"aBa", "1"), b"AbABA", &[0, 2], "0:120 2:12", &[3, 5, 1, 7, 9]),
    worked(c_in_b, (b"bca", "2"), b"cabba", &[2], "0:2 1:2 2:210", &[4, 6, 9, 7, 5]),
    worked(identity, (b"bca", "12"), b"cabba", &[], "0:1 1:1 2:1", &[2, 4, 6]),
    worked(one_but_0, (b"abc", ""), b"ab\0aaa", &[3], "0:2 3:210", &[4, 11, 9, 7]),
    worked(c_in_b, (b"bcb", ""), b"bcbbab", &[0, 1], "0:210 1:2 2:2", &[5, 3, 1, 7, 8]),
    // A byte 0 equals none of the pattern.
    worked(identity, (b"aba", "1"), b"ab\0aba", &[3], "0:12 3:120", &[3, 4, 9, 11, 7]),
];

impl Worked {
    pub fn trial(&self) -> Trial {
        Trial::with_classes(self.pattern, &(self.classes)())
    }

    /// The window and the place of each comparison.
    pub fn comparisons(&self) -> Vec<(usize, usize)> {
        windows_and_places(self.compared)
    }

    /// The report with a cap and a list.
    pub fn report(&self, cap: u64, list_len: usize) -> Report {
        cut_off(
            &self.comparisons(),
            self.noholes,
            self.positions,
            cap,
            list_len,
        )
    }

    /// Names the row in a message.
    pub fn name(&self) -> String {
        let [pattern, text] = [self.pattern, self.text].map(<[u8]>::escape_ascii);
        format!("{pattern} in {text}")
    }
}
