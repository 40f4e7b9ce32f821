//! Request C-20: a search in an order of the caller's own, each window compared afresh. Refusals and
//! the longest texts stand in `refused_orders.rs`.

mod common;
mod oracle;

use common::classes::{c_in_b, in_disguise, letters, one_but_0, Classes, Drawn};
use common::orders::{arrangements, drawn_order, left_to_right, right_to_left};
use common::worked::{cut_off, windows_and_places, LONG, NO_CAP};
use common::{
    changed, families, fibonacci, repeated, words, words_of_lengths, Method, Random, Trial,
    OVERLAPPING, UNWRITTEN,
};
use oracle::lengths::longest_start;
use oracle::ordered::CustomOrder;
use oracle::{identity, kmp_comparisons, LONGEST_PATTERN};
use poqewan::Ending::{Done, Full, Spent};
use poqewan::{ordered, Report};

/// A pattern by its classes in a text, with a digit for each of its noholes and for the place of each
/// rank, and the positions where it occurs. Each word of `compared` has a window and, behind the
/// colon, a digit for each place that is compared in it.
struct Worked {
    classes: fn() -> Classes,
    pattern: &'static [u8],
    noholes: &'static str,
    order: &'static str,
    text: &'static [u8],
    positions: &'static [u32],
    compared: &'static str,
}

const fn worked(
    classes: fn() -> Classes,
    (pattern, noholes): (&'static [u8], &'static str),
    order: &'static str,
    text: &'static [u8],
    positions: &'static [u32],
    compared: &'static str,
) -> Worked {
    Worked {
        classes,
        pattern,
        noholes,
        order,
        text,
        positions,
        compared,
    }
}

/// Worked by hand. Above each, how far the window moves on a mismatch at rank 0, 1, 2, .. and then
/// after an occurrence.
#[rustfmt::skip]
const WORKED: [Worked; 46] = [
    // 1 2 1 3: the window moves as by Knuth, Morris and Pratt, who compare 7.
    worked(identity, (b"aab", "2"), "012", b"aaaab", &[2], "0:012 1:012 2:012"),
    // 1 3 3 3.
    worked(identity, (b"aab", "2"), "210", b"aaaab", &[2], "0:2 1:2 2:210"),
    // 1 1 3 3: place 0 says nothing of place 2.
    worked(identity, (b"aab", "2"), "021", b"aaaab", &[2], "0:02 1:02 2:021"),
    // 2 1 3 3: the letter at place 1 is not that of place 0.
    worked(identity, (b"aab", "2"), "120", b"acaab", &[2], "0:1 2:120"),
    worked(identity, (b"aab", "2"), "120", b"aacaab", &[3], "0:12 1:1 3:120"),
    // 1 1 3 2; 1 1 2 2; 1 2 3 2; 1 3 2 2, the pattern's own order and shifts; 1 2 2 2; 1 2 2 2.
    worked(identity, (b"aba", "1"), "012", b"ababa", &[0, 2], "0:012 2:012"),
    worked(identity, (b"aba", "1"), "021", b"ababa", &[0, 2], "0:021 2:021"),
    worked(identity, (b"aba", "1"), "102", b"ababa", &[0, 2], "0:102 2:102"),
    worked(identity, (b"aba", "1"), "120", b"ababa", &[0, 2], "0:120 2:120"),
    worked(identity, (b"aba", "1"), "201", b"ababa", &[0, 2], "0:201 2:201"),
    worked(identity, (b"aba", "1"), "210", b"ababa", &[0, 2], "0:210 2:210"),
    worked(identity, (b"aba", "1"), "012", b"aabcaba", &[4], "0:01 1:012 4:012"),
    worked(identity, (b"aba", "1"), "021", b"aabcaba", &[4], "0:02 1:02 2:0 3:0 4:021"),
    worked(identity, (b"aba", "1"), "102", b"aabcaba", &[4], "0:1 1:102 4:102"),
    worked(identity, (b"aba", "1"), "120", b"aabcaba", &[4], "0:1 1:12 4:120"),
    worked(identity, (b"aba", "1"), "201", b"aabcaba", &[4], "0:2 1:2 2:20 4:201"),
    worked(identity, (b"aba", "1"), "210", b"aabcaba", &[4], "0:2 1:2 2:21 4:210"),
    // 1 1 2; 1 2 2.
    worked(identity, (b"ab", "1"), "01", b"aaaa", &[], "0:01 1:01 2:01"),
    worked(identity, (b"ab", "1"), "10", b"aaaa", &[], "0:1 1:1 2:1"),
    worked(identity, (b"ab", "1"), "01", b"bbab", &[2], "0:0 1:0 2:01"),
    worked(identity, (b"ab", "1"), "10", b"bbab", &[2], "0:10 2:10"),
    worked(identity, (b"ab", "1"), "01", b"abab", &[0, 2], "0:01 2:01"),
    worked(identity, (b"ab", "1"), "10", b"abab", &[0, 2], "0:10 2:10"),
    // 1 2 1 4 5 3; 2 1 3 3 3 3; 1 5 4 3 3 3, the pattern's own; 1 3 5 3 4 3.
    worked(identity, (b"aabaa", "2"), "01234", b"aabaaaabaa", &[0, 5], "0:01234 3:012 4:012 5:01234"),
    worked(identity, (b"aabaa", "2"), "43210", b"aabaaaabaa", &[0, 5], "0:43210 3:4 5:43210"),
    worked(identity, (b"aabaa", "2"), "24310", b"aabaaaabaa", &[0, 5], "0:24310 3:2 4:2 5:24310"),
    worked(identity, (b"aabaa", "2"), "20413", b"aabcaabaa", &[4], "0:20413 4:20413"),
    worked(identity, (b"aabaa", "2"), "43210", b"aabcaabaa", &[4], "0:43 1:432 4:43210"),
    // 1 4 2 2 2; 1 2 3 2 2.
    worked(identity, (b"abab", "13"), "3210", b"ababab", &[0, 2], "0:3210 2:3210"),
    worked(identity, (b"abab", "13"), "3210", b"abacabab", &[4], "0:3 1:3 2:321 4:3210"),
    worked(identity, (b"abab", "13"), "2031", b"abacabab", &[4], "0:203 3:2 4:2031"),
    // 3 2 1 1; 2 3 1 1.
    worked(identity, (b"aaa", ""), "210", b"aabaaa", &[3], "0:2 3:210"),
    worked(identity, (b"aaa", ""), "120", b"abaaaa", &[2, 3], "0:1 2:120 3:120"),
    // 1 2 3 3: no two letters are equal.
    worked(identity, (b"abc", "12"), "120", b"ababc", &[2], "0:12 2:120"),
    worked(identity, (b"abc", "12"), "120", b"xbcabc", &[3], "0:120 3:120"),
    // One byte, no text, and shorter ones than the pattern.
    worked(identity, (b"a", ""), "0", b"aab", &[0, 1], "0:0 1:0 2:0"),
    worked(identity, (b"a", ""), "0", b"", &[], ""),
    worked(identity, (b"aba", "1"), "210", b"", &[], ""),
    worked(identity, (b"aba", "1"), "102", b"ab", &[], ""),
    // A byte 0 equals none of the pattern, and may be met again.
    worked(identity, (b"ab", "1"), "01", b"a\0ab", &[2], "0:01 1:0 2:01"),
    worked(identity, (b"aba", "1"), "102", b"ab\0aba", &[3], "0:102 3:102"),
    // By classes: aBa is aba; bca is bba, with 1 1 3 3; abc is aaa. Then bca with each value its own
    // class, with 1 1 3 3: its third window is the last.
    worked(letters, (b"aBa", "1"), "201", b"AbABA", &[0, 2], "0:201 2:201"),
    worked(c_in_b, (b"bca", "2"), "021", b"cabba", &[2], "0:02 1:0 2:021"),
    worked(one_but_0, (b"abc", ""), "120", b"ab\0aaa", &[3], "0:12 3:120"),
    worked(identity, (b"bca", "12"), "021", b"cabba", &[], "0:0 1:0 2:021"),
    // The same order with other marks than those of the bytes: bcb is bbb.
    worked(c_in_b, (b"bcb", ""), "120", b"bcbbab", &[0, 1], "0:120 1:120 2:12"),
];

impl Worked {
    fn trial(&self) -> Trial {
        Trial::with_classes(self.pattern, &(self.classes)())
    }

    fn order(&self) -> Vec<u8> {
        self.order.bytes().map(|digit| digit - b'0').collect()
    }

    /// The window and the place of each comparison.
    fn comparisons(&self) -> Vec<(usize, usize)> {
        windows_and_places(self.compared)
    }

    /// The report with a cap and a list.
    fn report(&self, cap: u64, list_len: usize) -> Report {
        let made = self.comparisons();
        cut_off(&made, self.noholes, self.positions, cap, list_len)
    }
}

#[test]
fn every_row_has_the_answer_worked_by_hand() {
    for worked in &WORKED {
        let [pattern, text] = [worked.pattern, worked.text].map(<[u8]>::escape_ascii);
        let case = format!("{pattern} by {} in {text}", worked.order);
        let mut trial = worked.trial();
        let custom = trial.custom(&worked.order());
        trial.check_ordered_to_the_end(&custom, worked.text);

        let mut list = [UNWRITTEN; LONG];
        let answer = ordered(
            trial.pattern(),
            &worked.order(),
            worked.text,
            NO_CAP,
            &mut list,
        );
        assert_eq!(answer, Ok(worked.report(NO_CAP, LONG)), "{case}");
        assert_eq!(list[..worked.positions.len()], *worked.positions, "{case}");
        let by_the_request: Vec<_> = custom
            .comparisons(trial.tables(), worked.text)
            .iter()
            .map(|made| (made.window, made.place))
            .collect();
        assert_eq!(by_the_request, worked.comparisons(), "{case}");
    }
}

/// Each row with every cap up to one more than is spent, and every list up to one entry more than is
/// filled: what they leave follows from the comparisons worked by hand.
#[test]
fn every_row_with_every_cap_and_every_list() {
    for worked in &WORKED {
        let trial = worked.trial();
        let whole = worked.comparisons().len() as u64;
        for cap in (0..=whole + 1).chain([1 << 32, NO_CAP]) {
            for list_len in 0..=worked.positions.len() + 1 {
                let mut list = vec![UNWRITTEN; list_len];
                let (order, text) = (worked.order(), worked.text);
                let answer = ordered(trial.pattern(), &order, text, cap, &mut list);
                let expected = worked.report(cap, list_len);
                let case = format!("{order:?}, cap {cap}, list of {list_len}");
                assert_eq!(answer, Ok(expected), "{case}");
                let (positions, rest) = list.split_at(expected.written);
                assert_eq!(positions, &worked.positions[..expected.written], "{case}");
                assert!(rest.iter().all(|&entry| entry == UNWRITTEN), "{case}");
            }
        }
    }
}

/// aba from right to left in ababa has 3 comparisons and a position in window 0, and again in
/// window 2. Place 1, the second of each three, is the only nohole.
#[test]
fn caps_and_lists_of_aba_in_ababa_worked_by_hand() {
    let trial = Trial::of(b"aba");
    for (cap, list_len, ending, [count, at_noholes, at_holes], listed) in [
        (0, 2, Spent(0), [0, 0, 0], &[][..]),
        (1, 2, Spent(0), [1, 0, 1], &[]),
        (2, 2, Spent(0), [2, 1, 1], &[]),
        (3, 2, Spent(2), [3, 1, 2], &[0]),
        (4, 2, Spent(2), [4, 1, 3], &[0]),
        (5, 2, Spent(2), [5, 2, 3], &[0]),
        (6, 2, Done, [6, 2, 4], &[0, 2]),
        (7, 2, Done, [6, 2, 4], &[0, 2]),
        (NO_CAP, 3, Done, [6, 2, 4], &[0, 2]),
        (NO_CAP, 1, Full(2), [6, 2, 4], &[0]),
        (6, 1, Full(2), [6, 2, 4], &[0]),
        (5, 1, Spent(2), [5, 2, 3], &[0]),
        (NO_CAP, 0, Full(0), [3, 1, 2], &[]),
        (3, 0, Full(0), [3, 1, 2], &[]),
        (2, 0, Spent(0), [2, 1, 1], &[]),
    ] {
        let mut list = vec![UNWRITTEN; list_len];
        let answer = ordered(trial.pattern(), &[2, 1, 0], b"ababa", cap, &mut list);
        let expected = Report {
            ending,
            count,
            at_noholes,
            at_holes,
            written: listed.len(),
        };
        assert_eq!(answer, Ok(expected), "cap {cap}, list of {list_len}");
        assert_eq!(&list[..listed.len()], listed);
    }
}

/// The shifts of the rows, as worked by hand.
#[test]
fn the_shifts_are_those_worked_by_hand() {
    for (pattern, order, shifts) in [
        (&b"aab"[..], &[0, 1, 2][..], &[1, 2, 1, 3][..]),
        (b"aab", &[2, 1, 0], &[1, 3, 3, 3]),
        (b"aab", &[0, 2, 1], &[1, 1, 3, 3]),
        (b"aab", &[1, 2, 0], &[2, 1, 3, 3]),
        (b"aba", &[0, 1, 2], &[1, 1, 3, 2]),
        (b"aba", &[0, 2, 1], &[1, 1, 2, 2]),
        (b"aba", &[1, 0, 2], &[1, 2, 3, 2]),
        (b"aba", &[1, 2, 0], &[1, 3, 2, 2]),
        (b"aba", &[2, 0, 1], &[1, 2, 2, 2]),
        (b"aba", &[2, 1, 0], &[1, 2, 2, 2]),
        (b"ab", &[0, 1], &[1, 1, 2]),
        (b"ab", &[1, 0], &[1, 2, 2]),
        (b"aabaa", &[0, 1, 2, 3, 4], &[1, 2, 1, 4, 5, 3]),
        (b"aabaa", &[4, 3, 2, 1, 0], &[2, 1, 3, 3, 3, 3]),
        (b"aabaa", &[2, 4, 3, 1, 0], &[1, 5, 4, 3, 3, 3]),
        (b"aabaa", &[2, 0, 4, 1, 3], &[1, 3, 5, 3, 4, 3]),
        (b"abab", &[3, 2, 1, 0], &[1, 4, 2, 2, 2]),
        (b"abab", &[2, 0, 3, 1], &[1, 2, 3, 2, 2]),
        (b"aaa", &[2, 1, 0], &[3, 2, 1, 1]),
        (b"aaa", &[1, 2, 0], &[2, 3, 1, 1]),
        (b"abc", &[1, 2, 0], &[1, 2, 3, 3]),
        (b"a", &[0], &[1, 1]),
    ] {
        let custom = Trial::of(pattern).custom(order);
        assert_eq!(
            custom.shift,
            shifts,
            "{} by {order:?}",
            pattern.escape_ascii()
        );
    }
}

/// Searches for every pattern in every arrangement in every text.
fn search_all<'a>(patterns: impl IntoIterator<Item = &'a Vec<u8>>, texts: &[Vec<u8>]) {
    for bytes in patterns {
        let mut trial = Trial::of(bytes);
        for order in arrangements(bytes.len()) {
            let custom = trial.custom(&order);
            for text in texts {
                trial.check_ordered_to_the_end(&custom, text);
            }
        }
    }
}

/// All texts of up to 9 letters of two.
fn texts_of_two_letters() -> Vec<Vec<u8>> {
    words_of_lengths(b"ab", 0, 9)
}

#[test]
fn every_arrangement_of_every_pattern_of_up_to_4_letters_in_every_text() {
    search_all(&words_of_lengths(b"ab", 1, 4), &texts_of_two_letters());
}

#[test]
fn every_arrangement_of_every_pattern_of_5_letters_from_a_in_every_text() {
    search_words_of_5_from(b'a');
}

#[test]
fn every_arrangement_of_every_pattern_of_5_letters_from_b_in_every_text() {
    search_words_of_5_from(b'b');
}

fn search_words_of_5_from(letter: u8) {
    let patterns = words(b"ab", 5);
    let chosen = patterns.iter().filter(|word| word[0] == letter);
    search_all(chosen, &texts_of_two_letters());
}

/// With and without classes that join two of the letters, in texts with bytes 0.
#[test]
fn every_arrangement_of_every_pattern_of_three_letters_in_every_text() {
    let texts = words_of_lengths(b"abc\0", 0, 5);
    for classes in [identity(), c_in_b(), one_but_0()] {
        for bytes in words_of_lengths(b"abc", 1, 3) {
            let mut trial = Trial::with_classes(&bytes, &classes);
            for order in arrangements(bytes.len()) {
                let custom = trial.custom(&order);
                for text in &texts {
                    trial.check_ordered_to_the_end(&custom, text);
                }
            }
        }
    }
}

#[test]
fn the_arrangements_are_all_and_different() {
    let mut number = 1;
    for m in 1..=6 {
        number *= m;
        let mut all = arrangements(m);
        assert!(all
            .iter()
            .all(|order| oracle::ordered::are_places(order, m)));
        all.sort_unstable();
        all.dedup();
        assert_eq!(all.len(), number);
    }
}

/// Searches with every cap up to one more than is spent and every list up to one entry more than is
/// filled.
fn search_with_all_limits(trial: &mut Trial, custom: &CustomOrder, text: &[u8]) {
    let whole = trial.check_ordered_to_the_end(custom, text);
    for cap in (0..=whole.count + 1).chain([1 << 32, NO_CAP]) {
        for list_len in 0..=whole.written + 1 {
            let report = trial.check_ordered(custom, text, cap, list_len);
            match report.ending {
                Done => assert_eq!(report, whole),
                Spent(_) => assert!(report.count == cap && cap < whole.count),
                Full(_) => assert!(report.written == list_len && list_len < whole.written),
            }
        }
    }
}

#[test]
fn all_limits_for_every_arrangement_of_up_to_3_letters_in_every_text_of_up_to_6() {
    for bytes in words_of_lengths(b"ab", 1, 3) {
        let mut trial = Trial::of(&bytes);
        for order in arrangements(bytes.len()) {
            let custom = trial.custom(&order);
            for text in words_of_lengths(b"ab", 0, 6) {
                search_with_all_limits(&mut trial, &custom, &text);
            }
        }
    }
}

#[test]
fn all_limits_where_occurrences_overlap_and_where_they_just_fail() {
    let mut random = Random::new(201);
    for (bytes, root) in OVERLAPPING {
        let mut trial = Trial::of(bytes);
        let m = bytes.len();
        for order in [
            trial.own_order(),
            right_to_left(m),
            drawn_order(m, &mut random),
        ] {
            let custom = trial.custom(&order);
            search_with_all_limits(&mut trial, &custom, &repeated(root, 40));
        }
    }
}

/// The positions that the library lists in an order.
fn listed(trial: &Trial, order: &[u8], text: &[u8]) -> Vec<u32> {
    let mut list = vec![UNWRITTEN; text.len()];
    let report = ordered(trial.pattern(), order, text, NO_CAP, &mut list)
        .expect("the pattern is prepared, the order its own and the text short");
    assert_eq!(report.ending, Done);
    list.truncate(report.written);
    list
}

/// The positions are those of the library's other searches, whatever the order; and Colussi's own
/// order costs Colussi no more than it costs one who starts each window afresh.
fn check_beside_the_searches(trial: &mut Trial, text: &[u8], random: &mut Random) {
    let [colussi, _] = Method::BOTH.map(|method| {
        let mut list = vec![UNWRITTEN; text.len()];
        let report = method
            .run(trial.pattern(), text, NO_CAP, &mut list)
            .expect("the pattern is prepared and the text short");
        list.truncate(report.written);
        for order in [
            trial.own_order(),
            left_to_right(trial.pattern().len),
            right_to_left(trial.pattern().len),
            drawn_order(trial.pattern().len, random),
        ] {
            assert_eq!(listed(trial, &order, text), list, "{order:?}");
        }
        report
    });
    let own = trial.custom(&trial.own_order());
    let report = trial.check_ordered_to_the_end(&own, text);
    assert!(colussi.count <= report.count);
}

/// Colussi's own order moves the window as Colussi does, rank by rank.
#[test]
fn the_shifts_of_the_patterns_own_order_are_the_patterns_own() {
    let mut random = Random::new(202);
    let mut all = words_of_lengths(b"ab", 1, 9);
    all.extend(words_of_lengths(b"abc", 1, 6));
    for m in [64, 255, 256] {
        all.push(repeated(b"aab", m));
        all.push(fibonacci(m));
        all.push(random.word(b"ab", m));
    }
    for bytes in all {
        let trial = Trial::of(&bytes);
        let custom = trial.custom(&trial.own_order());
        assert_eq!(custom.shift, trial.tables().shift, "{bytes:?}");
    }
}

#[test]
fn the_positions_are_those_of_the_other_searches() {
    let mut random = Random::new(203);
    for bytes in words_of_lengths(b"ab", 1, 5) {
        let mut trial = Trial::of(&bytes);
        for text in words(b"ab", 8) {
            check_beside_the_searches(&mut trial, &text, &mut random);
        }
    }
    let drawn = Drawn::new(identity());
    for len in [1, 2, 7, 64, 255, 256] {
        for bytes in drawn.patterns(len, &mut random) {
            let mut trial = Trial::of(&bytes);
            for text in drawn.texts(&bytes, &mut random) {
                check_beside_the_searches(&mut trial, &text, &mut random);
            }
        }
    }
}

/// From left to right the windows are those of Knuth, Morris and Pratt, and each costs what of the
/// pattern begins there, and a miss where that is not all.
#[test]
fn from_left_to_right_each_window_of_kmp_is_compared_afresh() {
    let mut random = Random::new(204);
    let mut cases = Vec::new();
    for bytes in words_of_lengths(b"ab", 1, 5) {
        cases.push((bytes, words(b"ab", 9)));
    }
    for m in [8, 64, 256] {
        for bytes in [
            repeated(b"a", m),
            repeated(b"aab", m),
            fibonacci(m),
            changed(&repeated(b"a", m), m - 1, b'b'),
            random.word(b"ab", m),
        ] {
            let nearly = changed(&bytes, random.below(m), b'c');
            let text = [&bytes[m / 2..], &bytes, &nearly, &bytes, &bytes].concat();
            cases.push((bytes, vec![text]));
        }
    }
    for (bytes, texts) in cases {
        let mut trial = Trial::of(&bytes);
        let m = bytes.len();
        let custom = trial.custom(&left_to_right(m));
        for text in texts {
            let mut windows: Vec<_> = kmp_comparisons(trial.tables(), &text)
                .iter()
                .map(|made| made.window)
                .collect();
            windows.dedup();
            let costs = windows.iter().map(|&b| {
                let matched = longest_start(trial.tables(), &text, b);
                m.min(matched + 1)
            });
            let count = costs.sum::<usize>() as u64;
            let report = trial.check_ordered_to_the_end(&custom, &text);
            assert_eq!(report.count, count, "{}", bytes.escape_ascii());
        }
    }
}

/// A run in a run: each window is compared at every place, in whatever order, and moves by 1.
#[test]
fn a_run_in_a_run_costs_m_in_every_window() {
    let mut random = Random::new(205);
    for m in [1, 2, 3, 64, 255, 256] {
        let mut trial = Trial::of(&repeated(b"a", m));
        for n in [m - 1, m, m + 1, 2 * m, 600] {
            let custom = trial.custom(&drawn_order(m, &mut random));
            let report = trial.check_ordered_to_the_end(&custom, &repeated(b"a", n));
            let windows = n + 1 - m.min(n + 1);
            let cost = (windows * m) as u64;
            assert_eq!([report.count, report.at_noholes], [cost, 0]);
            assert_eq!(report.written, windows);
        }
    }
}

/// A run, each place compared first: a byte 0 there moves the window past it, whatever lies before.
#[test]
fn of_a_run_a_mismatch_moves_the_window_past_its_place() {
    let mut random = Random::new(206);
    for m in [1, 2, 3, 64, 255, 256] {
        let mut trial = Trial::of(&repeated(b"a", m));
        for place in 0..m {
            let mut order = drawn_order(m, &mut random);
            let rank = order.iter().position(|&p| usize::from(p) == place);
            order.swap(0, rank.expect("all are there"));
            let text = changed(&repeated(b"a", place + 1 + m), place, 0);
            let custom = trial.custom(&order);
            let report = trial.check_ordered_to_the_end(&custom, &text);
            assert_eq!(report.count, m as u64 + 1);
            assert_eq!(listed(&trial, &order, &text), [place as u32 + 1]);
        }
    }
}

/// Searches in drawn orders and in three plain ones, in drawn texts, also with a cap and a list that
/// may bind.
fn search_in_drawn_orders(drawn: &Drawn, bytes: &[u8], orders: usize, random: &mut Random) {
    let mut trial = Trial::with_classes(bytes, &drawn.classes);
    let m = bytes.len();
    let mut all = vec![trial.own_order(), left_to_right(m), right_to_left(m)];
    all.extend((0..orders).map(|_| drawn_order(m, random)));
    for order in all {
        let custom = trial.custom(&order);
        for text in drawn.texts(bytes, random) {
            let whole = trial.check_ordered_to_the_end(&custom, &text);
            let cap = random.below(whole.count as usize + 1) as u64;
            let list_len = random.below(whole.written + 1);
            trial.check_ordered(&custom, &text, cap, text.len());
            trial.check_ordered(&custom, &text, NO_CAP, list_len);
            trial.check_ordered(&custom, &text, cap, list_len);
        }
    }
}

#[test]
fn drawn_orders_of_256_places() {
    let mut random = Random::new(207);
    let drawn = Drawn::new(identity());
    for bytes in families(LONGEST_PATTERN, &mut random) {
        search_in_drawn_orders(&drawn, &bytes, 6, &mut random);
    }
}

#[test]
fn drawn_orders_of_every_number_of_places() {
    let mut random = Random::new(208);
    let drawn = Drawn::new(identity());
    for m in 1..LONGEST_PATTERN {
        let families = families(m, &mut random);
        let bytes = &families[m % families.len()];
        search_in_drawn_orders(&drawn, bytes, 1, &mut random);
    }
}

#[test]
fn drawn_orders_through_drawn_classes() {
    let mut random = Random::new(209);
    for number in [2, 3, 4, 16, 100, 255, 256] {
        for len in [1, 2, 3, 8, 64, 65, 256] {
            let drawn = Drawn::of(number, len % 2 == 0, &mut random);
            for bytes in drawn.patterns(len, &mut random) {
                search_in_drawn_orders(&drawn, &bytes, 1, &mut random);
            }
        }
    }
}

/// The classes decide and not the bytes: a pattern and a text in disguise have the same answer.
#[test]
fn a_disguise_changes_nothing() {
    in_disguise(210, |drawn, bytes, [trial, other], random| {
        let order = drawn_order(bytes.len(), random);
        let [custom, of_other] = [&*trial, &*other].map(|trial| trial.custom(&order));
        for text in drawn.texts(bytes, random) {
            let report = trial.check_ordered_to_the_end(&custom, &text);
            let text = drawn.disguised(&text, random);
            assert_eq!(other.check_ordered_to_the_end(&of_other, &text), report);
        }
    });
}

/// No occurrence covers a byte 0: the positions are those of each segment alone.
#[test]
fn a_byte_0_is_in_no_occurrence() {
    let mut random = Random::new(211);
    let in_segments = |trial: &Trial, order: &[u8], text: &[u8]| {
        let mut expected = Vec::new();
        for (begin, segment) in oracle::segments(text) {
            let alone = listed(trial, order, segment);
            expected.extend(alone.iter().map(|&b| b + begin as u32));
        }
        assert_eq!(listed(trial, order, text), expected, "{order:?}");
    };
    for bytes in words_of_lengths(b"ab", 1, 3) {
        let trial = Trial::of(&bytes);
        for order in arrangements(bytes.len()) {
            for text in words(b"ab\0", 7) {
                in_segments(&trial, &order, &text);
            }
        }
    }
    for m in [1, 2, 64, 256] {
        let bytes = repeated(b"aab", m);
        let mut trial = Trial::of(&bytes);
        for place in 0..m {
            let order = drawn_order(m, &mut random);
            let text = [&changed(&bytes, place, 0)[..], &bytes].concat();
            in_segments(&trial, &order, &text);
        }
        let custom = trial.custom(&drawn_order(m, &mut random));
        let report = trial.check_ordered_to_the_end(&custom, &vec![0; 3 * m]);
        assert_eq!(report.written, 0);
        trial.check_ordered_to_the_end(&custom, &random.word(b"aab\0", 500));
    }
}

/// The columns go by the pattern's marks: with every cap one of them has one comparison more, and
/// which is told by the place alone, whatever its rank.
#[test]
fn each_comparison_has_its_column_by_its_place() {
    let mut random = Random::new(212);
    for bytes in [
        &b"aabaa"[..],
        b"abab",
        b"aabaabaa",
        &fibonacci(100),
        &random.word(b"ab", 256),
    ] {
        let mut trial = Trial::of(bytes);
        let m = bytes.len();
        let marks = trial.pattern().marks;
        let is_marked = |p: usize| marks[p / 64] >> (p % 64) & 1;
        let text = repeated(bytes, 2 * m - 1);
        for order in [
            left_to_right(m),
            right_to_left(m),
            drawn_order(m, &mut random),
        ] {
            let custom = trial.custom(&order);
            let mut columns = [0, 0];
            for (rank, &place) in order.iter().enumerate() {
                columns[is_marked(usize::from(place)) as usize] += 1;
                let report = trial.check_ordered(&custom, &text, rank as u64 + 1, 1);
                assert_eq!([report.at_holes, report.at_noholes], columns);
            }
        }
    }
}
