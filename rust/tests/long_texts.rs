//! Texts of the greatest length that is accepted, and of one byte more.

mod common;
mod oracle;

use common::{assert_refused, prepared, repeated, Random, Trial};
use poqewan::{Ending, Refusal, Report, LONGEST_TEXT};

/// A run of one letter is searched in a longer one: it occurs at every window, and each text byte
/// is compared once. The run has no nohole.
fn search_run_in_run(len: usize) {
    let text = vec![b'a'; LONGEST_TEXT];
    let windows = LONGEST_TEXT - len + 1;
    let mut trial = Trial::of(&repeated(b"a", len));

    // A list of just as many entries as there are positions.
    let expected = Report {
        ending: Ending::Done,
        count: LONGEST_TEXT as u64,
        at_noholes: 0,
        at_holes: LONGEST_TEXT as u64,
        written: windows,
    };
    assert_eq!(trial.check(&text, expected.count, windows), [expected; 2]);
}

#[test]
fn one_letter_occurs_everywhere() {
    search_run_in_run(1);
}

#[test]
fn two_letters_occur_everywhere() {
    search_run_in_run(2);
}

#[test]
fn the_longest_pattern_occurs_everywhere() {
    search_run_in_run(256);
}

/// Makes the pattern occur in the last window and in no other: its last letter is nowhere else.
fn put_in_the_last_window(bytes: &mut [u8], text: &mut [u8]) -> usize {
    *bytes.last_mut().expect("a pattern has a byte") = b'c';
    let last = text.len() - bytes.len();
    text[last..].copy_from_slice(bytes);
    last
}

/// The occurrence in the last window is found, and a limit that is one too small binds there.
fn search_up_to_the_last_window(len: usize) {
    let mut bytes = repeated(b"aab", len);
    let mut text = repeated(b"aab", LONGEST_TEXT);
    let last = put_in_the_last_window(&mut bytes, &mut text);
    let mut trial = Trial::of(&bytes);

    let [colussi, kmp] = trial.check(&text, u64::MAX, 1);
    for report in [colussi, kmp] {
        assert_eq!((report.ending, report.written), (Ending::Done, 1));
    }
    for report in trial.check(&text, u64::MAX, 0) {
        assert_eq!(report.ending, Ending::Full(last));
    }
    let [colussi, _] = trial.check(&text, colussi.count - 1, 1);
    assert_eq!(colussi.ending, Ending::Spent(last));
    let [_, kmp] = trial.check(&text, kmp.count - 1, 1);
    assert_eq!(kmp.ending, Ending::Spent(last));
}

#[test]
fn a_short_pattern_is_found_in_the_last_window() {
    search_up_to_the_last_window(2);
}

#[test]
fn the_longest_pattern_is_found_in_the_last_window() {
    search_up_to_the_last_window(256);
}

#[test]
fn a_random_pattern_is_found_in_the_last_window_of_a_random_text() {
    let mut random = Random::new(21);
    let mut bytes = random.word(b"ab", 64);
    let mut text = random.word(b"ab", LONGEST_TEXT);
    put_in_the_last_window(&mut bytes, &mut text);
    let [colussi, _] = Trial::of(&bytes).check(&text, u64::MAX, 1);
    assert_eq!(colussi.written, 1);
}

#[test]
fn the_ceiling_of_kmp_is_met() {
    let text = vec![b'a'; LONGEST_TEXT];
    let [_, kmp] = Trial::of(b"aab").check_to_the_end(&text);
    assert_eq!(kmp.count, 2 * LONGEST_TEXT as u64 - 3);
    // The only nohole, place 2, is compared in every window, and place 1 before it; place 0 in the
    // first window alone.
    assert_eq!(kmp.at_noholes, LONGEST_TEXT as u64 - 2);
    assert_eq!(kmp.at_holes, LONGEST_TEXT as u64 - 1);
}

#[test]
fn the_ceiling_of_colussi_is_met_up_to_one_part_in_15() {
    // Document 01 has 12 comparisons for two repetitions; each more costs 7, against 7.5.
    let text = repeated(b"aabaa", LONGEST_TEXT);
    let [colussi, _] = Trial::of(b"aabaa").check_to_the_end(&text);
    let repetitions = LONGEST_TEXT as u64 / 5;
    assert_eq!(colussi.count, 7 * repetitions - 2);
    // The only nohole is place 2. The first repetition has one comparison there and four elsewhere;
    // each more has two misses there besides.
    assert_eq!(colussi.at_noholes, 3 * repetitions - 2);
    assert_eq!(colussi.at_holes, 4 * repetitions);
}

#[test]
fn one_byte_more_is_refused() {
    let text = vec![b'a'; LONGEST_TEXT + 1];
    assert_refused(&prepared(b"a"), &text, Refusal::LongText);
    assert_refused(&prepared(&repeated(b"ab", 256)), &text, Refusal::LongText);
}

#[test]
fn a_false_pattern_is_refused_before_a_long_text() {
    let text = vec![b'a'; LONGEST_TEXT + 1];
    let mut pattern = prepared(b"aba");
    pattern.noholes += 1;
    assert_refused(&pattern, &text, Refusal::FalsePattern);
}
