//! The cap and the list's length, at every value where they can bind; texts hardly longer than the
//! pattern.

mod common;
mod oracle;

use common::{repeated, words, Random, Trial};

/// Caps that never bind, one of them 0 in its lower half.
const LARGE_CAPS: [u64; 2] = [1 << 32, u64::MAX];

/// Runs both searches with every cap up to one more than is spent and every list up to one entry
/// more than is filled.
fn search_with_all_limits(bytes: &[u8], text: &[u8]) {
    let mut trial = Trial::of(bytes);
    let [colussi, kmp] = trial.check_to_the_end(text);
    for cap in (0..=colussi.count.max(kmp.count) + 1).chain(LARGE_CAPS) {
        for list_len in 0..=colussi.written + 1 {
            trial.check(text, cap, list_len);
        }
    }
}

#[test]
fn all_limits_for_every_pattern_of_up_to_4_letters_in_every_text_of_up_to_9() {
    for bytes in (1..=4).flat_map(|len| words(b"ab", len)) {
        for text in (0..=9).flat_map(|len| words(b"ab", len)) {
            search_with_all_limits(&bytes, &text);
        }
    }
}

#[test]
fn all_limits_where_occurrences_overlap() {
    for (bytes, text_root) in [
        (&b"aaaa"[..], &b"a"[..]),
        (b"abaab", b"aba"),
        (b"abaab", b"abaab"),
        (b"aabaa", b"aabaa"),
        (b"aabaabaa", b"aab"),
        (b"aabaabaa", b"aabaabaabb"),
        (b"abacabadabacaba", b"abacabad"),
    ] {
        search_with_all_limits(bytes, &repeated(text_root, 60));
    }
}

#[test]
fn all_limits_in_texts_that_cost_the_most() {
    // A near occurrence at every period: many comparisons, no position.
    search_with_all_limits(b"aab", &repeated(b"a", 80));
    search_with_all_limits(b"aabaa", &repeated(b"aabaaab", 80));
    search_with_all_limits(b"abaababa", &repeated(b"abaababb", 80));
}

#[test]
fn all_limits_in_texts_about_as_long_as_the_pattern() {
    let mut random = Random::new(11);
    for len in [1, 2, 3, 8, 63, 64, 65, 128, 255, 256] {
        for bytes in [
            repeated(b"a", len),
            repeated(b"ab", len),
            random.word(b"ab", len),
        ] {
            // Empty, one byte short, the pattern itself, and one byte more on either side.
            search_with_all_limits(&bytes, &[]);
            search_with_all_limits(&bytes, &bytes[1..]);
            search_with_all_limits(&bytes, &bytes);
            search_with_all_limits(&bytes, &[&bytes[..], b"a"].concat());
            search_with_all_limits(&bytes, &[b"a", &bytes[..]].concat());
        }
    }
}
