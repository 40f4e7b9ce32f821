//! Texts of segments, each closed by a byte 0: no occurrence joins two of them.

mod common;
mod oracle;

use common::{changed, repeated, words, Random, Trial, UNWRITTEN};
use poqewan::Ending;

/// Runs both searches in a text, and in each of its segments alone: the whole text has the segments'
/// positions, and no other.
fn search_segment_by_segment(trial: &mut Trial, text: &[u8]) {
    trial.check_to_the_end(text);
    let mut expected = Vec::new();
    for (begin, segment) in oracle::segments(text) {
        trial.check_to_the_end(segment);
        let found = positions(trial, segment);
        expected.extend(found.iter().map(|&b| b + begin));
    }
    assert_eq!(positions(trial, text), expected);
}

/// All positions that the search in Colussi's order lists.
fn positions(trial: &Trial, text: &[u8]) -> Vec<usize> {
    let mut list = vec![UNWRITTEN; text.len()];
    let report = poqewan::colussi(trial.pattern(), text, u64::MAX, &mut list)
        .expect("the pattern is prepared and the text short");
    assert_eq!(report.ending, Ending::Done);
    list[..report.written].iter().map(|&b| b as usize).collect()
}

#[test]
fn every_pattern_of_up_to_4_letters_in_every_text_of_up_to_8_with_zeros() {
    let texts: Vec<_> = (0..=8).flat_map(|len| words(b"ab\0", len)).collect();
    for bytes in (1..=4).flat_map(|len| words(b"ab", len)) {
        let mut trial = Trial::of(&bytes);
        for text in &texts {
            search_segment_by_segment(&mut trial, text);
        }
    }
}

#[test]
fn an_occurrence_that_a_zero_breaks_is_none() {
    let mut random = Random::new(41);
    for len in [1, 2, 3, 8, 64, 256] {
        for bytes in [
            repeated(b"a", len),
            repeated(b"aab", len),
            random.word(b"ab", len),
        ] {
            let mut trial = Trial::of(&bytes);
            for place in 0..len {
                // A byte 0 in place of one of the pattern's, and between two of them.
                let broken = changed(&bytes, place, 0);
                assert_eq!(positions(&trial, &broken), []);
                let joined = [&bytes[..place], b"\0", &bytes[place..]].concat();
                search_segment_by_segment(&mut trial, &joined);
            }
            // Before it, after it, and between two of them it breaks none.
            let whole = [b"\0", &bytes[..], b"\0", &bytes, b"\0"].concat();
            search_segment_by_segment(&mut trial, &whole);
            assert_eq!(positions(&trial, &whole), [1, len + 2]);
        }
    }
}

#[test]
fn a_text_of_zeros_alone_is_searched_and_nothing_found() {
    for bytes in [&b"a"[..], b"aba", &repeated(b"ab", 256)] {
        let mut trial = Trial::of(bytes);
        let m = bytes.len();
        for len in [0, m - 1, m, m + 1, 2 * m, 1_000] {
            let [colussi, _] = trial.check_to_the_end(&vec![0; len]);
            assert_eq!(colussi.written, 0);
        }
    }
}

#[test]
fn texts_of_many_segments() {
    let mut random = Random::new(42);
    for len in [1, 2, 5, 16, 64, 255, 256] {
        for letters in [&b"ab"[..], b"abc\x01\xFF"] {
            let bytes = random.word(letters, len);
            let mut trial = Trial::of(&bytes);
            let mut text = Vec::new();
            while text.len() < 5_000 {
                // A piece of the pattern's repetitions, long enough for some occurrences or none.
                let from = random.below(len);
                let to = from + random.below(3 * len) + 1;
                text.extend(&repeated(&bytes, to)[from..]);
                text.push(0);
            }
            search_segment_by_segment(&mut trial, &text);
        }
    }
}
