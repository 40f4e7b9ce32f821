//! Every short pattern, with every short text.

mod common;
mod oracle;

use common::{words, words_of_lengths, Trial};

/// Runs both searches for every pattern in every text.
fn search_all<'a>(patterns: impl IntoIterator<Item = &'a Vec<u8>>, texts: &[Vec<u8>]) {
    for bytes in patterns {
        let mut trial = Trial::of(bytes);
        for text in texts {
            trial.check_to_the_end(text);
        }
    }
}

/// All texts of up to 14 letters of two.
fn texts_of_two_letters() -> Vec<Vec<u8>> {
    words_of_lengths(b"ab", 0, 14)
}

// The four tests that follow do about the same work, so that they share the cores well.

#[test]
fn patterns_of_two_letters_of_length_1_to_6_in_every_text() {
    search_all(&words_of_lengths(b"ab", 1, 6), &texts_of_two_letters());
}

#[test]
fn patterns_of_two_letters_of_length_7_in_every_text() {
    search_all(&words(b"ab", 7), &texts_of_two_letters());
}

#[test]
fn patterns_of_two_letters_of_length_8_from_a_in_every_text() {
    search_words_of_8_from(b'a');
}

#[test]
fn patterns_of_two_letters_of_length_8_from_b_in_every_text() {
    search_words_of_8_from(b'b');
}

fn search_words_of_8_from(letter: u8) {
    let patterns = words(b"ab", 8);
    let chosen = patterns.iter().filter(|word| word[0] == letter);
    search_all(chosen, &texts_of_two_letters());
}

#[test]
fn patterns_of_three_letters_of_length_1_to_4_in_every_text_of_8() {
    search_all(
        &words_of_lengths(b"abc", 1, 4),
        &words_of_lengths(b"abc", 0, 8),
    );
}

/// A trial begins with a check of the tables.
fn prepare_all(patterns: &[Vec<u8>]) {
    for bytes in patterns {
        Trial::of(bytes);
    }
}

#[test]
fn tables_of_every_pattern_of_two_letters_of_length_1_to_12() {
    prepare_all(&words_of_lengths(b"ab", 1, 12));
}

#[test]
fn tables_of_every_pattern_of_three_letters_of_length_1_to_7() {
    prepare_all(&words_of_lengths(b"abc", 1, 7));
}
