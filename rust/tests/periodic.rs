//! Long patterns whose tables are rich: periodic, nearly periodic, with borders. They are searched
//! in texts made to match for long stretches, to the end and with limits drawn by lot.

mod common;
mod oracle;

use common::{changed, fibonacci, repeated, Random, Trial};

/// Lengths around the powers of two, the Fibonacci numbers and the words of the marks.
const LENGTHS: [usize; 24] = [
    1, 2, 3, 5, 7, 8, 13, 16, 21, 34, 55, 63, 64, 65, 89, 127, 128, 129, 144, 192, 193, 233, 255,
    256,
];

/// How long the texts are, at least.
const TEXT: usize = 3000;

/// Runs both searches in every kind of text, to the end and four times with limits.
fn search_all_kinds_of_texts(bytes: &[u8], random: &mut Random) {
    let mut trial = Trial::of(bytes);
    for text in [
        pieces(bytes, random),
        powers(bytes, random),
        near_misses(bytes, random),
        random.word(bytes, TEXT),
    ] {
        let [colussi, kmp] = trial.check_to_the_end(&text);
        for _ in 0..4 {
            let cap = random.below(colussi.count.max(kmp.count) as usize + 2) as u64;
            let list_len = random.below(colussi.written + 2);
            trial.check(&text, cap, text.len());
            trial.check(&text, u64::MAX, list_len);
            trial.check(&text, cap, list_len);
        }
    }
}

/// Pieces of the pattern, one after the other.
fn pieces(bytes: &[u8], random: &mut Random) -> Vec<u8> {
    let mut text = Vec::new();
    while text.len() < TEXT {
        let from = random.below(bytes.len());
        let to = from + 1 + random.below(bytes.len() - from);
        text.extend(&bytes[from..to]);
    }
    text
}

/// Powers of the pattern's beginnings, one after the other.
fn powers(bytes: &[u8], random: &mut Random) -> Vec<u8> {
    let mut text = Vec::new();
    while text.len() < TEXT {
        let root = &bytes[..=random.below(bytes.len())];
        let len = random.below(3 * bytes.len()) + 1;
        text.extend(repeated(root, len));
    }
    text
}

/// Copies of the pattern, each with a byte or none changed for another of its letters.
fn near_misses(bytes: &[u8], random: &mut Random) -> Vec<u8> {
    let mut text = Vec::new();
    while text.len() < TEXT {
        let mut copy = bytes.to_vec();
        copy[random.below(bytes.len())] = bytes[random.below(bytes.len())];
        text.extend(copy);
    }
    text
}

/// The first `len` letters of the Thue-Morse word: b where the place has an odd number of ones.
fn thue_morse(len: usize) -> Vec<u8> {
    (0..len)
        .map(|place| b'a' + (place.count_ones() % 2) as u8)
        .collect()
}

#[test]
fn one_letter_and_one_other() {
    let mut random = Random::new(1);
    for len in LENGTHS {
        let run = repeated(b"a", len);
        search_all_kinds_of_texts(&run, &mut random);
        for place in [0, len / 2, len - 1] {
            search_all_kinds_of_texts(&changed(&run, place, b'b'), &mut random);
        }
    }
}

#[test]
fn powers_of_short_words() {
    let mut random = Random::new(2);
    for len in LENGTHS {
        for root in [&b"ab"[..], b"aab", b"abac", b"aabaa", b"aabaabab"] {
            search_all_kinds_of_texts(&repeated(root, len), &mut random);
        }
    }
}

#[test]
fn powers_of_random_words_with_one_byte_changed() {
    let mut random = Random::new(3);
    for len in [16, 21, 64, 65, 129, 255, 256] {
        for root_len in [2, 3, 5, 8, len / 3, len / 2] {
            let root = random.word(b"ab", root_len);
            let power = repeated(&root, len);
            for place in [0, 1, root_len, len / 2, len - root_len, len - 2, len - 1] {
                let byte = random.word(b"abc", 1)[0];
                search_all_kinds_of_texts(&changed(&power, place, byte), &mut random);
            }
        }
    }
}

#[test]
fn fibonacci_words() {
    let mut random = Random::new(4);
    for len in LENGTHS {
        let word = fibonacci(len);
        search_all_kinds_of_texts(&word, &mut random);
        search_all_kinds_of_texts(&changed(&word, len - 1, b'c'), &mut random);
        search_all_kinds_of_texts(&changed(&word, len / 2, b'a'), &mut random);
    }
}

#[test]
fn thue_morse_words() {
    let mut random = Random::new(5);
    for len in LENGTHS {
        let word = thue_morse(len);
        search_all_kinds_of_texts(&word, &mut random);
        search_all_kinds_of_texts(&changed(&word, len / 2, b'b'), &mut random);
    }
}

#[test]
fn words_with_borders_within_borders() {
    let mut random = Random::new(6);
    for _ in 0..40 {
        let len = random.below(12) + 1;
        let mut word = random.word(b"ab", len);
        while 2 * word.len() < 256 {
            let len = random.below(3);
            let middle = random.word(b"abc", len);
            word = [&word[..], &middle, &word].concat();
            word.truncate(256);
            search_all_kinds_of_texts(&word, &mut random);
        }
    }
}

#[test]
fn random_words_over_small_and_large_alphabets() {
    let mut random = Random::new(7);
    let all_but_0: Vec<u8> = (1..=255).collect();
    for len in LENGTHS {
        for letters in [&b"ab"[..], b"abc", &all_but_0] {
            let word = random.word(letters, len);
            search_all_kinds_of_texts(&word, &mut random);
        }
    }
}
