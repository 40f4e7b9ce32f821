//! Request C-23: what preparation costs. The comparisons of two pattern bytes in building hmax are
//! those of source document 003's fast method, whose look at the closing sentinel is none.

mod common;
mod oracle;

use common::{changed, fibonacci, preparation, repeated, words, Random};
use oracle::{identity, FORMER_SCRATCH, LONGEST_PATTERN, SCRATCH};

/// Worked by hand from source document 003's Algorithm 7. In ababc a copied entry saves a
/// comparison; the last word is source document 000's.
const WORKED: [(&str, u32); 7] = [
    ("a", 0),
    ("aa", 1),
    ("ab", 1),
    ("aba", 2),
    ("ababc", 5),
    ("aabaa", 5),
    ("aabacaacaab", 14),
];

/// The most that a pattern of m bytes costs. Asked is at most 2m - 2.
fn most(m: usize) -> u32 {
    match m {
        1 => 0,
        _ => 2 * m as u32 - 3,
    }
}

/// Prepares a pattern and checks the number, and that the method it is counted in gives hmax.
fn check_cost(bytes: &[u8]) -> u32 {
    let m = bytes.len();
    let case = bytes.escape_ascii();
    let classes = identity();
    let compared = preparation(bytes, &classes).compared;
    let (by_method, hmax) = oracle::fast_method(bytes, &classes);
    assert_eq!(compared, by_method, "{case}");
    assert!(compared <= most(m), "{case}: {compared} is above the most");
    for (k, &h) in hmax.iter().enumerate().skip(1) {
        assert_eq!(h, oracle::hmax(bytes, &classes, k), "hmax({k}) of {case}");
    }
    compared
}

#[test]
fn the_worked_words_cost_what_is_worked_by_hand() {
    for (word, compared) in WORKED {
        assert_eq!(check_cost(word.as_bytes()), compared, "{word}");
    }
}

#[test]
fn every_pattern_of_two_letters_of_length_1_to_16_and_the_dearest_of_each_length() {
    for m in 1..=16 {
        let dearest = words(b"ab", m).iter().map(|word| check_cost(word)).max();
        assert_eq!(dearest, Some(most(m)), "{m}");
    }
}

#[test]
fn one_letter_costs_one_less_than_its_length() {
    for m in 1..=LONGEST_PATTERN {
        assert_eq!(check_cost(&repeated(b"a", m)), m as u32 - 1);
    }
}

#[test]
fn one_letter_with_another_at_its_end_costs_the_most() {
    for m in 2..=LONGEST_PATTERN {
        let word = changed(&repeated(b"a", m), m - 1, b'b');
        assert_eq!(check_cost(&word), most(m));
    }
}

#[test]
fn random_words_over_small_and_large_alphabets() {
    let mut random = Random::new(231);
    let all_but_0: Vec<u8> = (1..=255).collect();
    for m in 1..=LONGEST_PATTERN {
        for letters in [1, 2, 3, 4, 26, 255] {
            for _ in 0..10 {
                check_cost(&random.word(&all_but_0[..letters], m));
            }
        }
    }
}

#[test]
fn powers_of_random_words_whole_and_with_one_byte_changed() {
    let mut random = Random::new(232);
    for m in 1..=LONGEST_PATTERN {
        for root_len in (1..=12).chain([m / 3 + 1, m / 2 + 1]) {
            let root = random.word(b"ab", root_len);
            let power = repeated(&root, m);
            check_cost(&power);
            for place in [0, m / 2, m - 1, random.below(m)] {
                let byte = random.word(b"abc", 1)[0];
                check_cost(&changed(&power, place, byte));
            }
        }
    }
}

#[test]
fn fibonacci_words_whole_and_with_one_byte_changed() {
    for m in 1..=LONGEST_PATTERN {
        let word = fibonacci(m);
        check_cost(&word);
        for place in [m / 2, m - 1] {
            for byte in *b"abc" {
                check_cost(&changed(&word, place, byte));
            }
        }
    }
}

#[test]
fn the_number_does_not_depend_on_the_scratch() {
    let mut random = Random::new(233);
    for m in [1, 2, 3, 16, 64, 255, 256] {
        for bytes in [
            repeated(b"a", m),
            repeated(b"aabaab", m),
            fibonacci(m),
            random.word(b"ab", m),
        ] {
            let compared = check_cost(&bytes);
            for len in [SCRATCH, FORMER_SCRATCH] {
                // Zeros, any numbers, and such as could stand in a table.
                let junk = (0..len).map(|_| random.number() as u16).collect();
                let entries = (0..len).map(|_| random.below(m + 1) as u16).collect();
                for mut scratch in [vec![0; len], junk, entries] {
                    let again = poqewan::prepare(&bytes, &identity(), &mut scratch);
                    assert_eq!(again.map(|p| p.compared), Ok(compared), "{m}, {len}");
                }
            }
        }
    }
}
