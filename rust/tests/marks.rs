//! Request C-15: the number of noholes below a place comes from the marks. Counted there bit by bit,
//! it is that of the definition at every place from 0 to 256, and every next rank is such a number.

mod common;
mod oracle;

use common::{prepared, repeated, words, Random};
use oracle::Tables;

/// Lengths around the words of the marks.
const LENGTHS: [usize; 15] = [
    1, 2, 62, 63, 64, 65, 127, 128, 129, 191, 192, 193, 254, 255, 256,
];

fn check_marks(bytes: &[u8]) {
    let m = bytes.len();
    let pattern = prepared(bytes);
    let tables = Tables::of(bytes, &oracle::identity());
    let case = bytes.escape_ascii();
    for p in 0..=256 {
        let below = (0..p.min(m)).filter(|&q| tables.kmin[q].is_some()).count();
        assert_eq!(
            oracle::marked_below(&pattern.marks, p),
            below,
            "{case}, {p}"
        );
    }
    for (i, &next) in pattern.next[..=m].iter().enumerate() {
        let shift = usize::from(pattern.shift[i]);
        let from = if i < pattern.noholes {
            usize::from(pattern.order[i])
        } else {
            m
        };
        let below = oracle::marked_below(&pattern.marks, from - shift);
        assert_eq!(usize::from(next), below, "{case}, rank {i}");
    }
}

#[test]
fn every_pattern_of_two_letters_of_length_1_to_11() {
    for len in 1..=11 {
        words(b"ab", len).iter().for_each(|word| check_marks(word));
    }
}

/// No place is marked; the last one only; every one but place 0, which never is.
#[test]
fn extreme_marks() {
    for m in LENGTHS {
        let marks = |bytes: &[u8]| {
            check_marks(bytes);
            prepared(bytes).marks
        };
        let places = |from: usize| {
            let mut marks = [0; 4];
            (from..m).for_each(|p| marks[p / 64] |= 1 << (p % 64));
            marks
        };
        assert_eq!(marks(&repeated(b"a", m)), [0; 4], "{m}");

        let mut last_differs = repeated(b"a", m);
        last_differs[m - 1] = b'b';
        let last = if m == 1 { m } else { m - 1 };
        assert_eq!(marks(&last_differs), places(last), "{m}");

        let mut first_differs = repeated(b"b", m);
        first_differs[0] = b'a';
        assert_eq!(marks(&first_differs), places(1), "{m}");
    }
}

#[test]
fn random_patterns() {
    let mut random = Random::new(151);
    for m in LENGTHS {
        for letters in [&b"ab"[..], b"aaab", b"abcd", b"abcdefghijklmnopqrstuvwxyz"] {
            for _ in 0..20 {
                check_marks(&random.word(letters, m));
            }
        }
    }
}

#[test]
fn powers_of_random_words() {
    let mut random = Random::new(152);
    for m in LENGTHS {
        for len in 1..=12 {
            let word = random.word(b"ab", len);
            check_marks(&repeated(&word, m));
        }
    }
}
