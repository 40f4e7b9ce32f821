//! Every refusal: preparation at its edges, and values of a pattern that preparation does not give.

mod common;
mod oracle;

use common::{assert_refused, changed, check_value, prepared, repeated, words, Random};
use oracle::{identity, Tables, CLASSES, FORMER_SCRATCH, LONGEST_PATTERN, SCRATCH};
use poqewan::{Pattern, Refusal};

/// Prepares a pattern with each value its own class, and checks all. Gives the refusal, if any.
fn check_preparation(bytes: &[u8], scratch_len: usize) -> Option<Refusal> {
    common::check_preparation(bytes, &identity(), scratch_len)
}

#[test]
fn preparation_refuses_in_order_and_leaves_the_scratch_as_promised() {
    let mut random = Random::new(31);
    let longest = LONGEST_PATTERN;
    for pattern_len in [0, 1, 2, longest - 1, longest, longest + 1, 512, 10_000] {
        for scratch_len in [0, 1, SCRATCH - 1, SCRATCH, SCRATCH + 1, 1_000, 5_000] {
            check_preparation(&random.word(b"ab", pattern_len), scratch_len);
            check_preparation(&repeated(b"a", pattern_len), scratch_len);
            check_preparation(&repeated(b"ab\0", pattern_len), scratch_len);
        }
    }
}

/// Patterns of one byte and of the most: of one letter, with a short period, and random.
fn shortest_and_longest() -> [Vec<u8>; 4] {
    let longest = LONGEST_PATTERN;
    [
        b"a".to_vec(),
        repeated(b"a", longest),
        repeated(b"aab", longest),
        Random::new(38).word(b"ab", longest),
    ]
}

#[test]
fn a_scratch_at_its_edges() {
    for bytes in shortest_and_longest() {
        let refusal = check_preparation(&bytes, SCRATCH - 1);
        assert_eq!(refusal, Some(Refusal::ShortScratch));
        for scratch_len in [SCRATCH, SCRATCH + 1, FORMER_SCRATCH] {
            assert_eq!(check_preparation(&bytes, scratch_len), None);
        }
    }
}

#[test]
fn a_scratch_of_every_length() {
    for bytes in shortest_and_longest() {
        for scratch_len in 0..=FORMER_SCRATCH + 1 {
            check_preparation(&bytes, scratch_len);
        }
    }
}

#[test]
fn a_scratch_of_771_keeps_its_last_257_numbers() {
    for bytes in shortest_and_longest() {
        let mut scratch = [0xA5A5; FORMER_SCRATCH];
        assert!(poqewan::prepare(&bytes, &identity(), &mut scratch).is_ok());
        assert_eq!(scratch[..SCRATCH], [0; SCRATCH]);
        assert_eq!(scratch[SCRATCH..], [0xA5A5; LONGEST_PATTERN + 1]);
    }
}

#[test]
fn a_byte_0_is_refused_at_every_place() {
    let mut random = Random::new(37);
    for len in [1, 2, 3, 4, 15, 16, 17, 31, 32, 33, 63, 64, 65, 255, 256] {
        let word = random.word(b"ab\x01\xFF", len);
        assert_eq!(check_preparation(&word, SCRATCH), None);
        for place in 0..len {
            let word = changed(&word, place, 0);
            let refusal = check_preparation(&word, SCRATCH);
            assert_eq!(refusal, Some(Refusal::ZeroInPattern), "{len}, {place}");
        }
    }
    let refusal = check_preparation(&[0; LONGEST_PATTERN], SCRATCH);
    assert_eq!(refusal, Some(Refusal::ZeroInPattern));
}

#[test]
fn a_byte_0_is_refused_after_a_long_pattern_and_before_a_short_scratch() {
    for place in [0, 128, 255, 256] {
        let word = changed(&[b'a'; LONGEST_PATTERN + 1], place, 0);
        for scratch_len in [SCRATCH - 1, SCRATCH] {
            let refusal = check_preparation(&word, scratch_len);
            assert_eq!(refusal, Some(Refusal::LongPattern));
        }
    }
    for place in [0, 128, 255] {
        let word = changed(&[b'a'; LONGEST_PATTERN], place, 0);
        for scratch_len in [0, SCRATCH - 1] {
            let refusal = check_preparation(&word, scratch_len);
            assert_eq!(refusal, Some(Refusal::ZeroInPattern));
        }
    }
}

/// The tables are those that the definitions give, and the value is false by its bytes alone.
#[test]
fn a_value_over_bytes_that_hold_0_is_false() {
    for word in [
        &b"\0"[..],
        b"\0\0\0",
        b"\0ba",
        b"a\0a",
        b"ab\0",
        b"aa\0aa",
        &changed(&[b'a'; 256], 255, 0),
        &changed(&repeated(b"ab", 256), 0, 0),
    ] {
        let value = Tables::of(word, &identity()).pattern();
        assert_refused(&value, b"", Refusal::FalsePattern);
        assert_refused(&value, word, Refusal::FalsePattern);
    }

    // aba's tables are those of any word of that shape.
    let mut value = prepared(b"aba");
    value.bytes[1] = b'c';
    assert!(check_value(&value));
    value.bytes[1] = 0;
    assert_refused(&value, b"a\0a", Refusal::FalsePattern);
}

#[test]
fn a_byte_0_past_the_length_is_no_matter() {
    for len in [1, 2, 64, 255] {
        let pattern = prepared(&repeated(b"ab", len));
        assert_eq!(pattern.bytes[len], 0);
        assert!(check_value(&pattern));
    }
}

#[test]
fn the_constants_are_the_edges() {
    assert_eq!(poqewan::LONGEST_PATTERN, LONGEST_PATTERN);
    assert_eq!(poqewan::CLASSES, CLASSES);
    assert_eq!(poqewan::SCRATCH, SCRATCH);
    let longest = [b'a'; LONGEST_PATTERN + 1];
    let classes = identity();
    let mut scratch = [0; SCRATCH];
    assert!(poqewan::prepare(&longest[1..], &classes, &mut scratch).is_ok());
    assert_eq!(
        poqewan::prepare(&longest, &classes, &mut scratch),
        Err(Refusal::LongPattern)
    );
    assert_eq!(
        poqewan::prepare(b"a", &classes[1..], &mut scratch),
        Err(Refusal::ClassesNot256)
    );
    assert_eq!(
        poqewan::prepare(b"a", &classes, &mut scratch[1..]),
        Err(Refusal::ShortScratch)
    );
}

/// Checks a value with each field, each entry of a field and each mark changed in turn. A changed
/// byte or class can give another true pattern.
fn check_each_change(bytes: &[u8]) {
    let pattern = prepared(bytes);
    assert!(check_value(&pattern));

    let m = bytes.len();
    let most = LONGEST_PATTERN;
    for len in [0, 1, m - 1, m + 1, 2 * m, most, most + 1, usize::MAX] {
        check_value(&Pattern { len, ..pattern });
    }
    let d = pattern.noholes;
    for noholes in [
        0,
        1,
        d.wrapping_sub(1),
        d + 1,
        m,
        most,
        most + 1,
        usize::MAX,
    ] {
        check_value(&Pattern { noholes, ..pattern });
    }
    check_each_entry(&pattern, u8::MAX, |pattern| &mut pattern.bytes);
    check_each_entry(&pattern, u8::MAX, |pattern| &mut pattern.classes);
    check_each_entry(&pattern, u8::MAX, |pattern| &mut pattern.order);
    check_each_entry(&pattern, u16::MAX, |pattern| &mut pattern.shift);
    check_each_entry(&pattern, u16::MAX, |pattern| &mut pattern.next);
    for place in 0..256 {
        let mut changed = pattern;
        changed.marks[place / 64] ^= 1 << (place % 64);
        check_value(&changed);
    }
}

/// Checks a value with each entry of a field changed in turn, to several numbers up to `max`.
fn check_each_entry<T>(pattern: &Pattern, max: T, field: impl Fn(&mut Pattern) -> &mut [T])
where
    T: Copy + Into<u64> + TryFrom<u64>,
{
    let mut changed = *pattern;
    for at in 0..field(&mut changed).len() {
        let entry = field(&mut changed)[at];
        for number in other_numbers(entry.into(), max.into()) {
            let number = T::try_from(number).ok().expect("no number is above max");
            field(&mut changed)[at] = number;
            check_value(&changed);
        }
        field(&mut changed)[at] = entry;
    }
}

/// The neighbours of a number, it with its highest bit changed, and the ends of its range.
fn other_numbers(number: u64, max: u64) -> impl Iterator<Item = u64> {
    [
        number.wrapping_add(1) & max,
        number.wrapping_sub(1) & max,
        number ^ (max / 2 + 1),
        0,
        max,
    ]
    .into_iter()
    .filter(move |&other| other != number)
}

#[test]
fn each_change_of_short_patterns() {
    for bytes in [
        &b"a"[..],
        b"\x01",
        b"aa",
        b"ab",
        b"aba",
        b"ab\x01",
        b"\x01\x01\x01",
        b"aabaa",
        b"aabaabaa",
        b"abaababa",
    ] {
        check_each_change(bytes);
    }
}

/// aacaa has the tables that document 01 gives for aabaa.
#[test]
fn a_changed_byte_that_gives_another_true_pattern() {
    let mut changed = prepared(b"aabaa");
    changed.bytes[2] = b'c';
    assert_eq!(changed, Tables::of(b"aacaa", &identity()).pattern());
    assert!(check_value(&changed));
}

#[test]
fn each_change_of_patterns_of_64_bytes() {
    check_each_change(&repeated(b"aab", 64));
    check_each_change(&Random::new(32).word(b"ab", 64));
}

#[test]
fn each_change_of_patterns_of_255_bytes() {
    check_each_change(&repeated(b"a", 255));
    check_each_change(&Random::new(33).word(b"ab", 255));
}

#[test]
fn each_change_of_patterns_of_256_bytes() {
    check_each_change(&repeated(b"aabaab", 256));
    let marked = Random::new(34).word(b"ab", 256);
    let marks = Tables::of(&marked, &identity()).pattern().marks;
    assert!(!marks.contains(&0), "marks in all four words");
    check_each_change(&marked);
}

#[test]
fn the_tables_of_one_pattern_with_the_bytes_of_another() {
    let patterns: Vec<_> = (1..=5)
        .flat_map(|len| words(b"ab", len))
        .map(|bytes| prepared(&bytes))
        .collect();
    for one in &patterns {
        for other in &patterns {
            check_value(&Pattern {
                bytes: other.bytes,
                ..*one
            });
            check_value(&Pattern {
                bytes: other.bytes,
                len: other.len,
                ..*one
            });
        }
    }
}

#[test]
fn a_value_of_all_zeros() {
    assert_refused(&oracle::ZERO, b"abc", Refusal::FalsePattern);
    assert_refused(&oracle::ZERO, b"", Refusal::FalsePattern);
}

#[test]
fn values_of_random_junk() {
    let mut random = Random::new(35);
    for round in 0..2_000 {
        let mut junk = Pattern {
            len: random.number() as usize,
            noholes: random.number() as usize,
            bytes: [(); LONGEST_PATTERN].map(|()| random.number() as u8),
            classes: [(); CLASSES].map(|()| random.number() as u8),
            order: [(); LONGEST_PATTERN].map(|()| random.number() as u8),
            shift: [(); LONGEST_PATTERN + 1].map(|()| random.number() as u16),
            next: [(); LONGEST_PATTERN + 1].map(|()| random.number() as u16),
            marks: [(); 4].map(|()| random.number()),
        };
        // Half of the values have a length and a number of noholes that could be.
        if round % 2 == 0 {
            junk.len %= LONGEST_PATTERN + 1;
            junk.noholes %= LONGEST_PATTERN;
        }
        check_value(&junk);
    }
}

#[test]
fn true_patterns_with_several_entries_changed() {
    let mut random = Random::new(36);
    for _ in 0..2_000 {
        let len = random.below(40) + 1;
        let mut changed = prepared(&random.word(b"ab", len));
        for _ in 0..=random.below(3) {
            match random.below(5) {
                0 => changed.bytes[random.below(len)] ^= 3,
                1 => changed.classes[usize::from(b'a') + random.below(4)] ^= 3,
                2 => changed.order.swap(random.below(len), random.below(len)),
                3 => changed.shift.swap(random.below(len), random.below(len)),
                _ => changed.next[random.below(len)] ^= 1,
            }
        }
        check_value(&changed);
    }
}
