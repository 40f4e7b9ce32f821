//! Request C-19's refusals: 14, 15 and their place among the others; and patterns that are false by
//! their classes.

mod common;
mod oracle;

use common::classes::{
    directions, joined, letters, one_but_0, shuffled, with_classes, Classes, Drawn,
};
use common::{
    assert_refused, check_preparation, check_value, preparation, prepared, repeated, words, Random,
    Trial,
};
use oracle::{identity, Tables, CLASSES, LONGEST_PATTERN, SCRATCH};
use poqewan::Refusal;

/// Refusal 14: at no class, and about 256.
#[test]
fn other_numbers_of_classes_than_256_are_refused() {
    for bytes in [&b"a"[..], b"aba", b"\xFF", &[b'a'; LONGEST_PATTERN]] {
        for entries in [
            0, 1, 2, 128, 254, 255, 257, 258, 511, 512, 513, 1_000, 65_792,
        ] {
            // Each value its own class as far as they go; and one class for all but 0.
            let counted: Vec<u8> = (0..entries).map(|v| v as u8).collect();
            let two = (0..entries).map(|v| u8::from(v > 0)).collect();
            for classes in [counted, two] {
                let refusal = check_preparation(bytes, &classes, SCRATCH);
                assert_eq!(refusal, Some(Refusal::ClassesNot256), "{entries}");
            }
        }
        assert_eq!(check_preparation(bytes, &identity(), SCRATCH), None);
        assert_eq!(check_preparation(bytes, &one_but_0(), SCRATCH), None);
    }
}

/// Refusal 15: each value with the class of 0, and 0 with the class of each value.
#[test]
fn a_value_that_shares_the_class_of_0_is_refused() {
    let mut random = Random::new(194);
    for value in 1..=255 {
        let own = shuffled(&mut random);
        let shares = |mut classes: Classes| {
            classes[usize::from(value)] = classes[0];
            classes
        };
        for classes in [joined(value, 0), joined(0, value), shares(own)] {
            for bytes in [&[value][..], &[if value == 1 { 2 } else { 1 }], b"aba"] {
                let refusal = check_preparation(bytes, &classes, SCRATCH);
                assert_eq!(refusal, Some(Refusal::ZeroClassShared), "{value}");
            }
        }
        assert_eq!(check_preparation(&[value], &own, SCRATCH), None);
    }
    // One class for all; and directions whose first has 0 among its levels.
    for classes in [[0; CLASSES], [7; CLASSES], identity().map(|v| v / 16)] {
        let refusal = check_preparation(b"aba", &classes, SCRATCH);
        assert_eq!(refusal, Some(Refusal::ZeroClassShared));
    }
}

/// No other class is special: neither 0 where another value has it, nor any that several share.
#[test]
fn a_class_that_0_does_not_share_is_accepted() {
    for value in 1..=255 {
        // 0 and the value change places.
        let mut swapped = identity();
        swapped.swap(0, usize::from(value));
        let joined_to_it = identity().map(|v| if v == 0 { 0 } else { value });
        for classes in [swapped, joined_to_it] {
            assert_eq!(check_preparation(&[value], &classes, SCRATCH), None);
            let mut trial = Trial::with_classes(&[value, 1, value], &classes);
            trial.check_to_the_end(&[value, 1, value, 0, 255, value, 1, value, 0]);
        }
    }
}

/// The tests in their order, 1, 2, 10, 14, 15 and 3: where two apply, the first is given.
#[test]
fn preparation_tests_the_classes_after_10_and_before_3() {
    use Refusal::{
        ClassesNot256, LongPattern, NoPattern, ShortScratch, ZeroClassShared, ZeroInPattern,
    };
    let (empty, long) = (&b""[..], &[b'a'; LONGEST_PATTERN + 1][..]);
    let (zero, good) = (&b"a\0a"[..], &b"aba"[..]);
    let own = identity();
    // Of a class shared with 0 alone, and of another number as well.
    let shared = joined(255, 0);
    let (fewer, more) = (&own[1..], &[own, own].concat()[..]);
    let (fewer_shared, more_shared) = (&[0; CLASSES - 1][..], &[0; CLASSES + 1][..]);
    let (short, enough) = (SCRATCH - 1, SCRATCH);

    for (bytes, classes, scratch_len, first) in [
        (empty, fewer, enough, Some(NoPattern)),
        (empty, more, enough, Some(NoPattern)),
        (empty, &shared, enough, Some(NoPattern)),
        (long, fewer, enough, Some(LongPattern)),
        (long, more, enough, Some(LongPattern)),
        (long, &shared, enough, Some(LongPattern)),
        (zero, fewer, enough, Some(ZeroInPattern)),
        (zero, more, enough, Some(ZeroInPattern)),
        (zero, &shared, enough, Some(ZeroInPattern)),
        (good, fewer_shared, enough, Some(ClassesNot256)),
        (good, more_shared, enough, Some(ClassesNot256)),
        (good, fewer, short, Some(ClassesNot256)),
        (good, more, short, Some(ClassesNot256)),
        (good, fewer_shared, 0, Some(ClassesNot256)),
        (good, &shared, short, Some(ZeroClassShared)),
        (good, &shared, 0, Some(ZeroClassShared)),
        (good, &own, short, Some(ShortScratch)),
        (good, &own, enough, None),
    ] {
        assert_eq!(check_preparation(bytes, classes, scratch_len), first);
    }

    // All together, as the oracle has it.
    for bytes in [empty, long, zero, good, &[0; LONGEST_PATTERN + 1]] {
        for classes in [
            &own[..],
            &shared,
            &[],
            fewer,
            more,
            fewer_shared,
            more_shared,
        ] {
            for scratch_len in [0, short, enough, 1_000] {
                check_preparation(bytes, classes, scratch_len);
            }
        }
    }
}

/// Checks a value with each class changed in turn, to several others. Gives how many of the changed
/// values are true, and how many false.
fn check_each_class(bytes: &[u8], classes: &Classes, random: &mut Random) -> [usize; 2] {
    let pattern = preparation(bytes, classes).pattern;
    let text = [bytes, &identity(), bytes, bytes].concat();
    let mut found = [0; 2];
    for value in 0..CLASSES {
        let class = classes[value];
        let of_the_pattern = classes[usize::from(bytes[random.below(bytes.len())])];
        for other in [
            class.wrapping_add(1),
            class.wrapping_sub(1),
            class ^ 0x80,
            classes[0],
            of_the_pattern,
            random.number() as u8,
        ] {
            if other == class {
                continue;
            }
            let mut changed = *classes;
            changed[value] = other;
            let is_true = check_value(&with_classes(&pattern, changed));
            if is_true {
                Trial::with_classes(bytes, &changed).check_to_the_end(&text);
            }
            found[usize::from(!is_true)] += 1;
        }
    }
    found
}

#[test]
fn a_pattern_with_one_class_changed_is_true_only_if_preparation_gives_it() {
    let mut random = Random::new(195);
    let long = random.word(b"aAbB\x01\xFF", 64);
    for bytes in [
        &b"a"[..],
        b"ab",
        b"aBa",
        b"abAB",
        b"\x12\x25\x1F",
        b"aAbAabbA",
        &long,
        &repeated(b"aAbaaB", LONGEST_PATTERN),
    ] {
        let drawn = Drawn::of(16, false, &mut random).classes;
        for classes in [identity(), letters(), directions(), drawn] {
            let [of_true, of_false] = check_each_class(bytes, &classes, &mut random);
            assert!(of_true > 0 && of_false > 0, "{of_true}, {of_false}");
        }
    }
}

/// The tables are those that the definitions give, and the value is false by its classes alone.
#[test]
fn a_value_whose_classes_share_that_of_0_is_false() {
    for bytes in [&b"a"[..], b"aba", b"\x01\xFF", &[b'a'; LONGEST_PATTERN]] {
        for value in 1..=255 {
            for classes in [joined(value, 0), joined(0, value)] {
                let value = Tables::of(bytes, &classes).pattern();
                assert_refused(&value, b"", Refusal::FalsePattern);
                assert_refused(&value, bytes, Refusal::FalsePattern);
            }
        }
        let value = with_classes(&prepared(bytes), [0; CLASSES]);
        assert_refused(&value, bytes, Refusal::FalsePattern);
    }
}

/// The tables of a word by some classes, with other classes in their place.
#[test]
fn the_tables_by_some_classes_with_others() {
    let mut random = Random::new(196);
    let drawn = [2, 3, 16, 255].map(|number| Drawn::of(number, false, &mut random).classes);
    let all: Vec<_> = [
        identity(),
        letters(),
        directions(),
        one_but_0(),
        joined(b'c', b'b'),
    ]
    .into_iter()
    .chain(drawn)
    .collect();
    let mut found = [0; 2];
    for bytes in (1..=4).flat_map(|len| words(b"abBc", len)) {
        for one in &all {
            let pattern = preparation(&bytes, one).pattern;
            for &other in &all {
                let is_true = check_value(&with_classes(&pattern, other));
                assert!(is_true || *one != other);
                found[usize::from(!is_true)] += 1;
            }
        }
    }
    assert!(found[0] > 0 && found[1] > 0, "{found:?}");
}
