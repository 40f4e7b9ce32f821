//! Request C-22: one byte corrected, and the list brought up to date by the windows that cover the place.
//! Refusals, lists that are too short and the longest texts stand in `refused_lists.rs`.

mod common;
mod oracle;

use common::classes::{c_in_b, in_disguise, letters, one_but_0, Classes, Drawn};
use common::corrections::{drawn_list, Corrections};
use common::journals::Lent;
use common::{
    changed, families, fibonacci, repeated, words_of_lengths, Random, Trial, OVERLAPPING,
};
use oracle::corrections::looked_at;
use oracle::{identity, LONGEST_PATTERN};
use poqewan::{correct, Refusal};

/// A pattern by its classes in a text that was corrected at a place, and the list's entries in use,
/// before and after.
struct Worked {
    classes: fn() -> Classes,
    pattern: &'static [u8],
    text: &'static [u8],
    place: usize,
    before: &'static [u32],
    after: &'static [u32],
}

const fn worked(
    classes: fn() -> Classes,
    pattern: &'static [u8],
    (text, place): (&'static [u8], usize),
    before: &'static [u32],
    after: &'static [u32],
) -> Worked {
    Worked {
        classes,
        pattern,
        text,
        place,
        before,
        after,
    }
}

/// The greatest place that can be said.
const LAST: usize = usize::MAX;

/// The greatest entry that can be held.
const MOST: u32 = u32::MAX;

/// Worked by hand.
#[rustfmt::skip]
const WORKED: [Worked; 78] = [
    // All three windows of ababa cover place 2.
    worked(identity, b"aba", (b"abbba", 2), &[0, 2], &[]),
    worked(identity, b"aba", (b"ababa", 2), &[], &[0, 2]),
    worked(identity, b"aba", (b"ababa", 2), &[0, 2], &[0, 2]),
    // Places 0 and 4 are covered by one window, and places 1 and 3 by two.
    worked(identity, b"aba", (b"bbaba", 0), &[0, 2], &[2]),
    worked(identity, b"aba", (b"ababa", 0), &[2], &[0, 2]),
    worked(identity, b"aba", (b"aaaba", 1), &[0, 2], &[2]),
    worked(identity, b"aba", (b"ababa", 1), &[2], &[0, 2]),
    worked(identity, b"aba", (b"abaaa", 3), &[0, 2], &[0]),
    worked(identity, b"aba", (b"ababa", 3), &[0], &[0, 2]),
    worked(identity, b"aba", (b"ababb", 4), &[0, 2], &[0]),
    worked(identity, b"aba", (b"ababa", 4), &[0], &[0, 2]),
    // Places at and past the end change nothing, whether the list is right or wrong.
    worked(identity, b"aba", (b"ababa", 5), &[0, 2], &[0, 2]),
    worked(identity, b"aba", (b"ababa", 5), &[], &[]),
    worked(identity, b"aba", (b"ababa", 5), &[1], &[1]),
    worked(identity, b"aba", (b"ababa", 6), &[1, 4], &[1, 4]),
    worked(identity, b"aba", (b"ababa", LAST - 2), &[1, 3], &[1, 3]),
    worked(identity, b"aba", (b"ababa", LAST), &[0, 1, 2, 3, 4, 5], &[0, 1, 2, 3, 4, 5]),
    worked(identity, b"aba", (b"ababa", 1 << 32), &[1], &[1]),
    worked(identity, b"aba", (b"ababa", (1 << 32) + 2), &[1], &[1]),
    // One byte: one window.
    worked(identity, b"a", (b"aba", 1), &[0, 1, 2], &[0, 2]),
    worked(identity, b"a", (b"aaa", 1), &[0, 2], &[0, 1, 2]),
    worked(identity, b"a", (b"baa", 0), &[0, 1, 2], &[1, 2]),
    worked(identity, b"a", (b"aab", 2), &[0, 1, 2], &[0, 1]),
    worked(identity, b"a", (b"a", 0), &[], &[0]),
    worked(identity, b"a", (b"a", 0), &[0], &[0]),
    worked(identity, b"a", (b"b", 0), &[0], &[]),
    worked(identity, b"a", (b"b", 0), &[], &[]),
    worked(identity, b"a", (b"b", 1), &[0], &[0]),
    // No text, and shorter ones than the pattern: no window, so every entry is kept.
    worked(identity, b"a", (b"", 0), &[], &[]),
    worked(identity, b"a", (b"", 0), &[0], &[0]),
    worked(identity, b"aba", (b"", 0), &[7], &[7]),
    worked(identity, b"aba", (b"", LAST), &[0, MOST], &[0, MOST]),
    worked(identity, b"aba", (b"ab", 0), &[], &[]),
    worked(identity, b"aba", (b"ab", 0), &[0], &[0]),
    worked(identity, b"aba", (b"ab", 1), &[0, 1, 2], &[0, 1, 2]),
    // Of the pattern's length: one window, wherever the place is.
    worked(identity, b"aba", (b"aba", 0), &[], &[0]),
    worked(identity, b"aba", (b"aba", 1), &[], &[0]),
    worked(identity, b"aba", (b"aba", 2), &[], &[0]),
    worked(identity, b"aba", (b"aba", 3), &[], &[]),
    worked(identity, b"aba", (b"abb", 2), &[0], &[]),
    worked(identity, b"aba", (b"abb", 0), &[0], &[]),
    // 1 and 2 cover the place and are no windows: they would reach past the end.
    worked(identity, b"aba", (b"abb", 2), &[0, 1, 2], &[1, 2]),
    worked(identity, b"aba", (b"ababababa", 8), &[3, 7, 8], &[3, 6, 7, 8]),
    worked(identity, b"aba", (b"ababababa", 7), &[5, 6, 7, 9], &[6, 7, 9]),
    worked(identity, b"aba", (b"ababababa", 7), &[], &[6]),
    // Wrong entries become right where a window is looked at, and stay wrong elsewhere.
    worked(identity, b"aba", (b"ababababa", 4), &[1, 3, 5, 7], &[1, 2, 4, 5, 7]),
    worked(identity, b"aba", (b"ababababa", 4), &[0, 1, 2, 3, 4, 5, 6], &[0, 1, 2, 4, 5, 6]),
    worked(identity, b"aba", (b"ababababa", 4), &[], &[2, 4]),
    worked(identity, b"aba", (b"ababababa", 0), &[], &[0]),
    worked(identity, b"aba", (b"ababababa", 1), &[1, 2, 3], &[0, 2, 3]),
    // Entries past the text, up to the greatest number.
    worked(identity, b"aba", (b"ababa", 4), &[0, 5, MOST], &[0, 2, 5, MOST]),
    worked(identity, b"aba", (b"ababa", 2), &[MOST], &[0, 2, MOST]),
    worked(identity, b"aba", (b"abbba", 2), &[0, 2, MOST - 1, MOST], &[MOST - 1, MOST]),
    worked(identity, b"a", (b"b", 0), &[0, 0x7FFF_FFFF, 0x8000_0000], &[0x7FFF_FFFF, 0x8000_0000]),
    // All m windows come or go.
    worked(identity, b"aaa", (b"aaaaaaa", 3), &[], &[1, 2, 3]),
    worked(identity, b"aaa", (b"aaaaaaa", 3), &[0, 4], &[0, 1, 2, 3, 4]),
    worked(identity, b"aaa", (b"aaabaaa", 3), &[0, 1, 2, 3, 4], &[0, 4]),
    worked(identity, b"aaa", (b"aaaaaaa", 2), &[], &[0, 1, 2]),
    worked(identity, b"aaa", (b"aaaaaaa", 1), &[3], &[0, 1, 3]),
    worked(identity, b"aaa", (b"aaaaaaa", 6), &[0], &[0, 4]),
    worked(identity, b"aaa", (b"aaaaaaa", 4), &[2, 4], &[2, 3, 4]),
    worked(identity, b"aaa", (b"aabaaa", 2), &[0, 1, 2, 3], &[3]),
    // As many come as go, so the entries after them stay where they are.
    worked(identity, b"ab", (b"abb", 1), &[1], &[0]),
    worked(identity, b"ab", (b"aab", 1), &[0], &[1]),
    worked(identity, b"ab", (b"abbab", 1), &[1, 3], &[0, 3]),
    worked(identity, b"ab", (b"aabab", 1), &[0, 3], &[1, 3]),
    // No window that covers a byte 0 is listed.
    worked(identity, b"aba", (b"ab\0ba", 2), &[0, 2], &[]),
    worked(identity, b"aba", (b"ab\0aba", 2), &[0, 3], &[3]),
    worked(identity, b"aba", (b"ab\0aba", 0), &[3], &[3]),
    worked(identity, b"a", (b"\0", 0), &[0], &[]),
    // By classes: aBa is aba, bca is bba, abc is aaa; and bca with each value its own class.
    worked(letters, b"aBa", (b"AbABA", 2), &[], &[0, 2]),
    worked(letters, b"aBa", (b"AbBBA", 2), &[0, 2], &[]),
    worked(letters, b"aba", (b"abAba", 2), &[0, 2], &[0, 2]),
    worked(c_in_b, b"bca", (b"cabba", 3), &[], &[2]),
    worked(identity, b"bca", (b"cabba", 3), &[2], &[]),
    worked(one_but_0, b"abc", (b"xy\0zzz!", 4), &[], &[3, 4]),
    worked(one_but_0, b"abc", (b"xyzzzz!", 2), &[3, 4], &[0, 1, 2, 3, 4]),
    worked(one_but_0, b"abc", (b"xy\0zzz!", 2), &[0, 1, 2, 3, 4], &[3, 4]),
];

/// In a list that just has the entries, and in longer ones. What is past the new number is as it was,
/// also where it was in use.
#[test]
fn every_row_has_the_entries_worked_by_hand() {
    for worked in &WORKED {
        let [pattern, text] = [worked.pattern, worked.text].map(<[u8]>::escape_ascii);
        let case = format!("{pattern} in {text}, place {}", worked.place);
        let trial = Trial::with_classes(worked.pattern, &(worked.classes)());
        let [before, after] = [worked.before, worked.after];
        let enough = before.len().max(after.len());
        for list_len in [enough, enough + 1, enough + 9] {
            let mut list = Lent::beginning_with(list_len, before);
            let mut expected = list.clone();
            expected.entries_mut()[..after.len()].copy_from_slice(after);
            let (positions, used) = (list.entries_mut(), before.len());
            let answer = correct(trial.pattern(), worked.text, worked.place, positions, used);
            assert_eq!(answer, Ok(after.len()), "{case}, {before:?}");
            assert_eq!(list, expected, "{case}, {before:?}");
            let checked = trial.check_correct(worked.text, worked.place, list_len, before);
            assert_eq!(checked.as_deref(), Ok(after), "{case}, {before:?}");
        }
        for list_len in before.len()..after.len() {
            let refused = trial.check_correct(worked.text, worked.place, list_len, before);
            assert_eq!(refused, Err(Refusal::ShortList), "{case}, {before:?}");
        }
    }
}

/// Every correction of every text, with the list that was right before: it is then that of a new search.
/// With the empty list and with drawn ones, the windows that are looked at come out right.
#[test]
fn every_correction_of_every_text_of_up_to_7_letters() {
    let mut random = Random::new(341);
    for bytes in words_of_lengths(b"ab", 1, 3) {
        let trial = Trial::of(&bytes);
        for old in words_of_lengths(b"ab", 0, 7) {
            let n = old.len();
            let right = trial.listed(&old);
            for place in 0..=n + 1 {
                for letter in b"ab" {
                    let text = if place < n {
                        changed(&old, place, *letter)
                    } else {
                        old.clone()
                    };
                    let now = trial.check_right(&text, place, &right);
                    assert_eq!(trial.check_right(&old, place, &now), right);
                    for list in [vec![], drawn_list(n, 4, &mut random)] {
                        let list_len = list.len() + random.below(4);
                        let _ = trial.check_correct(&text, place, list_len, &list);
                    }
                }
            }
        }
    }
}

/// Every list that ascends up to just past the text's end, right or wrong, at every place, in a list that
/// is too short, one that just suffices and a longer one.
#[test]
fn every_list_for_every_text_of_up_to_5_letters() {
    for bytes in words_of_lengths(b"ab", 1, 3) {
        let trial = Trial::of(&bytes);
        for text in words_of_lengths(b"ab", 0, 5) {
            let n = text.len();
            for set in 0..1 << (n + 1) {
                let list: Vec<u32> = (0..=n as u32).filter(|b| set >> b & 1 == 1).collect();
                for place in 0..=n {
                    let spare = trial.check_correct(&text, place, n + 3, &list);
                    let now = spare.expect("the list is long enough").len();
                    for list_len in [now.wrapping_sub(1), now] {
                        if (list.len()..=n + 1).contains(&list_len) {
                            let answer = trial.check_correct(&text, place, list_len, &list);
                            assert_eq!(answer.is_ok(), list_len == now);
                        }
                    }
                }
            }
        }
    }
}

/// With and without classes that join two of the letters, and with bytes 0.
#[test]
fn every_correction_of_every_text_of_three_letters_and_0() {
    for classes in [identity(), c_in_b(), one_but_0()] {
        for bytes in words_of_lengths(b"abc", 1, 2) {
            let trial = Trial::with_classes(&bytes, &classes);
            for text in words_of_lengths(b"abc\0", 1, 4) {
                let right = trial.listed(&text);
                for place in 0..text.len() {
                    for letter in b"abc\0" {
                        trial.check_there_and_back(&text, &right, place, *letter);
                    }
                }
            }
        }
    }
}

/// The first and the last place of a text, those that the most windows cover, those just past the end,
/// and some that are far from it.
fn places(m: usize, n: usize) -> Vec<usize> {
    let mut places = vec![0, 1, m - 1, m, n / 2, n.wrapping_sub(m), n.wrapping_sub(1)];
    places.extend([n, n + 1, n + m, (1 << 32) + m - 1, 1 << 63]);
    places.extend([LAST - m, LAST - m + 1, LAST - 1, LAST]);
    places
}

/// Where n is less than m, a place just before the end is none, or far past it.
#[test]
fn places_at_the_edges() {
    let mut random = Random::new(342);
    for m in [1, 2, 3, 5, 64, 65, 255, 256] {
        for bytes in families(m, &mut random) {
            let trial = Trial::of(&bytes);
            for n in [0, 1, m - 1, m, m + 1, 2 * m - 1, 2 * m, 3 * m + 1] {
                let text = repeated(&bytes, n);
                let right = trial.listed(&text);
                let wrong = drawn_list(n, 6, &mut random);
                for place in places(m, n) {
                    trial.check_there_and_back(&text, &right, place, b'z');
                    trial.check_right(&text, place, &right);
                    for list in [&[][..], &wrong] {
                        let list_len = list.len() + random.below(m + 2);
                        let _ = trial.check_correct(&text, place, list_len, list);
                    }
                }
            }
        }
    }
}

/// A run is broken in its middle and mended: all m windows that cover the place go, and come. The list is
/// exactly full when they do. At the run's ends it is fewer.
#[test]
fn as_many_entries_go_and_come_as_the_pattern_has_bytes() {
    for m in 1..=LONGEST_PATTERN {
        let trial = Trial::of(&repeated(b"a", m));
        let n = 3 * m + 2;
        let run = repeated(b"a", n);
        let all: Vec<u32> = (0..=2 * m as u32 + 2).collect();
        for (place, covering) in [
            (0, 1),
            (m / 2, m / 2 + 1),
            (m - 1, m),
            (3 * m / 2, m),
            (n - m, m),
            (n - 1, 1),
        ] {
            let broken = trial.check_right(&changed(&run, place, b'b'), place, &all);
            assert_eq!(broken.len() + covering, all.len(), "{m}, {place}");
            let mended = trial.check_right(&run, place, &broken);
            assert_eq!(mended, all, "{m}, {place}");
        }
    }
}

/// Texts that end anywhere, with the bytes that would follow still behind them, and those that came
/// before still in front.
#[test]
fn every_beginning_and_every_end_of_a_text() {
    let mut random = Random::new(343);
    for (bytes, root) in OVERLAPPING {
        let trial = Trial::of(bytes);
        let m = bytes.len();
        let text = repeated(root, 4 * m);
        for part in (0..text.len()).flat_map(|cut| [&text[..cut], &text[cut..]]) {
            let n = part.len();
            let right = trial.listed(part);
            for place in [0, m - 1, n.wrapping_sub(m), n.wrapping_sub(1), n, n + 1] {
                trial.check_right(part, place, &right);
                let near_the_end = (0..=n as u32 + 2).skip((n + 1).saturating_sub(m));
                let wrong = drawn_list(n, 6, &mut random);
                for list in [near_the_end.collect(), wrong, vec![]] {
                    let now = trial.check_correct(part, place, list.len() + m, &list);
                    assert!(now.is_ok());
                }
            }
        }
    }
}

/// Makes corrections one after another, in one list that is kept up to date: after each it is that of a
/// new search. Gives how many entries came and went.
fn keep_up_to_date(
    trial: &Trial,
    text: &mut [u8],
    letters: &[u8],
    corrections: usize,
    random: &mut Random,
) -> usize {
    let right = trial.listed(text);
    let mut list = Lent::beginning_with(text.len() + 2, &right);
    let (mut used, mut moved) = (right.len(), 0);
    let mut made = Corrections::default();
    for _ in 0..corrections {
        let listed = &list.entries()[..used];
        let place = made.make(text, listed, trial.pattern().len, letters, random);
        let now = trial
            .check_correct_in(text, place, &mut list, used)
            .expect("the list is right, and has an entry for each position");
        assert!(list.entries()[..now] == trial.listed(text), "{place}");
        moved += now.abs_diff(used);
        used = now;
    }
    moved
}

#[test]
fn corrections_one_after_another_for_patterns_of_every_length() {
    let mut random = Random::new(344);
    let drawn = Drawn::new(identity());
    let mut moved = 0;
    for m in 1..=LONGEST_PATTERN {
        let families = families(m, &mut random);
        let bytes = &families[m % families.len()];
        let trial = Trial::of(bytes);
        let letters = [bytes, &b"ab\0"[..]].concat();
        for mut text in drawn.texts(bytes, &mut random) {
            moved += keep_up_to_date(&trial, &mut text, &letters, 15, &mut random);
        }
    }
    assert!(moved > 10_000, "{moved}");
}

#[test]
fn corrections_one_after_another_through_drawn_classes() {
    let mut random = Random::new(345);
    let mut moved = 0;
    for number in [2, 3, 4, 16, 100, 255, 256] {
        for len in [1, 2, 3, 8, 64, 65, 256] {
            let drawn = Drawn::of(number, len % 2 == 0, &mut random);
            for bytes in drawn.patterns(len, &mut random) {
                let trial = Trial::with_classes(&bytes, &drawn.classes);
                let letters = [&drawn.disguised(&bytes, &mut random)[..], b"\0", &bytes].concat();
                for mut text in drawn.texts(&bytes, &mut random) {
                    moved += keep_up_to_date(&trial, &mut text, &letters, 8, &mut random);
                }
            }
        }
    }
    assert!(moved > 5_000, "{moved}");
}

/// Powers of some thousand bytes: many entries in front of the place and behind it.
#[test]
fn corrections_one_after_another_in_damaged_powers() {
    let mut random = Random::new(346);
    let mut moved = 0;
    for round in 0..200 {
        let m = 1 + random.below(LONGEST_PATTERN);
        let root_len = 1 + random.below(12.min(m));
        let root = random.word(b"aab", root_len);
        let mut bytes = repeated(&root, m);
        if round % 4 == 0 {
            bytes[random.below(m)] = b'b';
        }
        let trial = Trial::of(&bytes);
        let n = m + random.below(4_000);
        let mut text = repeated(&root, n);
        for _ in 0..random.below(4) {
            text[random.below(n)] = b'b';
        }
        moved += keep_up_to_date(&trial, &mut text, b"aab\0", 20, &mut random);
    }
    assert!(moved > 10_000, "{moved}");
}

/// In texts of more than a million bytes. What the whole list then holds follows from a new search, and
/// from what it held before.
#[test]
fn corrections_one_after_another_in_long_texts() {
    let mut random = Random::new(347);
    let n = 1_000_000;
    let word = random.word(b"ab", 20);
    let any = random.word(&identity()[1..], 256);
    for (bytes, mut text, letters) in [
        (b"a".to_vec(), repeated(b"a", n), &b"ab"[..]),
        (repeated(b"ab", 256), repeated(b"ab", n + 1), b"ab\0"),
        (fibonacci(34), fibonacci(n + 7), b"ab"),
        (word.clone(), random.word(b"ab", n + 64), &word),
        (any.clone(), repeated(&any, n + 255), &any),
    ] {
        let trial = Trial::of(&bytes);
        let right = trial.listed(&text);
        let mut list = Lent::beginning_with(text.len(), &right);
        let mut used = right.len();
        let mut made = Corrections::default();
        let mut moved = 0;
        for _ in 0..30 {
            let listed = &list.entries()[..used];
            let place = made.make(&mut text, listed, bytes.len(), letters, &mut random);
            let mut expected = list.clone();
            let listed = trial.listed(&text);
            expected.entries_mut()[..listed.len()].copy_from_slice(&listed);
            let answer = correct(trial.pattern(), &text, place, list.entries_mut(), used);
            assert_eq!(answer, Ok(listed.len()), "place {place}");
            assert!(list == expected, "place {place}");
            moved += used.abs_diff(listed.len());
            used = listed.len();
        }
        assert!(moved > 0);
    }
}

/// Whatever the list held, it is right where a window is looked at and as it was elsewhere.
#[test]
fn wrong_lists_become_right_at_the_windows_looked_at_alone() {
    let mut random = Random::new(348);
    let mut wrong = [0; 2];
    for round in 0..4_000 {
        let m = [1, 2, 3, 5, 8, 30, 64, 256][round % 8];
        let bytes = families(m, &mut random).swap_remove(round / 8 % 12);
        let trial = Trial::of(&bytes);
        let n = random.below(4 * m + 20);
        let mut text = repeated(&bytes, n);
        if n > 0 && round % 3 == 0 {
            text[random.below(n)] = b'b';
        }
        let place = random.below(n + 2);
        let list = drawn_list(n, 3 + n / 2, &mut random);
        let after = trial
            .check_correct(&text, place, list.len() + m, &list)
            .expect("there is an entry for each window that covers the place");

        let listed = trial.listed(&text);
        let is_looked_at = |b: &&u32| looked_at(**b as usize, m, n, place);
        let [before, now, right] = [&list, &after, &listed].map(|list| {
            let (inside, outside): (Vec<u32>, Vec<u32>) = list.iter().partition(is_looked_at);
            [inside, outside]
        });
        assert_eq!(now, [right[0].clone(), before[1].clone()]);
        wrong[0] += usize::from(before[0] != right[0]);
        wrong[1] += usize::from(before[1] != right[1]);
    }
    assert!(wrong.iter().all(|&lists| lists > 1_000), "{wrong:?}");
}

/// The classes decide and not the bytes: a pattern and a text in disguise have the same entries. A byte
/// that is corrected to one of its own class moves none.
#[test]
fn a_disguise_changes_nothing() {
    in_disguise(349, |drawn, bytes, [trial, other], random| {
        for text in drawn.texts(bytes, random) {
            let right = trial.listed(&text);
            let place = random.below(text.len());
            let byte = bytes[random.below(bytes.len())];
            let there = changed(&text, place, byte);
            let now = trial.check_right(&there, place, &right);
            let disguised = drawn.disguised(&there, random);
            assert_eq!(other.check_right(&disguised, place, &right), now);

            let fellow = drawn.disguised(&text[place..=place], random)[0];
            let same = trial.check_right(&changed(&text, place, fellow), place, &right);
            assert_eq!(same, right);
        }
    });
}

/// Where the byte becomes 0, no window that covers it is listed any more, and all others stay.
#[test]
fn no_listed_window_covers_a_byte_0() {
    for m in [1, 2, 3, 64, 256] {
        for bytes in [repeated(b"a", m), repeated(b"aab", m), fibonacci(m)] {
            let trial = Trial::of(&bytes);
            let n = 2 * m + 5;
            let text = repeated(&bytes, n);
            let right = trial.listed(&text);
            for place in 0..n {
                let zeroed = changed(&text, place, 0);
                let now = trial.check_right(&zeroed, place, &right);
                let apart = |b: usize| place < b || b + m <= place;
                let stay = right.iter().copied().filter(|&b| apart(b as usize));
                assert_eq!(now, stay.collect::<Vec<_>>());
                assert_eq!(trial.check_right(&text, place, &now), right);

                // Wrong entries are no exception: only such stay as are no windows.
                let all: Vec<u32> = (0..n as u32).collect();
                let now = trial
                    .check_correct(&zeroed, place, n, &all)
                    .expect("no entry comes that was not there");
                let stays = |b: usize| apart(b) || b + m > n;
                assert!(now.iter().all(|&b| stays(b as usize)));
                let stay = (0..n).filter(|&b| stays(b));
                assert_eq!(now.len(), stay.count());
            }
        }
    }
}

/// Entries past the new number keep whatever they held: true positions as well, and others of the same.
#[test]
fn what_the_entries_to_spare_held_is_no_matter() {
    for bytes in [&b"a"[..], b"aba", b"aabaa", &repeated(b"ab", 256)] {
        let trial = Trial::of(bytes);
        let m = bytes.len();
        let text = repeated(bytes, 5 * m + 1);
        let right = trial.listed(&text);
        for held in [0, 1, m as u32, right[right.len() - 1], MOST] {
            for spare in [0, 1, m, 300] {
                let mut list = right.clone();
                list.resize(right.len() + spare, held);
                let place = 2 * m;
                let broken = changed(&text, place, 0);
                let now = trial.listed(&broken);
                let answer = correct(trial.pattern(), &broken, place, &mut list, right.len());
                assert_eq!(answer, Ok(now.len()));
                assert_eq!(list[..now.len()], now);
                assert_eq!(
                    list[now.len()..right.len()],
                    right[now.len()..],
                    "what went out of use"
                );
                assert!(list[right.len()..].iter().all(|&entry| entry == held));

                let answer = correct(trial.pattern(), &text, place, &mut list, now.len());
                assert_eq!(answer, Ok(right.len()));
                assert_eq!(list[..right.len()], right);
                assert!(list[right.len()..].iter().all(|&entry| entry == held));
            }
        }
    }
}

/// The pattern that is given stays as it is, and so does the text; and a call leaves no trace.
#[test]
fn two_calls_answer_the_same() {
    let mut random = Random::new(350);
    for m in [1, 5, 64, 256] {
        let trial = Trial::of(&fibonacci(m));
        let (pattern, text) = (*trial.pattern(), fibonacci(3 * m));
        let lent = text.clone();
        let list = drawn_list(3 * m, 2 * m, &mut random);
        let first = trial.check_correct(&text, m, list.len() + m, &list);
        let refused = trial.check_correct(&text, m, 2, &[1, 1]);
        assert_eq!(refused, Err(Refusal::FalseList));
        assert_eq!(trial.check_correct(&text, m, list.len() + m, &list), first);
        let entries = first.expect("the list is long enough");
        let again = trial.check_correct(&text, m, entries.len(), &entries);
        assert_eq!(again, Ok(entries), "once it is up to date, it stays so");
        assert_eq!((*trial.pattern(), text), (pattern, lent));
    }
}
