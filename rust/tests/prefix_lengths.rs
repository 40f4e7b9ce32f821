//! Request C-14: how much of the pattern begins at each position, by the comparisons of Knuth,
//! Morris and Pratt, carried on to the text's end. Refusals, lists of every size and the longest
//! texts stand in `refused_lengths.rs`.

mod common;
mod oracle;

use common::classes::{c_in_b, in_disguise, letters, one_but_0, Classes, Drawn};
use common::lengths::whole;
use common::worked::{windows_and_places, NO_CAP};
use common::{
    changed, fibonacci, repeated, words, words_of_lengths, Method, Random, Trial, UNWRITTEN,
};
use oracle::{identity, kmp_comparisons, lengths::comparisons, LONGEST_PATTERN};
use poqewan::Ending::{Done, Spent};

/// A pattern by its classes in a text, with the length at each position. Each word of `compared` has
/// a window and, behind the colon, a digit for each place that is compared in it.
struct Worked {
    classes: fn() -> Classes,
    pattern: &'static [u8],
    text: &'static [u8],
    lengths: &'static [u16],
    compared: &'static str,
}

const fn worked(
    classes: fn() -> Classes,
    pattern: &'static [u8],
    text: &'static [u8],
    lengths: &'static [u16],
    compared: &'static str,
) -> Worked {
    Worked {
        classes,
        pattern,
        text,
        lengths,
        compared,
    }
}

/// Worked by hand. KMP moves the window, on a mismatch at 0, 1, 2, .. and then after an occurrence,
/// by 1 1 of a; 1 2 1 of aa; 1 2 3 1 of aaa; 1 1 2 of ab; 1 1 3 2 of aba; 1 2 1 3 of aab; 1 1 2 3 of
/// abb and abc; 1 1 3 3 2 of abab; 1 1 3 2 4 of abac; 1 2 1 4 5 3 of aabaa; 1 1 3 2 4 3 of abaab.
#[rustfmt::skip]
const WORKED: [Worked; 54] = [
    // Document 01's records.
    worked(identity, b"a", b"aab", &[1, 1, 0], "0:0 1:0 2:0"),
    worked(identity, b"aa", b"aaaa", &[2, 2, 2, 1], "0:01 1:1 2:1"),
    worked(identity, b"ab", b"aaaa", &[1, 1, 1, 1], "0:01 1:01 2:01 3:0"),
    worked(identity, b"aba", b"ababa", &[3, 0, 3, 0, 1], "0:012 2:12"),
    worked(identity, b"aabaa", b"aabaaaabaa", &[5, 1, 0, 2, 2, 5, 1, 0, 2, 1], "0:01234 3:2 4:12 5:1234"),
    worked(identity, b"aba", b"ab", &[2, 0], "0:01"),
    worked(identity, b"aba", b"aba", &[3, 0, 1], "0:012"),
    // No text, and shorter ones than the pattern.
    worked(identity, b"a", b"", &[], ""),
    worked(identity, b"aba", b"", &[], ""),
    worked(identity, b"aba", b"a", &[1], "0:0"),
    worked(identity, b"aba", b"b", &[0], "0:0"),
    worked(identity, b"aba", b"ba", &[0, 1], "0:0 1:0"),
    worked(identity, b"aba", b"aa", &[1, 1], "0:01 1:0"),
    worked(identity, b"aaa", b"aa", &[2, 1], "0:01"),
    worked(identity, b"abab", b"aba", &[3, 0, 1], "0:012"),
    worked(identity, b"abab", b"bab", &[0, 2, 0], "0:0 1:01"),
    worked(identity, b"aabaa", b"aabc", &[3, 1, 0, 0], "0:0123"),
    worked(identity, b"aabaa", b"aaab", &[2, 3, 1, 0], "0:012 1:12"),
    // Of the pattern's length.
    worked(identity, b"aba", b"abb", &[2, 0, 0], "0:012"),
    worked(identity, b"aba", b"bba", &[0, 0, 1], "0:0 1:0 2:0"),
    worked(identity, b"aba", b"aab", &[1, 2, 0], "0:01 1:01"),
    worked(identity, b"abab", b"abab", &[4, 0, 2, 0], "0:0123"),
    worked(identity, b"aabaa", b"aabac", &[4, 1, 0, 1, 0], "0:01234"),
    worked(identity, b"aabaa", b"aabaa", &[5, 1, 0, 2, 1], "0:01234"),
    worked(identity, b"abaab", b"abaaa", &[4, 0, 1, 1, 1], "0:01234 4:0"),
    // One byte more.
    worked(identity, b"aa", b"aab", &[2, 1, 0], "0:01 1:1"),
    worked(identity, b"aba", b"abab", &[3, 0, 2, 0], "0:012 2:1"),
    worked(identity, b"aba", b"abac", &[3, 0, 1, 0], "0:012 2:1 3:0"),
    worked(identity, b"aab", b"aaaa", &[2, 2, 2, 1], "0:012 1:12 2:1"),
    // Occurrences that overlap, and the last of them at the end or just before it.
    worked(identity, b"aaa", b"aaaaa", &[3, 3, 3, 2, 1], "0:012 1:2 2:2"),
    worked(identity, b"abab", b"abababa", &[4, 0, 4, 0, 3, 0, 1], "0:0123 2:23 4:2"),
    worked(identity, b"abaab", b"abaabaab", &[5, 0, 1, 5, 0, 1, 2, 0], "0:01234 3:234"),
    worked(identity, b"aabaa", b"aabaabaabaa", &[5, 1, 0, 5, 1, 0, 5, 1, 0, 2, 1], "0:01234 3:234 6:234"),
    worked(identity, b"aabaa", b"aabaabac", &[5, 1, 0, 4, 1, 0, 1, 0], "0:01234 3:234"),
    worked(identity, b"abc", b"abcab", &[3, 0, 0, 2, 0], "0:012 3:01"),
    // Near misses.
    worked(identity, b"abab", b"abacabab", &[3, 0, 1, 0, 4, 0, 2, 0], "0:0123 3:0 4:0123"),
    worked(identity, b"abac", b"ababac", &[3, 0, 4, 0, 1, 0], "0:0123 2:123"),
    worked(identity, b"aab", b"aaaaab", &[2, 2, 2, 3, 1, 0], "0:012 1:12 2:12 3:12"),
    worked(identity, b"abb", b"ababb", &[2, 0, 3, 0, 0], "0:012 2:012"),
    worked(identity, b"abb", b"ababab", &[2, 0, 2, 0, 2, 0], "0:012 2:012 4:01"),
    worked(identity, b"abc", b"ababc", &[2, 0, 3, 0, 0], "0:012 2:012"),
    worked(identity, b"aaa", b"aabaaa", &[2, 1, 0, 3, 2, 1], "0:012 3:012"),
    worked(identity, b"aa", b"baab", &[0, 2, 1, 0], "0:0 1:01 2:1"),
    // One byte.
    worked(identity, b"a", b"a", &[1], "0:0"),
    worked(identity, b"a", b"b", &[0], "0:0"),
    // Byte 0 ends every length before it.
    worked(identity, b"a", b"ba\0a", &[0, 1, 0, 1], "0:0 1:0 2:0 3:0"),
    worked(identity, b"aba", b"ab\0aba", &[2, 0, 0, 3, 0, 1], "0:012 3:012"),
    worked(identity, b"aba", b"\0\0", &[0, 0], "0:0 1:0"),
    // By classes: aBa is aba, bca is bba, abc is aaa; and bca with each value its own class.
    worked(letters, b"aBa", b"AbABA", &[3, 0, 3, 0, 1], "0:012 2:12"),
    worked(letters, b"abAB", b"aBAbAba", &[4, 0, 4, 0, 3, 0, 1], "0:0123 2:23 4:2"),
    worked(c_in_b, b"bca", b"cabba", &[1, 0, 3, 1, 0], "0:01 2:012"),
    worked(identity, b"bca", b"cabba", &[0, 0, 1, 1, 0], "0:0 1:0 2:01 3:01 4:0"),
    worked(one_but_0, b"abc", b"xy\0zzz!", &[2, 1, 0, 3, 3, 2, 1], "0:012 3:012 4:2"),
    worked(one_but_0, b"ab", b"x\0", &[1, 0], "0:01"),
];

impl Worked {
    /// The window and the place of each comparison.
    fn comparisons(&self) -> Vec<(usize, usize)> {
        windows_and_places(self.compared)
    }
}

#[test]
fn every_row_has_the_answer_worked_by_hand() {
    for worked in &WORKED {
        let [pattern, text] = [worked.pattern, worked.text].map(<[u8]>::escape_ascii);
        let case = format!("{pattern} in {text}");
        let trial = Trial::with_classes(worked.pattern, &(worked.classes)());
        let compared = worked.comparisons();
        let (lengths, count) = check_beside_the_searches(&trial, worked.text);
        assert_eq!(lengths, worked.lengths, "{case}");
        assert_eq!(count, compared.len() as u64, "{case}");
        let by_the_request: Vec<_> = comparisons(trial.tables(), worked.text)
            .iter()
            .map(|made| (made.window, made.place))
            .collect();
        assert_eq!(by_the_request, compared, "{case}");
    }
}

/// Asks for the lengths, checks them, and compares them and the count with what the library's own
/// searches report of the text.
fn check_beside_the_searches(trial: &Trial, text: &[u8]) -> (Vec<u16>, u64) {
    let (lengths, count) = trial.check_lengths(text);

    // An entry is m exactly where its position stands in either full list.
    let whole = whole(trial.tables(), &lengths);
    let [_, kmp] = Method::BOTH.map(|method| {
        let mut list = vec![UNWRITTEN; text.len()];
        let report = method
            .run(trial.pattern(), text, NO_CAP, &mut list)
            .expect("the pattern is prepared and the text short");
        assert_eq!(report.ending, Done);
        assert_eq!(list[..report.written], whole);
        report
    });

    // In the windows up to n - m the comparisons are those of KMP, and all others come after.
    let made = comparisons(trial.tables(), text);
    let by_kmp = kmp_comparisons(trial.tables(), text);
    assert_eq!(
        [count, kmp.count],
        [made.len(), by_kmp.len()].map(|n| n as u64)
    );
    let (within, after) = made.split_at(by_kmp.len());
    assert_eq!(within, by_kmp);
    let m = trial.pattern().len;
    assert!(after.iter().all(|made| made.window + m > text.len()));

    (lengths, count)
}

/// Asks for every pattern in every text. Gives the greatest count for each length of a text.
fn ask_all(patterns: &[Vec<u8>], classes: &Classes, texts: &[Vec<u8>]) -> Vec<u64> {
    let longest = texts.iter().map(Vec::len).max().expect("there are texts");
    let mut most = vec![0; longest + 1];
    for bytes in patterns {
        let trial = Trial::with_classes(bytes, classes);
        for text in texts {
            let (_, count) = check_beside_the_searches(&trial, text);
            let most = &mut most[text.len()];
            *most = count.max(*most);
        }
    }
    most
}

/// The request allows 2n comparisons. Each text byte is matched at most once, and each window missed
/// at most once. A miss in window n - 1 is one of the last byte, which then is matched nowhere; so
/// from n = 1 on, 2n - 1 is the most. ab in a run of a has as many.
#[test]
fn every_short_pattern_of_two_letters_in_every_text() {
    let (patterns, texts) = (
        words_of_lengths(b"ab", 1, 6),
        words_of_lengths(b"ab", 0, 10),
    );
    let most = ask_all(&patterns, &identity(), &texts);
    assert_eq!(most, [0, 1, 3, 5, 7, 9, 11, 13, 15, 17, 19]);
}

/// With and without classes that join two of the letters, in texts with bytes 0.
#[test]
fn every_short_pattern_of_three_letters_in_every_text() {
    let (patterns, texts) = (
        words_of_lengths(b"abc", 1, 3),
        words_of_lengths(b"abc\0", 0, 5),
    );
    for classes in [identity(), c_in_b(), one_but_0()] {
        ask_all(&patterns, &classes, &texts);
    }
}

/// The library's KMP is spent where the next of these comparisons is due, with those before it at
/// noholes and at holes; and what the beginnings of a text cost tells at which text byte each was
/// made.
#[test]
fn the_comparisons_are_those_of_kmp_one_for_one() {
    let long = [&b"aabaabaabb"[..], b"abaababaab", b"abababaabb"].map(|word| repeated(word, 60));
    let long_patterns = [&b"aabaabaa"[..], b"bbaabb", b"abaab", b"aabbaabaabaabbaab"];
    let short = words_of_lengths(b"ab", 0, 8);
    for (patterns, texts) in [
        (words_of_lengths(b"ab", 1, 4), &short[..]),
        (long_patterns.map(<[u8]>::to_vec).to_vec(), &long[..]),
    ] {
        for bytes in &patterns {
            let trial = Trial::of(bytes);
            for text in texts {
                check_one_for_one(&trial, text);
            }
        }
    }
}

fn check_one_for_one(trial: &Trial, text: &[u8]) {
    let made = comparisons(trial.tables(), text);
    let by_kmp = kmp_comparisons(trial.tables(), text);
    for (cap, due) in by_kmp.iter().enumerate() {
        let before = made[..cap].iter();
        let at_noholes = before.filter(|made| trial.tables().nohole[made.place]);
        let at_noholes = at_noholes.count() as u64;
        let report = poqewan::kmp(trial.pattern(), text, cap as u64, &mut vec![0; text.len()])
            .expect("the pattern is prepared and the text short");
        assert_eq!(report.ending, Spent(due.window));
        assert_eq!(report.at_noholes, at_noholes);
        assert_eq!(made[cap], *due);
    }
    for end in 0..=text.len() {
        let before = made.iter().filter(|made| made.window + made.place < end);
        let (_, count) = trial.check_lengths(&text[..end]);
        assert_eq!(count, before.count() as u64);
    }
}

/// A run in a run: each text byte is compared once, and the text's end alone bounds the last
/// lengths.
#[test]
fn a_run_in_a_run_of_every_length() {
    for m in 1..=LONGEST_PATTERN {
        let trial = Trial::of(&repeated(b"a", m));
        for n in [0, 1, m - 1, m, m + 1, 2 * m, 2 * m + 1, 600] {
            let (lengths, count) = trial.check_lengths(&repeated(b"a", n));
            assert!((0..n).all(|x| usize::from(lengths[x]) == m.min(n - x)));
            assert_eq!(count, n as u64);
        }
    }
}

/// The pattern a..ab in a run of a. Every window up to n - m costs a match and a miss, but for the
/// first, which costs m; the next window has one comparison, and is the last.
#[test]
fn a_run_that_another_letter_closes_in_a_run() {
    for m in 2..=LONGEST_PATTERN {
        let trial = Trial::of(&changed(&repeated(b"a", m), m - 1, b'b'));
        for n in [0, 1, m - 1, m, m + 1, 2 * m, 2 * m + 1, 600] {
            let (lengths, count) = trial.check_lengths(&repeated(b"a", n));
            assert!((0..n).all(|x| usize::from(lengths[x]) == (m - 1).min(n - x)));
            let expected = if n < m { n } else { 2 * n - m + 1 };
            assert_eq!(count, expected as u64);
        }
    }
}

/// Powers of words whose letters all differ, in longer ones. At a multiple of the word's length as
/// much begins as fits, elsewhere nothing; and each text byte is compared once.
#[test]
fn powers_in_powers() {
    let all_but_0: Vec<u8> = (1..=255).collect();
    for k in [2, 3, 5, 16, 64, 85, 127, 128, 254, 255] {
        let word = &all_but_0[..k];
        for m in [k, k + 1, 2 * k, 3 * k, 255, 256] {
            if !(k..=LONGEST_PATTERN).contains(&m) {
                continue;
            }
            let trial = Trial::of(&repeated(word, m));
            for n in [k, m - 1, m, m + 1, m + k, 1_000, 1_001] {
                let (lengths, count) = trial.check_lengths(&repeated(word, n));
                let begins = |x: usize| if x % k == 0 { m.min(n - x) } else { 0 };
                assert!((0..n).all(|x| usize::from(lengths[x]) == begins(x)));
                assert_eq!(count, n as u64, "{k}, {m}, {n}");
            }
        }
    }
}

/// Lengths from 0 to 256, each as the text has it: one pattern byte after another is the first that
/// does not fit.
#[test]
fn every_length_up_to_256() {
    let mut random = Random::new(141);
    let distinct = repeated(&identity()[1..], LONGEST_PATTERN);
    for bytes in [distinct, fibonacci(256), random.word(b"ab", 256)] {
        let trial = Trial::of(&bytes);
        for place in 0..LONGEST_PATTERN {
            let (lengths, _) = trial.check_lengths(&changed(&bytes, place, 0));
            assert_eq!(usize::from(lengths[0]), place);
            assert_eq!(lengths[place], 0);
            let (lengths, count) = trial.check_lengths(&bytes[..place]);
            assert!(place == 0 || usize::from(lengths[0]) == place);
            assert_eq!(count, place as u64);
        }
        let (lengths, count) = trial.check_lengths(&bytes);
        assert_eq!([u64::from(lengths[0]), count], [256, 256]);
    }
}

/// Texts that end anywhere, with the bytes that would follow still behind them.
#[test]
fn every_beginning_of_a_text() {
    let mut random = Random::new(142);
    for m in [1, 2, 3, 5, 8, 21, 63, 64, 65] {
        for bytes in [
            repeated(b"a", m),
            repeated(b"aab", m),
            repeated(b"abacabad", m),
            fibonacci(m),
            changed(&repeated(b"a", m), m / 2, b'b'),
            random.word(b"ab", m),
        ] {
            let trial = Trial::of(&bytes);
            let from = random.below(m);
            let nearly = changed(&bytes, random.below(m), b'c');
            let text = [&bytes[from..], &bytes, &nearly, &bytes[..from], &bytes].concat();
            for end in 0..=text.len() {
                trial.check_lengths(&text[..end]);
            }
        }
    }
}

/// Asks for drawn patterns of a length in drawn texts, and in parts of them: shorter than the
/// pattern, about as long, and any.
fn ask_for_drawn(drawn: &Drawn, len: usize, random: &mut Random) {
    for bytes in drawn.patterns(len, random) {
        let trial = Trial::with_classes(&bytes, &drawn.classes);
        for text in drawn.texts(&bytes, random) {
            check_beside_the_searches(&trial, &text);
            let any = random.below(text.len());
            for n in [random.below(len), len - 1, len, len + 1, any] {
                let from = random.below(text.len() - n);
                trial.check_lengths(&text[from..][..n]);
            }
        }
    }
}

#[test]
fn drawn_patterns_of_every_length() {
    let mut random = Random::new(143);
    let drawn = Drawn::new(identity());
    for len in 1..=LONGEST_PATTERN {
        ask_for_drawn(&drawn, len, &mut random);
    }
}

#[test]
fn drawn_patterns_through_drawn_classes() {
    let mut random = Random::new(144);
    for number in [2, 3, 4, 16, 100, 255, 256] {
        for len in [1, 2, 3, 5, 8, 33, 64, 65, 128, 192, 255, 256] {
            let drawn = Drawn::of(number, len % 2 == 0, &mut random);
            ask_for_drawn(&drawn, len, &mut random);
        }
    }
}

/// Long powers with damage here and there: lengths of all sizes, most of them told by others.
#[test]
fn long_periodic_patterns_in_damaged_powers() {
    let mut random = Random::new(145);
    for round in 0..400 {
        let m = 1 + random.below(LONGEST_PATTERN);
        let root_len = 1 + random.below(12.min(m));
        let root = random.word(b"aab", root_len);
        let mut bytes = repeated(&root, m);
        for _ in 0..round % 3 {
            bytes[random.below(m)] = random.word(b"abc", 1)[0];
        }
        let trial = Trial::of(&bytes);

        let power = [&root, &bytes][round % 2];
        let n = random.below(2_000);
        let mut text = repeated(power, n);
        for _ in 0..random.below(n / 100 + 2) {
            if n > 0 {
                text[random.below(n)] = random.word(b"abc\0", 1)[0];
            }
        }
        check_beside_the_searches(&trial, &text);
    }
}

/// A byte 0 equals no byte of a pattern: the lengths are those of each segment alone, and 0 at the
/// byte that closes it.
#[test]
fn a_byte_0_ends_every_length() {
    let mut random = Random::new(146);
    let in_segments = |trial: &Trial, text: &[u8]| {
        let (lengths, _) = trial.check_lengths(text);
        for (begin, segment) in oracle::segments(text) {
            let (alone, _) = trial.check_lengths(segment);
            assert_eq!(lengths[begin..][..segment.len()], alone);
            let closing = lengths.get(begin + segment.len());
            assert!(matches!(closing, None | Some(0)));
        }
    };
    for bytes in words_of_lengths(b"ab", 1, 3) {
        let trial = Trial::of(&bytes);
        for text in words(b"ab\0", 7) {
            in_segments(&trial, &text);
        }
    }
    for m in [1, 2, 64, 256] {
        let bytes = repeated(b"aab", m);
        let trial = Trial::of(&bytes);
        for place in 0..m {
            in_segments(&trial, &[&changed(&bytes, place, 0)[..], &bytes].concat());
        }
        let (lengths, count) = trial.check_lengths(&vec![0; 3 * m]);
        assert!(lengths.iter().all(|&length| length == 0));
        assert_eq!(count, 3 * m as u64);
        in_segments(&trial, &random.word(b"aab\0", 500));
    }
}

/// The classes decide and not the bytes: a pattern and a text in disguise have the same answer.
#[test]
fn a_disguise_changes_nothing() {
    in_disguise(147, |drawn, bytes, [trial, other], random| {
        for text in drawn.texts(bytes, random) {
            let answer = trial.check_lengths(&text);
            let text = drawn.disguised(&text, random);
            assert_eq!(other.check_lengths(&text), answer);
        }
    });
}
