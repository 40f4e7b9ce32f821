//! What every test of a search checks, and the words that the searches are tried on.

#![allow(dead_code)] // Each test file uses a part of it.

pub mod archives;
pub mod classes;
pub mod corrections;
pub mod journals;
pub mod lengths;
pub mod orders;
pub mod worked;

use crate::oracle::ordered::CustomOrder;
use crate::oracle::{self, Listed, Tables, CLASSES};
use archives::{assert_record_refused, packed};
use corrections::assert_correction_refused;
use journals::assert_journal_refused;
use lengths::assert_lengths_refused;
use orders::{assert_order_refused, left_to_right};
use poqewan::{Ending, First, Pattern, Preparation, Refusal, Report, LONGEST_TEXT, SCRATCH};

/// What lists hold before a search. No text is long enough to have such a position.
pub const UNWRITTEN: u32 = 0xA5A5_A5A5;

/// Lengths of a text, two that are accepted and two that are not, with whether it is too long.
pub const LONG_OR_NOT: [(bool, usize); 4] = [
    (false, 1_000),
    (false, LONGEST_TEXT),
    (true, LONGEST_TEXT + 1),
    (true, LONGEST_TEXT + 2),
];

/// The first refusal whose condition is given, in the order of the tests.
pub fn first_of<const N: usize>(conditions: [bool; N], refusals: [Refusal; N]) -> Option<Refusal> {
    let mut applying = conditions.into_iter().zip(refusals);
    applying.find(|&(applies, _)| applies).map(|(_, why)| why)
}

/// Each set of conditions has its number.
pub fn number_of<const N: usize>(conditions: [bool; N]) -> usize {
    let bits = conditions.into_iter().enumerate();
    bits.map(|(bit, applies)| usize::from(applies) << bit).sum()
}

/// How many searches are checked for each one that is asked again of a record, and with it for the
/// prefix lengths, in two orders more and with a byte corrected. It is odd, so both methods have their
/// turn.
const EVERY: usize = 7;

/// Of every so many searches one is made with a journal too and replayed, if it is Colussi's. The number
/// is odd, so every other one is.
const EVERY_JOURNALED: usize = 5;

/// The longest text for which either is done.
const SHORT: usize = 1_000;

/// The searches of Colussi and of Knuth, Morris and Pratt.
#[derive(Clone, Copy, Debug, PartialEq, Eq)]
pub enum Method {
    Colussi,
    Kmp,
}

impl Method {
    pub const BOTH: [Self; 2] = [Self::Colussi, Self::Kmp];

    /// Runs the library's search.
    pub fn run(
        self,
        pattern: &Pattern,
        text: &[u8],
        cap: u64,
        list: &mut [u32],
    ) -> Result<Report, Refusal> {
        match self {
            Self::Colussi => poqewan::colussi(pattern, text, cap, list),
            Self::Kmp => poqewan::kmp(pattern, text, cap, list),
        }
    }

    /// Runs the library's search of a record.
    pub fn run_record(
        self,
        pattern: &Pattern,
        archive: &[u8],
        record: u64,
        cap: u64,
        list: &mut [u32],
    ) -> Result<Option<Report>, Refusal> {
        match self {
            Self::Colussi => poqewan::colussi_record(pattern, archive, record, cap, list),
            Self::Kmp => poqewan::kmp_record(pattern, archive, record, cap, list),
        }
    }

    /// Runs the oracle's search.
    fn by_rules(
        self,
        tables: &Tables,
        text: &[u8],
        cap: u64,
        list_len: usize,
        listed: &mut Listed,
    ) -> Report {
        match self {
            Self::Colussi => oracle::search_by_rules(tables, text, cap, list_len, listed),
            Self::Kmp => oracle::kmp_by_rules(tables, text, cap, list_len, listed),
        }
    }

    /// Whether the count of a search that ended so keeps to the ceiling, for m pattern bytes and n
    /// text bytes.
    fn keeps_its_ceiling(self, m: usize, n: usize, ending: Ending, count: u64) -> bool {
        let [m, n] = [m, n].map(|length| length as u64);
        match (self, ending) {
            (_, Ending::Done) if n < m => count == 0,
            (Self::Colussi, Ending::Done) => 2 * count <= 3 * n - m,
            (Self::Kmp, Ending::Done) => count <= 2 * n - m,
            (Self::Colussi, Ending::Spent(b) | Ending::Full(b)) => {
                2 * count <= 3 * b as u64 + 2 * m
            }
            (Self::Kmp, Ending::Spent(b) | Ending::Full(b)) => count <= 2 * b as u64 + m,
        }
    }
}

/// One pattern on trial, with buffers that its searches share.
pub struct Trial {
    tables: Tables,
    pattern: Pattern,
    list: Vec<u32>,
    by_rules: Listed,
    /// How many searches were checked.
    searches: usize,
    /// Two orders to search in, once they were asked for.
    orders: Vec<CustomOrder>,
}

impl Trial {
    /// Prepares a pattern with each value its own class.
    pub fn of(bytes: &[u8]) -> Self {
        Self::with_classes(bytes, &oracle::identity())
    }

    /// Prepares a pattern, which must come out as the oracle's.
    pub fn with_classes(bytes: &[u8], classes: &[u8; CLASSES]) -> Self {
        let tables = Tables::of(bytes, classes);
        let pattern = preparation(bytes, classes).pattern;
        assert!(
            pattern == tables.pattern(),
            "tables of \"{}\" differ: {pattern:?}, by definition {:?}",
            bytes.escape_ascii(),
            tables.pattern()
        );
        Self {
            tables,
            pattern,
            list: Vec::new(),
            by_rules: Listed::default(),
            searches: 0,
            orders: Vec::new(),
        }
    }

    pub fn pattern(&self) -> &Pattern {
        &self.pattern
    }

    pub fn tables(&self) -> &Tables {
        &self.tables
    }

    /// Runs both searches to the end, with a list that has an entry to spare.
    pub fn check_to_the_end(&mut self, text: &[u8]) -> [Report; 2] {
        let reports = self.check(text, u64::MAX, text.len() + 1);
        assert!(reports.iter().all(|report| report.ending == Ending::Done));
        reports
    }

    /// Runs both searches and checks all that is promised of them. Where Colussi's is run to its
    /// end, the answer for the first position is checked too. Some of the searches are asked again
    /// of the text as a record of an archive, and then the prefix lengths, the search in two orders
    /// more and a correction are checked as well; others of them are made with a journal and replayed.
    pub fn check(&mut self, text: &[u8], cap: u64, list_len: usize) -> [Report; 2] {
        let occurrences = self.occurrences(text);
        Method::BOTH.map(|method| self.check_one(method, text, cap, list_len, &occurrences))
    }

    fn occurrences(&self, text: &[u8]) -> Vec<u32> {
        oracle::occurrences(&self.tables.bytes, &self.tables.classes, text)
    }

    fn check_one(
        &mut self,
        method: Method,
        text: &[u8],
        cap: u64,
        list_len: usize,
        occurrences: &[u32],
    ) -> Report {
        self.list.clear();
        self.list.resize(list_len, UNWRITTEN);
        let answer = method.run(&self.pattern, text, cap, &mut self.list);
        let expected = method.by_rules(&self.tables, text, cap, list_len, &mut self.by_rules);

        let case = || {
            let case = case(&self.tables, text);
            format!("{method:?}, cap {cap}, list of {list_len}, {case}")
        };
        self.assert_promised(answer, &expected, &self.list, text, occurrences, &case);
        let m = self.tables.bytes.len();
        assert!(
            method.keeps_its_ceiling(m, text.len(), expected.ending, expected.count),
            "{}: count {} is above the ceiling",
            case(),
            expected.count
        );
        if (method, expected.ending) == (Method::Colussi, Ending::Done) {
            self.check_first_of(text, &expected, occurrences);
        }
        self.searches += 1;
        if self.searches % EVERY == 0 && text.len() <= SHORT {
            self.check_as_record(method, text, cap, &expected);
            self.check_lengths(text);
            self.check_in_two_orders(text, cap, list_len);
            let byte = [0, self.tables.bytes[0]][self.searches / EVERY % 2];
            let place = self.searches % (text.len() + 1);
            self.check_there_and_back(text, occurrences, place, byte);
        }
        let journaled = method == Method::Colussi && self.searches % EVERY_JOURNALED == 0;
        if journaled && text.len() <= SHORT {
            self.check_beside_colussi(text, cap, list_len, &expected);
        }
        expected
    }

    /// What is promised of every search, where the rules have just given this report of it, and its
    /// list.
    fn assert_promised(
        &self,
        answer: Result<Report, Refusal>,
        expected: &Report,
        list: &[u32],
        text: &[u8],
        occurrences: &[u32],
        case: &dyn Fn() -> String,
    ) {
        assert!(
            answer == Ok(*expected),
            "{}: {answer:?}, by the rules {expected:?}",
            case()
        );
        assert!(
            expected.at_noholes + expected.at_holes == expected.count,
            "{}: the columns of {expected:?} have another sum than its count",
            case()
        );
        let (positions, rest) = list.split_at(expected.written);
        assert!(
            positions == self.by_rules.positions,
            "{}: positions are not those by the rules",
            case()
        );
        assert!(
            rest.iter().all(|&entry| entry == UNWRITTEN),
            "{}: an entry after the positions was changed",
            case()
        );
        assert!(
            positions == found(occurrences, expected.ending),
            "{}: positions are not the occurrences",
            case()
        );
        let m = self.tables.bytes.len();
        assert!(
            positions.iter().all(|&b| covers_no_zero(text, b, m)),
            "{}: an occurrence covers a byte 0",
            case()
        );
    }

    /// The same search of the text as a record of an archive, where the list still holds what the
    /// plain one gave. Its neighbours are the pattern: no occurrence may reach into them.
    fn check_as_record(&self, method: Method, text: &[u8], cap: u64, expected: &Report) {
        let bytes = &self.tables.bytes;
        let archive = packed(&[bytes, text, bytes]);
        let mut list = vec![UNWRITTEN; self.list.len()];
        let answer = method.run_record(&self.pattern, &archive, 1, cap, &mut list);
        assert!(
            answer == Ok(Some(*expected)) && list == self.list,
            "{method:?}, a record, cap {cap}, list of {}, {}: {answer:?}, by rules {expected:?}",
            list.len(),
            case(&self.tables, text)
        );
    }

    /// Asks for the first position, and checks all that is promised of the answer.
    pub fn check_first(&mut self, text: &[u8]) -> First {
        let full =
            Method::Colussi.by_rules(&self.tables, text, u64::MAX, usize::MAX, &mut self.by_rules);
        self.check_first_of(text, &full, &self.occurrences(text))
    }

    /// The same, where the rules have just given this report of the full search, and its list.
    fn check_first_of(&self, text: &[u8], full: &Report, occurrences: &[u32]) -> First {
        let answer = poqewan::find_first(&self.pattern, text);
        let expected = oracle::first(full, &self.by_rules);

        let m = self.tables.bytes.len();
        let case = || format!("the first position, {}", case(&self.tables, text));
        assert!(
            answer == Ok(expected),
            "{}: {answer:?}, by the rules {expected:?}",
            case()
        );
        let (ending, count) = ended(expected);
        match (ending, occurrences.first()) {
            (Ending::Done, None) => (),
            (Ending::Full(window), Some(&b)) if window == b as usize => assert!(
                covers_no_zero(text, b, m),
                "{}: the occurrence covers a byte 0",
                case()
            ),
            (_, b) => panic!(
                "{}: {expected:?}, and the first occurrence is {b:?}",
                case()
            ),
        }
        assert!(
            Method::Colussi.keeps_its_ceiling(m, text.len(), ending, count),
            "{}: count {count} is above the ceiling",
            case()
        );
        expected
    }
}

/// How a search that looks for the first position ended, and its count: found, it is cut off there;
/// absent, it is run to its end.
pub fn ended(first: First) -> (Ending, u64) {
    match first {
        First::At { position, count } => (Ending::Full(position), count),
        First::Absent { count } => (Ending::Done, count),
    }
}

/// Of all occurrences, those that a search with this ending is to list.
fn found(occurrences: &[u32], ending: Ending) -> &[u32] {
    match ending {
        Ending::Done => occurrences,
        Ending::Spent(window) | Ending::Full(window) => {
            &occurrences[..occurrences.partition_point(|&b| (b as usize) < window)]
        }
    }
}

/// Whether the m bytes of a text from b on hold no byte 0.
fn covers_no_zero(text: &[u8], b: u32, m: usize) -> bool {
    let b = b as usize;
    !text[b..b + m].contains(&0)
}

/// Names a case in a message; only the start of a long text is shown, and the classes only where
/// they are not the identity.
fn case(tables: &Tables, text: &[u8]) -> String {
    let classes = Some(tables.classes).filter(|&classes| classes != oracle::identity());
    format!(
        "\"{}\" in \"{}\" ({} bytes), classes {classes:?}",
        tables.bytes.escape_ascii(),
        text[..text.len().min(100)].escape_ascii(),
        text.len()
    )
}

/// What preparation gives for a pattern and classes that it must accept.
pub fn preparation(bytes: &[u8], classes: &[u8; CLASSES]) -> Preparation {
    poqewan::prepare(bytes, classes, &mut [0xFFFF; SCRATCH])
        .expect("1 to 256 bytes, none 0, the class of 0 its own, and enough scratch")
}

/// Prepares a pattern that preparation must accept, with each value its own class.
pub fn prepared(bytes: &[u8]) -> Pattern {
    preparation(bytes, &oracle::identity()).pattern
}

/// Patterns that preparation gives for nothing: aab's with a field or an entry made false, also so
/// that a window would stand still or a place would be none.
pub fn false_patterns() -> Vec<Pattern> {
    let good = prepared(b"aab");
    let mut patterns = vec![oracle::ZERO];
    for len in [0, 1, 2, 4, 256, 257, usize::MAX] {
        patterns.push(Pattern { len, ..good });
    }
    for noholes in [0, 2, usize::MAX] {
        patterns.push(Pattern { noholes, ..good });
    }
    let mut change = |change: fn(&mut Pattern)| {
        let mut pattern = good;
        change(&mut pattern);
        patterns.push(pattern);
    };
    change(|pattern| pattern.bytes[0] = 0);
    change(|pattern| pattern.bytes[1] = b'b');
    change(|pattern| pattern.bytes[255] = b'a');
    change(|pattern| pattern.classes[usize::from(b'b')] = b'a');
    change(|pattern| pattern.classes[usize::from(b'c')] = 0);
    change(|pattern| pattern.order.swap(0, 1));
    change(|pattern| pattern.order[255] = 1);
    change(|pattern| pattern.order = [255; oracle::LONGEST_PATTERN]);
    change(|pattern| pattern.shift[0] = u16::MAX);
    change(|pattern| pattern.shift[3] += 1);
    change(|pattern| pattern.shift = [0; oracle::LONGEST_PATTERN + 1]);
    change(|pattern| pattern.next[3] += 1);
    change(|pattern| pattern.next[3] = u16::MAX);
    change(|pattern| pattern.marks[0] ^= 1);
    change(|pattern| pattern.marks[3] ^= 1 << 63);
    change(|pattern| pattern.marks = [0; 4]);
    for pattern in &patterns {
        assert!(oracle::tables_if_true(pattern).is_none(), "{pattern:?}");
    }
    patterns
}

/// Prepares a pattern, and checks the answer and the scratch. Gives the refusal, if any.
pub fn check_preparation(bytes: &[u8], classes: &[u8], scratch_len: usize) -> Option<Refusal> {
    // All numbers differ and none is 0.
    let lent: Vec<u16> = (1..=scratch_len).map(|i| i as u16).collect();
    let mut scratch = lent.clone();
    let answer = poqewan::prepare(bytes, classes, &mut scratch);

    let [m, entries] = [bytes, classes].map(<[u8]>::len);
    let case = format!("{m} bytes, {entries} classes, scratch of {scratch_len}");
    let refusal = oracle::preparation_refusal(bytes, classes, scratch_len);
    match refusal {
        Some(why) => assert_eq!(answer, Err(why), "{case}"),
        None => {
            let classes: &[u8; CLASSES] = classes.try_into().expect("256 are accepted");
            let expected = Preparation {
                compared: oracle::fast_method(bytes, classes).0,
                pattern: Tables::of(bytes, classes).pattern(),
            };
            assert_eq!(answer, Ok(expected), "{case}");
        }
    }
    let after = oracle::scratch_after(bytes, classes, &lent);
    assert_eq!(scratch, after, "{case}");
    refusal
}

/// All searches must do as the oracle says of this value: refuse it, or search with it. Gives
/// whether it is true.
pub fn check_value(value: &Pattern) -> bool {
    match oracle::tables_if_true(value) {
        None => {
            assert_refused(value, b"abaababaabaab", Refusal::FalsePattern);
            false
        }
        Some(tables) => {
            let mut trial = Trial::with_classes(&tables.bytes, &tables.classes);
            assert_eq!(trial.pattern(), value);
            let text = repeated(&tables.bytes, 2 * value.len + 1);
            trial.check_to_the_end(&text);
            trial.check_lengths(&text);
            trial.check_there_and_back(&text, &trial.listed(&text), value.len, 0);
            true
        }
    }
}

/// All searches must refuse so and leave the list as it is. So must those of a record, with the
/// text for an archive: the pattern is tested first, and then the length. So must the call for prefix
/// lengths, also with a list that is too short: that is tested last. So must the search in an order
/// of its own, for a false pattern also with an order that is none: that is tested second. So must the
/// journaled search and the replay, whatever the journal, and the correction, whatever its list.
pub fn assert_refused(pattern: &Pattern, text: &[u8], why: Refusal) {
    let answer = poqewan::find_first(pattern, text);
    assert_eq!(answer, Err(why), "the first position of {pattern:?}");
    for list_len in [0, text.len().min(SHORT)] {
        assert_lengths_refused(pattern, text, list_len, why);
    }
    let places = left_to_right(pattern.len.min(oracle::LONGEST_PATTERN));
    assert_order_refused(pattern, &places, text, why);
    if why == Refusal::FalsePattern {
        assert_order_refused(pattern, &[0, 0], text, why);
    }
    assert_journal_refused(pattern, text, why);
    assert_correction_refused(pattern, text, why);
    for method in Method::BOTH {
        let mut list = [UNWRITTEN; 8];
        let answer = method.run(pattern, text, u64::MAX, &mut list);
        assert_eq!(answer, Err(why), "{method:?} on {pattern:?}");
        assert_eq!(list, [UNWRITTEN; 8], "{method:?} wrote into the list");
        assert_record_refused(method, pattern, text, 0, why);
    }
}

/// All words of a length.
pub fn words<T: Copy>(letters: &[T], len: usize) -> Vec<Vec<T>> {
    (0..len).fold(vec![Vec::new()], |shorter, _| {
        shorter
            .iter()
            .flat_map(|word| {
                letters
                    .iter()
                    .map(move |&letter| [word, &[letter][..]].concat())
            })
            .collect()
    })
}

/// All words from one length to another.
pub fn words_of_lengths<T: Copy>(letters: &[T], shortest: usize, longest: usize) -> Vec<Vec<T>> {
    (shortest..=longest)
        .flat_map(|len| words(letters, len))
        .collect()
}

/// A word's first `len` bytes, with the word repeated as far as needed.
pub fn repeated(word: &[u8], len: usize) -> Vec<u8> {
    word.iter().copied().cycle().take(len).collect()
}

/// The word with another byte at a place.
pub fn changed(word: &[u8], place: usize, byte: u8) -> Vec<u8> {
    let mut word = word.to_vec();
    word[place] = byte;
    word
}

/// The first `len` letters of the Fibonacci word: a and ab, and from there each the two before it.
pub fn fibonacci(len: usize) -> Vec<u8> {
    let (mut shorter, mut word) = (b"a".to_vec(), b"ab".to_vec());
    while word.len() < len {
        let longer = [&word[..], &shorter[..]].concat();
        shorter = std::mem::replace(&mut word, longer);
    }
    word.truncate(len);
    word
}

/// Patterns, each with the root of a periodic text in which its occurrences overlap or just fail.
pub const OVERLAPPING: [(&[u8], &[u8]); 9] = [
    (b"aaaa", b"a"),
    (b"abaab", b"aba"),
    (b"aabaa", b"aabaa"),
    (b"aabaabaa", b"aab"),
    (b"aabaabaa", b"aabaabaabb"),
    (b"aab", b"a"),
    (b"abaababa", b"abaababb"),
    (b"abaabb", b"abaabab"),
    (b"abab\xFF", b"ab\0ab\xFFabab\xFF"),
];

/// Patterns of a length: of one letter, periodic, drawn from two letters and from all, a Fibonacci
/// word, a run that another letter closes or opens, and all values but 0.
pub fn families(m: usize, random: &mut Random) -> Vec<Vec<u8>> {
    let run = repeated(b"a", m);
    vec![
        changed(&run, m - 1, b'b'),
        changed(&run, 0, b'b'),
        changed(&run, m / 2, b'b'),
        run,
        repeated(b"ab", m),
        repeated(b"aab", m),
        repeated(b"abacabad", m),
        fibonacci(m),
        random.word(b"ab", m),
        random.word(b"aaaaaaab", m),
        random.word(&oracle::identity()[1..], m),
        repeated(&oracle::identity()[1..], m),
    ]
}

/// A generator of fixed sequences (xorshift).
pub struct Random(u64);

impl Random {
    /// Starts the sequence of a seed other than 0. The product spreads a small seed over all bits.
    pub fn new(seed: u64) -> Self {
        assert_ne!(seed, 0);
        Self(seed.wrapping_mul(0x9E37_79B9_7F4A_7C15))
    }

    pub fn number(&mut self) -> u64 {
        self.0 ^= self.0 << 13;
        self.0 ^= self.0 >> 7;
        self.0 ^= self.0 << 17;
        self.0
    }

    /// A number below the bound.
    pub fn below(&mut self, bound: usize) -> usize {
        (self.number() >> 32) as usize % bound
    }

    /// A word of random letters.
    pub fn word(&mut self, letters: &[u8], len: usize) -> Vec<u8> {
        (0..len)
            .map(|_| letters[self.below(letters.len())])
            .collect()
    }
}
