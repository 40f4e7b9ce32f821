//! A second implementation, of separate make: the definitions and rules of document 01, and the
//! requests of document 02, written down as they stand there. Where the document says "the least k
//! that ...", every k is tried in turn. Only the types are the library's; none of its code is called.

#![allow(dead_code)] // Each test file uses a part of it.

pub mod archive;
pub mod corrections;
pub mod journal;
pub mod lengths;
pub mod ordered;

use poqewan::{Ending, First, Pattern, Refusal, Report};

/// The longest pattern, as document 01 has it.
pub const LONGEST_PATTERN: usize = 256;

/// The number of classes, as document 02 (C-19) has it.
pub const CLASSES: usize = 256;

/// The least scratch, as document 02 (C-18) has it.
pub const SCRATCH: usize = 514;

/// The least scratch before C-18.
pub const FORMER_SCRATCH: usize = 771;

/// Request C-19: two bytes count as equal when their classes are.
pub fn equal(classes: &[u8; CLASSES], one: u8, other: u8) -> bool {
    classes[usize::from(one)] == classes[usize::from(other)]
}

/// The classes that give each value itself.
pub fn identity() -> [u8; CLASSES] {
    std::array::from_fn(|value| value as u8)
}

/// The positions where the pattern occurs: b + m is at most n, and pattern byte p equals text byte
/// b + p for each p below m.
pub fn occurrences(pattern: &[u8], classes: &[u8; CLASSES], text: &[u8]) -> Vec<u32> {
    let m = pattern.len();
    (0..text.len())
        .filter(|&b| b + m <= text.len())
        .filter(|&b| (0..m).all(|p| equal(classes, pattern[p], text[b + p])))
        .map(position)
        .collect()
}

/// A window as the list holds it.
fn position(b: usize) -> u32 {
    u32::try_from(b).expect("no text is that long")
}

/// Preparation's refusal, if any: tests 1, 2, 10, 14, 15 and 3, in this order.
pub fn preparation_refusal(pattern: &[u8], classes: &[u8], scratch_len: usize) -> Option<Refusal> {
    if pattern.is_empty() {
        Some(Refusal::NoPattern)
    } else if pattern.len() > LONGEST_PATTERN {
        Some(Refusal::LongPattern)
    } else if pattern.contains(&0) {
        Some(Refusal::ZeroInPattern)
    } else if classes.len() != CLASSES {
        Some(Refusal::ClassesNot256)
    } else if (1..=255).any(|value| classes[value] == classes[0]) {
        Some(Refusal::ZeroClassShared)
    } else if scratch_len < SCRATCH {
        Some(Refusal::ShortScratch)
    } else {
        None
    }
}

/// What a scratch holds after preparation: on success its first 514 numbers are 0 and the rest
/// unchanged; after a refusal all are unchanged.
pub fn scratch_after(pattern: &[u8], classes: &[u8], lent: &[u16]) -> Vec<u16> {
    let mut scratch = lent.to_vec();
    if preparation_refusal(pattern, classes, lent.len()).is_none() {
        scratch[..SCRATCH].fill(0);
    }
    scratch
}

/// The segments of a text, each with where it begins: byte 0 closes a seat's reflections.
pub fn segments(text: &[u8]) -> Vec<(usize, &[u8])> {
    let mut segments = Vec::new();
    let mut begin = 0;
    for segment in text.split(|&byte| byte == 0) {
        segments.push((begin, segment));
        begin += segment.len() + 1;
    }
    segments
}

/// The marks at places less than p: place q at bit q mod 64 of word q div 64.
pub fn marked_below(marks: &[u64; 4], p: usize) -> usize {
    (0..p)
        .filter(|&q| marks[q / 64] >> (q % 64) & 1 == 1)
        .count()
}

/// k is a period if every two bytes k places apart are equal.
fn is_period(pattern: &[u8], classes: &[u8; CLASSES], k: usize) -> bool {
    (k..pattern.len()).all(|p| equal(classes, pattern[p], pattern[p - k]))
}

/// hmax(k): the first place p, from k up, where byte p differs from byte p - k; m if there is none.
pub fn hmax(pattern: &[u8], classes: &[u8; CLASSES], k: usize) -> usize {
    (k..pattern.len())
        .find(|&p| !equal(classes, pattern[p], pattern[p - k]))
        .unwrap_or(pattern.len())
}

/// Request C-23: the comparisons of two pattern bytes that source document 003's fast method makes,
/// and the table that it leaves, with hmax(k) at k. This is its Algorithm 7, line by line.
pub fn fast_method(pattern: &[u8], classes: &[u8; CLASSES]) -> (u32, Vec<usize>) {
    let m = pattern.len();
    // The sentinel is no byte, so a look at it is no comparison of two bytes.
    let w: Vec<Option<u8>> = pattern.iter().copied().map(Some).chain([None]).collect();
    let mut compared = 0;
    let mut equal = |i: usize, j: usize| match (w[i], w[j]) {
        (Some(one), Some(other)) => {
            compared += 1;
            equal(classes, one, other)
        }
        _ => false,
    };

    let mut hmax = vec![0; m + 1];
    let mut k = 1;
    let mut i = k;
    // repeat ... until k > m.
    loop {
        while equal(i, i - k) {
            i += 1;
        }
        hmax[k] = i;
        let mut q = k + 1;
        while hmax[q - k] + k < i {
            hmax[q] = hmax[q - k] + k;
            q += 1;
        }
        k = q;
        if k == i + 1 {
            i = k;
        }
        if k > m {
            break;
        }
    }
    (compared, hmax)
}

/// A pattern's tables, each computed once by its definition.
pub struct Tables {
    /// The pattern's m bytes.
    pub bytes: Vec<u8>,
    /// The class of each value.
    pub classes: [u8; CLASSES],
    /// k and hmax(k), for k from 1 to m.
    pub hmax: Vec<(usize, usize)>,
    /// kmin(p), for each place p; none if p is a hole.
    pub kmin: Vec<Option<usize>>,
    /// Whether place p is a nohole, for each place p.
    pub nohole: Vec<bool>,
    /// rmin(p), for each place p.
    pub rmin: Vec<usize>,
    /// below(p), for p from 0 to m.
    pub below: Vec<usize>,
    /// d, the number of noholes.
    pub noholes: usize,
    /// The place of each rank.
    pub order: Vec<usize>,
    /// shift(i), for i from 0 to m.
    pub shift: Vec<usize>,
    /// next(i), for i from 0 to m.
    pub next: Vec<usize>,
}

impl Tables {
    /// The tables of a pattern of at least one byte, with 256 classes.
    pub fn of(bytes: &[u8], classes: &[u8; CLASSES]) -> Self {
        let m = bytes.len();

        let hmax: Vec<_> = (1..=m).map(|k| (k, hmax(bytes, classes, k))).collect();

        // Place p is a nohole if some k has hmax(k) = p; kmin(p) is the least such k.
        let kmin: Vec<_> = (0..m)
            .map(|p| hmax.iter().find(|&&(_, h)| h == p).map(|&(k, _)| k))
            .collect();
        let nohole: Vec<_> = kmin.iter().map(Option::is_some).collect();
        let is_nohole = |&p: &usize| nohole[p];
        let is_hole = |&p: &usize| !nohole[p];

        // rmin(p) is the least period of the pattern greater than p. m is always one.
        let periods: Vec<_> = (1..=m).filter(|&k| is_period(bytes, classes, k)).collect();
        let rmin: Vec<_> = (0..m)
            .map(|p| *periods.iter().find(|&&k| k > p).expect("m is a period"))
            .collect();

        // below(p) is the number of noholes less than p.
        let below: Vec<_> = (0..=m).map(|p| (0..p).filter(is_nohole).count()).collect();
        let noholes = (0..m).filter(is_nohole).count();

        // All noholes ascending, then all holes descending.
        let order: Vec<_> = (0..m)
            .filter(is_nohole)
            .chain((0..m).rev().filter(is_hole))
            .collect();

        // kmin of the rank's place for i less than d, rmin of it for i from d to m - 1, and rmin(0)
        // for i = m.
        let shift: Vec<_> = (0..=m)
            .map(|i| match i {
                i if i < noholes => kmin[order[i]].expect("a nohole has a kmin"),
                i if i < m => rmin[order[i]],
                _ => rmin[0],
            })
            .collect();

        // below(p - kmin(p)), p the rank's place, for i less than d; below(m - shift(i)) for i from
        // d to m.
        let next: Vec<_> = (0..=m)
            .map(|i| match i {
                i if i < noholes => below[order[i] - shift[i]],
                _ => below[m - shift[i]],
            })
            .collect();

        Self {
            bytes: bytes.to_vec(),
            classes: *classes,
            hmax,
            kmin,
            nohole,
            rmin,
            below,
            noholes,
            order,
            shift,
            next,
        }
    }

    /// How far KMP moves the window that it leaves with matched length i: rmin(0) after an
    /// occurrence; else kmin(i) if i is a nohole, and i + 1 if not.
    pub fn kmp_shift(&self, i: usize) -> usize {
        if i == self.bytes.len() {
            self.rmin[0]
        } else {
            self.kmin[i].unwrap_or(i + 1)
        }
    }

    /// What preparation is to give. All entries past those defined are 0.
    pub fn pattern(&self) -> Pattern {
        let mut pattern = ZERO;
        pattern.len = self.bytes.len();
        pattern.noholes = self.noholes;
        pattern.bytes[..self.bytes.len()].copy_from_slice(&self.bytes);
        pattern.classes = self.classes;
        fill(&mut pattern.order, &self.order);
        fill(&mut pattern.shift, &self.shift);
        fill(&mut pattern.next, &self.next);
        for p in (0..self.bytes.len()).filter(|&p| self.nohole[p]) {
            pattern.marks[p / 64] |= 1 << (p % 64);
        }
        pattern
    }
}

/// The value with every field 0.
pub const ZERO: Pattern = Pattern {
    len: 0,
    noholes: 0,
    bytes: [0; LONGEST_PATTERN],
    classes: [0; CLASSES],
    order: [0; LONGEST_PATTERN],
    shift: [0; LONGEST_PATTERN + 1],
    next: [0; LONGEST_PATTERN + 1],
    marks: [0; 4],
};

/// Writes a table from the start of a field.
fn fill<T: TryFrom<usize>>(field: &mut [T], table: &[usize]) {
    for (entry, &number) in field.iter_mut().zip(table) {
        *entry = T::try_from(number).ok().expect("the entry fits its field");
    }
}

/// The tables for a value's own length, bytes and classes, if the value is what preparation gives
/// for them.
pub fn tables_if_true(value: &Pattern) -> Option<Tables> {
    let own = value.bytes.get(..value.len)?;
    if preparation_refusal(own, &value.classes, usize::MAX).is_some() {
        return None;
    }
    let tables = Tables::of(own, &value.classes);
    (tables.pattern() == *value).then_some(tables)
}

/// Request C-16: the comparisons that a search made at noholes, and those that it made at holes.
struct Columns {
    at_noholes: u64,
    at_holes: u64,
}

impl Columns {
    const NONE: Self = Self {
        at_noholes: 0,
        at_holes: 0,
    };

    /// A comparison is made at place p of the pattern.
    fn compared(&mut self, tables: &Tables, p: usize) {
        if tables.nohole[p] {
            self.at_noholes += 1;
        } else {
            self.at_holes += 1;
        }
    }
}

/// What a search lists.
#[derive(Default)]
pub struct Listed {
    pub positions: Vec<u32>,
    /// The count at the moment when the first position was listed.
    count_at_first: u64,
}

impl Listed {
    fn clear(&mut self) {
        self.positions.clear();
    }

    fn len(&self) -> usize {
        self.positions.len()
    }

    /// The pattern occurs at b, after so many comparisons.
    fn push(&mut self, b: usize, count: u64) {
        if self.positions.is_empty() {
            self.count_at_first = count;
        }
        self.positions.push(position(b));
    }
}

/// Request C-12: the first entry of the full search's list, or absent exactly where that list is
/// empty; the count is the full search's at that moment, for absent at its end.
pub fn first(full: &Report, listed: &Listed) -> First {
    assert_eq!(full.ending, Ending::Done, "the search was cut off");
    match listed.positions.first() {
        Some(&b) => First::At {
            position: b as usize,
            count: listed.count_at_first,
        },
        None => First::Absent { count: full.count },
    }
}

/// Document 01's search, rule by rule, with a list of `list_len` entries. What it lists is given in
/// `listed`, whatever that held before.
pub fn search_by_rules(
    tables: &Tables,
    text: &[u8],
    cap: u64,
    list_len: usize,
    listed: &mut Listed,
) -> Report {
    let n = text.len();
    follow_rules(tables, n, cap, list_len, listed, |b, p| {
        equal(&tables.classes, tables.bytes[p], text[b + p])
    })
}

/// The same rules for a text of n bytes, where whoever is asked tells whether the letter at place p
/// equals the text's in window b.
fn follow_rules(
    tables: &Tables,
    n: usize,
    cap: u64,
    list_len: usize,
    listed: &mut Listed,
    mut ask: impl FnMut(usize, usize) -> bool,
) -> Report {
    listed.clear();
    let m = tables.bytes.len();
    // Window b, rank i, known edge e, count c.
    let (mut b, mut i, mut e, mut c) = (0, 0, 0, 0);
    let mut columns = Columns::NONE;
    while b + m <= n {
        let rank = if i == m || b + tables.order[i] < e {
            // Rule 1: the pattern occurs at b, and the window is left with rank m.
            if listed.len() == list_len {
                return report(Ending::Full(b), c, &columns, listed);
            }
            listed.push(b, c);
            m
        } else {
            // Rule 2: a comparison is due. Unequal, the window is left with rank i.
            if c == cap {
                return report(Ending::Spent(b), c, &columns, listed);
            }
            let p = tables.order[i];
            c += 1;
            columns.compared(tables, p);
            if ask(b, p) {
                i += 1;
                continue;
            }
            i
        };
        // Rule 3: the window moves.
        if rank >= tables.noholes {
            e = b + m;
        }
        b += tables.shift[rank];
        i = tables.next[rank];
    }
    report(Ending::Done, c, &columns, listed)
}

/// A comparison of a pattern byte with a text byte: at a place of the pattern, in a window.
#[derive(Clone, Copy, Debug, PartialEq, Eq)]
pub struct Comparison {
    pub window: usize,
    pub place: usize,
    pub equal: bool,
}

/// Document 01's search by Knuth, Morris and Pratt, as [`search_by_rules`].
pub fn kmp_by_rules(
    tables: &Tables,
    text: &[u8],
    cap: u64,
    list_len: usize,
    listed: &mut Listed,
) -> Report {
    kmp_told(tables, text, cap, list_len, listed, |_| ())
}

/// Its comparisons, in order, where it is run to its end.
pub fn kmp_comparisons(tables: &Tables, text: &[u8]) -> Vec<Comparison> {
    let mut made = Vec::new();
    let mut listed = Listed::default();
    kmp_told(
        tables,
        text,
        u64::MAX,
        usize::MAX,
        &mut listed,
        |comparison| made.push(comparison),
    );
    made
}

/// The same search, where each comparison is told of.
fn kmp_told(
    tables: &Tables,
    text: &[u8],
    cap: u64,
    list_len: usize,
    listed: &mut Listed,
    mut tell: impl FnMut(Comparison),
) -> Report {
    listed.clear();
    let m = tables.bytes.len();
    // Window b, matched length i, count c.
    let (mut b, mut i, mut c) = (0, 0, 0);
    let mut columns = Columns::NONE;
    while b + m <= text.len() {
        if i == m {
            // The pattern occurs at b.
            if listed.len() == list_len {
                return report(Ending::Full(b), c, &columns, listed);
            }
            listed.push(b, c);
        } else {
            // A comparison is due.
            if c == cap {
                return report(Ending::Spent(b), c, &columns, listed);
            }
            c += 1;
            let made = compare(tables, text, b, i, &mut columns);
            tell(made);
            if made.equal {
                i += 1;
                continue;
            }
        }
        let shift = tables.kmp_shift(i);
        b += shift;
        i = i.saturating_sub(shift);
    }
    report(Ending::Done, c, &columns, listed)
}

/// Compares the letter at a place with the text's in window b.
fn compare(
    tables: &Tables,
    text: &[u8],
    b: usize,
    place: usize,
    columns: &mut Columns,
) -> Comparison {
    columns.compared(tables, place);
    Comparison {
        window: b,
        place,
        equal: equal(&tables.classes, tables.bytes[place], text[b + place]),
    }
}

fn report(ending: Ending, count: u64, columns: &Columns, listed: &Listed) -> Report {
    Report {
        ending,
        count,
        at_noholes: columns.at_noholes,
        at_holes: columns.at_holes,
        written: listed.len(),
    }
}
