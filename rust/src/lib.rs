//! Exact search for every occurrence of a byte pattern in a text, with the comparisons of a pattern
//! byte with a text byte counted. Two bytes are equal when their classes are.
//!
//! These are safe wrappers of a proved library. Every function answers whatever it is given: what
//! it answers, and what the lent memory then holds, is fixed by the arguments alone and proved. No
//! function allocates or changes anything but what is said below. Two things are made here and
//! only tested: [`pack`], which allocates, and the view of an [`Archive`] whose directory the
//! library has read.
//!
//! With each value a class of its own:
//!
//! ```
//! use poqewan::{charge, colussi, identity, prepare, Ending, Refusal, SCRATCH};
//!
//! let mut scratch = [0; SCRATCH];
//! let mut positions = [0; 8];
//!
//! let preparation = prepare(b"aba", &identity(), &mut scratch)?;
//! assert_eq!(preparation.compared, 2);
//!
//! let report = colussi(&preparation.pattern, b"ababa", u64::MAX, &mut positions)?;
//!
//! assert_eq!(report.ending, Ending::Done);
//! assert_eq!(positions[..report.written], [0, 2]);
//! assert_eq!(report.count, 5);
//! assert_eq!((report.at_noholes, report.at_holes), (2, 3));
//! assert_eq!(charge(report.count), 1);
//! # Ok::<(), Refusal>(())
//! ```
//!
//! With small and capital letters in one class:
//!
//! ```
//! use poqewan::{colussi, identity, prepare, Refusal, SCRATCH};
//!
//! let mut classes = identity();
//! classes.make_ascii_lowercase();
//!
//! let pattern = prepare(b"aBa", &classes, &mut [0; SCRATCH])?.pattern;
//! let mut positions = [0; 8];
//! let report = colussi(&pattern, b"AbABA", u64::MAX, &mut positions)?;
//!
//! assert_eq!(positions[..report.written], [0, 2]);
//! # Ok::<(), Refusal>(())
//! ```
//!
//! Where it is enough to know whether the pattern occurs, and where first:
//!
//! ```
//! use poqewan::{find_first, identity, prepare, First, Refusal, SCRATCH};
//!
//! let pattern = prepare(b"aba", &identity(), &mut [0; SCRATCH])?.pattern;
//!
//! let first = find_first(&pattern, b"cababa")?;
//! assert_eq!(first, First::At { position: 1, count: 4 });
//!
//! let first = find_first(&pattern, b"abb")?;
//! assert_eq!(first, First::Absent { count: 2 });
//! # Ok::<(), Refusal>(())
//! ```
//!
//! How much of the pattern begins at each position:
//!
//! ```
//! use poqewan::{identity, prefix_lengths, prepare, Refusal, SCRATCH};
//!
//! let pattern = prepare(b"aba", &identity(), &mut [0; SCRATCH])?.pattern;
//! let mut lengths = [0; 5];
//! let count = prefix_lengths(&pattern, b"ababa", &mut lengths)?;
//!
//! assert_eq!(lengths, [3, 0, 3, 0, 1]);
//! assert_eq!(count, 5);
//! # Ok::<(), Refusal>(())
//! ```
//!
//! In an order of the caller's own, here from right to left:
//!
//! ```
//! use poqewan::{identity, ordered, prepare, Refusal, SCRATCH};
//!
//! let pattern = prepare(b"aba", &identity(), &mut [0; SCRATCH])?.pattern;
//! let mut positions = [0; 8];
//! let report = ordered(&pattern, &[2, 1, 0], b"ababa", u64::MAX, &mut positions)?;
//!
//! assert_eq!(positions[..report.written], [0, 2]);
//! assert_eq!(report.count, 6);
//!
//! let twice = ordered(&pattern, &[2, 1, 2], b"ababa", u64::MAX, &mut positions);
//! assert_eq!(twice, Err(Refusal::FalseOrder));
//! # Ok::<(), Refusal>(())
//! ```
//!
//! With a journal of the comparisons, by which the search is followed without the text:
//!
//! ```
//! use poqewan::{identity, journaled, prepare, replay, Refusal, SCRATCH};
//!
//! let pattern = prepare(b"aba", &identity(), &mut [0; SCRATCH])?.pattern;
//! let (mut positions, mut journal) = ([0; 8], [0; 6]);
//! let report = journaled(&pattern, b"ababa", 6, &mut positions, &mut journal)?;
//! let journal = &journal[..report.count as usize];
//!
//! // Positions 1, 2, 0, 3 and 4 of the text were compared, and all were equal.
//! assert_eq!(journal, [3, 5, 1, 7, 9]);
//!
//! let mut replayed = [0; 8];
//! assert_eq!(replay(&pattern, 5, &mut replayed, journal)?, report);
//! assert_eq!(replayed, positions);
//!
//! let without_the_first = replay(&pattern, 5, &mut replayed, &journal[1..]);
//! assert_eq!(without_the_first, Err(Refusal::FalseJournal));
//! # Ok::<(), Refusal>(())
//! ```
//!
//! After one byte of a text was corrected, the list brought up to date without a new search:
//!
//! ```
//! use poqewan::{colussi, correct, identity, prepare, Refusal, SCRATCH};
//!
//! let pattern = prepare(b"aba", &identity(), &mut [0; SCRATCH])?.pattern;
//! let mut positions = [0; 8];
//! let used = colussi(&pattern, b"ababa", u64::MAX, &mut positions)?.written;
//! assert_eq!(positions[..used], [0, 2]);
//!
//! let used = correct(&pattern, b"abbba", 2, &mut positions, used)?;
//! assert_eq!(used, 0);
//!
//! let used = correct(&pattern, b"ababa", 2, &mut positions, used)?;
//! assert_eq!(positions[..used], [0, 2]);
//!
//! let descending = correct(&pattern, b"ababa", 2, &mut [2, 0], 2);
//! assert_eq!(descending, Err(Refusal::FalseList));
//! # Ok::<(), Refusal>(())
//! ```
//!
//! Three records in one archive, and a search of one of them:
//!
//! ```
//! use poqewan::{colussi_record, identity, pack, prepare, Archive, SCRATCH};
//!
//! let bytes = pack(&["cab", "", "ababa"])?;
//!
//! let archive = Archive::open(&bytes)?;
//! assert_eq!(archive.len(), 3);
//! assert_eq!(archive.record(2), Some(&b"ababa"[..]));
//!
//! let pattern = prepare(b"aba", &identity(), &mut [0; SCRATCH])?.pattern;
//! let mut positions = [0; 8];
//! let report = colussi_record(&pattern, &bytes, 2, u64::MAX, &mut positions)?;
//! let report = report.expect("there are three records");
//! assert_eq!(positions[..report.written], [0, 2]);
//!
//! assert_eq!(colussi_record(&pattern, &bytes, 3, u64::MAX, &mut positions)?, None);
//! # Ok::<(), Box<dyn std::error::Error>>(())
//! ```

#![deny(unsafe_op_in_unsafe_fn, missing_docs)]
#![deny(clippy::undocumented_unsafe_blocks)]

mod archive;
mod ffi;

pub use archive::{pack, Archive, PackError};

use std::error::Error;
use std::fmt;
use std::ops::Range;

/// The longest pattern that is accepted, in bytes.
pub const LONGEST_PATTERN: usize = 256;

/// The longest text or archive that is accepted, in bytes.
pub const LONGEST_TEXT: usize = 16_777_216;

/// The number of classes: one for each byte value.
pub const CLASSES: usize = 256;

/// The least scratch, in numbers.
pub const SCRATCH: usize = 514;

/// The most records of an archive.
pub const MOST_RECORDS: usize = 4_096;

/// A pattern prepared for search: m bytes, none of them 0, the classes by which bytes are compared,
/// and the tables of these bytes by these classes. The entries past those defined are 0.
///
/// A search refuses any value that preparation does not give, so a copy from a file or a wire needs
/// no check of its own.
#[repr(C)]
#[derive(Clone, Copy, Debug, PartialEq, Eq)]
pub struct Pattern {
    /// m, from 1 to [`LONGEST_PATTERN`].
    pub len: usize,
    /// The number of noholes.
    pub noholes: usize,
    /// m bytes, as they were lent.
    pub bytes: [u8; LONGEST_PATTERN],
    /// The class of each byte value.
    pub classes: [u8; CLASSES],
    /// The place that each rank compares: m entries.
    pub order: [u8; LONGEST_PATTERN],
    /// How far the window moves, for each rank and for rank m: m + 1 entries.
    pub shift: [u16; LONGEST_PATTERN + 1],
    /// The rank to go on at: m + 1 entries.
    pub next: [u16; LONGEST_PATTERN + 1],
    /// The noholes: place p at bit p mod 64 of word p div 64.
    pub marks: [u64; 4],
}

/// What preparation gives.
#[derive(Clone, Copy, Debug, PartialEq, Eq)]
pub struct Preparation {
    /// The comparisons of two pattern bytes that Colussi's fast method (1991, Algorithm 7) makes in
    /// building the table hmax. Its look at the closing sentinel is not counted. With m pattern
    /// bytes the number is 0 if m = 1, at most 2 * m - 3 if m >= 2, and so at most 2 * m - 2.
    pub compared: u32,
    /// The pattern, prepared for search.
    pub pattern: Pattern,
}

/// Why a call was refused. Where more than one applies, the first in the function's order of tests
/// is given.
#[derive(Clone, Copy, Debug, PartialEq, Eq, Hash)]
pub enum Refusal {
    /// The pattern has no byte.
    NoPattern = 1,
    /// The pattern has more than [`LONGEST_PATTERN`] bytes.
    LongPattern = 2,
    /// The scratch has fewer than [`SCRATCH`] numbers.
    ShortScratch = 3,
    /// The pattern is not what preparation gives for its own length, bytes and classes.
    FalsePattern = 4,
    /// The text or the archive has more than [`LONGEST_TEXT`] bytes.
    LongText = 5,
    /// The archive has fewer than 12 bytes, or other closing bytes.
    NoTrailer = 7,
    /// The archive has more than [`MOST_RECORDS`] records, or its directory is not exactly the
    /// bytes from its start to the trailer.
    FalseDirectory = 8,
    /// The archive has a record whose start is not the end of the one before, 0 for the first, or a
    /// last one that does not end where the directory starts, or no records and a directory that
    /// does not start at 0.
    RecordsApart = 9,
    /// The pattern holds a byte 0.
    ZeroInPattern = 10,
    /// The list of lengths has fewer entries than the text has bytes.
    ShortLengths = 11,
    /// The number of classes is not [`CLASSES`].
    ClassesNot256 = 14,
    /// A value other than 0 has the class of 0.
    ZeroClassShared = 15,
    /// The order is not m different places of the pattern, each below m.
    FalseOrder = 16,
    /// The journal has fewer entries than the cap allows comparisons.
    ShortJournal = 17,
    /// The journal has an entry whose position is not the one that the rules compare next, or entries
    /// that remain after the search is done or full.
    FalseJournal = 18,
    /// The list's entries in use are not strictly ascending, or are more than the list has.
    FalseList = 19,
    /// The list has fewer entries than would be in use once it is up to date.
    ShortList = 20,
}

impl Refusal {
    /// The refusal's number, as the C interface gives it.
    #[must_use]
    pub const fn number(self) -> u32 {
        self as u32
    }
}

impl fmt::Display for Refusal {
    fn fmt(&self, f: &mut fmt::Formatter<'_>) -> fmt::Result {
        f.write_str(match self {
            Self::NoPattern => "the pattern has no byte",
            Self::LongPattern => "the pattern has too many bytes",
            Self::ShortScratch => "the scratch has too few numbers",
            Self::FalsePattern => {
                "the pattern is not what preparation gives for its length, bytes and classes"
            }
            Self::LongText => "the text or the archive has too many bytes",
            Self::NoTrailer => "the archive does not end with a trailer",
            Self::FalseDirectory => {
                "the archive has too many records, or its directory does not fill the bytes from \
                 its start to the trailer"
            }
            Self::RecordsApart => {
                "the archive's records do not touch from its first byte to its directory"
            }
            Self::ZeroInPattern => "the pattern holds a byte 0",
            Self::ShortLengths => "the list of lengths has fewer entries than the text has bytes",
            Self::ClassesNot256 => "the number of classes is not 256",
            Self::ZeroClassShared => "a value other than 0 has the class of 0",
            Self::FalseOrder => "the order does not have each place of the pattern once",
            Self::ShortJournal => "the journal has fewer entries than the cap allows comparisons",
            Self::FalseJournal => {
                "the journal has an entry that is not for the position compared next, or entries \
                 after the search's end"
            }
            Self::FalseList => {
                "the list's entries in use are not strictly ascending, or are more than the list has"
            }
            Self::ShortList => {
                "the list has fewer entries than would be in use once it is up to date"
            }
        })
    }
}

impl Error for Refusal {}

/// How a search ended.
#[derive(Clone, Copy, Debug, PartialEq, Eq, Hash)]
pub enum Ending {
    /// Run to its end.
    Done,
    /// Cut off at this window, where a comparison was due and the cap was spent.
    Spent(usize),
    /// Cut off at this window, where the pattern occurred and the list had no free entry.
    Full(usize),
}

/// The report of a search.
#[derive(Clone, Copy, Debug, PartialEq, Eq, Hash)]
pub struct Report {
    /// How the search ended.
    pub ending: Ending,
    /// The comparisons of a pattern byte with a text byte. Each is made at a nohole of the pattern or
    /// at a hole, so this is the sum of the two numbers that follow.
    pub count: u64,
    /// The comparisons made at noholes: at places that the pattern's marks have.
    pub at_noholes: u64,
    /// The comparisons made at holes: at all other places.
    pub at_holes: u64,
    /// The positions written into the list.
    pub written: usize,
}

/// Whether a pattern occurs, and where first.
#[derive(Clone, Copy, Debug, PartialEq, Eq, Hash)]
pub enum First {
    /// It occurs.
    At {
        /// Where it occurs first.
        position: usize,
        /// The comparisons of a pattern byte with a text byte, up to this occurrence.
        count: u64,
    },
    /// It occurs nowhere.
    Absent {
        /// The comparisons of a pattern byte with a text byte, up to the text's end.
        count: u64,
    },
}

/// The classes that give each byte value a class of its own: itself.
#[must_use]
pub fn identity() -> [u8; CLASSES] {
    let mut classes = [0; CLASSES];
    // SAFETY: the pointer and the number of elements are those of an array, which nothing else
    // borrows.
    unsafe { ffi::poqewan_identity(classes.as_mut_ptr(), classes.len()) };
    classes
}

/// Prepares a pattern for search, and counts what that costs. Entry v of the classes is the class of
/// byte value v. Two bytes are equal when their classes are: here, and in every search for the
/// pattern.
///
/// A byte 0 closes a seat's reflections in a text, which may hold any byte. No pattern holds it and
/// no other value shares its class, so no occurrence joins two seats.
///
/// After success the first [`SCRATCH`] numbers of the scratch are 0 and the rest unchanged; after a
/// refusal it is unchanged.
///
/// # Errors
///
/// Refused, in this order: no byte (1), more than [`LONGEST_PATTERN`] bytes (2), a byte 0 among them
/// (10), a number of classes other than [`CLASSES`] (14), a value other than 0 with the class of 0
/// (15), a scratch of fewer than [`SCRATCH`] numbers (3).
pub fn prepare(bytes: &[u8], classes: &[u8], scratch: &mut [u16]) -> Result<Preparation, Refusal> {
    // SAFETY: each pointer and its number of elements are those of a slice, and what is written is
    // borrowed mutably, so it overlaps nothing else.
    let answer = unsafe {
        ffi::poqewan_prepare(
            bytes.as_ptr(),
            bytes.len(),
            classes.as_ptr(),
            classes.len(),
            scratch.as_mut_ptr(),
            scratch.len(),
        )
    };
    accepted(answer.refusal)?;
    Ok(Preparation {
        compared: answer.compared,
        pattern: answer.pattern,
    })
}

/// Searches a text in Colussi's order, with at most `cap` comparisons, and fills the list from its
/// start with the positions where the pattern occurs, overlaps included. The entries after them are
/// unchanged.
///
/// The pattern occurs where each of its bytes equals the text's by the pattern's own classes. The
/// positions are exactly the occurrences, ascending, each once; of a search cut off at window b,
/// exactly those below b. None of them covers a byte 0 of the text. The search is spent only with
/// `count` equal to `cap` and a comparison due, and full only with every entry of the list written
/// and an occurrence at the window. With n text bytes and m pattern bytes, 2 * count <= 3 * n - m at
/// the end if n >= m, and count = 0 if n < m; cut off at window b, 2 * count <= 3 * b + 2 * m.
///
/// Each comparison is made at a place of the pattern, at a nohole or at a hole. So, however the search
/// ended, count = at_noholes + at_holes.
///
/// # Errors
///
/// Refused, in this order, with the list unchanged: a pattern that is not what preparation gives
/// for its own length, bytes and classes (4), a text of more than [`LONGEST_TEXT`] bytes (5).
pub fn colussi(
    pattern: &Pattern,
    text: &[u8],
    cap: u64,
    positions: &mut [u32],
) -> Result<Report, Refusal> {
    search(ffi::poqewan_colussi, pattern, text, cap, positions)
}

/// Searches a text by Knuth, Morris and Pratt, with the same report, endings, refusals and list as
/// [`colussi`]. Run to its end it lists the same positions.
///
/// Its count is at most 2 * n - m at the end if n >= m, and 0 if n < m; cut off at window b, at
/// most 2 * b + m. It compares the places from left to right, and count = at_noholes + at_holes as
/// in [`colussi`].
///
/// # Errors
///
/// Refused as [`colussi`] is.
pub fn kmp(
    pattern: &Pattern,
    text: &[u8],
    cap: u64,
    positions: &mut [u32],
) -> Result<Report, Refusal> {
    search(ffi::poqewan_kmp, pattern, text, cap, positions)
}

/// Searches a text in an order of the caller's own: entry i of the order is the place of the pattern
/// that rank i compares. Cap, list and report are those of [`colussi`].
///
/// Each window is compared afresh, rank by rank from rank 0. After a mismatch it moves on by the
/// least distance that neither this mismatch nor an earlier match of the window rules out; after an
/// occurrence, by the least from 1 that no place rules out. The positions are exactly those of
/// [`colussi`] run to its end; of a search cut off at window b, exactly those below b. The count
/// depends on the order and has no ceiling here. Noholes and holes go by the pattern's own marks, and
/// count = at_noholes + at_holes as in [`colussi`].
///
/// # Errors
///
/// Refused, in this order, with the list unchanged: a pattern that is not what preparation gives
/// for its own length, bytes and classes (4), an order that is not m different places, each below m
/// (16), a text of more than [`LONGEST_TEXT`] bytes (5).
pub fn ordered(
    pattern: &Pattern,
    order: &[u8],
    text: &[u8],
    cap: u64,
    positions: &mut [u32],
) -> Result<Report, Refusal> {
    // SAFETY: each pointer and its number of elements are those of a slice, and what is written is
    // borrowed mutably, so it overlaps nothing else. Any value of the pattern is answered.
    let answer = unsafe {
        ffi::poqewan_ordered(
            *pattern,
            order.as_ptr(),
            order.len(),
            text.as_ptr(),
            text.len(),
            cap,
            positions.as_mut_ptr(),
            positions.len(),
        )
    };
    searched(&answer)
}

/// Searches a text in Colussi's order, with at most `cap` comparisons and with the report and the list
/// of [`colussi`], and writes a journal of them: entry i becomes twice the position in the text of
/// comparison i, plus 1 if the bytes there were equal. Comparisons count from 0, as they are made. The
/// first `count` entries are written, and those past them are unchanged.
///
/// With n text bytes and m pattern bytes, a cap of (3 * n - m) / 2 is never spent if n >= m, and a cap
/// of 0 if n < m. So a journal of as many entries is long enough.
///
/// # Errors
///
/// Refused, in this order, with list and journal unchanged: a pattern that is not what preparation
/// gives for its own length, bytes and classes (4), a text of more than [`LONGEST_TEXT`] bytes (5), a
/// journal with fewer entries than `cap` (17).
pub fn journaled(
    pattern: &Pattern,
    text: &[u8],
    cap: u64,
    positions: &mut [u32],
    journal: &mut [u32],
) -> Result<Report, Refusal> {
    // SAFETY: each pointer and its number of elements are those of a slice, and what is written is
    // borrowed mutably, so it overlaps nothing else. Any value of the pattern is answered.
    let answer = unsafe {
        ffi::poqewan_journaled(
            *pattern,
            text.as_ptr(),
            text.len(),
            cap,
            positions.as_mut_ptr(),
            positions.len(),
            journal.as_mut_ptr(),
            journal.len(),
        )
    };
    searched(&answer)
}

/// Follows a search in Colussi's order by its journal, without the text. The rules are the same, and
/// entry i of the journal answers comparison i: an odd one says equal.
///
/// Report and list are those that [`colussi`], with the journal's length for its cap, gives with that
/// list on any text of `text_len` bytes that answers those comparisons so. If the journal runs out
/// while a comparison is due, the ending is [`Ending::Spent`]. So what [`journaled`] writes, its first
/// `count` entries, is replayed to the same report and list, with a list of as many entries. The
/// answer to a journal that no text could have given is the rules' answer to it. For any journal,
/// `count` is its length and under the ceiling of [`colussi`].
///
/// # Errors
///
/// Refused, in this order, with the list unchanged: a pattern that is not what preparation gives
/// for its own length, bytes and classes (4), a `text_len` of more than [`LONGEST_TEXT`] (5), a journal
/// with an entry whose half, rounded down, is not the position that the rules compare next, or with
/// entries that remain after the search is done or full (18).
pub fn replay(
    pattern: &Pattern,
    text_len: usize,
    positions: &mut [u32],
    journal: &[u32],
) -> Result<Report, Refusal> {
    // SAFETY: each pointer and its number of elements are those of a slice, and what is written is
    // borrowed mutably, so it overlaps nothing else. Any value of the pattern is answered.
    let answer = unsafe {
        ffi::poqewan_replay(
            *pattern,
            text_len,
            positions.as_mut_ptr(),
            positions.len(),
            journal.as_ptr(),
            journal.len(),
        )
    };
    searched(&answer)
}

/// Searches a text in Colussi's order, without a cap, for the first position where the pattern
/// occurs, and stops there.
///
/// The answer is that of [`colussi`] run to its end. The position is the first entry of its list,
/// and the answer is [`First::Absent`] exactly where that list is empty. The count is that search's
/// at that moment, or at its end where the list is empty: its comparisons begin with exactly these.
/// The occurrence covers no byte 0 of the text. With n text bytes and m pattern bytes,
/// 2 * count <= 3 * b + 2 * m where the pattern occurs first at position b. Where it is absent,
/// 2 * count <= 3 * n - m if n >= m, and count = 0 if n < m.
///
/// # Errors
///
/// Refused, in this order: a pattern that is not what preparation gives for its own length, bytes
/// and classes (4), a text of more than [`LONGEST_TEXT`] bytes (5).
pub fn find_first(pattern: &Pattern, text: &[u8]) -> Result<First, Refusal> {
    // SAFETY: the pointer and the number of elements are those of a slice. Any value of the pattern
    // is answered.
    let answer = unsafe { ffi::poqewan_find_first(*pattern, text.as_ptr(), text.len()) };
    first_of(&answer)
}

/// How much of the pattern begins at each position of a text: entry x of the list becomes the length
/// of the longest prefix of the pattern whose bytes equal, by the pattern's own classes, those of the
/// text from position x on. Gives the count: the comparisons of a pattern byte with a text byte. The
/// entries past the text's length are unchanged.
///
/// The comparisons are those of Knuth, Morris and Pratt, carried on until the window and the length
/// matched in it reach the text's end, also where the text is shorter than the pattern. Lengths that
/// follow from the pattern's own periods cost nothing. In the windows that lie within the text the
/// comparisons are those of [`kmp`] run to its end, one for one. With n text bytes the count is 0 if
/// n = 0, at most 2 * n - 1 if n >= 1, and so at most 2 * n. With m pattern bytes, entry x is m
/// exactly where the pattern occurs at x.
///
/// # Errors
///
/// Refused, in this order, with the list unchanged: a pattern that is not what preparation gives
/// for its own length, bytes and classes (4), a text of more than [`LONGEST_TEXT`] bytes (5), a list
/// with fewer entries than the text has bytes (11).
pub fn prefix_lengths(pattern: &Pattern, text: &[u8], lengths: &mut [u16]) -> Result<u64, Refusal> {
    // SAFETY: each pointer and its number of elements are those of a slice, and what is written is
    // borrowed mutably, so it overlaps nothing else. Any value of the pattern is answered.
    let answer = unsafe {
        ffi::poqewan_prefix_lengths(
            *pattern,
            text.as_ptr(),
            text.len(),
            lengths.as_mut_ptr(),
            lengths.len(),
        )
    };
    count_of(&answer)
}

/// Where a record of an archive lies: its bytes are those of the archive in this range. `Ok(None)`
/// means that there is no such record. Records count from 0.
///
/// # Errors
///
/// Refused as by [`Archive::open`]. A record that is not there is told after that.
pub fn find_record(archive: &[u8], record: u64) -> Result<Option<Range<usize>>, Refusal> {
    // SAFETY: the pointer and the number of elements are those of a slice.
    let answer = unsafe { ffi::poqewan_find_record(archive.as_ptr(), archive.len(), record) };
    bounds_of(&answer)
}

/// Searches one record of an archive in Colussi's order. `Ok(None)` means that there is no such
/// record, and then the list is unchanged. Records count from 0.
///
/// The report and the list are those of [`colussi`] on the record's bytes: positions count from the
/// record's own first byte, and n is the record's length.
///
/// # Errors
///
/// Refused, in this order, with the list unchanged: a pattern that is not what preparation gives
/// for its own length, bytes and classes (4), and what [`Archive::open`] refuses (5, 7, 8, 9). A
/// record that is not there is told after that.
pub fn colussi_record(
    pattern: &Pattern,
    archive: &[u8],
    record: u64,
    cap: u64,
    positions: &mut [u32],
) -> Result<Option<Report>, Refusal> {
    search_record(
        ffi::poqewan_colussi_record,
        pattern,
        archive,
        record,
        cap,
        positions,
    )
}

/// Searches one record of an archive by Knuth, Morris and Pratt, with the same refusals as
/// [`colussi_record`], and `Ok(None)` where there is no such record.
///
/// The report and the list are those of [`kmp`] on the record's bytes.
///
/// # Errors
///
/// Refused as [`colussi_record`] is.
pub fn kmp_record(
    pattern: &Pattern,
    archive: &[u8],
    record: u64,
    cap: u64,
    positions: &mut [u32],
) -> Result<Option<Report>, Refusal> {
    search_record(
        ffi::poqewan_kmp_record,
        pattern,
        archive,
        record,
        cap,
        positions,
    )
}

/// Brings a list of positions up to date after one byte of a text was corrected. `text` is the corrected
/// text, `place` is the position of that byte, and the first `used` entries of the list are in use. Gives
/// the new number of entries in use.
///
/// Only windows that cover the place are looked at: with n text bytes and m pattern bytes, the positions
/// b with b <= place < b + m and b + m <= n. Of these the list then has exactly those where the pattern
/// occurs. Every other entry is kept, right or wrong. The entries in use ascend, as before, and those
/// past their new number hold what they held before. A place at or past n changes nothing.
///
/// The old text is not asked for. If the entries in use were all positions of the pattern in a text that
/// differs from this one at most at the place, they are then all positions in this one: what [`colussi`]
/// lists, run to its end. Their number moves by at most m, whatever the list held.
///
/// # Errors
///
/// Refused, in this order, with the list unchanged: a pattern that is not what preparation gives
/// for its own length, bytes and classes (4), a text of more than [`LONGEST_TEXT`] bytes (5), entries in
/// use that are not strictly ascending or are more than the list has (19), more entries to be in use then
/// than the list has (20).
pub fn correct(
    pattern: &Pattern,
    text: &[u8],
    place: usize,
    positions: &mut [u32],
    used: usize,
) -> Result<usize, Refusal> {
    // SAFETY: each pointer and its number of elements are those of a slice, and what is written is
    // borrowed mutably, so it overlaps nothing else. Any value of the pattern is answered, and so is
    // any number of entries in use.
    let answer = unsafe {
        ffi::poqewan_correct(
            *pattern,
            text.as_ptr(),
            text.len(),
            place,
            positions.as_mut_ptr(),
            positions.len(),
            used,
        )
    };
    used_of(&answer)
}

/// The charge of a count of comparisons: its started thousands.
#[must_use]
pub fn charge(count: u64) -> u64 {
    // SAFETY: a number is taken and a number given.
    unsafe { ffi::poqewan_charge(count) }
}

/// Calls the search of Colussi or that of Knuth, Morris and Pratt.
fn search(
    by: ffi::Search,
    pattern: &Pattern,
    text: &[u8],
    cap: u64,
    positions: &mut [u32],
) -> Result<Report, Refusal> {
    // SAFETY: each pointer and its number of elements are those of a slice, and what is written is
    // borrowed mutably, so it overlaps nothing else. Any value of the pattern is answered.
    let answer = unsafe {
        by(
            *pattern,
            text.as_ptr(),
            text.len(),
            cap,
            positions.as_mut_ptr(),
            positions.len(),
        )
    };
    searched(&answer)
}

/// Calls one of the library's two searches of a record.
fn search_record(
    by: ffi::RecordSearch,
    pattern: &Pattern,
    archive: &[u8],
    record: u64,
    cap: u64,
    positions: &mut [u32],
) -> Result<Option<Report>, Refusal> {
    // SAFETY: each pointer and its number of elements are those of a slice, and what is written is
    // borrowed mutably, so it overlaps nothing else. Any value of the pattern is answered.
    let answer = unsafe {
        by(
            *pattern,
            archive.as_ptr(),
            archive.len(),
            record,
            cap,
            positions.as_mut_ptr(),
            positions.len(),
        )
    };
    record_searched(&answer)
}

/// Reads the number of a refusal, or 0.
fn accepted(number: u32) -> Result<(), Refusal> {
    match number {
        0 => Ok(()),
        1 => Err(Refusal::NoPattern),
        2 => Err(Refusal::LongPattern),
        3 => Err(Refusal::ShortScratch),
        4 => Err(Refusal::FalsePattern),
        5 => Err(Refusal::LongText),
        7 => Err(Refusal::NoTrailer),
        8 => Err(Refusal::FalseDirectory),
        9 => Err(Refusal::RecordsApart),
        10 => Err(Refusal::ZeroInPattern),
        11 => Err(Refusal::ShortLengths),
        14 => Err(Refusal::ClassesNot256),
        15 => Err(Refusal::ZeroClassShared),
        16 => Err(Refusal::FalseOrder),
        17 => Err(Refusal::ShortJournal),
        18 => Err(Refusal::FalseJournal),
        19 => Err(Refusal::FalseList),
        20 => Err(Refusal::ShortList),
        other => unreachable!("the library's contract has no refusal {other}"),
    }
}

/// Reads what a search answered.
fn searched(answer: &ffi::Report) -> Result<Report, Refusal> {
    accepted(answer.refusal)?;
    let ending = match answer.ending {
        0 => Ending::Done,
        1 => Ending::Spent(answer.window),
        2 => Ending::Full(answer.window),
        other => unreachable!("the library's contract has no ending {other}"),
    };
    Ok(Report {
        ending,
        count: answer.count,
        at_noholes: answer.at_noholes,
        at_holes: answer.at_holes,
        written: answer.written,
    })
}

/// Reads what a search of a record answered.
fn record_searched(answer: &ffi::Report) -> Result<Option<Report>, Refusal> {
    accepted(answer.refusal)?;
    match answer.ending {
        ffi::NO_SUCH_RECORD => Ok(None),
        _ => searched(answer).map(Some),
    }
}

/// Reads where a record lies.
fn bounds_of(answer: &ffi::Bounds) -> Result<Option<Range<usize>>, Refusal> {
    accepted(answer.refusal)?;
    Ok(match answer.found {
        0 => None,
        1 => Some(answer.start..answer.end),
        other => unreachable!("the library's contract has no found {other}"),
    })
}

/// Reads what a search for the first position answered.
fn first_of(answer: &ffi::First) -> Result<First, Refusal> {
    accepted(answer.refusal)?;
    Ok(match answer.found {
        0 => First::Absent {
            count: answer.count,
        },
        1 => First::At {
            position: answer.position,
            count: answer.count,
        },
        other => unreachable!("the library's contract has no found {other}"),
    })
}

/// Reads the count of a call for prefix lengths.
fn count_of(answer: &ffi::Lengths) -> Result<u64, Refusal> {
    accepted(answer.refusal)?;
    Ok(answer.count)
}

/// Reads how much of a list is in use.
fn used_of(answer: &ffi::Update) -> Result<usize, Refusal> {
    accepted(answer.refusal)?;
    Ok(answer.used)
}

#[cfg(test)]
mod tests {
    use super::*;

    #[test]
    fn the_number_of_a_refusal_is_read_back_as_that_refusal() {
        for number in (1..=5).chain([7, 8, 9, 10, 11, 14, 15, 16, 17, 18, 19, 20]) {
            assert_eq!(accepted(number).map_err(Refusal::number), Err(number));
        }
        assert_eq!(accepted(0), Ok(()));
    }

    #[test]
    #[should_panic(expected = "no refusal 6")]
    fn a_refusal_outside_the_contract_panics() {
        let _ = accepted(6);
    }

    #[test]
    #[should_panic(expected = "no ending 3")]
    fn an_ending_outside_the_contract_panics() {
        let _ = searched(&ffi::Report {
            refusal: 0,
            ending: 3,
            window: 0,
            count: 0,
            at_noholes: 0,
            at_holes: 0,
            written: 0,
        });
    }

    #[test]
    fn each_field_of_a_report_is_read_as_that_field() {
        let answer = ffi::Report {
            refusal: 0,
            ending: 1,
            window: 2,
            count: 7,
            at_noholes: 3,
            at_holes: 4,
            written: 5,
        };
        let report = Report {
            ending: Ending::Spent(2),
            count: 7,
            at_noholes: 3,
            at_holes: 4,
            written: 5,
        };
        assert_eq!(searched(&answer), Ok(report));
        assert_eq!(record_searched(&answer), Ok(Some(report)));
    }

    #[test]
    fn of_a_record_a_refusal_is_read_first_and_then_ending_3_as_no_such_record() {
        let none = ffi::Report {
            refusal: 0,
            ending: 3,
            window: 0,
            count: 0,
            at_noholes: 0,
            at_holes: 0,
            written: 0,
        };
        let refused = ffi::Report { refusal: 9, ..none };
        assert_eq!(record_searched(&none), Ok(None));
        assert_eq!(record_searched(&refused), Err(Refusal::RecordsApart));
    }

    #[test]
    #[should_panic(expected = "no ending 4")]
    fn an_ending_of_a_record_outside_the_contract_panics() {
        let _ = record_searched(&ffi::Report {
            refusal: 0,
            ending: 4,
            window: 0,
            count: 0,
            at_noholes: 0,
            at_holes: 0,
            written: 0,
        });
    }

    #[test]
    fn each_field_of_a_record_s_bounds_is_read_as_that_field() {
        let found = ffi::Bounds {
            refusal: 0,
            found: 1,
            start: 2,
            end: 7,
        };
        let none = ffi::Bounds { found: 0, ..found };
        let refused = ffi::Bounds {
            refusal: 8,
            ..found
        };
        assert_eq!(bounds_of(&found), Ok(Some(2..7)));
        assert_eq!(bounds_of(&none), Ok(None));
        assert_eq!(bounds_of(&refused), Err(Refusal::FalseDirectory));
    }

    #[test]
    #[should_panic(expected = "no found 2")]
    fn a_found_record_outside_the_contract_panics() {
        let _ = bounds_of(&ffi::Bounds {
            refusal: 0,
            found: 2,
            start: 0,
            end: 0,
        });
    }

    #[test]
    #[should_panic(expected = "no found 2")]
    fn a_found_outside_the_contract_panics() {
        let _ = first_of(&ffi::First {
            refusal: 0,
            found: 2,
            position: 0,
            count: 0,
        });
    }

    #[test]
    fn each_field_of_a_first_position_is_read_as_that_field() {
        let at = ffi::First {
            refusal: 0,
            found: 1,
            position: 2,
            count: 7,
        };
        let absent = ffi::First { found: 0, ..at };
        let refused = ffi::First { refusal: 5, ..at };
        let expected = First::At {
            position: 2,
            count: 7,
        };
        assert_eq!(first_of(&at), Ok(expected));
        assert_eq!(first_of(&absent), Ok(First::Absent { count: 7 }));
        assert_eq!(first_of(&refused), Err(Refusal::LongText));
    }

    #[test]
    fn of_prefix_lengths_a_refusal_is_read_first_and_then_the_count() {
        let count = u64::from(u32::MAX) + 7;
        let counted = ffi::Lengths { refusal: 0, count };
        let refused = ffi::Lengths { refusal: 11, count };
        assert_eq!(count_of(&counted), Ok(count));
        assert_eq!(count_of(&refused), Err(Refusal::ShortLengths));
    }

    #[test]
    fn of_an_update_a_refusal_is_read_first_and_then_the_entries_in_use() {
        let used = u32::MAX as usize + 7;
        let updated = ffi::Update { refusal: 0, used };
        let refused = ffi::Update { refusal: 20, used };
        assert_eq!(used_of(&updated), Ok(used));
        assert_eq!(used_of(&refused), Err(Refusal::ShortList));
    }
}
