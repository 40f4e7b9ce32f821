//! Archives of many records: packed here, and viewed once the library has read the directory.

use crate::{accepted, ffi, Refusal, LONGEST_TEXT, MOST_RECORDS};
use std::error::Error;
use std::fmt;

/// The bytes of a number.
const NUMBER: usize = 4;

/// The bytes of a directory entry: a record's start and its length.
const ENTRY: usize = 2 * NUMBER;

/// The last bytes of every archive: 52 45 45 4C (hexadecimal).
const CLOSING: [u8; 4] = *b"REEL";

/// The bytes of the trailer: where the directory starts, the number of records, the closing bytes.
const TRAILER: usize = 2 * NUMBER + CLOSING.len();

/// An archive: many records in one run of bytes, viewed where they lie.
///
/// The records lie back to back from byte 0, in order and with no gaps; empty ones are allowed.
/// Behind them stands the directory: for each record its start and its length. The last 12 bytes
/// are the trailer: where the directory starts, the number of records, and the bytes 52 45 45 4C
/// (hexadecimal). Each number has 4 bytes, little-endian, and starts count from the archive's first
/// byte.
///
/// ```
/// use poqewan::{pack, Archive, Refusal};
///
/// let bytes = pack(&["one", "", "three"]).expect("three short records");
/// let archive = Archive::open(&bytes)?;
///
/// assert_eq!(archive.record(0), Some(&b"one"[..]));
/// assert_eq!(archive.record(3), None);
/// assert!(archive.records().eq(["one", "", "three"].map(str::as_bytes)));
///
/// assert_eq!(Archive::open(b"one"), Err(Refusal::NoTrailer));
/// # Ok::<(), Refusal>(())
/// ```
#[derive(Clone, Copy, Debug, PartialEq, Eq)]
pub struct Archive<'a> {
    bytes: &'a [u8],
    /// The bytes between the last record and the trailer: an entry for each record.
    directory: &'a [u8],
}

impl<'a> Archive<'a> {
    /// Reads the directory of an archive. No byte is copied.
    ///
    /// # Errors
    ///
    /// Refused, in this order: more than [`LONGEST_TEXT`] bytes (5); fewer than 12 bytes, or other
    /// closing bytes (7); more than [`MOST_RECORDS`] records, or a directory that is not exactly
    /// the bytes from its start to the trailer (8); a record whose start is not the end of the one
    /// before, 0 for the first, or a last one that does not end where the directory starts, or no
    /// records and a directory that does not start at 0 (9).
    pub fn open(bytes: &'a [u8]) -> Result<Self, Refusal> {
        // SAFETY: the pointer and the number of elements are those of a slice.
        let answer = unsafe { ffi::poqewan_read_directory(bytes.as_ptr(), bytes.len()) };
        accepted(answer.refusal)?;
        let len = answer.records as usize * ENTRY;
        Ok(Self {
            bytes,
            directory: &bytes[answer.start..][..len],
        })
    }

    /// The number of records, at most [`MOST_RECORDS`].
    #[must_use]
    pub fn len(&self) -> usize {
        self.directory.len() / ENTRY
    }

    /// Whether there are no records. An archive of empty records has some.
    #[must_use]
    pub fn is_empty(&self) -> bool {
        self.len() == 0
    }

    /// The bytes of a record, or none if there is no such record. Records count from 0.
    #[must_use]
    pub fn record(&self, index: usize) -> Option<&'a [u8]> {
        let entry = self.directory.chunks_exact(ENTRY).nth(index)?;
        Some(at_entry(self.bytes, entry))
    }

    /// The bytes of each record, in order.
    pub fn records(&self) -> impl ExactSizeIterator<Item = &'a [u8]> + DoubleEndedIterator {
        let bytes = self.bytes;
        let entries = self.directory.chunks_exact(ENTRY);
        entries.map(move |entry| at_entry(bytes, entry))
    }

    /// The whole archive, directory and trailer included.
    #[must_use]
    pub fn bytes(&self) -> &'a [u8] {
        self.bytes
    }
}

/// The record that an entry tells of. It lies inside, or the directory would have been refused.
fn at_entry<'a>(bytes: &'a [u8], entry: &[u8]) -> &'a [u8] {
    let (start, len) = entry.split_at(NUMBER);
    &bytes[number_in(start)..][..number_in(len)]
}

/// Reads a number: 4 bytes, little-endian.
fn number_in(bytes: &[u8]) -> usize {
    let bytes = bytes.try_into().expect("a number has 4 bytes");
    u32::from_le_bytes(bytes) as usize
}

/// Writes a number that is at most [`LONGEST_TEXT`].
fn number_of(n: usize) -> [u8; NUMBER] {
    u32::try_from(n)
        .expect("no archive is that long")
        .to_le_bytes()
}

/// Why records were not packed. Where both apply, the first is given.
#[derive(Clone, Copy, Debug, PartialEq, Eq, Hash)]
pub enum PackError {
    /// There are more than [`MOST_RECORDS`] records.
    ManyRecords,
    /// The archive would have more than [`LONGEST_TEXT`] bytes.
    LongArchive,
}

impl fmt::Display for PackError {
    fn fmt(&self, f: &mut fmt::Formatter<'_>) -> fmt::Result {
        f.write_str(match self {
            Self::ManyRecords => "there are too many records",
            Self::LongArchive => "the archive would have too many bytes",
        })
    }
}

impl Error for PackError {}

/// Packs records into an archive, in the order given. [`Archive::open`] accepts what this gives,
/// and has these records. Each costs 8 bytes besides its own, and the trailer 12.
///
/// # Errors
///
/// Refused, in this order: more than [`MOST_RECORDS`] records, an archive of more than
/// [`LONGEST_TEXT`] bytes.
pub fn pack<R: AsRef<[u8]>>(records: &[R]) -> Result<Vec<u8>, PackError> {
    if records.len() > MOST_RECORDS {
        return Err(PackError::ManyRecords);
    }
    // Each is asked for its bytes once: a second answer might be another.
    let records: Vec<&[u8]> = records.iter().map(AsRef::as_ref).collect();
    let around = ENTRY * records.len() + TRAILER;
    let len = records
        .iter()
        .fold(around, |len, record| len.saturating_add(record.len()));
    if len > LONGEST_TEXT {
        return Err(PackError::LongArchive);
    }

    let mut archive = Vec::with_capacity(len);
    let mut directory = Vec::with_capacity(ENTRY * records.len());
    for record in &records {
        directory.extend(number_of(archive.len()));
        directory.extend(number_of(record.len()));
        archive.extend_from_slice(record);
    }
    let start = archive.len();
    archive.append(&mut directory);
    archive.extend(number_of(start));
    archive.extend(number_of(records.len()));
    archive.extend(CLOSING);
    Ok(archive)
}
