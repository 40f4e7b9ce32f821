//! The C interface, as `include/poqewan.h` declares it.

use crate::Pattern;
use std::mem::{offset_of, size_of};

/// The number of a refusal, and then all else is 0; or 0, the cost of preparation and the pattern.
#[repr(C)]
pub struct Preparation {
    pub refusal: u32,
    pub compared: u32,
    pub pattern: Pattern,
}

/// The number of a refusal, and then all else is 0; or 0 and the report of a search. Of a search of
/// one record the ending may be [`NO_SUCH_RECORD`], and then all else is 0.
#[repr(C)]
pub struct Report {
    pub refusal: u32,
    pub ending: u32,
    pub window: usize,
    pub count: u64,
    pub at_noholes: u64,
    pub at_holes: u64,
    pub written: usize,
}

/// The number of a refusal, and then all else is 0; or 0 and whether the pattern occurs.
#[repr(C)]
pub struct First {
    pub refusal: u32,
    pub found: u32,
    pub position: usize,
    pub count: u64,
}

/// The number of a refusal, and then all else is 0; or 0 and the count.
#[repr(C)]
pub struct Lengths {
    pub refusal: u32,
    pub count: u64,
}

/// The number of a refusal, and then all else is 0; or 0 and how much of a list is in use.
#[repr(C)]
pub struct Update {
    pub refusal: u32,
    pub used: usize,
}

/// The number of a refusal, and then all else is 0; or 0 and the directory of an archive.
#[repr(C)]
pub struct Directory {
    pub refusal: u32,
    pub records: u32,
    pub start: usize,
}

/// The number of a refusal, and then all else is 0; or 0 and where a record of an archive lies.
#[repr(C)]
pub struct Bounds {
    pub refusal: u32,
    pub found: u32,
    pub start: usize,
    pub end: usize,
}

/// The ending of a search of one record where the archive has no such record.
pub const NO_SUCH_RECORD: u32 = 3;

/// The type of the searches of Colussi and of Knuth, Morris and Pratt.
pub type Search = unsafe extern "C" fn(
    pattern: Pattern,
    text: *const u8,
    text_len: usize,
    cap: u64,
    positions: *mut u32,
    positions_len: usize,
) -> Report;

/// The type of both searches of one record of an archive.
pub type RecordSearch = unsafe extern "C" fn(
    pattern: Pattern,
    archive: *const u8,
    archive_len: usize,
    record: u64,
    cap: u64,
    positions: *mut u32,
    positions_len: usize,
) -> Report;

extern "C" {
    pub fn poqewan_identity(classes: *mut u8, classes_len: usize);

    pub fn poqewan_prepare(
        bytes: *const u8,
        bytes_len: usize,
        classes: *const u8,
        classes_len: usize,
        scratch: *mut u16,
        scratch_len: usize,
    ) -> Preparation;

    pub fn poqewan_colussi(
        pattern: Pattern,
        text: *const u8,
        text_len: usize,
        cap: u64,
        positions: *mut u32,
        positions_len: usize,
    ) -> Report;

    pub fn poqewan_kmp(
        pattern: Pattern,
        text: *const u8,
        text_len: usize,
        cap: u64,
        positions: *mut u32,
        positions_len: usize,
    ) -> Report;

    pub fn poqewan_ordered(
        pattern: Pattern,
        order: *const u8,
        order_len: usize,
        text: *const u8,
        text_len: usize,
        cap: u64,
        positions: *mut u32,
        positions_len: usize,
    ) -> Report;

    pub fn poqewan_journaled(
        pattern: Pattern,
        text: *const u8,
        text_len: usize,
        cap: u64,
        positions: *mut u32,
        positions_len: usize,
        journal: *mut u32,
        journal_len: usize,
    ) -> Report;

    pub fn poqewan_replay(
        pattern: Pattern,
        text_len: usize,
        positions: *mut u32,
        positions_len: usize,
        journal: *const u32,
        journal_len: usize,
    ) -> Report;

    pub fn poqewan_find_first(pattern: Pattern, text: *const u8, text_len: usize) -> First;

    pub fn poqewan_prefix_lengths(
        pattern: Pattern,
        text: *const u8,
        text_len: usize,
        lengths: *mut u16,
        lengths_len: usize,
    ) -> Lengths;

    pub fn poqewan_read_directory(archive: *const u8, archive_len: usize) -> Directory;

    pub fn poqewan_find_record(archive: *const u8, archive_len: usize, record: u64) -> Bounds;

    pub fn poqewan_colussi_record(
        pattern: Pattern,
        archive: *const u8,
        archive_len: usize,
        record: u64,
        cap: u64,
        positions: *mut u32,
        positions_len: usize,
    ) -> Report;

    pub fn poqewan_kmp_record(
        pattern: Pattern,
        archive: *const u8,
        archive_len: usize,
        record: u64,
        cap: u64,
        positions: *mut u32,
        positions_len: usize,
    ) -> Report;

    pub fn poqewan_correct(
        pattern: Pattern,
        text: *const u8,
        text_len: usize,
        place: usize,
        positions: *mut u32,
        positions_len: usize,
        used: usize,
    ) -> Update;

    pub fn poqewan_charge(count: u64) -> u64;
}

// The structs travel by value: a field that moved would be read as another.
const _: () = {
    assert!(size_of::<Pattern>() == 1848);
    assert!(offset_of!(Pattern, len) == 0);
    assert!(offset_of!(Pattern, noholes) == 8);
    assert!(offset_of!(Pattern, bytes) == 16);
    assert!(offset_of!(Pattern, classes) == 272);
    assert!(offset_of!(Pattern, order) == 528);
    assert!(offset_of!(Pattern, shift) == 784);
    assert!(offset_of!(Pattern, next) == 1298);
    assert!(offset_of!(Pattern, marks) == 1816);

    assert!(size_of::<Preparation>() == 1856);
    assert!(offset_of!(Preparation, refusal) == 0);
    assert!(offset_of!(Preparation, compared) == 4);
    assert!(offset_of!(Preparation, pattern) == 8);

    assert!(size_of::<Report>() == 48);
    assert!(offset_of!(Report, refusal) == 0);
    assert!(offset_of!(Report, ending) == 4);
    assert!(offset_of!(Report, window) == 8);
    assert!(offset_of!(Report, count) == 16);
    assert!(offset_of!(Report, at_noholes) == 24);
    assert!(offset_of!(Report, at_holes) == 32);
    assert!(offset_of!(Report, written) == 40);

    assert!(size_of::<First>() == 24);
    assert!(offset_of!(First, refusal) == 0);
    assert!(offset_of!(First, found) == 4);
    assert!(offset_of!(First, position) == 8);
    assert!(offset_of!(First, count) == 16);

    assert!(size_of::<Lengths>() == 16);
    assert!(offset_of!(Lengths, refusal) == 0);
    assert!(offset_of!(Lengths, count) == 8);

    assert!(size_of::<Update>() == 16);
    assert!(offset_of!(Update, refusal) == 0);
    assert!(offset_of!(Update, used) == 8);

    assert!(size_of::<Directory>() == 16);
    assert!(offset_of!(Directory, refusal) == 0);
    assert!(offset_of!(Directory, records) == 4);
    assert!(offset_of!(Directory, start) == 8);

    assert!(size_of::<Bounds>() == 24);
    assert!(offset_of!(Bounds, refusal) == 0);
    assert!(offset_of!(Bounds, found) == 4);
    assert!(offset_of!(Bounds, start) == 8);
    assert!(offset_of!(Bounds, end) == 16);
};
