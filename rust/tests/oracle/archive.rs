//! Request C-11, word for word: reels of many records. The library calls a reel an archive.

use super::Tables;
use poqewan::{Refusal, Report};
use std::ops::Range;

/// The longest reel, as the request has it.
pub const LONGEST_REEL: usize = 16_777_216;

/// The most records, as the request has it.
pub const MOST_RECORDS: usize = 4_096;

/// 4 bytes, little-endian. A sum of such numbers is no longer one of 4 bytes, so none wraps here.
fn number(reel: &[u8], at: usize) -> u64 {
    let byte = |i: usize| u64::from(reel[at + i]);
    byte(0) + 256 * byte(1) + 65_536 * byte(2) + 16_777_216 * byte(3)
}

/// Where each record lies; or the first refusal of 5, 7, 8 and 9.
pub fn records(reel: &[u8]) -> Result<Vec<Range<usize>>, Refusal> {
    // A reel above 16,777,216 bytes.
    if reel.len() > LONGEST_REEL {
        return Err(Refusal::LongText);
    }

    // Under 12 bytes or wrong closing bytes.
    if reel.len() < 12 || !reel.ends_with(&[0x52, 0x45, 0x45, 0x4C]) {
        return Err(Refusal::NoTrailer);
    }

    // Over 4,096 records, or the directory isn't exactly the bytes from its start to the trailer.
    let trailer = reel.len() - 12;
    let directory_start = number(reel, trailer);
    let records = number(reel, trailer + 4);
    if records > MOST_RECORDS as u64 || directory_start + 8 * records != trailer as u64 {
        return Err(Refusal::FalseDirectory);
    }

    // A record's start isn't the end of the one before (0 for the first).
    let mut bounds = Vec::new();
    let mut end_of_the_one_before = 0;
    for r in 0..records {
        let at = (directory_start + 8 * r) as usize;
        let (start, length) = (number(reel, at), number(reel, at + 4));
        if start != end_of_the_one_before {
            return Err(Refusal::RecordsApart);
        }
        end_of_the_one_before = start + length;
        bounds.push(start as usize..end_of_the_one_before as usize);
    }

    // Or the last doesn't end at the directory start, or there are no records and that start isn't
    // 0.
    let end = match bounds.last() {
        Some(last) => last.end as u64,
        None => 0,
    };
    if end != directory_start {
        return Err(Refusal::RecordsApart);
    }
    Ok(bounds)
}

/// Where record r lies. An r not below their number is no such record, after every refusal.
pub fn record(reel: &[u8], r: u64) -> Result<Option<Range<usize>>, Refusal> {
    let bounds = records(reel)?;
    if r < bounds.len() as u64 {
        Ok(Some(bounds[r as usize].clone()))
    } else {
        Ok(None)
    }
}

/// A search of record r runs over that part of the reel. Refused first of all: 4, where the pattern
/// is false and so has no tables.
pub fn search(
    tables: Option<&Tables>,
    reel: &[u8],
    r: u64,
    by_rules: impl FnOnce(&Tables, &[u8]) -> Report,
) -> Result<Option<Report>, Refusal> {
    let Some(tables) = tables else {
        return Err(Refusal::FalsePattern);
    };
    match record(reel, r)? {
        Some(part) => Ok(Some(by_rules(tables, &reel[part]))),
        None => Ok(None),
    }
}
