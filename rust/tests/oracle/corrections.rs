//! Request C-22, word for word: one byte corrected. The library calls a card a prepared pattern, a
//! record a text and a window's place a position.

use super::journal::admit;
use super::{equal, position, Tables};
use poqewan::Refusal;
use std::collections::BTreeSet;

/// Whether b is a window, of m bytes in a record of n, and covers the place. Only such are looked at.
pub fn looked_at(b: usize, m: usize, n: usize, place: usize) -> bool {
    let is_window = b + m <= n;
    let covers = (b..b + m).contains(&place);
    is_window && covers
}

/// The set of places afterwards: a window that is looked at is in it if the motif occurs there, and
/// any other place if it was in it before.
fn updated(tables: &Tables, text: &[u8], place: usize, before: &[u32]) -> BTreeSet<u32> {
    let [m, n] = [tables.bytes.len(), text.len()];
    let mut places: BTreeSet<u32> = before.iter().copied().collect();
    for b in (0..n).filter(|&b| looked_at(b, m, n, place)) {
        if (0..m).all(|p| equal(&tables.classes, tables.bytes[p], text[b + p])) {
            places.insert(position(b));
        } else {
            places.remove(&position(b));
        }
    }
    places
}

/// The call's answer: the new number of entries in use, or the first refusal of 4, 5, 19 and 20, 4 where
/// the pattern is false and so has no tables. The list then holds the updated places, and past them what
/// it held before; after a refusal it is unchanged.
pub fn answer(
    tables: Option<&Tables>,
    text: &[u8],
    place: usize,
    list: &mut [u32],
    used: usize,
) -> Result<usize, Refusal> {
    let tables = admit(tables, text.len())?;
    // The used entries are more than the list holds.
    let before = list.get(..used).ok_or(Refusal::FalseList)?;
    // They aren't strictly ascending.
    if before.windows(2).any(|pair| pair[0] >= pair[1]) {
        return Err(Refusal::FalseList);
    }
    let places = updated(tables, text, place, before);
    // The updated places exceed the list.
    if places.len() > list.len() {
        return Err(Refusal::ShortList);
    }

    let now = places.len();
    for (entry, place) in list.iter_mut().zip(places) {
        *entry = place;
    }
    Ok(now)
}
