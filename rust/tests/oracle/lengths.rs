//! Request C-14, word for word: how much of the motif, everywhere. The library calls a motif a
//! pattern, a record a text and a place of the record a position.

use super::{equal, Comparison, Tables};
use poqewan::Refusal;

/// The longest record, as document 01 has it.
pub const LONGEST_RECORD: usize = 16_777_216;

/// The longest start of the motif that begins at a place: byte after byte is compared, up to the
/// first two that are unequal or the end of either.
pub fn longest_start(tables: &Tables, text: &[u8], place: usize) -> usize {
    tables
        .bytes
        .iter()
        .zip(&text[place..])
        .take_while(|&(&byte, &other)| equal(&tables.classes, byte, other))
        .count()
}

/// KMP's comparisons, carried on until window plus matched length reaches n. Each is told of.
pub fn compare(tables: &Tables, text: &[u8], mut tell: impl FnMut(Comparison)) {
    // Window b, matched length i.
    let (mut b, mut i) = (0, 0);
    while b + i < text.len() {
        if i < tables.bytes.len() {
            let equal = equal(&tables.classes, tables.bytes[i], text[b + i]);
            tell(Comparison {
                window: b,
                place: i,
                equal,
            });
            if equal {
                i += 1;
                continue;
            }
        }
        let shift = tables.kmp_shift(i);
        b += shift;
        i = i.saturating_sub(shift);
    }
}

/// These comparisons, in order.
pub fn comparisons(tables: &Tables, text: &[u8]) -> Vec<Comparison> {
    let mut made = Vec::new();
    compare(tables, text, |comparison| made.push(comparison));
    made
}

/// The call's answer: the count, or the first refusal of 4, 5 and 11, 4 where the pattern is false
/// and so has no tables. The list then holds the lengths, one for each byte of the text, and past
/// them what it held before; after a refusal it is unchanged.
pub fn answer(tables: Option<&Tables>, text: &[u8], list: &mut [u16]) -> Result<u64, Refusal> {
    let Some(tables) = tables else {
        return Err(Refusal::FalsePattern);
    };
    if text.len() > LONGEST_RECORD {
        return Err(Refusal::LongText);
    }
    // The lent list is shorter than n.
    if list.len() < text.len() {
        return Err(Refusal::ShortLengths);
    }

    for (place, entry) in list[..text.len()].iter_mut().enumerate() {
        let length = longest_start(tables, text, place);
        *entry = u16::try_from(length).expect("no pattern is that long");
    }
    let mut count = 0;
    compare(tables, text, |_| count += 1);
    Ok(count)
}
