//! Request C-20, word for word. The library calls a motif a pattern, a card a prepared pattern and a
//! house order a custom order.

use super::lengths::LONGEST_RECORD;
use super::{compare, equal, report, Columns, Comparison, Listed, Tables};
use poqewan::{Ending, Refusal, Report};

/// Whether bytes are m different places: there are m of them, each is below m, and no two are the
/// same.
pub fn are_places(bytes: &[u8], m: usize) -> bool {
    bytes.len() == m
        && bytes.iter().all(|&p| usize::from(p) < m)
        && (0..m).all(|i| !bytes[..i].contains(&bytes[i]))
}

/// The first refusal of 4, 16 and 5, if any: 4 where the pattern is false and so has no tables.
pub fn refusal(tables: Option<&Tables>, order: &[u8], n: usize) -> Option<Refusal> {
    match tables {
        None => Some(Refusal::FalsePattern),
        Some(tables) if !are_places(order, tables.bytes.len()) => Some(Refusal::FalseOrder),
        Some(_) if n > LONGEST_RECORD => Some(Refusal::LongText),
        Some(_) => None,
    }
}

/// An arrangement of a motif's places, with its shifts.
pub struct CustomOrder {
    /// The place of each rank.
    pub order: Vec<u8>,
    /// How far the window moves, for each rank and for rank m.
    pub shift: Vec<usize>,
}

impl CustomOrder {
    /// The arrangement of the motif's m places.
    pub fn of(tables: &Tables, order: &[u8]) -> Self {
        assert!(are_places(order, tables.bytes.len()));
        Self {
            order: order.to_vec(),
            shift: (0..=order.len()).map(|i| shift(tables, order, i)).collect(),
        }
    }

    /// The search, with a list of `list_len` entries. What it lists is given in `listed`, whatever
    /// that held before.
    pub fn search(
        &self,
        tables: &Tables,
        text: &[u8],
        cap: u64,
        list_len: usize,
        listed: &mut Listed,
    ) -> Report {
        self.told(tables, text, cap, list_len, listed, |_| ())
    }

    /// Its comparisons, in order, where it is run to its end.
    pub fn comparisons(&self, tables: &Tables, text: &[u8]) -> Vec<Comparison> {
        let mut made = Vec::new();
        let mut listed = Listed::default();
        self.told(
            tables,
            text,
            u64::MAX,
            usize::MAX,
            &mut listed,
            |comparison| made.push(comparison),
        );
        made
    }

    /// The same search, where each comparison is told of.
    fn told(
        &self,
        tables: &Tables,
        text: &[u8],
        cap: u64,
        list_len: usize,
        listed: &mut Listed,
        mut tell: impl FnMut(Comparison),
    ) -> Report {
        listed.clear();
        let m = tables.bytes.len();
        // Window b, count c.
        let (mut b, mut c) = (0, 0);
        let mut columns = Columns::NONE;
        while b + m <= text.len() {
            // Each window is compared afresh, with no known edge.
            let mut left_with = m;
            for (i, p) in self.order.iter().copied().map(usize::from).enumerate() {
                // A comparison is due.
                if c == cap {
                    return report(Ending::Spent(b), c, &columns, listed);
                }
                c += 1;
                let made = compare(tables, text, b, p, &mut columns);
                tell(made);
                if !made.equal {
                    left_with = i;
                    break;
                }
            }
            if left_with == m {
                // The pattern occurs at b.
                if listed.len() == list_len {
                    return report(Ending::Full(b), c, &columns, listed);
                }
                listed.push(b, c);
            }
            b += self.shift[left_with];
        }
        report(Ending::Done, c, &columns, listed)
    }
}

/// At rank i, the smallest distance not ruled out by the earlier matches and the present mismatch; 0
/// is ruled out at every rank. At rank m, after an occurrence, the smallest from 1 that no place
/// rules out. No place rules m out, so there is one.
fn shift(tables: &Tables, order: &[u8], i: usize) -> usize {
    let place = |&p: &u8| usize::from(p);
    let earlier = order[..i].iter().map(place);
    let present = order.get(i).map(place);
    (1..=order.len())
        .find(|&k| {
            !present.is_some_and(|p| mismatch_rules_out(tables, p, k))
                && !earlier.clone().any(|q| match_rules_out(tables, q, k))
        })
        .expect("m is left")
}

/// Place q agreed. At distance k the text's letter there meets the one at q - k, if there is such a
/// place, and must agree with it too.
fn match_rules_out(tables: &Tables, q: usize, k: usize) -> bool {
    k <= q && !equal(&tables.classes, tables.bytes[q], tables.bytes[q - k])
}

/// Place p disagreed. At distance k the text's letter there meets the one at p - k, if there is such
/// a place, and disagrees again if that is the same letter.
fn mismatch_rules_out(tables: &Tables, p: usize, k: usize) -> bool {
    k <= p && equal(&tables.classes, tables.bytes[p], tables.bytes[p - k])
}
