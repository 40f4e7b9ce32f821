//! Request C-21, word for word: a journal of comparisons. The library calls a card a prepared pattern,
//! a record a text and a place of the record a position.

use super::lengths::LONGEST_RECORD;
use super::{equal, follow_rules, Comparison, Listed, Tables};
use poqewan::{Ending, Refusal, Report};
use std::collections::HashMap;

/// A search that was followed by its rules.
pub struct Followed {
    pub report: Report,
    /// Its comparisons, in order.
    pub made: Vec<Comparison>,
    /// The positions that it lists.
    pub positions: Vec<u32>,
}

/// Follows the search's rules for a record of n bytes, with a cap and a list of `list_len` entries.
/// Whoever is asked tells whether the letter at a place of the motif equals the record's in a window.
pub fn follow(
    tables: &Tables,
    n: usize,
    cap: u64,
    list_len: usize,
    mut ask: impl FnMut(usize, usize) -> bool,
) -> Followed {
    let (mut made, mut listed) = (Vec::new(), Listed::default());
    let report = follow_rules(tables, n, cap, list_len, &mut listed, |window, place| {
        let equal = ask(window, place);
        made.push(Comparison {
            window,
            place,
            equal,
        });
        equal
    });
    Followed {
        report,
        made,
        positions: listed.positions,
    }
}

/// For each comparison, twice the record place, plus 1 if equal.
pub fn journal_of(made: &[Comparison]) -> Vec<u32> {
    made.iter()
        .map(|made| {
            let place = u32::try_from(made.window + made.place).expect("no record is that long");
            2 * place + u32::from(made.equal)
        })
        .collect()
}

/// Whether the letter at a place of the motif equals the record's in a window.
fn agrees(tables: &Tables, text: &[u8], window: usize, place: usize) -> bool {
    equal(&tables.classes, tables.bytes[place], text[window + place])
}

/// Whether a record answers those comparisons so.
pub fn answers(tables: &Tables, text: &[u8], made: &[Comparison]) -> bool {
    made.iter()
        .all(|made| agrees(tables, text, made.window, made.place) == made.equal)
}

/// Whether some record answers those comparisons so. Each of its bytes has one class: it equals the
/// letters of that class whenever it is compared with them, and no others. Where none is said to be
/// equal, byte 0 answers so, as no letter of a motif has its class.
pub fn some_record_answers(tables: &Tables, made: &[Comparison]) -> bool {
    let mut equal_at = HashMap::new();
    let class = |made: &Comparison| tables.classes[usize::from(tables.bytes[made.place])];
    for said in made.iter().filter(|made| made.equal) {
        let place = said.window + said.place;
        if *equal_at.entry(place).or_insert(class(said)) != class(said) {
            return false;
        }
    }
    let mut unequal = made.iter().filter(|made| !made.equal);
    unequal.all(|said| equal_at.get(&(said.window + said.place)) != Some(&class(said)))
}

/// Refusals 4 and 5: the pattern is false and so has no tables, and the record is too long.
pub fn admit(tables: Option<&Tables>, n: usize) -> Result<&Tables, Refusal> {
    let tables = tables.ok_or(Refusal::FalsePattern)?;
    if n > LONGEST_RECORD {
        return Err(Refusal::LongText);
    }
    Ok(tables)
}

/// The search's answer, with what its list and its journal then hold: each is filled from its start,
/// and past that it holds what it held before; after a refusal it is unchanged.
pub fn journaled(
    tables: Option<&Tables>,
    text: &[u8],
    cap: u64,
    list: &mut [u32],
    journal: &mut [u32],
) -> Result<Report, Refusal> {
    let tables = admit(tables, text.len())?;
    // The journal is shorter than the cap.
    if (journal.len() as u64) < cap {
        return Err(Refusal::ShortJournal);
    }

    let n = text.len();
    let by_rules = follow(tables, n, cap, list.len(), |window, place| {
        agrees(tables, text, window, place)
    });
    list[..by_rules.positions.len()].copy_from_slice(&by_rules.positions);
    journal[..by_rules.made.len()].copy_from_slice(&journal_of(&by_rules.made));
    Ok(by_rules.report)
}

/// The search's rules with the journal's answers in place of the record's, capped at the journal's
/// length; or refusal 18.
pub fn follow_journal(
    tables: &Tables,
    n: usize,
    list_len: usize,
    journal: &[u32],
) -> Result<Followed, Refusal> {
    let mut entries = journal.iter();
    let mut is_false = false;
    let cap = journal.len() as u64;
    let by_rules = follow(tables, n, cap, list_len, |window, place| {
        let entry = *entries.next().expect("no more is asked than the cap");
        // The entry's place isn't the one that the rules compare next.
        if entry as usize / 2 != window + place {
            is_false = true;
        }
        entry % 2 == 1
    });
    // Entries remain after done or full.
    let remain = match by_rules.report.ending {
        Ending::Done | Ending::Full(_) => entries.next().is_some(),
        Ending::Spent(_) => false,
    };
    if is_false || remain {
        return Err(Refusal::FalseJournal);
    }
    Ok(by_rules)
}

/// The replay's answer, with what its list then holds.
pub fn replay(
    tables: Option<&Tables>,
    n: usize,
    list: &mut [u32],
    journal: &[u32],
) -> Result<Report, Refusal> {
    let tables = admit(tables, n)?;
    let by_rules = follow_journal(tables, n, list.len(), journal)?;
    list[..by_rules.positions.len()].copy_from_slice(&by_rules.positions);
    Ok(by_rules.report)
}
