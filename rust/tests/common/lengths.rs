//! What every test of the prefix lengths checks.

use super::{case, Trial};
use crate::oracle::{self, Tables};
use poqewan::{prefix_lengths, Pattern, Refusal};
use std::ops::Range;

/// Entries that lie on either side of the lent list and are not lent.
const AROUND: usize = 3;

/// What a list of so many entries holds before the call, with what lies around it, and where it
/// lies. Neighbours differ, and no entry is a length.
fn unwritten(list_len: usize) -> (Vec<u16>, Range<usize>) {
    let entries = (0..list_len + 2 * AROUND).map(|x| u16::MAX - (x % 60_000) as u16);
    (entries.collect(), AROUND..AROUND + list_len)
}

impl Trial {
    /// Asks for the prefix lengths with a list of so many entries, and checks all that is promised
    /// of the answer. Gives it, and the list.
    pub fn check_lengths_with(
        &self,
        text: &[u8],
        list_len: usize,
    ) -> (Result<u64, Refusal>, Vec<u16>) {
        let tables = self.tables();
        let (mut list, lent) = unwritten(list_len);
        let answer = prefix_lengths(self.pattern(), text, &mut list[lent.clone()]);
        let (mut expected_list, _) = unwritten(list_len);
        let expected =
            oracle::lengths::answer(Some(tables), text, &mut expected_list[lent.clone()]);

        let case = || format!("list of {list_len}, {}", case(tables, text));
        assert!(
            answer == expected,
            "{}: {answer:?}, by the request {expected:?}",
            case()
        );
        if let Some(x) = (0..list.len()).find(|&x| list[x] != expected_list[x]) {
            let [entry, other] = [&list, &expected_list].map(|list| list[x]);
            let at = x as isize - AROUND as isize;
            panic!("{}: entry {at} is {entry}, by the request {other}", case());
        }
        let list = list[lent].to_vec();
        if let Ok(count) = answer {
            assert!(
                count <= 2 * text.len() as u64,
                "{}: count {count} is above the ceiling",
                case()
            );
            assert!(
                whole(tables, &list[..text.len()]) == self.occurrences(text),
                "{}: entries are m elsewhere than where the pattern occurs",
                case()
            );
        }
        (answer, list)
    }

    /// The same, with a list that has two entries to spare. Gives the lengths and the count.
    pub fn check_lengths(&self, text: &[u8]) -> (Vec<u16>, u64) {
        let (answer, mut list) = self.check_lengths_with(text, text.len() + 2);
        list.truncate(text.len());
        (list, answer.expect("the list is long enough"))
    }
}

/// The positions at which the length is m.
pub fn whole(tables: &Tables, lengths: &[u16]) -> Vec<u32> {
    let m = tables.bytes.len();
    let all = (0..).zip(lengths);
    all.filter(|&(_, &length)| usize::from(length) == m)
        .map(|(x, _)| x)
        .collect()
}

/// The call must refuse so and leave the list as it is.
pub fn assert_lengths_refused(pattern: &Pattern, text: &[u8], list_len: usize, why: Refusal) {
    let (mut list, lent) = unwritten(list_len);
    let answer = prefix_lengths(pattern, text, &mut list[lent]);
    let case = || format!("list of {list_len}, {} bytes, {pattern:?}", text.len());
    assert!(
        answer == Err(why),
        "{}: {answer:?}, and not {why:?}",
        case()
    );
    assert!(
        list == unwritten(list_len).0,
        "{}: the list was changed",
        case()
    );
}
