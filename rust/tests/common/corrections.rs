//! What every test of a correction checks, and corrections to make.

use super::journals::{assert_holds, Lent};
use super::worked::NO_CAP;
use super::{case, changed, Random, Trial};
use crate::oracle;
use poqewan::{colussi, correct, Ending, Pattern, Refusal};

impl Trial {
    /// Brings a list up to date of which so many entries are in use, and checks all that is promised of
    /// the answer. Gives the new number of them.
    pub fn check_correct_in(
        &self,
        text: &[u8],
        place: usize,
        list: &mut Lent,
        used: usize,
    ) -> Result<usize, Refusal> {
        let before = list.clone();
        let answer = correct(&self.pattern, text, place, list.entries_mut(), used);
        let mut expected_list = before.clone();
        let expected = oracle::corrections::answer(
            Some(&self.tables),
            text,
            place,
            expected_list.entries_mut(),
            used,
        );

        let case = || {
            let entries = before.entries();
            let begin = &entries[..used.min(entries.len()).min(40)];
            let list_len = entries.len();
            let case = case(&self.tables, text);
            format!("place {place}, {begin:?} ({used} in use) in a list of {list_len}, {case}")
        };
        assert!(
            answer == expected,
            "{}: {answer:?}, by the request {expected:?}",
            case()
        );
        assert_holds(list, &expected_list, "list", &case);
        let now = answer?;
        let in_use = &list.entries()[..now];
        assert!(
            in_use.windows(2).all(|pair| pair[0] < pair[1]),
            "{}: {in_use:?} does not ascend",
            case()
        );
        assert!(
            now.abs_diff(used) <= self.tables.bytes.len(),
            "{}: the number moved to {now}",
            case()
        );
        assert!(
            place < text.len() || (now == used && *list == before),
            "{}: a place that is none changed the list to {in_use:?}",
            case()
        );
        Ok(now)
    }

    /// The same where all that a list holds is in use, but for entries to spare. Gives the entries then
    /// in use.
    pub fn check_correct(
        &self,
        text: &[u8],
        place: usize,
        list_len: usize,
        entries: &[u32],
    ) -> Result<Vec<u32>, Refusal> {
        let mut list = Lent::beginning_with(list_len, entries);
        let now = self.check_correct_in(text, place, &mut list, entries.len())?;
        Ok(list.entries()[..now].to_vec())
    }

    /// The same where the entries were right for the text before: the new ones must be those of a new
    /// search, in a list that just holds them. Gives them.
    pub fn check_right(&self, text: &[u8], place: usize, entries: &[u32]) -> Vec<u32> {
        let listed = self.listed(text);
        let list_len = entries.len().max(listed.len());
        let now = self.check_correct(text, place, list_len, entries);
        assert!(
            now.as_deref() == Ok(&listed),
            "place {place}, {}: {now:?}, and {listed:?} by a new search",
            case(&self.tables, text)
        );
        listed
    }

    /// What a new search lists.
    pub fn listed(&self, text: &[u8]) -> Vec<u32> {
        let mut list = vec![0; text.len()];
        let report = colussi(&self.pattern, text, NO_CAP, &mut list)
            .expect("the pattern is prepared and the text short");
        assert_eq!(report.ending, Ending::Done);
        list.truncate(report.written);
        list
    }

    /// Corrects a byte of a text with these occurrences, and puts it back.
    pub fn check_there_and_back(&self, text: &[u8], occurrences: &[u32], place: usize, byte: u8) {
        if place < text.len() {
            let there = self.check_right(&changed(text, place, byte), place, occurrences);
            self.check_right(text, place, &there);
        }
    }
}

/// The call must refuse so and leave the list as it is.
pub fn assert_correct_refused(
    pattern: &Pattern,
    text: &[u8],
    place: usize,
    list: &Lent,
    used: usize,
    why: Refusal,
) {
    let mut lent = list.clone();
    let answer = correct(pattern, text, place, lent.entries_mut(), used);
    let case = || {
        let entries = list.entries();
        let begin = &entries[..entries.len().min(8)];
        let (list_len, n) = (entries.len(), text.len());
        format!(
            "place {place}, {begin:?} (list of {list_len}), {used} in use, {n} bytes, {pattern:?}"
        )
    };
    assert!(
        answer == Err(why),
        "{}: {answer:?}, and not {why:?}",
        case()
    );
    assert_holds(&lent, list, "list", &case);
}

/// The call must refuse so, as a search does, wherever the place is and whatever the list: also one that
/// is false, and one that has no entry. Both are tested last.
pub fn assert_correction_refused(pattern: &Pattern, text: &[u8], why: Refusal) {
    let n = text.len();
    for (place, list_len, entries, used) in [
        (0, 0, &[][..], 0),
        (n / 2, 8, &[0, 2], 2),
        (n, 4, &[2, 2, 1], 3),
        (usize::MAX, 2, &[0, 2], 3),
    ] {
        let list = Lent::beginning_with(list_len, entries);
        assert_correct_refused(pattern, text, place, &list, used, why);
    }
}

/// Corrections of a text, one after another: most of them where the pattern occurs, and half of them
/// put an earlier byte back.
#[derive(Default)]
pub struct Corrections {
    /// Each place that was corrected, with the byte that stood there.
    made: Vec<(usize, u8)>,
}

impl Corrections {
    /// Makes one, of a text that has at least one byte. Gives its place.
    pub fn make(
        &mut self,
        text: &mut [u8],
        listed: &[u32],
        m: usize,
        letters: &[u8],
        random: &mut Random,
    ) -> usize {
        let n = text.len();
        if !self.made.is_empty() && random.below(2) == 0 {
            let (place, byte) = self.made.swap_remove(random.below(self.made.len()));
            text[place] = byte;
            return place;
        }
        let anywhere = random.below(n);
        let place = match random.below(4) {
            0 => anywhere,
            1 => [0, m - 1, n.saturating_sub(m), n - 1][random.below(4)].min(n - 1),
            _ if listed.is_empty() => anywhere,
            _ => listed[random.below(listed.len())] as usize + random.below(m),
        };
        self.made.push((place, text[place]));
        text[place] = random.word(letters, 1)[0];
        place
    }
}

/// A list that may be wrong, for a text of n bytes: so many entries at most, below n and somewhat past it,
/// and now and then great ones.
pub fn drawn_list(n: usize, most: usize, random: &mut Random) -> Vec<u32> {
    let mut entries: Vec<u32> = (0..random.below(most + 1))
        .map(|_| match random.below(20) {
            0 => u32::MAX - random.below(3) as u32,
            1 => random.number() as u32,
            _ => random.below(n + 4) as u32,
        })
        .collect();
    entries.sort_unstable();
    entries.dedup();
    entries
}
