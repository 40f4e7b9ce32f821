//! Worked records: searches with the results that a document gives, or that were worked by hand.

use super::archives::packed;
use super::classes::Classes;
use super::{Method, Trial, UNWRITTEN};
use poqewan::{Ending, Report};

pub const NO_CAP: u64 = u64::MAX;
/// A list that is long enough.
pub const LONG: usize = 16;

/// A count, and its two columns: at noholes and at holes.
pub type Counts = [u64; 3];

/// Comparisons as they are written down: each word has a window and, behind the colon, a digit for each
/// place that is compared in it.
pub fn windows_and_places(compared: &str) -> Vec<(usize, usize)> {
    let words = compared.split_whitespace();
    words
        .flat_map(|word| {
            let (window, places) = word.split_once(':').expect("a window and its places");
            let window = window.parse().expect("a number");
            let places = places.bytes();
            places.map(move |digit| (window, usize::from(digit - b'0')))
        })
        .collect()
}

/// The report with a cap and a list, where a search run to its end makes these comparisons and lists
/// these positions. The list has no entry for the first position past its end, once the comparisons of
/// that window are made; the cap is spent where one more is due. There is a digit for each nohole.
pub fn cut_off(
    made: &[(usize, usize)],
    noholes: &str,
    positions: &[u32],
    cap: u64,
    list_len: usize,
) -> Report {
    let full = positions.get(list_len).map(|&b| b as usize);
    let due = made
        .iter()
        .filter(|&&(window, _)| !full.is_some_and(|b| b < window));
    let due = due.count();
    let count = due.min(usize::try_from(cap).unwrap_or(usize::MAX));
    let ending = match full {
        _ if count < due => Ending::Spent(made[count].0),
        Some(b) => Ending::Full(b),
        None => Ending::Done,
    };
    let is_nohole = |place: usize| noholes.contains(&place.to_string());
    let at_noholes = made[..count].iter().filter(|&&(_, place)| is_nohole(place));
    let at_noholes = at_noholes.count();
    let written = match ending {
        Ending::Done => positions.len(),
        Ending::Spent(b) | Ending::Full(b) => positions.partition_point(|&at| (at as usize) < b),
    };
    Report {
        ending,
        count: count as u64,
        at_noholes: at_noholes as u64,
        at_holes: (count - at_noholes) as u64,
        written,
    }
}

/// A pattern by its classes, with a cap and a list, in a text. Both searches have the positions and
/// the ending.
pub struct Row {
    classes: fn() -> Classes,
    pattern: &'static [u8],
    text: &'static [u8],
    cap: u64,
    list_len: usize,
    positions: &'static [u32],
    ending: Ending,
    colussi: Counts,
    kmp: Counts,
}

#[allow(clippy::too_many_arguments)] // The columns of a table.
pub const fn row(
    classes: fn() -> Classes,
    pattern: &'static [u8],
    text: &'static [u8],
    cap: u64,
    list_len: usize,
    positions: &'static [u32],
    ending: Ending,
    colussi: Counts,
    kmp: Counts,
) -> Row {
    Row {
        classes,
        pattern,
        text,
        cap,
        list_len,
        positions,
        ending,
        colussi,
        kmp,
    }
}

impl Row {
    /// Both searches answer as the oracle does, and as the row has it; so do those of a record
    /// between two others.
    pub fn check(&self) {
        let [pattern, text] = [self.pattern, self.text].map(<[u8]>::escape_ascii);
        let mut trial = Trial::with_classes(self.pattern, &(self.classes)());
        trial.check(self.text, self.cap, self.list_len);

        for (method, counts) in Method::BOTH.into_iter().zip([self.colussi, self.kmp]) {
            let case = format!("{method:?}, {pattern} in {text}, cap {}", self.cap);
            let [count, at_noholes, at_holes] = counts;
            let expected = Report {
                ending: self.ending,
                count,
                at_noholes,
                at_holes,
                written: self.positions.len(),
            };
            let mut list = vec![UNWRITTEN; self.list_len];
            let answer = method.run(trial.pattern(), self.text, self.cap, &mut list);
            assert_eq!(answer, Ok(expected), "{case}");
            assert_eq!(&list[..expected.written], self.positions, "{case}");

            let archive = packed(&[self.pattern, self.text, self.pattern]);
            let mut list = vec![UNWRITTEN; self.list_len];
            let answer = method.run_record(trial.pattern(), &archive, 1, self.cap, &mut list);
            assert_eq!(answer, Ok(Some(expected)), "{case}, of a record");
            assert_eq!(&list[..expected.written], self.positions, "{case}");
        }
    }
}
