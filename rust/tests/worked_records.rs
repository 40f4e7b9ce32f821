//! Document 01's worked records, with its values.

mod common;
mod oracle;

use common::worked::{row, Row, LONG, NO_CAP};
use common::Trial;
use oracle::{identity, LONGEST_PATTERN};
use poqewan::Ending::{Done, Full, Spent};

/// The rows of the document. Its counts are Colussi's, and KMP's of ab and aabaa; the other counts of
/// KMP and all columns are worked by hand. Neither a nor aa has a nohole; the only one of ab is place
/// 1, of aba place 1, of aabaa place 2. Below, the places that are compared, window by window.
#[rustfmt::skip]
const ROWS: [Row; 11] = [
    row(identity, b"a", b"aab", NO_CAP, LONG, &[0, 1], Done, [3, 0, 3], [3, 0, 3]),
    row(identity, b"aa", b"aaaa", NO_CAP, LONG, &[0, 1, 2], Done, [4, 0, 4], [4, 0, 4]),
    // 1, 1, 1; KMP 01, 01, 01.
    row(identity, b"ab", b"aaaa", NO_CAP, LONG, &[], Done, [3, 3, 0], [6, 3, 3]),
    // 120, then 12, as the known edge covers 0; KMP 012, 12.
    row(identity, b"aba", b"ababa", NO_CAP, LONG, &[0, 2], Done, [5, 2, 3], [5, 2, 3]),
    row(identity, b"aba", b"ababa", 3, LONG, &[0], Spent(2), [3, 1, 2], [3, 1, 2]),
    row(identity, b"aba", b"ababa", 4, LONG, &[0], Spent(2), [4, 2, 2], [4, 2, 2]),
    row(identity, b"aba", b"ababa", 5, LONG, &[0, 2], Done, [5, 2, 3], [5, 2, 3]),
    row(identity, b"aba", b"ababa", NO_CAP, 1, &[0], Full(2), [5, 2, 3], [5, 2, 3]),
    // 24310, 2, 2, 24310 at 0, 3, 4, 5; KMP 01234, 2, 12, 1234.
    row(identity, b"aabaa", b"aabaaaabaa", NO_CAP, LONG, &[0, 5], Done, [12, 4, 8], [12, 4, 8]),
    row(identity, b"aba", b"ab", 0, LONG, &[], Done, [0, 0, 0], [0, 0, 0]),
    row(identity, b"aba", b"aba", 0, LONG, &[], Spent(0), [0, 0, 0], [0, 0, 0]),
];

#[test]
fn every_row_has_the_result_of_the_document() {
    ROWS.iter().for_each(Row::check);
}

#[test]
fn the_two_tables_are_those_of_the_document() {
    check_tables(b"aba", &[1, 2, 0], &[1, 3, 2, 2]);
    check_tables(b"aabaa", &[2, 4, 3, 1, 0], &[1, 5, 4, 3, 3, 3]);
}

/// The nexts are all 0 in both tables.
fn check_tables(bytes: &[u8], order: &[u8], shift: &[u16]) {
    let trial = Trial::of(bytes);
    let pattern = trial.pattern();
    assert_eq!(pattern.order[..order.len()], *order);
    assert_eq!(pattern.shift[..shift.len()], *shift);
    assert_eq!(pattern.next, [0; LONGEST_PATTERN + 1]);
}

#[test]
fn twice_the_count_for_aabaa_is_24_against_a_ceiling_of_25() {
    let text = b"aabaaaabaa";
    let [colussi, _] = Trial::of(b"aabaa").check_to_the_end(text);
    assert_eq!(2 * colussi.count, 24);
    assert_eq!(3 * text.len() - b"aabaa".len(), 25);
}

#[test]
fn the_charge_is_the_count_in_started_thousands() {
    for (count, charge) in [
        (0, 0),
        (1, 1),
        (999, 1),
        (1_000, 1),
        (1_001, 2),
        (2_000, 2),
        (2_001, 3),
        (u64::MAX - 616, 18_446_744_073_709_551),
        (u64::MAX - 615, 18_446_744_073_709_551),
        (u64::MAX - 614, 18_446_744_073_709_552),
        (u64::MAX, 18_446_744_073_709_552),
    ] {
        assert_eq!(poqewan::charge(count), charge, "charge of {count}");
    }
}
