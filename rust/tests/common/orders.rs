//! What every test of a search in an order of its own checks, and orders to search in.

use super::classes::shuffled;
use super::worked::NO_CAP;
use super::{case, Random, Trial, UNWRITTEN};
use crate::oracle::ordered::CustomOrder;
use crate::oracle::LONGEST_PATTERN;
use poqewan::{ordered, Ending, Pattern, Refusal, Report};

/// Entries that lie on either side of the lent list and are not lent.
const AROUND: usize = 3;

/// The m places from left to right.
pub fn left_to_right(m: usize) -> Vec<u8> {
    assert!(m <= LONGEST_PATTERN);
    (0..m).map(|p| p as u8).collect()
}

/// The m places from right to left.
pub fn right_to_left(m: usize) -> Vec<u8> {
    left_to_right(m).into_iter().rev().collect()
}

/// The m places in a random order.
pub fn drawn_order(m: usize, random: &mut Random) -> Vec<u8> {
    let places = shuffled(random).into_iter();
    places.filter(|&p| usize::from(p) < m).collect()
}

/// The m places in every order.
pub fn arrangements(m: usize) -> Vec<Vec<u8>> {
    left_to_right(m)
        .into_iter()
        .fold(vec![Vec::new()], |shorter, place| {
            let with_place = |order: &Vec<u8>, rank| {
                let mut order = order.clone();
                order.insert(rank, place);
                order
            };
            shorter
                .iter()
                .flat_map(|order| (0..=order.len()).map(move |rank| with_place(order, rank)))
                .collect()
        })
}

impl Trial {
    /// An order of the pattern's places, with the oracle's shifts.
    pub fn custom(&self, order: &[u8]) -> CustomOrder {
        CustomOrder::of(self.tables(), order)
    }

    /// The pattern's own order: Colussi's.
    pub fn own_order(&self) -> Vec<u8> {
        self.pattern().order[..self.pattern().len].to_vec()
    }

    /// Searches in an order, and checks all that is promised of the answer.
    pub fn check_ordered(
        &mut self,
        custom: &CustomOrder,
        text: &[u8],
        cap: u64,
        list_len: usize,
    ) -> Report {
        self.list.clear();
        self.list.resize(list_len + 2 * AROUND, UNWRITTEN);
        let lent = AROUND..AROUND + list_len;
        let list = &mut self.list[lent.clone()];
        let answer = ordered(&self.pattern, &custom.order, text, cap, list);
        let expected = custom.search(&self.tables, text, cap, list_len, &mut self.by_rules);

        let case = || {
            let case = case(&self.tables, text);
            let order = &custom.order;
            format!("order {order:?}, cap {cap}, list of {list_len}, {case}")
        };
        let list = &self.list[lent.clone()];
        self.assert_promised(
            answer,
            &expected,
            list,
            text,
            &self.occurrences(text),
            &case,
        );
        let around = [&self.list[..lent.start], &self.list[lent.end..]];
        assert!(
            around.concat() == [UNWRITTEN; 2 * AROUND],
            "{}: an entry that is not lent was changed",
            case()
        );
        expected
    }

    /// The same to the end, with a list that has an entry to spare.
    pub fn check_ordered_to_the_end(&mut self, custom: &CustomOrder, text: &[u8]) -> Report {
        let report = self.check_ordered(custom, text, NO_CAP, text.len() + 1);
        assert_eq!(report.ending, Ending::Done);
        report
    }

    /// Searches in Colussi's order and in a drawn one, whose shifts are kept for the next time.
    pub fn check_in_two_orders(&mut self, text: &[u8], cap: u64, list_len: usize) {
        let mut orders = std::mem::take(&mut self.orders);
        if orders.is_empty() {
            let m = self.tables.bytes.len();
            let drawn = drawn_order(m, &mut Random::new(m as u64));
            orders.extend([self.own_order(), drawn].map(|order| self.custom(&order)));
        }
        for custom in &orders {
            self.check_ordered(custom, text, cap, list_len);
        }
        self.orders = orders;
    }
}

/// The search must refuse so, whatever the cap and the list, and leave the list as it is.
pub fn assert_order_refused(pattern: &Pattern, order: &[u8], text: &[u8], why: Refusal) {
    for (cap, list_len) in [(NO_CAP, 8), (NO_CAP, 0), (0, 1)] {
        let mut list = vec![UNWRITTEN; list_len + 2 * AROUND];
        let lent = &mut list[AROUND..AROUND + list_len];
        let answer = ordered(pattern, order, text, cap, lent);
        let case = || {
            let n = text.len();
            format!("order {order:?}, cap {cap}, list of {list_len}, {n} bytes, {pattern:?}")
        };
        assert!(
            answer == Err(why),
            "{}: {answer:?}, and not {why:?}",
            case()
        );
        assert!(
            list.iter().all(|&entry| entry == UNWRITTEN),
            "{}: the list was changed",
            case()
        );
    }
}
