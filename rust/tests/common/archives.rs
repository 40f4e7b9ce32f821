//! Archives to search: built here by hand, and what every test of them checks.

use super::worked::NO_CAP;
use super::{prepared, Method, Trial, UNWRITTEN};
use crate::oracle;
use poqewan::{Archive, Pattern, Refusal, Report};

/// The closing bytes: 52 45 45 4C.
pub const CLOSING: [u8; 4] = [0x52, 0x45, 0x45, 0x4C];

/// The bytes of the trailer.
pub const TRAILER: usize = 12;

/// An archive in its parts, each of which a test may change.
#[derive(Clone, Debug)]
pub struct Parts {
    /// The bytes of all records.
    pub records: Vec<u8>,
    /// The start and the length of each record.
    pub entries: Vec<[u32; 2]>,
    /// Where the directory starts.
    pub start: u32,
    /// The number of records.
    pub number: u32,
    /// The closing bytes.
    pub closing: [u8; 4],
}

impl Parts {
    /// The parts of an archive of these records.
    pub fn of(records: &[&[u8]]) -> Self {
        let short = |n: usize| u32::try_from(n).expect("no archive is that long");
        let mut bytes = Vec::new();
        let mut entries = Vec::new();
        for record in records {
            entries.push([bytes.len(), record.len()].map(short));
            bytes.extend_from_slice(record);
        }
        Self {
            start: short(bytes.len()),
            number: short(records.len()),
            closing: CLOSING,
            records: bytes,
            entries,
        }
    }

    pub fn bytes(&self) -> Vec<u8> {
        let entries = self.entries.iter().flatten();
        let numbers = entries.chain([&self.start, &self.number]);
        let mut bytes = self.records.clone();
        bytes.extend(numbers.flat_map(|number| number.to_le_bytes()));
        bytes.extend(self.closing);
        bytes
    }
}

/// An archive of these records.
pub fn packed(records: &[&[u8]]) -> Vec<u8> {
    Parts::of(records).bytes()
}

/// The reports of both searches of a record.
pub type Reports = Result<Option<[Report; 2]>, Refusal>;

impl Trial {
    /// Asks for a record of an archive: where it lies, and for the pattern in it by both searches.
    /// Checks all that is promised of the answers, and gives the reports.
    pub fn check_record(
        &mut self,
        archive: &[u8],
        record: u64,
        cap: u64,
        list_len: usize,
    ) -> Reports {
        let case = || named(archive, record);
        let bounds = poqewan::find_record(archive, record);
        let expected = oracle::archive::record(archive, record);
        assert!(
            bounds == expected,
            "{}: at {bounds:?}, by the request {expected:?}",
            case()
        );

        let [colussi, kmp] =
            Method::BOTH.map(|method| self.check_record_by(method, archive, record, cap, list_len));
        match (colussi, kmp) {
            (Ok(Some(colussi)), Ok(Some(kmp))) => Ok(Some([colussi, kmp])),
            (Ok(None), Ok(None)) => Ok(None),
            (Err(one), Err(other)) if one == other => Err(one),
            _ => panic!("{}: {colussi:?} and {kmp:?}", case()),
        }
    }

    /// Runs both searches of a record to the end, with a list that has an entry to spare.
    pub fn check_record_to_the_end(&mut self, archive: &[u8], record: u64) -> Reports {
        let list_len = oracle::archive::record(archive, record)
            .ok()
            .flatten()
            .map_or(8, |part| part.len() + 1);
        self.check_record(archive, record, u64::MAX, list_len)
    }

    fn check_record_by(
        &mut self,
        method: Method,
        archive: &[u8],
        record: u64,
        cap: u64,
        list_len: usize,
    ) -> Result<Option<Report>, Refusal> {
        self.list.clear();
        self.list.resize(list_len, UNWRITTEN);
        let answer = method.run_record(&self.pattern, archive, record, cap, &mut self.list);

        let mut part = None;
        let by_rules = &mut self.by_rules;
        let expected =
            oracle::archive::search(Some(&self.tables), archive, record, |tables, bytes| {
                part = Some(bytes.to_vec());
                method.by_rules(tables, bytes, cap, list_len, by_rules)
            });

        let case = || {
            let pattern = self.tables.bytes.escape_ascii();
            let named = named(archive, record);
            format!("{method:?}, \"{pattern}\", cap {cap}, list of {list_len}, {named}")
        };
        assert!(
            answer == expected,
            "{}: {answer:?}, by the request {expected:?}",
            case()
        );

        // The positions, and then what the list held before: that alone where nothing is searched.
        let listed = match expected {
            Ok(Some(_)) => &self.by_rules.positions[..],
            _ => &[],
        };
        let (positions, rest) = self.list.split_at(listed.len());
        assert!(
            positions == listed,
            "{}: positions are {positions:?}, by the rules {listed:?}",
            case()
        );
        assert!(
            rest.iter().all(|&entry| entry == UNWRITTEN),
            "{}: an entry after the positions was changed",
            case()
        );

        if let (Ok(Some(report)), Some(part)) = (expected, part) {
            let m = self.tables.bytes.len();
            assert!(
                method.keeps_its_ceiling(m, part.len(), report.ending, report.count),
                "{}: count {} is above the ceiling",
                case(),
                report.count
            );
            // The plain search of the same bytes.
            let mut list = vec![UNWRITTEN; list_len];
            let plain = method.run(&self.pattern, &part, cap, &mut list);
            assert!(
                plain == Ok(report) && list == self.list,
                "{}: {plain:?} where the part is searched alone",
                case()
            );
        }
        expected
    }
}

/// The view must be as the request has it: refused so, or with exactly these records. Gives their
/// number.
pub fn check_view(bytes: &[u8]) -> Result<usize, Refusal> {
    let view = Archive::open(bytes);
    let expected = oracle::archive::records(bytes);
    let case = || named(bytes, 0);
    match (view, expected) {
        (Ok(view), Ok(bounds)) => {
            let number = bounds.len();
            assert_eq!(view.len(), number, "{}", case());
            assert_eq!(view.is_empty(), number == 0, "{}", case());
            assert_eq!(view.bytes(), bytes, "{}", case());
            assert_eq!(view.records().len(), number, "{}", case());
            for (r, (record, part)) in view.records().zip(bounds).enumerate() {
                assert_eq!(record, &bytes[part], "{}", case());
                assert_eq!(view.record(r), Some(record), "{}", case());
            }
            for none in [number, number + 1, usize::MAX / 8 + 1, usize::MAX] {
                assert_eq!(view.record(none), None, "{}", case());
            }
            Ok(number)
        }
        (Err(why), Err(expected)) if why == expected => Err(why),
        (view, expected) => panic!(
            "{}: the view is {view:?}, by the request {expected:?}",
            case()
        ),
    }
}

/// A search of a record must refuse so and leave the list as it is.
pub fn assert_record_refused(
    method: Method,
    pattern: &Pattern,
    archive: &[u8],
    record: u64,
    why: Refusal,
) {
    let mut list = [UNWRITTEN; 8];
    let answer = method.run_record(pattern, archive, record, u64::MAX, &mut list);
    let case = || format!("{method:?}, {}", named(archive, record));
    assert!(
        answer == Err(why),
        "{}: {answer:?}, and not {why:?}, on {pattern:?}",
        case()
    );
    assert_eq!(list, [UNWRITTEN; 8], "{}: wrote into the list", case());
}

/// A true pattern, which occurs here and there, and a false one.
pub struct Asker {
    pub trial: Trial,
    false_one: Pattern,
}

impl Asker {
    pub fn new() -> Self {
        let mut false_one = prepared(b"aba");
        false_one.noholes = 2;
        Self {
            trial: Trial::of(b"aba"),
            false_one,
        }
    }

    /// Asks of an archive all that can be asked: the view, each record, some that are not there,
    /// and with a false pattern, which is told first. Nothing lent may change. Gives the number of
    /// records, or why it is refused.
    pub fn ask(&mut self, archive: &[u8]) -> Result<usize, Refusal> {
        let lent = archive.to_vec();
        let answer = check_view(archive);
        // No archive with this asked of it has a directory of more, before it is damaged.
        let records = answer.unwrap_or(5) as u64;
        for record in (0..=records + 1).chain([u64::MAX]) {
            let reports = self.trial.check_record(archive, record, NO_CAP, 4);
            assert_eq!(reports.err(), answer.err());
        }
        for method in Method::BOTH {
            for record in [0, u64::MAX] {
                assert_record_refused(
                    method,
                    &self.false_one,
                    archive,
                    record,
                    Refusal::FalsePattern,
                );
            }
        }
        assert_eq!(archive, lent, "the archive was changed");
        answer
    }
}

/// Names a record of an archive in a message; of a long archive only its end is shown.
fn named(archive: &[u8], record: u64) -> String {
    let end = archive.len().saturating_sub(100);
    format!(
        "record {record} of \"{}\" ({} bytes)",
        archive[end..].escape_ascii(),
        archive.len()
    )
}
