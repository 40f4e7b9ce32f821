//! Request C-11: archives damaged at every byte, cut and lengthened at every place, small ones in
//! full, and random bytes. Each is answered as the oracle has it, and nothing lent changes.

mod common;
mod oracle;

use common::archives::{check_view, packed, Asker, Parts, CLOSING, TRAILER};
use common::worked::NO_CAP;
use common::{Random, Trial};
use poqewan::Refusal::{self, FalseDirectory, NoTrailer, RecordsApart};

/// Small archives, with empty records among them.
fn small_archives() -> [Vec<u8>; 8] {
    [
        packed(&[]),
        packed(&[b""]),
        packed(&[b"aba"]),
        packed(&[b"", b"aba"]),
        packed(&[b"ab", b"aba"]),
        packed(&[b"aba", b"", b"cababa"]),
        packed(&[b"", b"", b"", b""]),
        packed(&[b"aba", b"", b"ab", b"ababa", b""]),
    ]
}

/// Where the directory of a small archive starts.
fn directory_of(archive: &[u8]) -> usize {
    usize::from(archive[archive.len() - TRAILER])
}

/// Counts the answers of each kind.
#[derive(Debug, Default)]
struct Tally {
    accepted: usize,
    refused: [usize; 3],
}

impl Tally {
    fn note(&mut self, answer: Result<usize, Refusal>) {
        match answer {
            Ok(_) => self.accepted += 1,
            Err(NoTrailer) => self.refused[0] += 1,
            Err(FalseDirectory) => self.refused[1] += 1,
            Err(RecordsApart) => self.refused[2] += 1,
            Err(why) => panic!("{why:?} of a small archive"),
        }
    }
}

#[test]
fn each_byte_of_directory_and_trailer_changed_to_each_value() {
    let mut asker = Asker::new();
    let mut tally = Tally::default();
    for mut archive in small_archives() {
        for place in directory_of(&archive)..archive.len() {
            let byte = archive[place];
            for other in 0..=255 {
                archive[place] = other;
                tally.note(asker.ask(&archive));
            }
            archive[place] = byte;
        }
    }
    // Only what was left as it was is accepted: no single byte gives another good archive.
    let bytes: usize = small_archives()
        .iter()
        .map(|archive| archive.len() - directory_of(archive))
        .sum();
    assert_eq!(tally.accepted, bytes);
    assert_eq!(tally.refused[0], 8 * 4 * 255);
    assert_eq!(tally.refused[1], 8 * 8 * 255);
}

/// A changed byte of a record is no damage.
#[test]
fn each_byte_of_a_record_changed_to_each_value() {
    let mut asker = Asker::new();
    for mut archive in small_archives() {
        let records = asker.ask(&archive);
        assert!(records.is_ok());
        for place in 0..directory_of(&archive) {
            for other in (0..=255).step_by(5).chain(*b"abc") {
                let byte = std::mem::replace(&mut archive[place], other);
                assert_eq!(asker.ask(&archive), records);
                archive[place] = byte;
            }
        }
    }
}

#[test]
fn archives_cut_at_every_length_and_with_a_byte_more_at_every_place() {
    let mut asker = Asker::new();
    let mut tally = Tally::default();
    for archive in small_archives() {
        for len in 0..archive.len() {
            tally.note(asker.ask(&archive[..len]));
            // Cut at the front: the bytes before are still there, and must not be looked at.
            tally.note(asker.ask(&archive[archive.len() - len..]));
        }
        for place in 0..=archive.len() {
            for byte in [0, 1, 3, b'a', b'R', b'E', b'L', 255] {
                let mut longer = archive.clone();
                longer.insert(place, byte);
                tally.note(asker.ask(&longer));
            }
        }
        for place in 0..archive.len() {
            let mut shorter = archive.clone();
            shorter.remove(place);
            tally.note(asker.ask(&shorter));
        }
    }
    assert!(tally.refused[..2].iter().all(|&n| n > 100), "{tally:?}");
}

/// Every directory of up to two entries with small numbers, after up to three bytes.
#[test]
fn every_small_directory() {
    let mut trial = Trial::of(b"a");
    let mut tally = Tally::default();
    for len in 0..=3u32 {
        let numbers = 0..=len + 1;
        for present in 0..=2u32 {
            let choices = (len + 2).pow(2 * present);
            for choice in 0..choices {
                let mut left = choice;
                let mut draw = || {
                    let number = left % (len + 2);
                    left /= len + 2;
                    number
                };
                let entries = (0..present).map(|_| [draw(), draw()]).collect();
                let parts = Parts {
                    records: b"aba"[..len as usize].to_vec(),
                    entries,
                    start: len,
                    number: present,
                    closing: CLOSING,
                };
                for start in numbers.clone().chain([len + 8, len + 16]) {
                    for number in 0..=3 {
                        let archive = Parts {
                            start,
                            number,
                            ..parts.clone()
                        };
                        let archive = archive.bytes();
                        let answer = check_view(&archive);
                        // Most are refused by the trailer alone.
                        if answer != Err(FalseDirectory) || choice % 16 == 0 {
                            for record in 0..=2 {
                                let reports = trial.check_record(&archive, record, NO_CAP, 4);
                                assert_eq!(reports.err(), answer.err());
                            }
                        }
                        tally.note(answer);
                    }
                }
            }
        }
    }
    // Of n bytes there are no records if n is 0, one in one way, and two in n + 1 ways.
    assert_eq!(tally.accepted, 1 + 4 + (1 + 2 + 3 + 4));
    assert!(tally.refused[1] > 10_000 && tally.refused[2] > 1_000);
}

/// Random bytes, with a trailer that fits them in part or in full.
#[test]
fn random_bytes_with_a_trailer() {
    let mut random = Random::new(114);
    let mut asker = Asker::new();
    let mut tally = Tally::default();
    for round in 0..12_000 {
        let number = random.below(5);
        let len = random.below(12);
        let letters: &[u8] = if round % 2 == 0 {
            b"ab"
        } else {
            &[0, 1, 2, 255]
        };
        let mut archive = random.word(letters, len + 8 * number);
        // Half of the directories have small numbers, and those may touch.
        if round % 4 < 2 {
            let mut start = 0;
            for entry in archive[len..].chunks_exact_mut(8) {
                let length = random.below(4);
                entry.fill(0);
                entry[0] = start as u8;
                entry[4] = length as u8;
                start += length;
            }
        }
        let told = (len + random.below(16) / 15) as u32;
        archive.extend(told.to_le_bytes());
        archive.extend((number as u32).to_le_bytes());
        archive.extend(CLOSING);
        tally.note(asker.ask(&archive));
    }
    assert!(tally.accepted > 200, "{tally:?}");
    assert!(tally.refused[1..].iter().all(|&n| n > 500), "{tally:?}");

    // And with none, which is hardly ever there by chance.
    for _ in 0..2_000 {
        let len = random.below(60);
        let junk = random.word(&oracle::identity(), len);
        assert_eq!(asker.ask(&junk), Err(NoTrailer));
    }
}

/// Good archives with several bytes of directory and trailer changed, or two entries exchanged.
#[test]
fn archives_with_several_changes() {
    let mut random = Random::new(115);
    let mut asker = Asker::new();
    let mut tally = Tally::default();
    for round in 0..12_000 {
        let mut archive = small_archives()[round % 8].clone();
        let from = directory_of(&archive);
        // The closing bytes stay, or most would be refused by them.
        let span = archive.len() - 4 - from;
        for _ in 0..=random.below(3) {
            let place = from + random.below(span);
            archive[place] = match random.below(4) {
                0 => random.number() as u8,
                1 => archive[place].wrapping_add(1),
                2 => archive[place].wrapping_sub(1),
                _ => archive[from + random.below(span)],
            };
        }
        if round % 3 == 0 && span >= 24 {
            let entry = from + 8 * random.below(span / 8 - 2);
            archive[entry..entry + 16].rotate_left(8);
        }
        tally.note(asker.ask(&archive));
    }
    assert!(tally.accepted > 100, "{tally:?}");
    assert!(tally.refused[1..].iter().all(|&n| n > 1_000), "{tally:?}");
}
