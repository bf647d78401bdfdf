//! Books, with what each must give by its making.

use super::demand3::EDITIONS;
use super::desk::{Outcome, Outcomes};
use crate::random::Random;

pub struct Book {
    pub bytes: Vec<u8>,
    /// At each edition, batch weight apart.
    pub known: Outcomes,
}

/// What stands in a weighed body's first six bytes.
pub fn dose(oxide: u32, milligrams: u32) -> Vec<u8> {
    let mut body = (oxide as u16).to_be_bytes().to_vec();
    body.extend(milligrams.to_be_bytes());
    body
}

pub fn right_dose(random: &mut Random) -> (u32, u32) {
    let oxide = match random.below(4) {
        0 => random.pick(&[1, 2, 27, 255, 256, 257, 512, 998, 999]),
        _ => 1 + random.below(999) as u32,
    };
    let milligrams = match random.below(4) {
        0 => random.pick(&[1, 255, 256, 1250, 65_535, 65_536, 4_999_999, 5_000_000]),
        _ => 1 + random.below(5_000_000) as u32,
    };
    (oxide, milligrams)
}

/// A weighed body with its lot.
pub fn with_lot(oxide: u32, milligrams: u32, lot: u32) -> Vec<u8> {
    [&dose(oxide, milligrams)[..], &lot.to_be_bytes()].concat()
}

/// The body's length of a kind.
pub fn length(kind: u8) -> usize {
    usize::from(kind % 16)
}

impl Book {
    pub fn new() -> Book {
        Book {
            bytes: Vec::new(),
            known: [(); EDITIONS.len()].map(|_| Ok(Vec::new())),
        }
    }

    pub fn of(records: &[(u8, &[u8])]) -> Book {
        let mut book = Book::new();
        for (kind, body) in records {
            book.record(*kind, body);
        }
        book
    }

    /// Adds a record. A body that is too short must be the book's end.
    pub fn record(&mut self, kind: u8, body: &[u8]) {
        let place = self.bytes.len() as u32;
        for (at, known) in self.known.iter_mut().enumerate() {
            let Ok(doses) = known else {
                continue;
            };
            let weighed = &[0x86, 0x98, 0xAA][..at + 1];
            if kind >= 128 && !weighed.contains(&kind) {
                *known = Err((20, place));
            } else if body.len() < length(kind) {
                *known = Err((21, place));
            } else if kind >= 128 {
                let number = |bytes: &[u8]| {
                    bytes
                        .iter()
                        .fold(0, |sum, &byte| sum << 8 | u32::from(byte))
                };
                let (oxide, milligrams) = (number(&body[..2]), number(&body[2..6]));
                let lot = if kind == 0xAA { number(&body[6..]) } else { 0 };
                if oxide == 0 || oxide > 999 || milligrams == 0 || milligrams > 5_000_000 {
                    *known = Err((22, place));
                } else {
                    doses.push([oxide, milligrams, lot]);
                }
            }
        }
        self.bytes.push(kind);
        self.bytes.extend(body);
    }

    /// A right record of a known kind, or an unknown remark.
    pub fn right_record(&mut self, random: &mut Random, weighed: &[u8]) {
        let kind = match random.below(8) {
            0 => 0x02,
            1 => 0x14,
            2 => random.below(128) as u8,
            3 => random.pick(&[0x00, 0x06, 0x0F, 0x18, 0x7F]),
            _ if weighed.is_empty() => 0x02,
            _ => random.pick(weighed),
        };
        let mut body = random.bytes(length(kind));
        if kind >= 128 {
            let (oxide, milligrams) = right_dose(random);
            body[..6].copy_from_slice(&dose(oxide, milligrams));
        }
        self.record(kind, &body);
    }

    /// A book that edition 3 reads, of at most `most` bytes.
    pub fn right(random: &mut Random, most: usize) -> Book {
        let weighed: &[u8] = match random.below(8) {
            0 => &[],
            1 => &[0x98],
            2 => &[0x86, 0x98],
            3 => &[0xAA],
            4 => &[0x86, 0xAA],
            5 => &[0x86, 0x98, 0xAA],
            _ => &[0x86],
        };
        let mut book = Book::new();
        for _ in 0..1 + random.below(most / 8) {
            if book.bytes.len() + 16 <= most {
                book.right_record(random, weighed);
            }
        }
        book
    }

    /// What the latest edition gives.
    pub fn latest(&self) -> &Outcome {
        &self.known[EDITIONS.len() - 1]
    }

    /// 20002 for this book; 0 where it has no doses.
    pub fn weight(&self) -> u32 {
        match self.latest() {
            Ok(doses) => doses.iter().map(|dose| dose[1]).sum(),
            Err(_) => 0,
        }
    }
}
