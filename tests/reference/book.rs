//! The book: its kinds and records, and checks 20 to 22.

use super::{be16, be32, check, Checked};

pub const MAX_BOOK: usize = 4096;

/// Known kinds, each with the edition that lists it first; later ones keep it.
const KINDS: [(u8, u32); 5] = [
    (0x02, 1),     // page
    (0x86, 1),     // oxide, milligrams
    (0x14, 2),     // date
    (0x98, 2),     // oxide, milligrams, tolerance
    (WITH_LOT, 3), // oxide, milligrams, lot
];

/// The one kind that states a lot.
const WITH_LOT: u8 = 0xAA;

#[derive(Clone, Copy, Debug, PartialEq, Eq)]
pub struct Dose {
    pub oxide: u16,
    pub milligrams: u32,
    pub lot: u32,
}

fn is_known(kind: u8, edition: u32) -> bool {
    KINDS
        .iter()
        .any(|&(known, since)| known == kind && since <= edition)
}

fn is_weighed(kind: u8) -> bool {
    kind >= 128
}

impl Dose {
    /// What a weighed record states; a kind without a lot has lot 0.
    fn of(kind: u8, body: &[u8]) -> Dose {
        Dose {
            oxide: be16(body, 0),
            milligrams: be32(body, 2),
            lot: if kind == WITH_LOT { be32(body, 6) } else { 0 },
        }
    }

    fn is_right(&self) -> bool {
        (1..=999).contains(&self.oxide) && (1..=5_000_000).contains(&self.milligrams)
    }
}

/// The doses of the weighed records, in order; checks 20 to 22 on each record.
pub fn doses(edition: u32, book: &[u8]) -> Checked<Vec<Dose>> {
    let mut doses = Vec::new();
    let mut place = 0;
    while place < book.len() {
        let kind = book[place];
        let body = place + 1;
        let end = body + usize::from(kind % 16);
        check(20, !is_weighed(kind) || is_known(kind, edition), place)?;
        check(21, end <= book.len(), place)?;
        if is_weighed(kind) {
            let dose = Dose::of(kind, &book[body..end]);
            check(22, dose.is_right(), place)?;
            doses.push(dose);
        }
        place = end;
    }
    Ok(doses)
}

pub fn sum(doses: &[Dose]) -> u64 {
    doses.iter().map(|dose| u64::from(dose.milligrams)).sum()
}
