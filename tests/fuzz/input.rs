//! An input is a package. Its lead's last 16 bytes, free by document 01, say what
//! is asked of it; where an input is too short to have them they are zero.
//!
//! | Bytes | What |
//! |---|---|
//! | 80-83 | an edition, for a reading besides those at 1 to 3 |
//! | 84-85 | the length of a dose or package buffer; with the top bit set it is near what is needed |
//! | 86-87 | how many zero bytes are put behind the input |
//! | 88-91 | a look-up's tag |
//! | 92, 93 | its type and structure, signed, so that large numbers come up |
//! | 94, 95 | its element: the upper half, signed, and the lower half |
//!
//! What it gives to write is in given.rs, the names and versions that are asked with in required.rs;
//! the choices there follow from all its bytes.

use crate::bench::Question;
use crate::maker::{Package, Structure, S};

pub const ASKED: usize = 80;
pub const ROOM: usize = 84;
pub const FILL: usize = 86;

/// What an input asks.
pub struct Asked {
    pub edition: u32,
    room: u16,
    pub question: Question,
    /// Where other choices start from.
    pub seed: u64,
}

fn asked_bytes(input: &[u8]) -> [u8; 16] {
    let mut bytes = [0; 16];
    for (byte, &given) in bytes.iter_mut().zip(input.iter().skip(ASKED)) {
        *byte = given;
    }
    bytes
}

impl Asked {
    pub fn of(input: &[u8]) -> Asked {
        let [e0, e1, e2, e3, r0, r1, _, _, t0, t1, t2, t3, ty, structure, n0, n1] =
            asked_bytes(input);
        let tag = u32::from_be_bytes([t0, t1, t2, t3]);
        Asked {
            edition: u32::from_be_bytes([e0, e1, e2, e3]),
            room: u16::from_be_bytes([r0, r1]),
            question: Question {
                structure: structure as i8 as u32,
                tag,
                ty: ty as i8 as u32,
                element: Some((n0 as i8 as u32) << 16 | u32::from(n1)),
            },
            seed: u64::from_be_bytes([t0, t1, t2, t3, ty, structure, n0, n1]),
        }
    }

    /// The length of a buffer of which this many bytes are needed.
    pub fn room(&self, needed: usize) -> usize {
        let number = usize::from(self.room);
        match number < 0x8000 {
            true => number % 7500,
            false => (needed + number % 32).saturating_sub(16),
        }
    }
}

/// The package that an input is, with the zero bytes behind it.
pub fn package(input: &[u8]) -> Vec<u8> {
    let asked = asked_bytes(input);
    let fill = u16::from_be_bytes([asked[6], asked[7]]);
    let mut bytes = input.to_vec();
    bytes.resize(input.len() + usize::from(fill), 0);
    bytes
}

/// A number that follows from all bytes.
pub fn sum(bytes: &[u8]) -> u64 {
    bytes.iter().fold(0xCBF2_9CE4_8422_2325, |sum, &byte| {
        (sum ^ u64::from(byte)).wrapping_mul(0x0100_0000_01B3)
    })
}

/// The shortest input for a package: most zero bytes at its end are left out.
pub fn of_package(mut package: Vec<u8>) -> Vec<u8> {
    const KEPT: usize = 64;
    if package.len() < S {
        return package;
    }
    let zeros = package.iter().rev().take_while(|&&byte| byte == 0).count();
    let fill = zeros
        .saturating_sub(KEPT)
        .min(0xFFFF)
        .min(package.len() - S);
    package.truncate(package.len() - fill);
    package[FILL..FILL + 2].copy_from_slice(&(fill as u16).to_be_bytes());
    package
}

fn number(bytes: &[u8], at: usize) -> Option<usize> {
    let four = bytes.get(at..at + 4)?;
    Some(u32::from_be_bytes(four.try_into().unwrap()) as usize)
}

/// The structure that starts here, and its end; what lacks of its store is left out.
fn structure(bytes: &[u8], start: usize) -> Option<(Structure, usize)> {
    let (nindex, hsize) = (number(bytes, start + 8)?, number(bytes, start + 12)?);
    if !(1..=600).contains(&nindex) {
        return None;
    }
    let index = start + 16;
    let store = index + 16 * nindex;
    let end = (store + hsize).min(bytes.len());
    let numbers = bytes.get(index..store)?.chunks_exact(4);
    let numbers: Vec<u32> = numbers
        .map(|four| u32::from_be_bytes(four.try_into().unwrap()))
        .collect();
    let records = numbers.chunks_exact(4).map(|r| [r[0], r[1], r[2], r[3]]);
    let structure = Structure {
        records: records.collect(),
        store: bytes[store..end].to_vec(),
    };
    Some((structure, end))
}

/// The parts of a package that has both structures, right or not.
pub fn parts(bytes: &[u8]) -> Option<Package> {
    let lead = bytes.get(..S)?.try_into().unwrap();
    let (signature, end) = structure(bytes, S)?;
    let start = end.next_multiple_of(8);
    let (header, payload) = structure(bytes, start)?;
    let mut gap = [0; 7];
    gap[..start - end].copy_from_slice(&bytes[end..start]);
    Some(Package {
        lead,
        signature,
        gap,
        header,
        payload: bytes[payload..].to_vec(),
    })
}
