//! The reading: checks 1 to 24, 27 and 28, the dose buffer in both forms, and what the
//! program prints.

use super::book::{self, Dose, MAX_BOOK};
use super::catalogue::{self, BATCH_WEIGHT, BOOK};
use super::digest::md5;
use super::{check, contents, sound, Checked, Structure};

/// The package's doses, where a buffer has room for this many numbers.
fn doses(edition: u32, package: &[u8], room: usize) -> Checked<Vec<Dose>> {
    check(1, (1..=3).contains(&edition), 0)?;

    // Checks 2 to 13 and 28.
    let opened = sound(package)?;
    let (signature, header) = (opened.signature, opened.header);

    // Checks 14 and 15.
    catalogue::check_lines(edition, signature, &catalogue::SIGNATURE)?;
    catalogue::check_lines(edition, header, &catalogue::HEADER)?;

    let size = number(&signature, 1000) as usize;
    check(16, size == package.len() - opened.header_start, 1000)?;

    // Checks 17 and 18.
    contents::check_groups(&opened)?;
    contents::check_texts(&header)?;

    let stated = signature.data(signature.tagged(1004).expect("check 14 passed"));
    check(27, stated == md5(&package[opened.header_start..]), 1004)?;

    let book = header.data(header.tagged(BOOK).expect("check 14 passed"));
    check(19, book.len() <= MAX_BOOK, BOOK as usize)?;

    // Checks 20 to 22.
    let doses = book::doses(edition, book)?;

    if edition >= 2 {
        let right = book::sum(&doses) == u64::from(number(&header, BATCH_WEIGHT));
        check(23, right, BATCH_WEIGHT as usize)?;
    }
    let needed = 3 * doses.len();
    check(24, room >= needed, needed)?;
    Ok(doses)
}

/// The number of a required int32 line of count 1.
fn number(structure: &Structure, tag: u32) -> u32 {
    let record = structure.tagged(tag).expect("check 14 passed");
    structure.numbers(record).next().expect("check 15 passed")
}

/// Oxide, milligrams, lot of each dose.
fn numbers(doses: &[Dose]) -> impl Iterator<Item = u32> + '_ {
    doses
        .iter()
        .flat_map(|dose| [u32::from(dose.oxide), dose.milligrams, dose.lot])
}

/// Reads into a buffer of numbers; the answer is the dose count.
pub fn read(edition: u32, package: &[u8], buffer: &mut [u32]) -> Checked<u32> {
    let doses = doses(edition, package, buffer.len())?;
    for (place, number) in buffer.iter_mut().zip(numbers(&doses)) {
        *place = number;
    }
    Ok(doses.len() as u32)
}

/// For C: bytes, four to a number, big-endian, a remainder unused; the answer is
/// number × 2^32 + place.
pub fn read_for_c(edition: u32, package: &[u8], buffer: &mut [u8]) -> u64 {
    match doses(edition, package, buffer.len() / 4) {
        Ok(doses) => {
            for (place, number) in buffer.chunks_exact_mut(4).zip(numbers(&doses)) {
                place.copy_from_slice(&number.to_be_bytes());
            }
            doses.len() as u64
        }
        Err(refusal) => refusal.packed(),
    }
}

/// The program's whole output: edition 3, room for any book's doses.
pub fn printed(package: &[u8]) -> String {
    match doses(3, package, usize::MAX) {
        Ok(doses) => {
            let line = |dose: &Dose| format!("{} {} {}\n", dose.oxide, dose.milligrams, dose.lot);
            let lines: String = doses.iter().map(line).collect();
            format!("edition 3\n{lines}total {}\n", book::sum(&doses))
        }
        Err(refusal) => format!("refused {} at {}\n", refusal.number, refusal.place),
    }
}
