//! The digest of what a package has from H on: check 27.

use super::accepted::content;
use super::books::Book;
use super::damage;
use super::desk::{Desk, Outcomes};
use super::families::{any, refused};
use crate::content::{bin, Content, HEADER, SIGNATURE};
use crate::maker::md5::md5;
use crate::maker::S;
use crate::random::Random;

pub fn digests(desk: &mut Desk, random: &mut Random) {
    every_bit_of_digest(desk, random);
    every_byte(desk, random);
    every_payload(desk, random);
    payloads_like_padding(desk, random);
    places_of_h(desk, random);
    other_bytes(desk, random);
    large_payloads(desk, random);
    other_checks(desk, random);
}

fn wrong() -> Outcomes {
    refused(27, 1004)
}

/// The least content with a book of five records, the last a dose.
fn with_doses(random: &mut Random) -> (Content, Book) {
    let mut book = Book::new();
    for kind in [0x02, 0x86, 0x98, 0xAA] {
        book.right_record(random, &[kind]);
    }
    book.record(0x86, &[0, 27, 0, 0, 4, 0xE2]);
    let mut content = Content::least(&book.bytes, book.weight());
    let seed = random.next();
    content.layout = random.pick(&[0, seed]);
    (content, book)
}

/// Each bit of 1004 turned over, and each byte another.
fn every_bit_of_digest(desk: &mut Desk, random: &mut Random) {
    for _ in 0..40 {
        let (mut content, book) = any(random);
        desk.case(random, &content.bytes(), &book.known);
        for bit in 0..128 {
            content.digest_off = 1 << bit;
            desk.case(random, &content.bytes(), &wrong());
        }
        for byte in 0..16 {
            content.digest_off = u128::from(random.nonzero_byte()) << (8 * byte);
            desk.case(random, &content.bytes(), &wrong());
        }
    }
}

/// Where a header entry's data is in the package.
fn place_of(content: &Content, tag: u32) -> std::ops::Range<usize> {
    let package = content.package();
    let record = package.header.records.iter().find(|one| one[0] == tag);
    let [_, ty, offset, count] = *record.expect("a record");
    let start = package.h() + 16 + 16 * package.header.records.len() + offset as usize;
    start..start + count as usize * if ty == 4 { 4 } else { 1 }
}

/// One bit turned over in each byte: from H on the package is not accepted; book, weight and
/// payload have no check before 27. What stands before H has no part in the digest; the gap
/// has a check of its own.
fn every_byte(desk: &mut Desk, random: &mut Random) {
    for _ in 0..8 {
        let (mut content, book) = with_doses(random);
        let payload = random.below(80);
        content.payload = random.bytes(payload);
        // Data of its own for the book: other entries share none of it.
        content.layout = 0;
        let right = content.bytes();
        desk.case(random, &right, &book.known);
        let package = content.package();
        let h = package.h();
        let payload = h + package.header.size()..right.len();
        let known = [
            place_of(&content, 20_001),
            place_of(&content, 20_002),
            payload,
        ];
        for at in h..right.len() {
            let mut bytes = right.clone();
            bytes[at] ^= 1 << random.below(8);
            if known.iter().any(|part| part.contains(&at)) {
                desk.case(random, &bytes, &wrong());
                continue;
            }
            desk.bench.package(&bytes);
            for answer in desk.each(7020, None) {
                if !matches!(answer.number(), 4..=18 | 27) {
                    desk.bench
                        .fail(&format!("library {answer}: a bit turned over"));
                }
            }
        }
        for at in (8..10).chain(80..S) {
            let mut bytes = right.clone();
            bytes[at] ^= 1 << random.below(8);
            desk.case(random, &bytes, &book.known);
        }
        for at in package.gap_place() {
            let mut bytes = right.clone();
            bytes[at] ^= 1 << random.below(8);
            desk.case(random, &bytes, &refused(28, at));
        }
    }
}

/// Payloads of every length up to 200: whole, and with one bit turned over in their first,
/// last and any byte.
fn every_payload(desk: &mut Desk, random: &mut Random) {
    let (mut content, book) = with_doses(random);
    for length in 0..=200 {
        content.payload = random.bytes(length);
        let right = content.bytes();
        desk.case(random, &right, &book.known);
        let first = right.len() - length;
        for at in [0, length / 2, length.saturating_sub(1)] {
            if at < length {
                let mut bytes = right.clone();
                bytes[first + at] ^= 1 << random.below(8);
                desk.case(random, &bytes, &wrong());
            }
        }
        // A byte put in for another, 1000 and 1004 as they were.
        if length > 1 && right[right.len() - 1] != right[first] {
            let mut bytes = right.clone();
            let last = bytes.len() - 1;
            bytes.swap(first, last);
            desk.case(random, &bytes, &wrong());
        }
    }
}

/// Payloads that go on as MD5's own padding does: with 1000 right, the digest is another.
fn payloads_like_padding(desk: &mut Desk, random: &mut Random) {
    for length in 0..130 {
        let (mut content, book) = with_doses(random);
        content.payload = random.bytes(length);
        let package = content.package();
        let bits = 8 * package.from_h().len() as u64;
        let stated = md5(&package.from_h());
        let mut longer = content.clone();
        longer.payload.push(0x80);
        while (package.header.size() + longer.payload.len()) % 64 != 56 {
            longer.payload.push(0);
        }
        for more in [&[][..], &bits.to_le_bytes(), &bits.to_be_bytes()] {
            longer.payload.extend(more);
            desk.case(random, &longer.bytes(), &book.known);
            let right = md5(&longer.package().from_h());
            longer.digest_off = u128::from_be_bytes(right) ^ u128::from_be_bytes(stated);
            desk.case(random, &longer.bytes(), &wrong());
            longer.digest_off = 0;
            longer.payload.truncate(longer.payload.len() - more.len());
        }
    }
}

/// H at many multiples of 8, with gaps of every length.
fn places_of_h(desk: &mut Desk, random: &mut Random) {
    for size in 1..=72 {
        let (mut content, book) = with_doses(random);
        content.put(SIGNATURE, bin(1002, &random.bytes(size)));
        desk.case(random, &content.bytes(), &book.known);
        content.digest_off = 1 << random.below(128);
        desk.case(random, &content.bytes(), &wrong());
    }
}

/// Digests of other bytes than those from H to the end.
fn other_bytes(desk: &mut Desk, random: &mut Random) {
    for round in 0..150 {
        let (mut content, book) = match round % 2 {
            0 => with_doses(random),
            _ => any(random),
        };
        let payload = random.pick(&[0, 1, 7, 8, 40, 64, 100]);
        content.payload = random.bytes(payload);
        let bytes = content.bytes();
        desk.case(random, &bytes, &book.known);
        let package = content.package();
        let (h, end) = (package.h(), bytes.len());
        let index = h + 16;
        let store = index + 16 * package.header.records.len();
        let header_end = h + package.header.size();
        let padded = [&bytes[h..], &vec![0; end.next_multiple_of(8) - end]].concat();
        let reversed: Vec<u8> = bytes[h..].iter().rev().copied().collect();
        let others = [
            &bytes[..],
            &bytes[S..],
            &bytes[S + package.signature.size()..],
            &bytes[h - 1..],
            &bytes[h + 1..],
            &bytes[h + 8..],
            &bytes[index..],
            &bytes[store..],
            &bytes[header_end..],
            &bytes[h..header_end],
            &bytes[h..store],
            &bytes[h..end - 1],
            &bytes[h..end - (end - h) % 64],
            &bytes[h..h + 16],
            &bytes[..h],
            &padded,
            &reversed,
            &[],
        ];
        let right = u128::from_be_bytes(md5(&bytes[h..]));
        for other in others {
            let stated = u128::from_be_bytes(md5(other));
            content.digest_off = right ^ stated;
            let known = match stated == right {
                true => book.known.clone(),
                false => wrong(),
            };
            desk.case(random, &content.bytes(), &known);
        }
        // The right digest in another order of bytes or words, its complement, none.
        let bytes = right.to_be_bytes();
        let words: Vec<u8> = bytes.chunks(4).rev().flatten().copied().collect();
        let turned: Vec<u8> = bytes
            .chunks(4)
            .flat_map(|four| four.iter().rev())
            .copied()
            .collect();
        let [words, turned] =
            [words, turned].map(|all| u128::from_be_bytes(all.try_into().unwrap()));
        for stated in [right.swap_bytes(), words, turned, !right, 0, u128::MAX] {
            content.digest_off = right ^ stated;
            desk.case(random, &content.bytes(), &wrong());
        }
    }
}

/// Up to the largest package.
fn large_payloads(desk: &mut Desk, random: &mut Random) {
    for size in [4096, 8191, 30_000, 65_000, 65_535, 65_536] {
        let (mut content, book) = with_doses(random);
        let rest = size - content.bytes().len();
        content.payload = random.bytes(rest);
        let right = content.bytes();
        assert!(right.len() == size);
        desk.case(random, &right, &book.known);
        for _ in 0..40 {
            let mut bytes = right.clone();
            let at = size - 1 - random.below(rest);
            bytes[at] ^= 1 << random.below(8);
            desk.case(random, &bytes, &wrong());
        }
        let mut bytes = right.clone();
        bytes[size - 1] ^= 0x80;
        desk.case(random, &bytes, &wrong());
    }
}

/// A wrong digest together with each other damage, and with a wrong book: 27 stands behind 18
/// and before 19.
fn other_checks(desk: &mut Desk, random: &mut Random) {
    for round in 0..8 {
        let mut book = Book::right(random, 60);
        match round {
            0 => book.record(0x80, &[]),
            1 => book.record(0x02, &[7]),
            2 => book.record(0x86, &[0; 6]),
            3 => {
                book = Book::of(&[(0, &[0; 4096])]);
                book.known = refused(19, 20_001);
            }
            _ => {}
        }
        let mut right = content(random, &book);
        right.payload = random.bytes(round);
        let (of_digest, others): (Vec<_>, Vec<_>) = damage::all(&right, random)
            .into_iter()
            .partition(|damage| damage.is_of_digest());
        for damage in &of_digest {
            let mut content = right.clone();
            damage.apply(&mut content);
            desk.case(random, &content.bytes(), &wrong());
            // The batch weight is no part of edition 1.
            content.remove(HEADER, 20_002);
            let mut known = wrong();
            known[1..].fill(Err((14, 20_002)));
            desk.case(random, &content.bytes(), &known);
        }
        for other in &others {
            let damage = &of_digest[random.below(of_digest.len())];
            if damage.beside(other) {
                let mut content = right.clone();
                damage.apply(&mut content);
                other.apply(&mut content);
                desk.note = other.what;
                let known = damage::outcome(&book, &content, &[damage, other]);
                desk.case(random, &content.bytes(), &known);
            }
        }
    }
}
