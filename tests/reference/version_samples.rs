//! Samples of version texts and of what meets a requirement (document 02).

use std::cmp::Ordering::{self, Equal, Greater, Less};

#[path = "../compare/quoted.rs"]
#[allow(dead_code)]
mod quoted;
#[path = "../compare/versions/vectors.rs"]
mod vectors;

use super::requirement::{meets, meets_for_c};
use super::samples::maker::{Entry, Package, Structure};
use super::version::{compare, compare_for_c};
use super::{Checked, Refusal};

// ---- Version texts ----

/// Both ways round, and each with itself.
fn order(left: &[u8], right: &[u8], right_order: Ordering) {
    let shown = (left.escape_ascii(), right.escape_ascii());
    assert_eq!(compare(left, right), right_order, "{shown:?}");
    assert_eq!(compare(right, left), right_order.reverse(), "{shown:?}");
    assert_eq!(compare(left, left), Equal, "{shown:?}");
    assert_eq!(compare(right, right), Equal, "{shown:?}");
}

#[test]
fn the_papers_examples() {
    order(b"1.0", b"1_0", Equal);
    order(b"1.0", b"1.00", Equal);
    order(b"1_0", b"1.00", Equal);
    order(b"1", b"1.a", Less);
    order(b"1.a", b"1.1", Less);
    order(b"1", b"1.1", Less);
}

#[test]
fn answers_for_c() {
    assert_eq!(compare_for_c(b"1", b"2"), 0);
    assert_eq!(compare_for_c(b"1", b"01"), 1);
    assert_eq!(compare_for_c(b"2", b"1"), 2);
}

#[test]
fn vectors() {
    let all = vectors::all(include_str!("../vectors/versions.txt"));
    assert!(all.len() >= 100);
    for vector in all {
        order(&vector.left, &vector.right, vector.order);
    }
}

#[test]
fn texts_without_runs() {
    for text in [
        &b""[..],
        b".",
        b"...",
        b"\0",
        b"-_+ ",
        b"~",
        b"^",
        b"\x80\xFF",
    ] {
        order(text, b"", Equal);
        order(text, b"0", Less);
        order(text, b"A", Less);
    }
}

/// Only the bytes 0 to 9, A to Z and a to z don't separate.
#[test]
fn every_byte() {
    for byte in 0..=255u8 {
        let class = match byte {
            b'0'..=b'9' => Greater,
            b'A'..=b'Z' | b'a'..=b'z' => Less,
            _ => Equal,
        };
        // Behind "a" a letter makes the run longer, a digit begins one above "b".
        let against = if class == Equal { Equal } else { Greater };
        order(&[b'a', byte, b'b'], b"a.b", against);
        assert_eq!(compare(&[byte], b"") == Equal, class == Equal, "{byte}");
        assert_eq!(
            compare(&[byte], b"zz") == Greater,
            class == Greater,
            "{byte}"
        );
    }
}

#[test]
fn zeros() {
    for zeros in 0..300 {
        let zeros = "0".repeat(zeros);
        order(format!("{zeros}1").as_bytes(), b"1", Equal);
        order(format!("{zeros}0").as_bytes(), b"0", Equal);
        order(format!("a{zeros}0b").as_bytes(), b"a0b", Equal);
        order(format!("{zeros}9").as_bytes(), b"10", Less);
        order(format!("1.{zeros}1").as_bytes(), b"1.2", Less);
    }
}

/// Digits behind the 19th, the 20th and the 39th count, and so does every one of thousands.
#[test]
fn long_numbers() {
    for length in [19, 20, 21, 38, 39, 40, 41, 309, 5000] {
        let number = "8".repeat(length);
        order(number.as_bytes(), format!("0{number}").as_bytes(), Equal);
        order(number.as_bytes(), format!("{number}0").as_bytes(), Less);
        order(number.as_bytes(), format!("1{number}").as_bytes(), Less);
        for at in [0, 1, length / 2, length - 1] {
            let mut other = number.clone().into_bytes();
            other[at] = b'9';
            order(number.as_bytes(), &other, Less);
            other[at] = b'7';
            order(number.as_bytes(), &other, Greater);
        }
    }
}

/// Texts of up to three pieces.
fn many_texts() -> Vec<Vec<u8>> {
    let pieces: [&[u8]; 7] = [b"", b".", b"0", b"10", b"a", b"B1", b"\xE9"];
    let mut texts = Vec::new();
    for one in pieces {
        for other in pieces {
            texts.extend(pieces.map(|last| [one, other, last].concat()));
        }
    }
    texts
}

/// Every two of hundreds: exactly one of older, same, newer, and the contrary the other way
/// round. Every three of some: what is not newer goes through.
#[test]
fn a_total_order_up_to_same() {
    let texts = many_texts();
    assert!(texts.len() > 300);
    for one in &texts {
        assert_eq!(compare(one, one), Equal);
        for other in &texts {
            assert_eq!(compare(one, other), compare(other, one).reverse());
        }
    }
    let some: Vec<&Vec<u8>> = texts.iter().step_by(4).collect();
    for a in &some {
        for b in some.iter().filter(|b| compare(a, b) != Greater) {
            for c in some.iter().filter(|c| compare(b, c) != Greater) {
                assert_ne!(compare(a, c), Greater);
                let both_same = compare(a, b) == Equal && compare(b, c) == Equal;
                assert_eq!(compare(a, c) == Equal, both_same);
            }
        }
    }
}

// ---- Requirements ----

fn flags(numbers: &[u32]) -> Entry {
    let elements = numbers.iter().map(|number| number.to_be_bytes().to_vec());
    Entry {
        tag: 1048,
        ty: 4,
        elements: elements.collect(),
    }
}

fn names(texts: &[&[u8]]) -> Entry {
    Entry::new(1049, 8, texts)
}

fn versions(texts: &[&[u8]]) -> Entry {
    Entry::new(1050, 8, texts)
}

fn package(signature: &[Entry], header: &[Entry]) -> Vec<u8> {
    let plain = [Entry::new(1000, 4, &[&[0; 4]])];
    let signature = [&plain, signature].concat();
    let header = [&plain, header].concat();
    Package::of(Structure::of(&signature), Structure::of(&header)).bytes()
}

/// One name, "lead", with these flags and the version 1.3.
fn one(number: u32) -> Vec<u8> {
    let entries = [flags(&[number]), names(&[b"lead\0"]), versions(&[b"1.3\0"])];
    package(&[], &entries)
}

const NOT_FOUND: Checked<bool> = Err(Refusal {
    number: 25,
    place: 0,
});

/// Older, the same, newer: which of them meet each combination of flags.
#[rustfmt::skip]
const MET: [[bool; 3]; 16] = {
    let (y, n) = (true, false);
    [
        [y, y, y], [y, y, y], [y, n, n], [y, n, n], // 0x02: less
        [n, n, y], [n, n, y], [y, n, y], [y, n, y], // 0x04: greater
        [n, y, n], [n, y, n], [y, y, n], [y, y, n], // 0x08: equal
        [n, y, y], [n, y, y], [y, y, y], [y, y, y],
    ]
};

#[test]
fn all_flags() {
    let other_bits = [
        0,
        0x10,
        0x0100_0000,
        0x0200_0000,
        0x0E00,
        0x000E_0000,
        0x8000_0000,
        !15,
    ];
    for (number, met) in MET.into_iter().enumerate() {
        for bits in other_bits {
            let package = one(number as u32 | bits);
            for (versions, met) in [
                ["1.2", "", "1"],
                ["1.3", "1_03", "01.3."],
                ["1.4", "2", "1.3.0"],
            ]
            .into_iter()
            .zip(met)
            {
                for version in versions {
                    let answer = meets(&package, b"lead", version.as_bytes());
                    assert_eq!(answer, Ok(met), "{number:#x} {bits:#x} {version}");
                }
            }
        }
    }
    for (number, met) in [(0xFFFF_FFF1, [true; 3]), (0x0100_000A, [true, true, false])] {
        for (version, met) in ["1.2", "1.3", "1.4"].into_iter().zip(met) {
            assert_eq!(meets(&one(number), b"lead", version.as_bytes()), Ok(met));
        }
    }
}

#[test]
fn answers_on_requirements_for_c() {
    assert_eq!(meets_for_c(&one(8), b"lead", b"1.3"), 1);
    assert_eq!(meets_for_c(&one(8), b"lead", b"1.4"), 0);
    assert_eq!(meets_for_c(&one(8), b"tin", b"1.3"), 25 << 32);
    assert_eq!(meets_for_c(&one(8)[..95], b"lead", b"1.3"), (3 << 32) + 95);
}

/// Each name has its own flags and version; the first of two equal names counts.
#[test]
fn several_names() {
    let entries = [
        flags(&[2, 4, 8, 2, 0]),
        names(&[b"lead\0", b"tin\0", b"\0", b"tin\0", b"any\0"]),
        versions(&[b"1\0", b"2\0", b"3\0", b"4\0", b"\0"]),
    ];
    let package = package(&[], &entries);
    let met = |name: &[u8], version: &[u8]| meets(&package, name, version);
    assert_eq!(met(b"lead", b"0"), Ok(true));
    assert_eq!(met(b"lead", b"1"), Ok(false));
    assert_eq!(met(b"tin", b"1"), Ok(false));
    assert_eq!(met(b"tin", b"3"), Ok(true));
    assert_eq!(met(b"", b"3"), Ok(true));
    assert_eq!(met(b"", b"4"), Ok(false));
    assert_eq!(met(b"any", b""), Ok(true));
    assert_eq!(met(b"any", b"7"), Ok(true));
    for name in [
        &b"le"[..],
        b"leads",
        b"lead\0",
        b"\0",
        b"lead\0tin",
        b"LEAD",
        b"x",
    ] {
        assert_eq!(met(name, b"0"), NOT_FOUND);
    }
}

/// A version that is empty, or separators alone, is the oldest.
#[test]
fn empty_versions() {
    for version in [&b"\0"[..], b".\0", b"\xE9\0"] {
        let with = |number| {
            let entries = [flags(&[number]), names(&[b"lead\0"]), versions(&[version])];
            package(&[], &entries)
        };
        assert_eq!(meets(&with(8), b"lead", b""), Ok(true));
        assert_eq!(meets(&with(8), b"lead", b"\0"), Ok(true));
        assert_eq!(meets(&with(2), b"lead", b""), Ok(false));
        assert_eq!(meets(&with(4), b"lead", b"a"), Ok(true));
    }
}

/// 1048 must be int32 of 1049's count, in the header.
#[test]
fn flags_of_other_types_and_counts() {
    let [right, names, versions] = [
        flags(&[8, 8]),
        names(&[b"lead\0", b"tin\0"]),
        versions(&[b"1\0", b"1\0"]),
    ];
    let with =
        |flags: &[Entry]| package(&[], &[flags, &[names.clone(), versions.clone()]].concat());
    assert_eq!(meets(&with(&[right.clone()]), b"tin", b"1"), Ok(true));
    let others = [
        Entry::new(1048, 3, &[&[0, 8], &[0, 8]]),
        Entry::new(1048, 3, &[&[0, 0], &[0, 8], &[0, 0], &[0, 8]]),
        Entry::new(1048, 2, &[&[8], &[8]]),
        Entry::new(1048, 2, &[&[0][..]; 8]),
        Entry::new(1048, 7, &[&[0][..]; 8]),
        Entry::new(1048, 8, &[b"8\0", b"8\0"]),
        Entry::new(1048, 9, &[b"8\0", b"8\0"]),
        flags(&[8]),
        flags(&[8, 8, 8]),
        flags(&[8; 258]),
    ];
    for other in others {
        assert_eq!(meets(&with(&[other]), b"tin", b"1"), NOT_FOUND);
    }
    assert_eq!(meets(&with(&[]), b"tin", b"1"), NOT_FOUND);
    let in_signature = package(&[right], &[names, versions]);
    assert_eq!(meets(&in_signature, b"tin", b"1"), NOT_FOUND);
}

/// 1049 and 1050 must be string arrays of one count, in the header.
#[test]
fn names_and_versions_of_other_types_and_counts() {
    let right = [flags(&[8]), names(&[b"lead\0"]), versions(&[b"1\0"])];
    assert_eq!(meets(&package(&[], &right), b"lead", b"1"), Ok(true));
    for at in [1, 2] {
        for ty in [1, 2, 6, 7, 9] {
            let mut other = right.clone();
            other[at].ty = ty;
            if !matches!(ty, 6 | 9) {
                let bytes = other[at].elements.concat();
                other[at].elements = bytes.iter().map(|&byte| vec![byte]).collect();
            }
            assert_eq!(meets(&package(&[], &other), b"lead", b"1"), NOT_FOUND);
        }
        let mut more = right.clone();
        more[at].elements.push(b"1\0".to_vec());
        assert_eq!(meets(&package(&[], &more), b"lead", b"1"), NOT_FOUND);
        let mut without = right.to_vec();
        let moved = without.remove(at);
        assert_eq!(meets(&package(&[], &without), b"lead", b"1"), NOT_FOUND);
        assert_eq!(
            meets(&package(&[moved], &without), b"lead", b"1"),
            NOT_FOUND
        );
    }
    assert_eq!(meets(&package(&right, &[]), b"lead", b"1"), NOT_FOUND);
}

/// The look-up's checks go before 25.
#[test]
fn checks_before_25() {
    let right = one(8);
    let refused = |package: &[u8], number, place| {
        for name in [&b"lead"[..], b"absent", b"\0"] {
            let refusal = Err(Refusal { number, place });
            assert_eq!(meets(package, name, b"1.3"), refusal);
        }
    };
    refused(&[], 3, 0);
    refused(&[&right[..], &vec![0; 65_536]].concat(), 2, 0);
    let mut lead = right.clone();
    lead[4] = 4;
    refused(&lead, 4, 4);
    let mut stray = right.clone();
    assert_eq!(stray[132..136], [0; 4]);
    stray[133] = 1;
    refused(&stray, 28, 133);
    let mut magic = right.clone();
    magic[136] ^= 1;
    refused(&magic, 6, 136);
    refused(&right[..right.len() - 1], 8, 148);
}
