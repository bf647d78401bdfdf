//! Document 01's bench samples and slips that belong to packages and look-ups, and samples
//! of the gap (document 02).

#[path = "../compare/content.rs"]
#[allow(dead_code)]
pub(super) mod content;
#[path = "../compare/lines.rs"]
pub(super) mod lines;
#[path = "../compare/maker.rs"]
#[allow(dead_code)]
pub(super) mod maker;
#[path = "../compare/random.rs"]
#[allow(dead_code)]
mod random;

use super::*;
use maker::{Entry, Package, S};

fn structure(records: &[[u32; 4]], store: &[u8]) -> maker::Structure {
    maker::Structure {
        records: records.to_vec(),
        store: store.to_vec(),
    }
}

/// A right structure: one int32.
fn plain() -> maker::Structure {
    structure(&[[1000, 4, 0, 1]], &[0, 0, 4, 226])
}

/// A package with a plain signature and this header.
fn with_header(header: maker::Structure) -> Vec<u8> {
    Package::of(plain(), header).bytes()
}

/// H of such a package.
const H: usize = 136;

fn refused<T>(number: u32, place: usize) -> Checked<T> {
    let place = place as u32;
    Err(Refusal { number, place })
}

fn refusal(package: &[u8]) -> Checked<()> {
    sound(package).map(|_| ())
}

pub(super) fn put(package: &mut [u8], at: usize, number: u32) {
    package[at..at + 4].copy_from_slice(&number.to_be_bytes());
}

#[test]
fn store_of_8() {
    let check = |record: [u32; 4], store: &[u8; 8]| {
        let header = structure(&[record], store);
        refusal(&with_header(header)).map_err(|refusal| {
            assert_eq!(refusal.place as usize, H + 16);
            refusal.number
        })
    };
    let zeros = &[0; 8];
    let ended = b"1234567\0";
    let not_ended = b"12345678";
    assert_eq!(check([1, 4, 4, 1], zeros), Ok(()));
    assert_eq!(check([1, 4, 4, 2], zeros), Err(12));
    assert_eq!(check([1, 4, 2, 1], zeros), Err(11));
    assert_eq!(check([1, 6, 7, 1], ended), Ok(()));
    assert_eq!(check([1, 6, 7, 1], not_ended), Err(12));
    assert_eq!(check([1, 7, 8, 1], zeros), Err(12));
}

/// Lead and signature as document 002 prints them.
fn document_002() -> Vec<u8> {
    let mut package = vec![0; 336];
    package[..32].copy_from_slice(
        b"\xed\xab\xee\xdb\x03\x00\x00\x00\x00\x01rpm-2.2.1-1\0\0\0\0\0\0\0\0\0\0\0",
    );
    package[64..96].copy_from_slice(
        b"\0\0\0\0\0\0\0\0\0\0\0\0\x00\x01\x00\x05\
          \x04\x00\x00\x00\x24\xe1\xff\xbf\x6b\xb3\x00\x08\x00\xe6\xff\xbf",
    );
    let words = [
        0x8eade801, 0, 3, 0xac, 1000, 4, 0, 1, 1001, 7, 4, 16, 1002, 7, 20, 152, 0x00044c4f,
    ];
    for (position, word) in words.into_iter().enumerate() {
        put(&mut package, 96 + 4 * position, word);
    }
    package[0xa4..0x14c].fill(0x55);
    package
}

#[test]
fn signature_of_document_002() {
    let mut package = document_002();
    assert_eq!(refusal(&package), refused(5, 336));
    package.extend(&with_header(plain())[H..]);
    let opened = sound(&package).unwrap();
    assert_eq!(opened.signature.end(), 332);
    assert_eq!(opened.header_start, 336);
    assert_eq!(opened.payload, package.len());
    assert_eq!(find(&package, 0, 1000, 4), Ok(0xa0..0xa4));
    assert_eq!(find(&package, 0, 1001, 7), Ok(0xa4..0xb4));
    assert_eq!(find(&package, 0, 1002, 7), Ok(0xb4..0x14c));
}

#[test]
fn lengths() {
    let package = with_header(plain());
    assert_eq!(refusal(&[]), refused(3, 0));
    assert_eq!(refusal(&package[..95]), refused(3, 95));
    assert_eq!(refusal(&package[..96]), refused(5, 96));
    assert_eq!(refusal(&package[..111]), refused(5, 96));
    assert_eq!(refusal(&package[..112]), refused(8, 108));
    assert_eq!(refusal(&package[..132]), refused(5, H));
    assert_eq!(refusal(&package[..H + 15]), refused(5, H));
    assert_eq!(refusal(&package[..H + 16]), refused(8, H + 12));
    assert_eq!(refusal(&package[..package.len() - 1]), refused(8, H + 12));

    let mut large = package;
    large.resize(65_536, 9);
    assert_eq!(refusal(&large), Ok(()));
    large.push(9);
    assert_eq!(refusal(&large), refused(2, 0));
}

#[test]
fn each_lead_field() {
    let right = with_header(plain());
    for (place, length) in [(0, 4), (4, 1), (5, 1), (6, 2), (76, 2), (78, 2)] {
        for at in place..place + length {
            let mut package = right.clone();
            package[at] ^= 0x40;
            assert_eq!(refusal(&package), refused(4, place));
        }
    }
    let mut package = right.clone();
    package[10..76].fill(b'n');
    assert_eq!(refusal(&package), refused(4, 10));
    // The last byte may be its only zero; what stands behind a zero is free.
    package[75] = 0;
    assert_eq!(refusal(&package), Ok(()));
    package[10] = 0;
    assert_eq!(refusal(&package), Ok(()));
    package[8..10].fill(0xFF);
    package[80..96].fill(0xFF);
    assert_eq!(refusal(&package), Ok(()));
    // Two wrong fields: the first.
    package[78] = 1;
    package[4] = 4;
    assert_eq!(refusal(&package), refused(4, 4));
}

#[test]
fn header_record_fields() {
    let right = with_header(plain());
    for start in [S, H] {
        for at in 0..8 {
            let mut package = right.clone();
            package[start + at] ^= 1;
            assert_eq!(refusal(&package), refused(6, start + at / 4 * 4));
        }
        for nindex in [0, 513, 1 << 28, 1 << 31, u32::MAX] {
            let mut package = right.clone();
            put(&mut package, start + 8, nindex);
            assert_eq!(refusal(&package), refused(7, start + 8));
        }
        for hsize in [1000, 1 << 31, u32::MAX - 31, u32::MAX] {
            let mut package = right.clone();
            put(&mut package, start + 12, hsize);
            assert_eq!(refusal(&package), refused(8, start + 12));
        }
    }
}

#[test]
fn nindex_512_and_513() {
    let chars = |count: u32| {
        let records: Vec<[u32; 4]> = (0..count).map(|tag| [tag, 1, 0, 1]).collect();
        structure(&records, b"x")
    };
    assert_eq!(refusal(&with_header(chars(512))), Ok(()));
    assert_eq!(refusal(&with_header(chars(513))), refused(7, H + 8));
    let signature = |count| Package::of(chars(count), plain()).bytes();
    assert_eq!(refusal(&signature(512)), Ok(()));
    assert_eq!(refusal(&signature(513)), refused(7, S + 8));
}

#[test]
fn index_records() {
    let check = |record: [u32; 4]| {
        // Three strings, one of them empty; a second record after the first.
        let header = structure(&[[1, 1, 0, 1], record], b"ab\0\0cdef\0...");
        refusal(&with_header(header)).map_err(|refusal| {
            assert_eq!(refusal.place as usize, H + 32);
            refusal.number
        })
    };
    for ty in [0, 5, 10, 11, 257, u32::MAX] {
        assert_eq!(check([2, ty, 1, 0]), Err(9));
    }
    for ty in [1, 2, 3, 4, 6, 7, 8, 9] {
        assert_eq!(check([2, ty, 1, 0]), Err(10));
        assert_eq!(check([2, ty, 0, 1]), Ok(()));
        assert_eq!(check([1, ty, 0, 1]), Err(13));
        assert_eq!(check([1, ty, 12, 1]), Err(12));
    }
    assert_eq!(check([2, 6, 0, 2]), Err(10));
    assert_eq!(check([2, 3, 1, 9]), Err(11));
    assert_eq!(check([2, 4, 2, 9]), Err(11));
    // The last element, and the last string's zero.
    assert_eq!(check([2, 3, 10, 1]), Ok(()));
    assert_eq!(check([2, 3, 10, 2]), Err(12));
    for ty in [8, 9] {
        assert_eq!(check([2, ty, 0, 3]), Ok(()));
        assert_eq!(check([2, ty, 0, 4]), Err(12));
        assert_eq!(check([2, ty, 9, 1]), Err(12));
    }
    // Products and sums that wrap in 32 bits.
    assert_eq!(check([2, 4, 0, 1 << 30]), Err(12));
    assert_eq!(check([2, 3, 0, (1 << 31) + 1]), Err(12));
    assert_eq!(check([2, 4, u32::MAX - 3, 1]), Err(12));
    assert_eq!(check([2, 8, 0, u32::MAX]), Err(12));
    assert_eq!(check([2, 9, 0, u32::MAX]), Err(12));
}

#[test]
fn translated_strings() {
    // The same three strings in either structure.
    let records = |count| structure(&[[1, 1, 0, 1], [2, 9, 0, count]], b"Glas\0\0glass\0");
    let signature = |count| Package::of(records(count), plain()).bytes();
    assert_eq!(refusal(&signature(1)), Ok(()));
    for count in [0, 2, 3, 4, 257, 65_537, u32::MAX] {
        assert_eq!(refusal(&signature(count)), refused(10, S + 32));
    }
    assert_eq!(refusal(&with_header(records(0))), refused(10, H + 32));
    assert_eq!(refusal(&with_header(records(4))), refused(12, H + 32));
    let store = H + 48;
    for count in 1..=3 {
        let package = with_header(records(count));
        let starts = [0, 5, 6, 12].map(|start| store + start);
        let whole = store..starts[count as usize];
        assert_eq!(find(&package, 1, 2, 9), Ok(whole));
        assert_eq!(find(&package, 1, 2, 8), refused(25, 0));
        for locale in 0..count {
            let [start, end] = [0, 1].map(|n| starts[locale as usize + n]);
            assert_eq!(find_element(&package, 1, 2, 9, locale), Ok(start..end));
        }
        for locale in [count, count + 1, 256, 65_536, u32::MAX] {
            assert_eq!(find_element(&package, 1, 2, 9, locale), refused(26, 0));
        }
    }
}

#[test]
fn look_ups() {
    let header = structure(
        &[[7, 8, 0, 3], [8, 3, 8, 2]],
        b"ab\0\0cd\0.\x01\x02\x03\x04",
    );
    let package = with_header(header);
    let store = H + 48;
    for number in [1, 2, u32::MAX] {
        assert_eq!(find(&package, number, 7, 8), Ok(store..store + 7));
    }
    assert_eq!(find(&package, 0, 7, 8), refused(25, 0));
    assert_eq!(find(&package, 0, 1000, 4), Ok(128..132));
    // A tag with another type is not found.
    assert_eq!(find(&package, 1, 8, 4), refused(25, 0));
    assert_eq!(find(&package, 1, 9, 8), refused(25, 0));

    let element = |tag, ty, n| find_element(&package, 1, tag, ty, n);
    assert_eq!(element(7, 8, 0), Ok(store..store + 3));
    assert_eq!(element(7, 8, 1), Ok(store + 3..store + 4));
    assert_eq!(element(7, 8, 2), Ok(store + 4..store + 7));
    assert_eq!(element(7, 8, 3), refused(26, 0));
    assert_eq!(element(8, 3, 1), Ok(store + 10..store + 12));
    assert_eq!(element(8, 3, 2), refused(26, 0));
    assert_eq!(element(8, 3, u32::MAX), refused(26, 0));
    assert_eq!(element(8, 4, u32::MAX), refused(25, 0));
    // A refused header refuses the signature's look-ups too.
    assert_eq!(find(&package[..140], 0, 1000, 4), refused(5, H));
    assert_eq!(answer(&find(&package, 1, 7, 8)), store as u64);
    assert_eq!(answer(&element(7, 8, 3)), 26 << 32);
}

#[test]
fn required_versions() {
    let names = Entry::new(1049, 8, &[b"glass\0", b"\0", b"glaze\0", b"glass\0"]);
    let versions = Entry::new(1050, 8, &[b"1.0\0", b"2\0", b"\0", b"3\0"]);
    let of = |entries: &[Entry]| with_header(maker::Structure::of(entries));
    let package = of(&[names.clone(), versions.clone()]);
    assert_eq!(required_version(&package, b"glass"), b"1.0\0");
    assert_eq!(required_version(&package, b""), b"2\0");
    assert_eq!(required_version(&package, b"glaze"), b"\0");
    for name in [&b"glas"[..], b"glasses", b"glass\0", b"\0", b"GLASS"] {
        assert_eq!(required_version(&package, name), b"");
    }
    assert_eq!(required_version(&package[..140], b"glass"), b"");
    assert_eq!(required_version(&of(&[names.clone()]), b"glass"), b"");
    let fewer = Entry::new(1050, 8, &[b"1.0\0", b"2\0", b"3\0"]);
    assert_eq!(required_version(&of(&[names, fewer]), b"glass"), b"");
    let version = Entry::new(1050, 8, &[b"1.0\0"]);
    for ty in [6, 9] {
        let other = Entry::new(1049, ty, &[b"glass\0"]);
        let package = of(&[other, version.clone()]);
        assert_eq!(required_version(&package, b"glass"), b"");
    }
}

#[test]
fn index_walk() {
    let records = [[7, 8, 0, 3], [8, 3, 8, 2], [5, 1, 0, 1]];
    let package = with_header(structure(&records, b"ab\0\0cd\0.\x01\x02\x03\x04"));
    let mut position = 0;
    for (visited, numbers) in records.into_iter().enumerate() {
        let place = (H + 16 + 16 * visited) as u32;
        let next = position + 1;
        let right = Step {
            number: 0,
            place,
            numbers,
            next,
        };
        assert_eq!(step(&package, 1, position), right);
        position = next;
    }
    let stays = |number, place, next| Step {
        number,
        place,
        numbers: [0; 4],
        next,
    };
    assert_eq!(step(&package, 1, 3), stays(26, 0, 3));
    assert_eq!(step(&package, 1, u32::MAX), stays(26, 0, u32::MAX));
    assert_eq!(step(&package, 0, 1), stays(26, 0, 1));
    assert_eq!(step(&package[..95], 0, 0), stays(3, 95, 0));
}

// ---- The gap ----

/// A package whose signature ends so many bytes before 144, where its header starts.
fn with_gap(length: usize) -> Vec<u8> {
    let store = vec![0x55; 16 - length];
    let signature = structure(&[[1002, 7, 0, store.len() as u32]], &store);
    Package::of(signature, plain()).bytes()
}

/// The package with one byte changed.
fn with_byte(package: &[u8], at: usize, byte: u8) -> Vec<u8> {
    let mut package = package.to_vec();
    package[at] = byte;
    package
}

#[test]
fn gaps() {
    for length in 0..8 {
        let right = with_gap(length);
        let end = 144 - length;
        assert_eq!(refusal(&right), Ok(()));
        assert_eq!(sound(&right).unwrap().signature.end(), end);
        assert_eq!(sound(&right).unwrap().header_start, 144);
        for at in end..144 {
            for byte in 1..=255 {
                let mut package = with_byte(&right, at, byte);
                assert_eq!(refusal(&package), refused(28, at));
                package[at..144].fill(byte);
                assert_eq!(refusal(&package), refused(28, at));
            }
        }
        // Beside it are the signature's last byte and the header's magic.
        for byte in 0..=255 {
            assert_eq!(refusal(&with_byte(&right, end - 1, byte)), Ok(()));
            if byte != 0x8E {
                assert_eq!(refusal(&with_byte(&right, 144, byte)), refused(6, 144));
            }
        }
    }
    // Sums that are zero in 8 bits.
    let mut package = with_gap(7);
    package[138] = 0x80;
    package[143] = 0x80;
    assert_eq!(refusal(&package), refused(28, 138));
    package[140] = 0x01;
    package[139] = 0xFF;
    assert_eq!(refusal(&package), refused(28, 138));
    // A header that starts right behind the signature.
    let mut package = with_gap(4);
    package.drain(140..144);
    assert_eq!(refusal(&package), refused(28, 140));
}

#[test]
fn gaps_cut_off() {
    for length in 0..8 {
        let right = with_gap(length);
        let end = 144 - length;
        assert_eq!(refusal(&right[..end - 1]), refused(8, 108));
        for cut in end..160 {
            assert_eq!(refusal(&right[..cut]), refused(5, 144));
            for at in end..144 {
                let package = &with_byte(&right, at, 1)[..cut];
                let known = if at < cut { (28, at) } else { (5, 144) };
                assert_eq!(refusal(package), refused(known.0, known.1));
            }
        }
    }
}

#[test]
fn gap_between_signature_and_header() {
    // The structures are alike; the first ends at 156, the second starts at 160.
    let records = [[1000, 4, 0, 1], [1002, 7, 4, 8]];
    let own = || structure(&records, &[0x55; 12]);
    let right = Package::of(own(), own()).bytes();
    let stray = |package: &[u8]| refusal(&with_byte(package, 158, 0x40));
    assert_eq!(refusal(&right), Ok(()));
    assert_eq!(stray(&right), refused(28, 158));
    let (first, second) = (16, 32);
    for (at, number, check, place) in [
        (0, 0x8EAD_E802, 6, 0),
        (4, 1, 6, 4),
        (8, 0, 7, 8),
        (8, 513, 7, 8),
        (12, 1000, 8, 12),
        (first + 4, 5, 9, first),
        (second + 12, 0, 10, second),
        (first + 8, 2, 11, first),
        (first + 8, 12, 12, first),
        (second, 1000, 13, second),
    ] {
        // The signature's checks go before, the header's come behind.
        let mut package = right.clone();
        put(&mut package, S + at, number);
        assert_eq!(refusal(&package), refused(check, S + place));
        assert_eq!(stray(&package), refused(check, S + place));
        let mut package = right.clone();
        put(&mut package, 160 + at, number);
        assert_eq!(refusal(&package), refused(check, 160 + place));
        assert_eq!(stray(&package), refused(28, 158));
    }
    assert_eq!(stray(&right[..160]), refused(28, 158));
    assert_eq!(stray(&right[..175]), refused(28, 158));
    assert_eq!(stray(&right[..right.len() - 1]), refused(28, 158));
    // 2 and 4 go before as well.
    assert_eq!(stray(&with_byte(&right, 4, 4)), refused(4, 4));
    let mut large = right.clone();
    large.resize(65_536, 9);
    assert_eq!(stray(&large), refused(28, 158));
    large.push(9);
    assert_eq!(stray(&large), refused(2, 0));
}

#[test]
fn gap_in_every_call() {
    let names = Entry::new(1049, 8, &[b"glass\0"]);
    let versions = Entry::new(1050, 8, &[b"1.0\0"]);
    let right = with_header(maker::Structure::of(&[names, versions]));
    assert_eq!(required_version(&right, b"glass"), b"1.0\0");
    for at in 132..H {
        let package = with_byte(&right, at, 0x0A);
        for (structure, tag, ty) in [(0, 1000, 4), (1, 1050, 8), (2, 1050, 8), (1, 1, 1)] {
            assert_eq!(find(&package, structure, tag, ty), refused(28, at));
            for n in [0, 1] {
                let element = find_element(&package, structure, tag, ty, n);
                assert_eq!(element, refused(28, at));
            }
            let packed = (28 << 32) + at as u64;
            assert_eq!(answer(&find(&package, structure, tag, ty)), packed);
            for position in [0, 1, 9] {
                let stays = Step {
                    number: 28,
                    place: at as u32,
                    numbers: [0; 4],
                    next: position,
                };
                assert_eq!(step(&package, structure, position), stays);
            }
        }
        assert_eq!(required_version(&package, b"glass"), b"");
    }
}
