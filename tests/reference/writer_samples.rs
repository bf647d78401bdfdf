//! Samples for the writer, with what is written spelled out.

use super::reading::read;
use super::samples::content::{bin, shorts, strings, words, Content, Item, HEADER};
use super::samples::maker::md5::md5;
use super::writer::{write, write_for_c, List};
use super::*;

/// The numbers and the data of a list.
fn list(items: &[Item]) -> (Vec<u8>, Vec<u8>) {
    let number = |item: &Item| [item.tag, item.ty, item.count, item.data.len() as u32];
    let numbers = items.iter().flat_map(number).flat_map(u32::to_be_bytes);
    let data = items.iter().flat_map(|item| item.data.clone());
    (numbers.collect(), data.collect())
}

/// The answer and the buffer afterwards, which held 7s.
fn lent(
    name: &[u8],
    signature: (&[u8], &[u8]),
    header: (&[u8], &[u8]),
    room: usize,
) -> (Checked<u32>, Vec<u8>) {
    let list = |(entries, data)| List { entries, data };
    let mut buffer = vec![7; room];
    let answer = write(name, list(signature), list(header), &mut buffer);
    let mut again = vec![7; room];
    let packed = write_for_c(name, list(signature), list(header), &mut again);
    assert_eq!(packed, answer.map_or_else(Refusal::packed, u64::from));
    assert_eq!(buffer, again);
    (answer, buffer)
}

fn written(
    name: &[u8],
    signature: &[Item],
    header: &[Item],
    room: usize,
) -> (Checked<u32>, Vec<u8>) {
    let (signature, header) = (list(signature), list(header));
    let parts = |list| {
        let (entries, data): &(Vec<u8>, Vec<u8>) = list;
        (&entries[..], &data[..])
    };
    lent(name, parts(&signature), parts(&header), room)
}

fn refused(number: u32, place: u32, room: usize) -> (Checked<u32>, Vec<u8>) {
    (Err(Refusal { number, place }), vec![7; room])
}

const ROOM: usize = 70_000;

/// These are refused with 32; a char beside them in the other structure is right.
fn is_32(signature: &[Item], header: &[Item]) {
    assert_eq!(
        written(b"book", signature, header, ROOM),
        refused(32, 0, ROOM)
    );
}

fn char(tag: u32) -> Item {
    Item {
        tag,
        ty: 1,
        count: 1,
        data: vec![b'x'],
    }
}

/// As many entries, with the tags 1, 2, ..
fn chars(count: u32) -> Vec<Item> {
    (1..=count).map(char).collect()
}

/// The smallest package: a name of one byte, 1000 and 1004 alone, one byte of data. Its digest
/// is md5sum's.
#[rustfmt::skip]
const SMALLEST: [u8; 201] = [
    // The lead: magic, 3.0, type 0, architecture 0, the name "b".
    0xED, 0xAB, 0xEE, 0xDB, 3, 0, 0, 0, 0, 0, b'b', 0, 0, 0, 0, 0,
    0, 0, 0, 0, 0, 0, 0, 0, 0, 0, 0, 0, 0, 0, 0, 0,
    0, 0, 0, 0, 0, 0, 0, 0, 0, 0, 0, 0, 0, 0, 0, 0,
    0, 0, 0, 0, 0, 0, 0, 0, 0, 0, 0, 0, 0, 0, 0, 0,
    // System 1 and signature type 5 at 76.
    0, 0, 0, 0, 0, 0, 0, 0, 0, 0, 0, 0, 0, 1, 0, 5,
    0, 0, 0, 0, 0, 0, 0, 0, 0, 0, 0, 0, 0, 0, 0, 0,
    // 96, the signature: two records, 20 bytes of store; 1000, int32, at 0, count 1; 1004,
    // bin, at 4, count 16.
    0x8E, 0xAD, 0xE8, 0x01, 0, 0, 0, 0, 0, 0, 0, 2, 0, 0, 0, 20,
    0, 0, 0x03, 0xE8, 0, 0, 0, 4, 0, 0, 0, 0, 0, 0, 0, 1,
    0, 0, 0x03, 0xEC, 0, 0, 0, 7, 0, 0, 0, 4, 0, 0, 0, 16,
    // 144: 201 - 168 is 33. The digest of the last 33 bytes, then zero bytes to H = 168.
    0, 0, 0, 33,
    0x37, 0x75, 0xAF, 0x42, 0xF9, 0xDA, 0x38, 0x3F,
    0x00, 0x79, 0xFC, 0x54, 0x07, 0x47, 0xC5, 0x0B,
    0, 0, 0, 0,
    // 168, the header: one record, 1 byte of store; tag 1, char, at 0, count 1.
    0x8E, 0xAD, 0xE8, 0x01, 0, 0, 0, 0, 0, 0, 0, 1, 0, 0, 0, 1,
    0, 0, 0, 1, 0, 0, 0, 1, 0, 0, 0, 0, 0, 0, 0, 1,
    // 200.
    b'x',
];

#[test]
fn smallest_package() {
    for room in [201, 202, 203, 300] {
        let (answer, buffer) = written(b"b", &[], &[char(1)], room);
        assert_eq!(answer, Ok(201));
        assert_eq!(buffer[..201], SMALLEST);
        assert_eq!(buffer[201..], vec![7; room - 201]);
    }
    for room in [0, 1, 95, 96, 169, 200] {
        assert_eq!(written(b"b", &[], &[char(1)], room), refused(34, 201, room));
    }
}

#[test]
fn data_in_list_order() {
    let signature = [
        bin(1007, b"q"),
        shorts(1, &[0x0102]),
        words(2, &[0x0304_0506]),
    ];
    let header = [
        strings(9, 8, &["a", "", "bc"]),
        words(8, &[1, 2]),
        strings(7, 6, &[""]),
        shorts(1000, &[3]),
        bin(5, &[0]),
    ];
    let (answer, package) = written(&[b'n'; 65], &signature, &header, ROOM);
    let length = answer.unwrap() as usize;
    assert_eq!(package[10..76], [[b'n'; 65].as_slice(), &[0]].concat());
    // 1000, 1004 at 4, then 1007 at 20, 1 at 22 and 2 at 24: 28 bytes of store.
    let store = 96 + 16 + 5 * 16;
    assert_eq!(
        package[store + 20..store + 28],
        *b"q\0\x01\x02\x03\x04\x05\x06"
    );
    // The end is at 220, so H is at 224.
    let h = 224;
    assert_eq!(be32(&package, store), (length - h) as u32);
    assert_eq!(package[store + 4..store + 20], md5(&package[h..length]));
    assert_eq!(package[store + 28..h], [0; 4]);
    let store = h + 16 + 5 * 16;
    let right = b"a\0\0bc\0\0\0\0\0\0\x01\0\0\0\x02\0\0\0\x03\0";
    assert_eq!(package[store..length], *right);
    assert_eq!(length, store + right.len());
    let offsets: Vec<u32> = (0..5).map(|n| be32(&package, h + 24 + 16 * n)).collect();
    assert_eq!(offsets, [0, 8, 16, 18, 20]);
    assert!(package[length..].iter().all(|&byte| byte == 7));
}

#[test]
fn read_back() {
    let signature = [bin(1005, &[9; 16]), strings(1010, 6, &["x"])];
    let header = [
        char(3),
        words(1000, &[1]),
        strings(2, 9, &["ab", "", "c"]),
        char(1004),
    ];
    let (answer, buffer) = written(b"book", &signature, &header, ROOM);
    let package = &buffer[..answer.unwrap() as usize];
    let opened = sound(package).unwrap();
    assert_eq!(opened.payload, package.len());
    let tags = |structure: Structure| structure.records().map(|one| one.tag).collect::<Vec<_>>();
    assert_eq!(tags(opened.signature), [1000, 1004, 1005, 1010]);
    assert_eq!(tags(opened.header), [3, 1000, 2, 1004]);
    let from_h = &package[opened.header_start..];
    let own = [words(1000, &[from_h.len() as u32]), bin(1004, &md5(from_h))];
    let given = own.into_iter().chain(signature);
    for (structure, item) in given
        .map(|item| (0, item))
        .chain(header.map(|item| (1, item)))
    {
        let part = find(package, structure, item.tag, item.ty).unwrap();
        assert_eq!(package[part], item.data);
    }
}

/// A book that was written passes check 27; with one bit turned over it doesn't.
#[test]
fn digest_of_a_book() {
    let header = &Content::least(&[0], 0).items[HEADER];
    let (answer, buffer) = written(b"book", &[], header, ROOM);
    let package = &buffer[..answer.unwrap() as usize];
    let refused = Err(Refusal {
        number: 27,
        place: 1004,
    });
    for edition in 1..=3 {
        assert_eq!(read(edition, package, &mut []), Ok(0));
        // The digest's first and last byte, the batch weight, a byte before it.
        for at in [148, 163, package.len() - 4, package.len() - 5] {
            let mut wrong = package.to_vec();
            wrong[at] ^= 1;
            assert_eq!(read(edition, &wrong, &mut []), refused);
        }
    }
}

#[test]
fn names() {
    for name in [&b"b"[..], &[0xFF; 65]] {
        let (answer, _) = written(name, &[], &[char(1)], ROOM);
        assert_eq!(answer, Ok(201));
    }
    for name in [
        &b""[..],
        &[b'n'; 66],
        &[b'n'; 67],
        b"\0",
        b"a\0",
        b"\0a",
        b"a\0b",
    ] {
        assert_eq!(written(name, &[], &[char(1)], ROOM), refused(32, 0, ROOM));
    }
}

#[test]
fn entries() {
    let with = |ty, count, data: &[u8]| Item {
        tag: 3,
        ty,
        count,
        data: data.to_vec(),
    };
    let wrong = [
        with(0, 1, b"x"),
        with(5, 1, b"x"),
        with(10, 1, b"x"),
        with(257, 1, b"x"),
        with(7, 0, b""),
        with(8, 0, b""),
        with(6, 2, b"a\0b\0"),
        with(9, 0, b""),
        // Not what type and count say.
        with(7, 2, b"x"),
        with(7, 1, b"xx"),
        with(3, 1, b"x"),
        with(3, 1, b"xxx"),
        with(4, 2, b"1234"),
        with(4, 1 << 30, b""),
        with(4, (1 << 30) + 1, b"1234"),
        with(3, (1 << 31) + 1, b"12"),
        with(6, 1, b""),
        with(6, 1, b"x"),
        with(9, 1, b"x\0y"),
        with(6, 1, b"x\0\0"),
        with(8, 2, b"x\0"),
        with(8, 2, b"x\0y"),
        with(9, 2, b"x\0"),
        with(9, 2, b"x\0y"),
        with(9, 1, b"x\0y\0"),
        with(8, 1, b"x\0y\0"),
        with(8, u32::MAX, b"\0\0"),
    ];
    for item in wrong {
        is_32(&[], &[item.clone()]);
        is_32(&[item.clone()], &[char(1)]);
        is_32(&[], &[char(1), item.clone(), char(2)]);
    }
    // Several strings of type 9: in the header only.
    for count in [2, 3, 5] {
        let several = with(9, count, &b"x\0".repeat(count as usize));
        is_32(&[several.clone()], &[char(1)]);
        let (answer, _) = written(b"b", &[], &[several], ROOM);
        assert_eq!(answer, Ok(200 + 2 * count));
    }
    let (answer, _) = written(b"b", &[with(9, 1, b"x\0")], &[char(1)], ROOM);
    assert_eq!(answer, Ok(217));
    // Repeated tags; those of the other structure don't count.
    is_32(&[], &[char(1), char(2), char(1)]);
    is_32(&[char(1), char(1)], &[char(1)]);
    for own in [
        char(1000),
        words(1000, &[33]),
        char(1004),
        bin(1004, &[0; 16]),
    ] {
        is_32(&[own.clone()], &[char(1)]);
        is_32(&[char(1), own], &[char(1)]);
    }
    is_32(&[words(1000, &[33]), bin(1004, &[0; 16])], &[char(1)]);
    let header = [char(1000), char(1004), char(1)];
    let (answer, _) = written(b"b", &[char(1)], &header, ROOM);
    // The signature ends at 181, the header has 16 + 3 * 17 bytes.
    assert_eq!(answer, Ok(184 + 67));
}

#[test]
fn ranges() {
    let length = |signature, header| written(b"b", &chars(signature), &chars(header), ROOM).0;
    assert_eq!(length(0, 512), Ok(168 + 16 + 17 * 512));
    // The signature ends at 8,834.
    assert_eq!(length(510, 1), Ok(8840 + 33));
    is_32(&[], &[]);
    is_32(&chars(3), &[]);
    is_32(&[], &chars(513));
    is_32(&chars(511), &[char(1)]);
    is_32(&chars(512), &[char(1)]);
    is_32(&chars(60_000), &chars(60_000));
}

#[test]
fn ill_formed_lists() {
    let (entries, data) = list(&[bin(1, b"abc"), bin(2, b"de")]);
    let right = (&entries[..], &data[..]);
    let none = (&[][..], &[][..]);
    let (answer, _) = lent(b"b", right, right, ROOM);
    assert!(answer.is_ok());
    let wrong = |wrong: (&[u8], &[u8])| {
        for (signature, header) in [(wrong, right), (none, wrong)] {
            let answer = lent(b"b", signature, header, ROOM);
            assert_eq!(answer, refused(32, 0, ROOM));
        }
    };
    for cut in (1..16).chain(17..32) {
        wrong((&entries[..cut], &data));
    }
    for extra in 1..16 {
        let more = [entries.clone(), vec![0; extra]].concat();
        wrong((&more, &data));
    }
    for length in 0..data.len() {
        wrong((&entries, &data[..length]));
    }
    wrong((&entries, b"abcdef"));
    wrong((&[], b"a"));
    // Sizes whose sum is that of the data in 32 bits.
    for size in [u32::MAX, u32::MAX - 2, 1 << 31] {
        let mut entries = entries.clone();
        entries[12..16].copy_from_slice(&size.to_be_bytes());
        entries[28..].copy_from_slice(&5u32.wrapping_sub(size).to_be_bytes());
        wrong((&entries, &data));
    }
}

#[test]
fn the_limit() {
    // 168 + 32 bytes before the data.
    let with = |count: usize| [bin(1, &vec![1; count])];
    let full = 65_536 - 200;
    assert_eq!(written(b"b", &[], &with(full), ROOM).0, Ok(65_536));
    assert_eq!(written(b"b", &[], &with(full), 65_536).0, Ok(65_536));
    for room in [0, 1, 65_535] {
        assert_eq!(
            written(b"b", &[], &with(full), room),
            refused(34, 65_536, room)
        );
    }
    // 33 goes before 34, 32 before both.
    for room in [0, 65_535, 65_536, 65_537, ROOM] {
        assert_eq!(
            written(b"b", &[], &with(full + 1), room),
            refused(33, 0, room)
        );
        assert_eq!(
            written(b"", &[], &with(full + 1), room),
            refused(32, 0, room)
        );
        let twice = [with(full + 1), with(1)].concat();
        assert_eq!(written(b"b", &[], &twice, room), refused(32, 0, room));
    }
}
