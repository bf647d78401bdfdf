//! Document 01's bench samples and slips that belong to the reading.

use super::catalogue::{Count, Line, Status, HEADER, SIGNATURE};
use super::reading::{printed, read, read_for_c};
use super::samples::content::{self, bin, strings, words, Content, Item};
use super::samples::lines;
use super::samples::maker::md5::md5;
use super::samples::put;
use super::*;

type Doses<'a> = &'a [[u32; 3]];

/// Every edition that there is.
const EDITIONS: [u32; 3] = [1, 2, 3];

fn bytes(hex: &str) -> Vec<u8> {
    let word = |word| u8::from_str_radix(word, 16).unwrap();
    hex.split(' ').map(word).collect()
}

fn refused<T>(number: u32, place: u32) -> Checked<T> {
    Err(Refusal { number, place })
}

/// The doses; behind them and on refusal the buffer stays as it was, in both forms.
fn doses(edition: u32, package: &[u8]) -> Checked<Vec<[u32; 3]>> {
    let mut numbers = [7; 1800];
    let answer = read(edition, package, &mut numbers);
    let written = 3 * answer.unwrap_or(0) as usize;
    assert!(numbers[written..].iter().all(|&number| number == 7));

    let mut bytes = vec![7; 7200];
    let packed = read_for_c(edition, package, &mut bytes);
    assert_eq!(packed, answer.map_or_else(Refusal::packed, u64::from));
    let (front, behind) = bytes.split_at(4 * written);
    let back: Vec<u32> = front.chunks(4).map(|four| be32(four, 0)).collect();
    assert_eq!(back, numbers[..written]);
    assert!(behind.iter().all(|&byte| byte == 7));

    let threes = numbers[..written].chunks(3);
    answer.map(|_| threes.map(|three| three.try_into().unwrap()).collect())
}

fn sum(doses: Doses) -> u32 {
    doses.iter().map(|dose| dose[1]).sum()
}

/// Reads a book in the least package, with this batch weight.
fn book(edition: u32, book: &[u8], weight: u32) -> Checked<Vec<[u32; 3]>> {
    doses(edition, &Content::least(book, weight).bytes())
}

#[test]
fn p_books() {
    let accepted = |edition, hex, right: Doses| {
        assert_eq!(
            book(edition, &bytes(hex), sum(right)),
            Ok(right.to_vec()),
            "{hex}"
        );
    };
    let stops = |edition, hex, number| {
        assert_eq!(
            book(edition, &bytes(hex), 1250),
            refused(number, 0),
            "{hex}"
        );
    };
    stops(1, "98 00 1B 00 00 04 E2 00 05", 20);
    stops(1, "14 00 00", 21);
    for edition in [2, 3] {
        accepted(edition, "86 00 1B 00 4C 4B 40", &[[27, 5_000_000, 0]]);
        stops(edition, "86 00 1B 00 4C 4B 41", 22);
        accepted(edition, "98 00 1B 00 00 04 E2 00 05", &[[27, 1250, 0]]);
        stops(edition, "14 00 00", 21);
        stops(edition, "96", 20);
        stops(edition, "7F", 21);
        stops(edition, "80", 20);
        accepted(edition, "00", &[]);
    }
}

#[test]
fn lots() {
    let at = |hex: &str, weight| EDITIONS.map(|edition| book(edition, &bytes(hex), weight));
    let unknown = |place| refused(20, place);
    // Any lot, from 0 to 2^32 - 1.
    for (lot, number) in [
        ("00 00 00 00", 0),
        ("00 00 00 01", 1),
        ("01 02 03 04", 0x0102_0304),
        ("7F FF FF FF", (1 << 31) - 1),
        ("80 00 00 00", 1 << 31),
        ("AA AA AA AA", 0xAAAA_AAAA),
        ("FF FF FF FF", u32::MAX),
    ] {
        let right = Ok(vec![[27, 1250, number]]);
        let hex = format!("AA 00 1B 00 00 04 E2 {lot}");
        assert_eq!(at(&hex, 1250), [unknown(0), unknown(0), right.clone()]);
        let hex = format!("02 00 07 {hex}");
        assert_eq!(at(&hex, 1250), [unknown(3), unknown(3), right]);
    }
    // One byte short; an unknown kind goes before.
    let short = "AA 00 1B 00 00 04 E2 00 00 00";
    assert_eq!(at(short, 1250), [unknown(0), unknown(0), refused(21, 0)]);
    assert_eq!(at("AA", 0), [unknown(0), unknown(0), refused(21, 0)]);
    let wrong = "AA 03 E8 00 00 04 E2 00 00 00 01";
    assert_eq!(at(wrong, 1250), [unknown(0), unknown(0), refused(22, 0)]);
    // Each dose has its own lot, and 0 behind one that has another.
    let mixed = "AA 00 01 00 00 00 01 00 00 00 05 86 00 02 00 00 00 02 \
                 AA 00 03 00 00 00 03 86 00 04 00 98 00 05 00 00 00 05 86 00 \
                 AA 00 06 00 00 00 06 00 00 00 00";
    let right = vec![
        [1, 1, 5],
        [2, 2, 0],
        [3, 3, 0x8600_0400],
        [5, 5, 0],
        [6, 6, 0],
    ];
    assert_eq!(at(mixed, 17), [unknown(0), unknown(0), Ok(right)]);
    // Behind kinds that earlier editions know.
    let later = "86 00 01 00 00 00 01 98 00 02 00 00 00 02 00 00 AA 00 03 00 00 00 03 00 00 00 09";
    let right = vec![[1, 1, 0], [2, 2, 0], [3, 3, 9]];
    assert_eq!(at(later, 6), [unknown(7), unknown(16), Ok(right)]);
    assert_eq!(at(later, 7), [unknown(7), unknown(16), refused(23, 20002)]);
}

#[test]
fn oxides_and_milligrams() {
    for kind in [0x86, 0x98, 0xAA] {
        let lot = if kind == 0xAA { u32::MAX } else { 0 };
        let dose = |oxide: u16, milligrams: u32| {
            let mut bytes = vec![0x02, 0, 7, kind];
            bytes.extend(oxide.to_be_bytes());
            bytes.extend(milligrams.to_be_bytes());
            bytes.resize(4 + usize::from(kind % 16), 0xFF);
            book(3, &bytes, milligrams)
        };
        for (oxide, milligrams) in [(1, 1), (999, 5_000_000)] {
            let right = vec![[u32::from(oxide), milligrams, lot]];
            assert_eq!(dose(oxide, milligrams), Ok(right));
        }
        for oxide in [0, 1000, 256 * 4, u16::MAX] {
            assert_eq!(dose(oxide, 1), refused(22, 3));
        }
        for milligrams in [0, 5_000_001, 1 << 31, u32::MAX] {
            assert_eq!(dose(1, milligrams), refused(22, 3));
        }
    }
}

#[test]
fn books_of_4096_and_4097() {
    // 585 doses and a remark without body: the largest sum, over 2^31.
    let mut full = bytes("86 00 1B 00 4C 4B 40").repeat(585);
    full.push(0);
    assert_eq!(full.len(), 4096);
    let right = vec![[27, 5_000_000, 0]; 585];
    assert_eq!(book(1, &full, 0), Ok(right.clone()));
    for edition in [2, 3] {
        assert_eq!(book(edition, &full, 2_925_000_000), Ok(right.clone()));
    }
    full.push(0);
    for edition in EDITIONS {
        assert_eq!(book(edition, &full, 2_925_000_000), refused(19, 20001));
        assert_eq!(book(edition, &[0; 4096], 0), Ok(vec![]));
        assert_eq!(book(edition, &[0; 4097], 0), refused(19, 20001));
    }
    // 372 doses with lots, and a remark.
    let mut lots = bytes("AA 00 1B 00 4C 4B 40 FF FF FF FF").repeat(372);
    lots.extend([3, 0, 0, 0]);
    assert_eq!(lots.len(), 4096);
    let right = vec![[27, 5_000_000, u32::MAX]; 372];
    assert_eq!(book(3, &lots, 1_860_000_000), Ok(right));
}

#[test]
fn kinds() {
    let editions = |hex, weight| EDITIONS.map(|edition| book(edition, &bytes(hex), weight));
    // Unknown remarks are skipped, by their own length.
    let skipped = format!("7F{} 00 86 00 05 00 00 00 09", " 86".repeat(15));
    let right = || Ok(vec![[5, 9, 0]]);
    assert_eq!(editions(&skipped, 9), [right(), right(), right()]);
    // Doses in order, an oxide twice; 98 from edition 2 on.
    let both = "86 00 02 00 00 00 01 98 00 01 00 00 00 02 00 00 86 00 02 00 00 00 03";
    let right = || Ok(vec![[2, 1, 0], [1, 2, 0], [2, 3, 0]]);
    assert_eq!(editions(both, 6), [refused(20, 7), right(), right()]);
    let wrong = || refused(23, 20002);
    assert_eq!(editions(both, 7), [refused(20, 7), wrong(), wrong()]);
    // The first record that is wrong decides, then 20 before 21 before 22.
    let alike = |number, place| [(); 3].map(|_| refused(number, place));
    assert_eq!(editions("00 FF 7F", 0), alike(20, 1));
    assert_eq!(editions("02 00 07 86 00 00", 0), alike(21, 3));
    assert_eq!(editions("86 00 00 00 00 00 01 80", 1), alike(22, 0));
}

#[test]
fn example_output() {
    let example = bytes("02 00 07 86 00 1B 00 00 04 E2");
    let print = |book: &[u8], weight| printed(&Content::least(book, weight).bytes());
    let right = "edition 3\n27 1250 0\ntotal 1250\n";
    assert_eq!(print(&example, 1250), right);
    let lot = bytes("AA 00 1B 00 00 04 E2 FF FF FF FF 98 00 01 00 00 00 01 00 00");
    let right = "edition 3\n27 1250 4294967295\n1 1 0\ntotal 1251\n";
    assert_eq!(print(&lot, 1251), right);
    assert_eq!(print(&[0], 0), "edition 3\ntotal 0\n");
    assert_eq!(print(&example, 1251), "refused 23 at 20002\n");
    assert_eq!(printed(&[]), "refused 3 at 0\n");
    assert_eq!(printed(&[0; 65_537]), "refused 2 at 0\n");
}

#[test]
fn packages_of_other_writers() {
    macro_rules! data {
        ($name:literal) => {
            include_bytes!(concat!("../data/", $name, ".rpm"))
        };
    }
    let no_book: [&[u8]; 6] = [
        data!("rb-one"),
        data!("rb-deps"),
        data!("rb-scripts"),
        data!("rb-i18n"),
        data!("rb-signed-rsa"),
        data!("rb-legacy-nodirtokens-kinds"),
    ];
    let houses: [&[u8]; 3] = [
        data!("house-one-region"),
        data!("house-i18n"),
        data!("house-make-64"),
    ];
    for edition in EDITIONS {
        for package in no_book {
            assert_eq!(doses(edition, package), refused(14, 20001));
        }
        for package in houses {
            assert_eq!(doses(edition, package), Ok(vec![[27, 1250, 0]]));
        }
    }
    for package in houses {
        assert_eq!(printed(package), "edition 3\n27 1250 0\ntotal 1250\n");
    }
}

#[test]
fn editions() {
    let package = Content::least(&[0], 0).bytes();
    let long = vec![0; 65_537];
    for edition in [0, 4, 257, 258, 259, 65_537, 1 << 31 | 3, u32::MAX] {
        for package in [&package[..], &package[..95], &[], &long] {
            assert_eq!(doses(edition, package), refused(1, 0));
        }
    }
    for edition in EDITIONS {
        assert_eq!(doses(edition, &package), Ok(vec![]));
        assert_eq!(doses(edition, &package[..95]), refused(3, 95));
        assert_eq!(doses(edition, &long), refused(2, 0));
    }
}

// ---- The catalogue against 000's tables ----

#[test]
fn catalogue_is_the_papers() {
    let ours = |lines: &[Line]| -> Vec<lines::Line> {
        let plain = |line: &Line| lines::Line {
            tag: line.tag,
            ty: line.ty,
            count: match line.count {
                Count::Any => None,
                Count::Exactly(count) => Some(count),
            },
            required: line.status == Status::Required,
        };
        lines.iter().map(plain).collect()
    };
    assert_eq!(ours(&SIGNATURE), *lines::SIGNATURE);
    assert_eq!(ours(&HEADER), *lines::HEADER);
    for part in [&SIGNATURE[..], &HEADER] {
        assert!(part.is_sorted_by(|one, next| one.tag < next.tag));
    }
}

// ---- Checks 14 to 18 on the least package, changed ----

const S: usize = content::SIGNATURE;
const H: usize = content::HEADER;

/// Puts items into the least package, by structure; reads at each edition, which agree.
fn with(items: &[(usize, Item)]) -> Checked<Vec<[u32; 3]>> {
    changed(items, &[])
}

fn changed(items: &[(usize, Item)], removed: &[(usize, u32)]) -> Checked<Vec<[u32; 3]>> {
    let mut content = Content::least(&[0], 0);
    for (structure, item) in items {
        content.put(*structure, item.clone());
    }
    for &(structure, tag) in removed {
        content.remove(structure, tag);
    }
    let package = content.bytes();
    agreed(&package)
}

/// The answer of every edition.
fn agreed(package: &[u8]) -> Checked<Vec<[u32; 3]>> {
    let [one, two, three] = EDITIONS.map(|edition| doses(edition, package));
    assert_eq!(one, two);
    assert_eq!(two, three);
    three
}

fn right() -> Checked<Vec<[u32; 3]>> {
    Ok(vec![])
}

#[test]
fn lines_one_by_one() {
    for (structure, lines) in [(S, &SIGNATURE[..]), (H, &HEADER[..70])] {
        for line in lines.iter().filter(|line| line.status == Status::Required) {
            let answer = changed(&[], &[(structure, line.tag)]);
            assert_eq!(answer, refused(14, line.tag));
        }
        for line in lines {
            let item = if line.ty == 7 {
                strings(line.tag, 6, &["x"])
            } else {
                bin(line.tag, &[0])
            };
            assert_eq!(with(&[(structure, item)]), refused(15, line.tag));
        }
    }
    for count in [1, 15, 17] {
        for (structure, tag) in [(S, 1004), (S, 62), (S, 63), (H, 62), (H, 63)] {
            let answer = with(&[(structure, bin(tag, &vec![1; count]))]);
            assert_eq!(answer, refused(15, tag));
        }
    }
    for (structure, tag) in [(S, 1000), (S, 1007), (H, 1006), (H, 1009), (H, 1046)] {
        let answer = with(&[(structure, words(tag, &[0, 0]))]);
        assert_eq!(answer, refused(15, tag));
    }
    // Lines that take any count in spite of 000.
    for count in [1, 65, 152] {
        for tag in [1002, 1005] {
            assert_eq!(with(&[(S, bin(tag, &vec![1; count]))]), right());
        }
    }
    for tag in [1004, 1005, 1016] {
        assert_eq!(with(&[locales(2), translated(tag, 2)]), right());
    }
    // The batch weight has a line from edition 2 on.
    let mut content = Content::least(&[0], 0);
    for (item, number) in [
        (None, 14),
        (Some(bin(20002, &[0; 4])), 15),
        (Some(words(20002, &[0, 0])), 15),
        (Some(words(20002, &[1])), 23),
    ] {
        content.remove(H, 20002);
        content.items[H].extend(item);
        assert_eq!(doses(1, &content.bytes()), right());
        for edition in [2, 3] {
            assert_eq!(doses(edition, &content.bytes()), refused(number, 20002));
        }
    }
}

#[test]
fn lines_in_order() {
    // Per line 14, then 15; the signature's lines first.
    let wrong = |tag| (H, bin(tag, &[0]));
    assert_eq!(changed(&[wrong(1001)], &[(H, 1000)]), refused(14, 1000));
    assert_eq!(changed(&[wrong(1000)], &[(H, 1001)]), refused(15, 1000));
    assert_eq!(changed(&[wrong(100)], &[(S, 1004)]), refused(14, 1004));
    let pgp = (S, strings(1012, 6, &["x"]));
    assert_eq!(changed(&[pgp], &[(H, 100)]), refused(15, 1012));
}

#[test]
fn size_tag() {
    let mut content = Content::least(&[0], 0);
    content.payload = vec![9; 5];
    let package = content.bytes();
    let h = content.package().h();
    assert_eq!(agreed(&package), right());
    assert_eq!(agreed(&package[..package.len() - 1]), refused(16, 1000));
    let (length, right) = (package.len() as u32, (package.len() - h) as u32);
    for size in [
        0,
        5,
        length,
        length - 96,
        right - 1,
        right + 1,
        right | 1 << 31,
    ] {
        content.size_off = size.wrapping_sub(right);
        assert_eq!(agreed(&content.bytes()), refused(16, 1000));
    }
}

#[test]
fn groups_that_need() {
    let dsa = (S, bin(1011, &[1]));
    let rsa = (S, bin(1012, &[1]));
    let gpg = (S, bin(1005, &[1]));
    assert_eq!(with(&[dsa.clone()]), refused(17, 1005));
    assert_eq!(with(&[rsa.clone()]), refused(17, 1002));
    // 1011's group comes first.
    assert_eq!(with(&[rsa.clone(), dsa.clone()]), refused(17, 1005));
    assert_eq!(with(&[rsa, dsa.clone(), gpg.clone()]), refused(17, 1002));
    assert_eq!(with(&[dsa, gpg]), right());

    for script in 1023..=1026 {
        let program = script - 1023 + 1085;
        let body = (H, strings(script, 6, &["true"]));
        let shell = (H, strings(program, 6, &["/bin/sh"]));
        assert_eq!(with(&[body.clone()]), refused(17, program));
        assert_eq!(with(&[shell.clone()]), right());
        assert_eq!(with(&[body, shell]), right());
    }
}

fn numbers(tag: u32, count: u32) -> (usize, Item) {
    (H, words(tag, &vec![0; count as usize]))
}

fn texts(tag: u32, count: u32) -> (usize, Item) {
    (H, strings(tag, 8, &vec!["/"; count as usize]))
}

#[test]
fn groups_of_files() {
    let shorts = |tag, count| (H, content::shorts(tag, &vec![0; count]));
    assert_eq!(with(&[shorts(1030, 2)]), refused(17, 1030));
    assert_eq!(with(&[shorts(1033, 2), texts(1097, 2)]), refused(17, 1033));
    assert_eq!(with(&[numbers(1045, 2)]), refused(17, 1045));
    assert_eq!(with(&[numbers(1045, 1)]), right());
    assert_eq!(with(&[numbers(1028, 2)]), refused(17, 1030));
    for tag in [1034, 1037, 1095, 1096] {
        assert_eq!(with(&[numbers(tag, 2)]), refused(17, tag));
    }
    for tag in [1035, 1036, 1039, 1040, 1097] {
        assert_eq!(with(&[texts(tag, 2)]), refused(17, tag));
    }

    // Names: 1027, or the three.
    let three = [(H, 1116), (H, 1117), (H, 1118)];
    assert_eq!(changed(&[texts(1027, 1)], &three), right());
    assert_eq!(changed(&[texts(1027, 2)], &three), refused(17, 1027));
    for kept in 0..3 {
        let mut gone = three.to_vec();
        gone.remove(kept);
        assert_eq!(changed(&[texts(1027, 1)], &gone), refused(17, 1027));
    }
    assert_eq!(changed(&[], &three), refused(17, 1116));
    assert_eq!(changed(&[], &three[1..]), refused(17, 1117));
    assert_eq!(with(&[numbers(1116, 2)]), refused(17, 1116));
    assert_eq!(with(&[texts(1117, 2)]), refused(17, 1117));
    assert_eq!(with(&[texts(1118, 2)]), right());
    // Missing goes before differing; counts of files before names.
    assert_eq!(changed(&[numbers(1116, 2)], &three[2..]), refused(17, 1118));
    assert_eq!(changed(&[texts(1097, 2)], &three[..1]), refused(17, 1097));
}

#[test]
fn groups_that_are_led() {
    for (leader, flags, versions) in [(1049, 1048, 1050), (1047, 1112, 1113)] {
        assert_eq!(with(&[numbers(flags, 2)]), refused(17, flags));
        assert_eq!(with(&[texts(versions, 2)]), refused(17, versions));
        assert_eq!(with(&[texts(leader, 2)]), refused(17, flags));
        let all = [texts(leader, 2), numbers(flags, 2), texts(versions, 2)];
        assert_eq!(with(&all), right());
    }
    for (leader, flags, versions) in [(1054, 1053, 1055), (1090, 1114, 1115), (1081, 1080, 1082)] {
        let lowest = flags.min(leader);
        let name = |count| texts(leader, count);
        let flag = |count| numbers(flags, count);
        let version = |count| texts(versions, count);
        assert_eq!(with(&[name(2), flag(2), version(2)]), right());
        assert_eq!(with(&[name(1)]), refused(17, flags));
        assert_eq!(with(&[flag(1)]), refused(17, leader));
        assert_eq!(with(&[version(1)]), refused(17, lowest));
        assert_eq!(with(&[name(1), version(1)]), refused(17, flags));
        assert_eq!(with(&[flag(1), version(1)]), refused(17, leader));
        // The missing tag, though the flags' count differs too.
        assert_eq!(with(&[name(1), flag(2)]), refused(17, versions));
        assert_eq!(with(&[name(1), flag(2), version(2)]), refused(17, flags));
        assert_eq!(with(&[name(1), flag(1), version(2)]), refused(17, versions));
    }
    // In the paper's order: 1049's group, then 1047's.
    let both = [numbers(1048, 2), numbers(1112, 2)];
    assert_eq!(with(&both), refused(17, 1048));
    let both = [
        texts(1050, 2),
        numbers(1112, 2),
        texts(1090, 1),
        texts(1054, 1),
    ];
    assert_eq!(with(&both), refused(17, 1050));
    assert_eq!(with(&both[1..]), refused(17, 1112));
    assert_eq!(with(&both[2..]), refused(17, 1053));
}

/// Tag 100, with so many locales.
fn locales(count: u32) -> (usize, Item) {
    texts(100, count)
}

/// A translated string, with so many strings.
fn translated(tag: u32, count: u32) -> (usize, Item) {
    (H, strings(tag, 9, &vec!["text"; count as usize]))
}

#[test]
fn translated_strings_and_locales() {
    // With a line, below and above all of them, and extreme.
    for tag in [1004, 1005, 1016, 0, 99, 1012, 20003, 1 << 31, u32::MAX] {
        for count in 1..=5 {
            for strings in 1..=count {
                let items = [locales(count), translated(tag, strings)];
                assert_eq!(with(&items), right());
            }
            for strings in [count + 1, count + 2, count + 256, 1000] {
                let items = [locales(count), translated(tag, strings)];
                assert_eq!(with(&items), refused(17, tag));
            }
        }
    }
    // String arrays have nothing to do with locales.
    assert_eq!(with(&[texts(1012, 9)]), right());
    assert_eq!(with(&[locales(9)]), right());
    // The tag's line goes before, so do 100's.
    assert_eq!(with(&[translated(1021, 2)]), refused(15, 1021));
    let wrong = translated(1004, 2);
    assert_eq!(changed(&[wrong.clone()], &[(H, 100)]), refused(14, 100));
    for ty in [6, 9] {
        let other = (H, strings(100, ty, &["C"]));
        assert_eq!(with(&[other, wrong.clone()]), refused(15, 100));
    }
    assert_eq!(with(&[translated(100, 2), wrong]), refused(15, 100));
}

#[test]
fn locales_in_index_order() {
    // The least package's tags rise; others come behind, as they are put in.
    let high = || translated(30_000, 2);
    let low = || translated(5, 2);
    assert_eq!(with(&[high(), low()]), refused(17, 30_000));
    assert_eq!(with(&[low(), high()]), refused(17, 5));
    assert_eq!(with(&[low(), translated(1016, 2)]), refused(17, 1016));
    let all = [1016, 1005, 1004].map(|tag| translated(tag, 2));
    assert_eq!(with(&all), refused(17, 1004));
    assert_eq!(with(&all[..2]), refused(17, 1005));
    // One that is right goes before one that isn't.
    let items = [
        locales(2),
        translated(1004, 2),
        translated(7, 3),
        translated(6, 4),
    ];
    assert_eq!(with(&items), refused(17, 7));
}

#[test]
fn locales_are_the_last_group() {
    let wrong = || translated(1004, 2);
    assert_eq!(with(&[wrong(), (S, bin(1011, &[1]))]), refused(17, 1005));
    assert_eq!(with(&[wrong(), texts(1117, 2)]), refused(17, 1117));
    assert_eq!(with(&[wrong(), texts(1081, 1)]), refused(17, 1080));
    let system = (H, strings(1021, 6, &["x"]));
    assert_eq!(with(&[wrong(), system]), refused(17, 1004));
    assert_eq!(
        with(&[wrong(), (H, bin(20001, &[0x80]))]),
        refused(17, 1004)
    );
    assert_eq!(
        with(&[wrong(), (H, bin(20001, &[0; 4097]))]),
        refused(17, 1004)
    );
    // Edition 1 has no line for the batch weight, so it may be translated there.
    let mut content = Content::least(&[0], 0);
    for (strings, number) in [(1, 0), (2, 17)] {
        content.put(H, translated(20002, strings).1);
        let one = if number == 0 {
            right()
        } else {
            refused(17, 20002)
        };
        assert_eq!(doses(1, &content.bytes()), one);
        for edition in [2, 3] {
            assert_eq!(doses(edition, &content.bytes()), refused(15, 20002));
        }
    }
}

#[test]
fn translated_strings_of_the_signature() {
    let package = |strings: u32| {
        let mut content = Content::least(&[0], 0);
        content.put(H, locales(3).1);
        content.put(S, translated(1016, strings).1);
        content.bytes()
    };
    for edition in EDITIONS {
        assert_eq!(doses(edition, &package(1)), right());
        // The third record of the signature.
        for strings in [2, 3, 4] {
            assert_eq!(doses(edition, &package(strings)), refused(10, 96 + 16 + 32));
        }
    }
}

#[test]
fn text_rules() {
    let text = |tag, text: &str| (H, strings(tag, 6, &[text]));
    for os in ["", "Linux", "linu", "linuxx", "linux "] {
        assert_eq!(with(&[text(1021, os)]), refused(18, 1021));
    }
    for program in 1085..=1088 {
        for shell in ["", "/bin/sh ", "/bin/bash", "/bin/s"] {
            assert_eq!(with(&[text(program, shell)]), refused(18, program));
        }
    }
    for directory in ["", "/srv", "/srv/x", "srv/ "] {
        let names = (H, strings(1118, 8, &["/", directory]));
        assert_eq!(with(&[names]), refused(18, 1118));
    }
    for index in [1, 2, 1 << 31, u32::MAX] {
        assert_eq!(with(&[(H, words(1116, &[index]))]), refused(18, 1116));
    }
    assert_eq!(with(&[(H, words(1116, &[1])), texts(1118, 2)]), right());
    // In the paper's order.
    let all = [
        (H, strings(1118, 8, &["srv"])),
        (H, words(1116, &[1])),
        text(1088, "x"),
        text(1085, "x"),
        text(1021, "x"),
    ];
    for (count, place) in [(1, 1118), (2, 1116), (3, 1088), (4, 1085), (5, 1021)] {
        assert_eq!(with(&all[..count]), refused(18, place));
    }
}

// ---- The digest ----

/// The least package with this dose and a payload.
fn with_dose() -> Content {
    let mut content = Content::least(&bytes("86 00 1B 00 00 04 E2"), 1250);
    content.payload = b"payload".to_vec();
    content
}

/// Each edition's answer to a package with one byte changed.
fn with_byte(package: &[u8], at: usize, bit: u8) -> [Checked<Vec<[u32; 3]>>; 3] {
    let mut package = package.to_vec();
    package[at] ^= bit;
    EDITIONS.map(|edition| doses(edition, &package))
}

#[test]
fn digest_covers_header_and_payload() {
    let content = with_dose();
    let package = content.bytes();
    let h = content.package().h();
    let wrong = [(); 3].map(|_| refused(27, 1004));
    let right = [(); 3].map(|_| Ok(vec![[27, 1250, 0]]));
    assert_eq!(EDITIONS.map(|edition| doses(edition, &package)), right);
    let data = |structure, tag, ty| find(&package, structure, tag, ty).unwrap();

    // The dose, the batch weight, a text, the payload, the digest itself.
    let parts = [
        data(1, 20001, 7),
        data(1, 20002, 4),
        data(1, 1001, 6),
        package.len() - 7..package.len(),
        data(0, 1004, 7),
    ];
    for part in parts {
        // A string keeps its zero byte.
        for at in part.filter(|&at| package[at] != 0) {
            assert_eq!(with_byte(&package, at, 0x40), wrong);
        }
    }
    // An entry's offset: that of 1036 becomes 1035's, whose data is the same.
    let records = sound(&package).unwrap().header;
    let record = |tag| records.tagged(tag).unwrap().offset;
    let place = records.records().position(|one| one.tag == 1036).unwrap();
    let mut moved = package.clone();
    put(&mut moved, h + 16 + 16 * place + 8, record(1035));
    assert_eq!(agreed(&moved), refused(27, 1004));

    // The lead and the rest of the signature don't count; the gap has a check of its own.
    for at in [8, 9, 11, 80, 95] {
        assert_eq!(with_byte(&package, at, 0x40), right);
    }
    assert_eq!(h, 168);
    for at in 164..h {
        let stray = [(); 3].map(|_| refused(28, at as u32));
        assert_eq!(with_byte(&package, at, 0x40), stray);
    }
    let mut content = content;
    content.put(S, bin(1002, b"xyz"));
    let package = content.bytes();
    let at = find(&package, 0, 1002, 7).unwrap().start;
    assert_eq!(with_byte(&package, at, 0x40), right);
}

#[test]
fn digests_of_other_bytes() {
    let content = with_dose();
    let package = content.bytes();
    let h = content.package().h();
    let store = h + 16 + 16 * content.items[H].len();
    let at = find(&package, 0, 1004, 7).unwrap();
    for other in [
        &package[..],
        &package[96..],
        &package[h - 4..],
        &package[h + 16..],
        &package[store..],
        &package[h..package.len() - 7],
        &package[h..package.len() - 1],
    ] {
        let mut package = package.clone();
        package[at.clone()].copy_from_slice(&md5(other));
        for edition in EDITIONS {
            assert_eq!(doses(edition, &package), refused(27, 1004));
        }
    }
}

#[test]
fn digest_after_18_before_19() {
    let wrong_digest = |items: &[(usize, Item)]| {
        let mut content = with_dose();
        content.digest_off = 1;
        for (structure, item) in items {
            content.put(*structure, item.clone());
        }
        content
    };
    let answer = |content: Content| agreed(&content.bytes());
    let book = |book: &[u8]| answer(wrong_digest(&[(H, bin(20001, book))]));
    assert_eq!(answer(wrong_digest(&[])), refused(27, 1004));
    // Before it.
    let mut content = wrong_digest(&[]);
    content.size_off = 1;
    assert_eq!(answer(content), refused(16, 1000));
    let dsa = (S, bin(1011, &[1]));
    assert_eq!(answer(wrong_digest(&[dsa])), refused(17, 1005));
    let system = (H, strings(1021, 6, &["x"]));
    assert_eq!(answer(wrong_digest(&[system])), refused(18, 1021));
    let name = (H, strings(1118, 8, &["/srv"]));
    assert_eq!(answer(wrong_digest(&[name])), refused(18, 1118));
    // Behind it: 19 to 23, and 24.
    assert_eq!(book(&[0; 4097]), refused(27, 1004));
    assert_eq!(book(&[0x96]), refused(27, 1004));
    assert_eq!(book(&[0x02]), refused(27, 1004));
    assert_eq!(book(&[0x86, 0, 0, 0, 0, 0, 0]), refused(27, 1004));
    let weight = (H, words(20002, &[1251]));
    assert_eq!(answer(wrong_digest(&[weight])), refused(27, 1004));
    let package = wrong_digest(&[]).bytes();
    for edition in EDITIONS {
        assert_eq!(read(edition, &package, &mut []), refused(27, 1004));
    }
}

// ---- The gap ----

#[test]
fn gap_at_each_edition() {
    for size in 1..=8 {
        let mut content = with_dose();
        content.put(S, bin(1002, &vec![0x55; size]));
        let package = content.bytes();
        let (end, h) = (180 + size, if size <= 4 { 184 } else { 192 });
        assert_eq!(content.package().h(), h);
        for edition in EDITIONS {
            assert_eq!(doses(edition, &package), Ok(vec![[27, 1250, 0]]));
            assert_eq!(doses(edition, &package[..end]), refused(5, h as u32));
            assert_eq!(doses(edition, &package[..h]), refused(5, h as u32));
        }
        for at in end..h {
            for bit in [0x01, 0x40, 0x80, 0xFF] {
                let stray = [(); 3].map(|_| refused(28, at as u32));
                assert_eq!(with_byte(&package, at, bit), stray);
                let cut = &package[..at + 1];
                assert_eq!(with_byte(cut, at, bit), stray);
            }
        }
    }
}

#[test]
fn gap_before_contents() {
    let changes: [&dyn Fn(&mut Content); 14] = [
        &|_| {},
        &|content| content.remove(S, 1004),
        &|content| content.remove(H, 20001),
        &|content| content.remove(H, 20002),
        &|content| content.put(H, bin(1000, &[0])),
        &|content| content.size_off = 1,
        &|content| content.put(H, texts(1081, 1).1),
        &|content| content.put(H, strings(1021, 6, &["x"])),
        &|content| content.digest_off = 1,
        &|content| content.put(H, bin(20001, &[0; 4097])),
        &|content| content.put(H, bin(20001, &[0x96])),
        &|content| content.put(H, bin(20001, &[0x02])),
        &|content| content.put(H, bin(20001, &[0x86, 0, 0, 0, 0, 0, 0])),
        &|content| content.put(H, words(20002, &[1251])),
    ];
    for change in changes {
        let mut content = with_dose();
        change(&mut content);
        content.gap[2] = 0x0A;
        let package = content.bytes();
        // Without 1004 the signature is 32 bytes shorter.
        let place = 134 + 32 * (content.items[S].len() as u32 - 1);
        for edition in EDITIONS {
            assert_eq!(doses(edition, &package), refused(28, place));
            assert_eq!(read(edition, &package, &mut []), refused(28, place));
        }
        assert_eq!(printed(&package), format!("refused 28 at {place}\n"));
        for edition in [0, 4, u32::MAX] {
            assert_eq!(doses(edition, &package), refused(1, 0));
        }
    }
}

// ---- The dose buffer ----

#[test]
fn room_for_doses() {
    let two = bytes("86 00 1B 00 00 00 09 86 00 1C 00 00 00 08");
    let package = Content::least(&two, 17).bytes();
    let right = [27, 9, 0, 28, 8, 0];
    for edition in EDITIONS {
        rooms(edition, &package, &right);
    }
    let lots = bytes("AA 00 1B 00 00 00 09 01 02 03 04 AA 00 1C 00 00 00 08 FF FF FF FE");
    let lots = Content::least(&lots, 17).bytes();
    rooms(3, &lots, &[27, 9, 0x0102_0304, 28, 8, u32::MAX - 1]);
    // 23 goes before 24, and no dose is written before the sum is known.
    let heavier = Content::least(&two, 18).bytes();
    for edition in [2, 3] {
        assert_eq!(read(edition, &heavier, &mut [7; 5]), refused(23, 20002));
        assert_eq!(doses(edition, &heavier), refused(23, 20002));
    }
    assert_eq!(read(1, &heavier, &mut [7; 5]), refused(24, 6));
    // A book without doses needs no room.
    for edition in EDITIONS {
        let package = Content::least(&[0], 0).bytes();
        assert_eq!(read(edition, &package, &mut []), Ok(0));
    }
}

/// Every length of buffer around six numbers, in both forms.
fn rooms(edition: u32, package: &[u8], right: &[u32; 6]) {
    for room in 0..6 {
        let mut numbers = vec![7; room];
        assert_eq!(read(edition, package, &mut numbers), refused(24, 6));
        assert_eq!(numbers, vec![7; room]);
    }
    for more in 0..4 {
        let mut numbers = vec![7; 6 + more];
        assert_eq!(read(edition, package, &mut numbers), Ok(2));
        assert_eq!(numbers[..6], right[..]);
        assert_eq!(numbers[6..], vec![7; more]);
    }
    for length in 0..24 {
        let mut bytes = vec![7; length];
        assert_eq!(read_for_c(edition, package, &mut bytes), (24 << 32) + 6);
        assert_eq!(bytes, vec![7; length]);
    }
    let right: Vec<u8> = right
        .iter()
        .flat_map(|number| number.to_be_bytes())
        .collect();
    for more in 0..13 {
        let mut bytes = vec![7; 24 + more];
        assert_eq!(read_for_c(edition, package, &mut bytes), 2);
        assert_eq!(bytes[..24], right);
        assert_eq!(bytes[24..], vec![7; more]);
    }
}
