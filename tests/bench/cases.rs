//! What is measured: a package and a call on it, or a call that writes it.

use std::hint::black_box;
use std::path::Path;

use reference::digest::digest_for_c;
use reference::requirement::meets_for_c;
use reference::version::compare_for_c;
use reference::writer::write_for_c;
use reference::{reading, Record};

use crate::lists::{lent, Lists};
use crate::packages::{accepted, Order, Plan, ABSENT, ORDERS, SCATTERED, SLOW, USUAL};
use crate::random::Random;
use crate::{library, librpm, openssl};

#[derive(Clone, Copy)]
pub enum Call {
    /// Edition.
    Read(u32),
    /// Structure, tag, type.
    Find(u32, u32, u32),
    /// Structure, tag, type, element.
    Element(u32, u32, u32, u32),
    /// The package from its lists.
    Write,
    /// The digest of all its bytes.
    Digest,
    /// A version against another one.
    Compare,
    /// Whether a version meets what is required of a name.
    Meets,
}

#[derive(Clone, Copy, Debug, PartialEq, Eq)]
pub enum Side {
    Library,
    Reference,
    /// An older library.
    Before,
    Librpm,
    Openssl,
}

/// Those that answer alike.
const ANSWERING: [Side; 2] = [Side::Library, Side::Reference];

/// Room for any package.
const ROOM: usize = 65_536;
/// Room for any book's doses.
pub const DOSES: usize = 585 * 12;

/// The edition of readings; where an older library is measured beside, the one that all know.
const LATEST: u32 = 3;
const KNOWN_BEFORE: u32 = 2;

/// What is written to: doses or a digest at its front, or a package.
#[derive(PartialEq)]
pub struct Buffer(pub Vec<u8>);

impl Buffer {
    pub fn new() -> Buffer {
        Buffer(vec![0xA5; ROOM])
    }
}

pub struct Case {
    /// The table it belongs to.
    pub group: &'static str,
    pub name: String,
    /// A package, the bytes that are digested, or the left one of two versions.
    pub package: Vec<u8>,
    /// The right one of two versions; or a required name and a version.
    pub texts: Vec<Vec<u8>>,
    /// What the package is written from; empty for other calls.
    pub lists: Lists,
    pub call: Call,
}

impl Case {
    #[inline(never)]
    fn reference(&self, Buffer(buffer): &mut Buffer) -> u64 {
        let package = black_box(&self.package[..]);
        match black_box(self.call) {
            Call::Read(edition) => reading::read_for_c(edition, package, &mut buffer[..DOSES]),
            Call::Find(structure, tag, ty) => {
                reference::answer(&reference::find(package, structure, tag, ty))
            }
            Call::Element(structure, tag, ty, element) => {
                let part = reference::find_element(package, structure, tag, ty, element);
                reference::answer(&part)
            }
            Call::Write => self.reference_writes(buffer),
            Call::Digest => digest_for_c(package, &mut buffer[..openssl::DIGEST]),
            Call::Compare => u64::from(compare_for_c(package, &black_box(&self.texts)[0])),
            Call::Meets => {
                let texts = black_box(&self.texts);
                meets_for_c(package, &texts[0], &texts[1])
            }
        }
    }

    fn reference_writes(&self, buffer: &mut [u8]) -> u64 {
        let lists = black_box(&self.lists);
        let [signature, header] = [&lists.signature, &lists.header].map(lent);
        write_for_c(&lists.name, signature, header, buffer)
    }

    /// 1 where it imports both headers, and finds the tag that is asked for; else 0.
    #[inline(never)]
    fn librpm(&self) -> u64 {
        let package = black_box(&self.package[..]);
        u64::from(match black_box(self.call) {
            Call::Find(structure, tag, _) => librpm::find(package, structure, tag),
            _ => librpm::open(package),
        })
    }

    /// Its answer is that of the others, so that all can be compared.
    #[inline(never)]
    fn openssl(&self, Buffer(buffer): &mut Buffer) -> u64 {
        let room = buffer.first_chunk_mut().unwrap();
        openssl::digest(black_box(&self.package[..]), room);
        openssl::DIGEST as u64
    }

    /// Who is measured.
    pub fn sides(&self) -> Vec<Side> {
        let mut sides = ANSWERING.to_vec();
        sides.extend(self.before());
        sides.extend(self.peer());
        sides
    }

    /// librpm for readings and look-ups, openssl for digests; or the word why it takes no part.
    pub fn peer(&self) -> Result<Side, &'static str> {
        match self.call {
            _ if self.is_before_and_after() => Err("none"),
            Call::Element(..) | Call::Write | Call::Compare | Call::Meets => Err("none"),
            Call::Read(_) | Call::Find(..) if !librpm::LINKED => Err("missing"),
            Call::Read(_) | Call::Find(..) if !librpm::open(&self.package) => Err("refused"),
            Call::Read(_) | Call::Find(..) => Ok(Side::Librpm),
            Call::Digest if !openssl::LINKED => Err("missing"),
            Call::Digest => Ok(Side::Openssl),
        }
    }

    /// The older library, or the word why it takes no part.
    pub fn before(&self) -> Result<Side, &'static str> {
        match self.is_before_and_after() {
            true if library::BEFORE => Ok(Side::Before),
            true => Err("missing"),
            false => Err("none"),
        }
    }

    fn is_before_and_after(&self) -> bool {
        self.group.starts_with("orders ")
    }

    /// The records of signature and header; 0 where they are not sound.
    pub fn records(&self) -> [usize; 2] {
        match reference::sound(&self.package) {
            Ok(opened) => [opened.signature.nindex(), opened.header.nindex()],
            Err(_) => [0, 0],
        }
    }

    /// One call.
    pub fn run(&self, side: Side, buffer: &mut Buffer) -> u64 {
        match side {
            Side::Library => library::run(self, buffer),
            Side::Reference => self.reference(buffer),
            Side::Before => library::run_before(self, buffer),
            Side::Librpm => self.librpm(),
            Side::Openssl => self.openssl(buffer),
        }
    }

    /// The answer. The others must agree on it and on what they write, save the doses of an older
    /// library, which may be of fewer numbers; librpm, which has no such answers, must find what the
    /// library finds.
    pub fn answer(&self) -> u64 {
        let told = |side| {
            let mut buffer = Buffer::new();
            (self.run(side, &mut buffer), buffer)
        };
        let library = told(Side::Library);
        for side in self.sides() {
            let agrees = match (side, self.call) {
                (Side::Librpm, Call::Find(..)) => (self.librpm() == 1) == (library.0 >> 32 == 0),
                (Side::Librpm, _) => true,
                (Side::Before, Call::Read(_)) => told(side).0 == library.0,
                _ => told(side) == library,
            };
            assert!(agrees, "{}: {side:?} answers otherwise", self.name);
        }
        library.0
    }
}

fn on_bytes(group: &'static str, name: String, package: Vec<u8>, call: Call) -> Case {
    Case {
        group,
        name,
        package,
        texts: Vec::new(),
        lists: Lists::default(),
        call,
    }
}

fn read(group: &'static str, name: String, package: Vec<u8>) -> Case {
    let mut case = on_bytes(group, name, package, Call::Read(LATEST));
    if case.is_before_and_after() {
        case.call = Call::Read(KNOWN_BEFORE);
    }
    case
}

/// Writings of the entries that accepted packages have.
pub fn writings() -> Vec<Case> {
    let files = Plan {
        files: 300,
        ..USUAL
    };
    let mut cases = Vec::new();
    for records in [64, 512] {
        for (order, name) in ORDERS {
            let package = accepted(records, order, &USUAL);
            let name = format!("{records} records, {name}");
            cases.push(write("writing", name, &package));
        }
    }
    let package = accepted(64, Order::Rising, &files);
    cases.push(write("writing", "64 records, 300 files".into(), &package));
    cases
}

/// A writing of what a package has.
fn write(group: &'static str, name: String, package: &[u8]) -> Case {
    let lists = Lists::of(package);
    let package = lists.package();
    Case {
        lists,
        ..on_bytes(group, name, package, Call::Write)
    }
}

/// Readings of accepted packages.
pub fn readings() -> Vec<Case> {
    let mut cases = Vec::new();
    for records in [64, 512] {
        for (order, name) in ORDERS {
            let package = accepted(records, order, &USUAL);
            cases.push(read(
                "reading",
                format!("{records} records, {name}"),
                package,
            ));
        }
    }
    // The least book: check 10 wants a byte.
    let remark = Plan {
        doses: 0,
        remarks: 1,
        ..USUAL
    };
    let remarks = Plan {
        remarks: 4096,
        ..remark
    };
    let doses = Plan {
        doses: 585,
        ..USUAL
    };
    let files = Plan {
        files: 300,
        ..USUAL
    };
    let requires = Plan {
        requires: 100,
        ..files
    };
    let no_book = Plan {
        book: false,
        ..files
    };
    for (plan, name) in [
        (remark, "1 remark"),
        (remarks, "4,096 remarks"),
        (doses, "585 doses"),
        (files, "300 files"),
        (requires, "300 files, 100 requires"),
        (no_book, "300 files, no book"),
    ] {
        let package = accepted(64, Order::Rising, &plan);
        cases.push(read("reading", format!("64 records, {name}"), package));
    }
    cases
}

/// Digests of any bytes.
pub fn digests() -> Vec<Case> {
    let mut random = Random::new(1321);
    let mut cases = Vec::new();
    for (name, size) in [("4 KiB", 4 << 10), ("64 KiB", 64 << 10), ("1 MiB", 1 << 20)] {
        let bytes = (0..size).map(|_| random.below(256) as u8).collect();
        cases.push(digest("digest", name.to_string(), bytes));
    }
    cases
}

fn digest(group: &'static str, name: String, bytes: Vec<u8>) -> Case {
    on_bytes(group, name, bytes, Call::Digest)
}

/// The digest of each reading that comes to check 27, apart: of the bytes from the header on. An accepted
/// package comes there; a refused one is refused before.
pub fn digest_parts(cases: &[Case]) -> Vec<Case> {
    let mut parts = Vec::new();
    for case in cases {
        let group = match case.group {
            "reading" => "digest of reading",
            "data reading" => "digest of data reading",
            "growth rising" => "digest of growth rising",
            "growth shuffled" => "digest of growth shuffled",
            "orders reading" => "digest of orders reading",
            _ => continue,
        };
        let number = case.answer() >> 32;
        if number == 0 {
            let opened = reference::sound(&case.package).unwrap();
            let header = opened.signature.end().next_multiple_of(8);
            parts.push(digest(
                group,
                case.name.clone(),
                case.package[header..].to_vec(),
            ));
        } else {
            assert!(number < 19, "{}: refused {number}", case.name);
        }
    }
    parts
}

/// The first record behind the region: for the region's tag librpm gives the whole header.
const FIRST: usize = 1;

/// The look-up of a header record.
fn find(package: &[u8], position: usize) -> Call {
    let opened = reference::sound(package).unwrap();
    let record: Record = opened.header.records().nth(position).unwrap();
    Call::Find(1, record.tag, record.ty)
}

/// Look-ups of entries and of elements.
pub fn look_ups() -> Vec<Case> {
    let mut cases = Vec::new();
    for records in [64, 512] {
        let package = accepted(records, Order::Rising, &USUAL);
        let files = USUAL.files as u32;
        for (group, name, call) in [
            ("look-up", "first tag", find(&package, FIRST)),
            ("look-up", "middle tag", find(&package, records / 2)),
            ("look-up", "last tag", find(&package, records - 1)),
            ("look-up", "absent tag", Call::Find(1, ABSENT, 4)),
            ("look-up", "a tag of the signature", Call::Find(0, 1000, 4)),
            ("element", "first string of 8", Call::Element(1, 1117, 8, 0)),
            (
                "element",
                "last string of 8",
                Call::Element(1, 1117, 8, files - 1),
            ),
            (
                "element",
                "last number of 8",
                Call::Element(1, 1116, 4, files - 1),
            ),
            (
                "element",
                "a number too far",
                Call::Element(1, 1116, 4, files),
            ),
        ] {
            let name = format!("{records} records, {name}");
            cases.push(on_bytes(group, name, package.clone(), call));
        }
    }
    cases
}

/// Readings of the packages in a folder, and look-ups of 1126 in them.
pub fn data(folder: &Path) -> Vec<Case> {
    let mut paths: Vec<_> = std::fs::read_dir(folder)
        .unwrap()
        .map(|entry| entry.unwrap().path())
        .filter(|path| path.extension().is_some_and(|ending| ending == "rpm"))
        .collect();
    paths.sort();
    let mut cases = Vec::new();
    for (group, call) in [
        ("data reading", Call::Read(LATEST)),
        ("data look-up", Call::Find(1, 1126, 6)),
    ] {
        for path in &paths {
            let name = path.file_name().unwrap().to_string_lossy().into_owned();
            cases.push(on_bytes(group, name, std::fs::read(path).unwrap(), call));
        }
    }
    cases
}

/// Readings and writings of more and more records.
pub fn growth() -> Vec<Case> {
    let mut cases = Vec::new();
    for (group, order) in [
        ("growth rising", Order::Rising),
        ("growth shuffled", Order::Shuffled),
    ] {
        for records in [48, 64, 128, 192, 256, 320, 384, 448, 512] {
            let package = accepted(records, order, &USUAL);
            cases.push(read(group, records.to_string(), package));
        }
    }
    for records in PER_RECORD {
        let package = accepted(records, Order::Rising, &USUAL);
        cases.push(write("growth writing", records.to_string(), &package));
    }
    cases
}

/// The header records of the table of instructions for each record.
const PER_RECORD: [usize; 4] = [64, 128, 256, 512];

/// Readings and look-ups of tags in all orders, and writings in some, for before and after.
pub fn orders() -> Vec<Case> {
    let [rising, falling, shuffled] = ORDERS;
    let all = [rising, falling, shuffled, SCATTERED, SLOW];
    let mut cases = Vec::new();
    for records in [128, 256, 512] {
        for (order, name) in all {
            let package = accepted(records, order, &USUAL);
            cases.push(read(
                "orders reading",
                format!("{records} records, {name}"),
                package,
            ));
        }
    }
    for records in [128, 512] {
        for (order, name) in all {
            let package = accepted(records, order, &USUAL);
            let first = find(&package, FIRST);
            let name = format!("{records} records, {name}");
            cases.push(on_bytes("orders look-up", name, package, first));
        }
    }
    for records in [128, 512] {
        for (order, name) in ORDERS {
            let package = accepted(records, order, &USUAL);
            let name = format!("{records} records, {name}");
            cases.push(write("orders writing", name, &package));
        }
    }
    cases
}

/// A version against another one.
fn compare(name: String, left: &[u8], right: &[u8]) -> Case {
    Case {
        texts: vec![right.to_vec()],
        ..on_bytes("versions", name, left.to_vec(), Call::Compare)
    }
}

/// Short versions; the same texts of digits, letters and runs of both, and leading zeros.
pub fn versions() -> Vec<Case> {
    let short = [
        ("1.2.3", "1.2.4"),
        ("1.10", "1.9"),
        ("2.0-1.el9", "2.0-1.el9"),
    ];
    let mut cases: Vec<Case> = short
        .iter()
        .map(|(left, right)| {
            let name = format!("{left} and {right}");
            compare(name, left.as_bytes(), right.as_bytes())
        })
        .collect();
    let sorts = [
        ("digits", "1234567890"),
        ("letters", "abcdefghij"),
        ("runs", "12.ab3-c_"),
    ];
    let sizes = [
        ("16", 16),
        ("256", 256),
        ("4,096", 4096),
        ("65,536", 65_536),
    ];
    for (name, sort) in sorts {
        for (bytes, size) in sizes {
            let text: Vec<u8> = sort.bytes().cycle().take(size).collect();
            cases.push(compare(format!("{bytes} bytes of {name}"), &text, &text));
        }
    }
    for (count, zeros) in [("16", 16), ("4,096", 4096)] {
        let text = [&vec![b'0'; zeros][..], b"1"].concat();
        let name = format!("{count} leading zeros and none");
        cases.push(compare(name, &text, b"1"));
    }
    cases
}

/// At least.
const FLAGS: u32 = 0x0C;

/// The last of several names, with the version that is required.
pub fn requirements() -> Vec<Case> {
    let mut cases = Vec::new();
    for records in [64, 512] {
        for requires in [1, 64] {
            let plan = Plan { requires, ..USUAL };
            let mut package = accepted(records, Order::Rising, &plan);
            let flags = reference::find(&package, 1, 1048, 4).unwrap();
            for four in package[flags].chunks_exact_mut(4) {
                four.copy_from_slice(&FLAGS.to_be_bytes());
            }
            let last = |tag| {
                let element = requires as u32 - 1;
                let part = reference::find_element(&package, 1, tag, 8, element).unwrap();
                package[part.start..part.end - 1].to_vec()
            };
            let texts = vec![last(1049), last(1050)];
            let name = format!("{records} records, {requires} required");
            cases.push(Case {
                texts,
                ..on_bytes("requirements", name, package, Call::Meets)
            });
        }
    }
    cases
}
