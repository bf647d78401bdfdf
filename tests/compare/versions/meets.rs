//! Requirements and versions that meet them or do not, family by family.

use super::desk::Desk;
use super::requirements::*;
use super::texts::{otherwise, some_runs, Run, Text};
use crate::bench::Answer;
use crate::damage;
use crate::families::change;
use crate::maker::{size_of, Entry, Package};
use crate::random::Random;

/// All families with their names, in the order in which they run.
pub const ALL: [(&str, fn(&mut Desk, &mut Random)); 7] = [
    ("requirements", right),
    ("flags of requirements", all_flags),
    ("names of requirements", names),
    ("types and counts of requirements", types_and_counts),
    ("shared data of requirements", shared),
    ("damaged requirements", damaged),
    ("changed requirements", changed),
];

/// A required name, and the runs of its version.
fn required(random: &mut Random) -> (Required, Vec<Run>) {
    let runs = some_runs(random, 5);
    let version = without_zeros(Text::made(random, &runs).bytes);
    let name = name(random);
    let flags = flags(random);
    (Required::new(&name, &version, flags), runs)
}

fn some(random: &mut Random, count: usize) -> (Vec<Required>, Vec<Vec<Run>>) {
    (0..count).map(|_| required(random)).unzip()
}

/// Asks for a name with a version; the maker knows the answer.
fn ask(desk: &mut Desk, all: &[Required], name: &[u8], version: &Text) {
    let known = answer(all, name, version);
    desk.meets(name, &version.bytes, Some(known));
}

/// The same for each name, with the version required, in another spelling, a little other,
/// any, and none.
fn ask_each(desk: &mut Desk, random: &mut Random, all: &[Required], runs: &[Vec<Run>]) {
    for (one, runs) in all.iter().zip(runs) {
        ask(desk, all, &one.name, &Text::of(&one.version));
        ask(desk, all, &one.name, &Text::made(random, runs));
        for _ in 0..2 {
            let other = otherwise(random, runs);
            ask(desk, all, &one.name, &Text::made(random, &other));
        }
        let any = some_runs(random, 4);
        ask(desk, all, &one.name, &Text::made(random, &any));
        ask(desk, all, &one.name, &Text::of(b""));
    }
}

fn right(desk: &mut Desk, random: &mut Random) {
    for round in 0..1500 {
        let count = 1 + random.below(1 + round % 9);
        let (all, runs) = some(random, count);
        desk.bench.package(&package(random, &entries(&all)).bytes());
        ask_each(desk, random, &all, &runs);
        for _ in 0..3 {
            let other = name(random);
            let any = some_runs(random, 3);
            ask(desk, &all, &other, &Text::made(random, &any));
        }
    }
    for count in [16, 64, 255, 256, 257, 1000, 2000] {
        let (mut all, runs) = some(random, count);
        for (at, one) in all.iter_mut().enumerate() {
            one.name = format!("name{at}").into_bytes();
            one.version.truncate(6);
        }
        desk.bench.package(&package(random, &entries(&all)).bytes());
        for at in [0, 1, count / 2, count - 2, count - 1] {
            let one = &all[at];
            ask(desk, &all, &one.name, &Text::of(&one.version));
            ask(desk, &all, &one.name, &Text::made(random, &runs[at]));
            ask(desk, &all, &one.name, &Text::of(b"z"));
        }
        ask(desk, &all, b"absent", &Text::of(b"1"));
    }
}

/// Bits that say nothing here.
#[rustfmt::skip]
const OTHER_BITS: [u32; 15] = [
    0, 0x10, 0x40, 0x100, 0x200, 0x400, 0x800, 0x0001_0000, 0x000E_0000, 0x0100_0000, 0x0200_0000,
    0x0400_0000, 0x0E00_0000, 0x8000_0000, 0xFFFF_FFF0,
];

/// Each combination of 0x01 to 0x08 with each other bits, at each of three places between
/// flags that say the contrary; an older, the same and a newer version.
fn all_flags(desk: &mut Desk, random: &mut Random) {
    let given =
        ["1.2", "1.3", "1.03", "1.4", "1", "2", "", "a"].map(|text| Text::of(text.as_bytes()));
    for relations in 0..16 {
        for other_bits in OTHER_BITS {
            for place in 0..3 {
                let flags = relations | other_bits;
                let mut all = vec![Required::new(b"tin", b"1.3", !flags); 3];
                all[place] = Required::new(b"lead", b"1.3", flags);
                desk.bench.package(&package(random, &entries(&all)).bytes());
                for version in &given {
                    ask(desk, &all, b"lead", version);
                    ask(desk, &all, b"tin", version);
                }
            }
        }
    }
    for _ in 0..500 {
        let all = [b"a", b"b", b"c"].map(|name| Required::new(name, b"5", random.number()));
        desk.bench.package(&package(random, &entries(&all)).bytes());
        for (name, version) in [(b"a", "4"), (b"a", "5"), (b"a", "6"), (b"b", "5")] {
            ask(desk, &all, name, &Text::of(version.as_bytes()));
        }
    }
}

/// A name first, last, twice, absent; prefixes of it and longer ones; with a zero byte;
/// empty.
fn names(desk: &mut Desk, random: &mut Random) {
    let versions = ["1", "2", "3"].map(|text| Text::of(text.as_bytes()));
    for round in 0..300 {
        let mut all: Vec<Required> = [&b"glass"[..], b"glaze", b"tin", b"oxide", b"g"]
            .map(|name| Required::new(name, b"2", 1 << (1 + random.below(3))))
            .to_vec();
        random.shuffle(&mut all);
        if round % 2 == 0 {
            let at = random.below(5);
            all[at].name.clear();
        }
        // The first of two counts.
        let (one, other) = (random.below(5), random.below(5));
        all[one].name = all[other].name.clone();
        all[one].version = random.pick(&[&b"1"[..], b"3", b""]).to_vec();
        desk.bench.package(&package(random, &entries(&all)).bytes());
        for one in &all {
            for version in &versions {
                names_like(desk, &all, &one.name, version);
            }
        }
        let both = [&all[0].name[..], &[0], &all[1].name].concat();
        for other in [&b""[..], b"\0", b"\0\0", b"2", b"1048", b"GLASS", &both] {
            ask(desk, &all, other, &versions[1]);
        }
    }
    long_names(desk, random);
}

/// Asks for a name, for parts of it and longer ones, and for it with a zero byte at each
/// place.
fn names_like(desk: &mut Desk, all: &[Required], name: &[u8], version: &Text) {
    ask(desk, all, name, version);
    ask(desk, all, &name[..name.len().saturating_sub(1)], version);
    ask(desk, all, &name[name.len().min(1)..], version);
    ask(desk, all, &[name, b"s"].concat(), version);
    ask(desk, all, &name.to_ascii_uppercase(), version);
    for place in 0..=name.len() {
        let (front, behind) = name.split_at(place);
        ask(desk, all, &[front, &[0], behind].concat(), version);
        ask(desk, all, &[front, &[0]].concat(), version);
    }
}

/// One name of up to 20,000 bytes; others of one more and less, and of 256.
fn long_names(desk: &mut Desk, random: &mut Random) {
    for length in [0, 1, 100, 255, 256, 257, 20_000] {
        let all = [Required::new(&vec![b'n'; length], b"2", 8)];
        desk.bench.package(&package(random, &entries(&all)).bytes());
        let less = [1, 256].map(|less| length.saturating_sub(less));
        for other in less.into_iter().chain([length, length + 1, length + 256]) {
            for version in [b"2", b"3"] {
                ask(desk, &all, &vec![b'n'; other], &Text::of(version));
            }
        }
    }
}

/// Asks for each name: refused with 25.
fn ask_none(desk: &mut Desk, random: &mut Random, all: &[Required], entries: &[Entry]) {
    let made = package(random, entries);
    ask_none_of(desk, all, &made);
}

fn ask_none_of(desk: &mut Desk, all: &[Required], package: &Package) {
    desk.bench.package(&package.bytes());
    for one in all {
        let known = Some(Answer::new(25, 0));
        desk.meets(&one.name, &one.version, known);
        desk.meets(&one.name, b"", known);
    }
}

/// An entry of another type with the same bytes, and zero bytes up to a whole element.
fn with_type(entry: &Entry, ty: u32) -> Entry {
    let elements = match size_of(ty) {
        None => entry.elements.clone(),
        Some(size) => {
            let mut bytes = entry.elements.concat();
            bytes.resize(bytes.len().next_multiple_of(size), 0);
            bytes.chunks(size).map(<[u8]>::to_vec).collect()
        }
    };
    let tag = entry.tag;
    Entry { tag, ty, elements }
}

/// As many elements of another type as there are requirements.
fn as_many(entry: &Entry, ty: u32) -> Entry {
    let element: &[u8] = match ty {
        3 => &[0, 8],
        4 => &[0, 0, 0, 8],
        6 | 8 | 9 => b"\x08\0",
        _ => &[8],
    };
    Entry {
        tag: entry.tag,
        ty,
        elements: vec![element.to_vec(); entry.elements.len()],
    }
}

/// 1048, 1049 and 1050 absent, of each other type with the same bytes and with the same
/// count, of other counts, in the signature alone.
fn types_and_counts(desk: &mut Desk, random: &mut Random) {
    for count in [1, 1, 2, 3, 4, 5, 8] {
        for _ in 0..6 {
            let (all, runs) = some(random, count);
            let right = entries(&all);
            for at in 0..3 {
                let mut without = right.to_vec();
                let entry = without.remove(at);
                ask_none(desk, random, &all, &without);
                other_types(desk, random, &all, &right, at);
                other_counts(desk, random, &all, &right, at);
                in_signature(desk, random, &all, &without, &entry);
            }
            ask_none(desk, random, &all, &[]);
            // The signature's own three say nothing, whatever the header lacks ..
            let but_names = [right[0].clone(), right[2].clone()];
            for header in [&right[1..], &but_names, &right[..2], &[]] {
                let mut made = package(random, header);
                made.signature = structure(random, right.to_vec());
                ask_none_of(desk, &all, &made);
            }
            // .. and where it lacks nothing.
            let mut made = package(random, &right);
            let contrary: Vec<Required> = all
                .iter()
                .map(|one| Required::new(&one.name, b"7.7", !one.flags))
                .collect();
            made.signature = structure(random, entries(&contrary).to_vec());
            desk.bench.package(&made.bytes());
            ask_each(desk, random, &all, &runs);
        }
    }
}

fn other_types(
    desk: &mut Desk,
    random: &mut Random,
    all: &[Required],
    right: &[Entry; 3],
    at: usize,
) {
    for ty in [1, 2, 3, 4, 6, 7, 8, 9] {
        if ty == right[at].ty || (ty == 6 && all.len() > 1) {
            continue;
        }
        let strings = matches!(ty, 6 | 8 | 9);
        let mut others = vec![as_many(&right[at], ty)];
        if !strings || right[at].ty == 8 {
            others.push(with_type(&right[at], ty));
        }
        for other in others {
            let mut wrong = right.to_vec();
            wrong[at] = other;
            ask_none(desk, random, all, &wrong);
        }
    }
}

/// One element more, one less, twice as many, and one.
fn other_counts(
    desk: &mut Desk,
    random: &mut Random,
    all: &[Required],
    right: &[Entry; 3],
    at: usize,
) {
    let count = all.len();
    for other in [count + 1, count - 1, 2 * count, 1, count + 256] {
        if other == count || other == 0 {
            continue;
        }
        let mut wrong = right.to_vec();
        let elements = wrong[at].elements.iter().cycle().take(other);
        wrong[at].elements = elements.cloned().collect();
        ask_none(desk, random, all, &wrong);
    }
}

/// One of the three in the signature alone.
fn in_signature(
    desk: &mut Desk,
    random: &mut Random,
    all: &[Required],
    without: &[Entry],
    entry: &Entry,
) {
    let mut made = package(random, without);
    made.signature = structure(random, vec![entry.clone()]);
    ask_none_of(desk, all, &made);
}

/// Names and versions that are the same bytes, versions that begin inside names, flags that
/// are bytes of another entry.
fn shared(desk: &mut Desk, random: &mut Random) {
    for _ in 0..400 {
        let count = 1 + random.below(4);
        let (all, _) = some(random, count);
        names_as_versions(desk, random, all.clone());
        version_in_name(desk, random, &all[0]);
    }
}

/// The header's record of a tag.
fn record(package: &mut Package, tag: u32) -> &mut [u32; 4] {
    let mut records = package.header.records.iter_mut();
    records.find(|record| record[0] == tag).expect("a record")
}

/// Each name is its own version.
fn names_as_versions(desk: &mut Desk, random: &mut Random, mut all: Vec<Required>) {
    for one in &mut all {
        one.version = one.name.clone();
    }
    let mut made = package(random, &entries(&all));
    record(&mut made, VERSIONS)[2] = record(&mut made, NAMES)[2];
    desk.bench.package(&made.bytes());
    for one in &all {
        ask(desk, &all, &one.name, &Text::of(&one.version));
        let any = some_runs(random, 2);
        ask(desk, &all, &one.name, &Text::made(random, &any));
    }
}

/// The one version is the name's tail; the flags are seen as bytes too.
fn version_in_name(desk: &mut Desk, random: &mut Random, one: &Required) {
    let name = [&b"glass-"[..], &one.name].concat();
    let tail = random.below(name.len() + 1);
    let all = [Required::new(&name, &name[tail..], one.flags)];
    let mut made = package(random, &entries(&all));
    record(&mut made, VERSIONS)[2] = record(&mut made, NAMES)[2] + tail as u32;
    let flags = record(&mut made, FLAGS)[2];
    made.header.records.push([3000, 7, flags, 4]);
    desk.bench.package(&made.bytes());
    for version in [&name[tail..], &name, b"", b"1"] {
        ask(desk, &all, &name, &Text::of(version));
    }
}

/// Each damage of checks 4, 6 to 13 and 28, cuts, and packages that are too large: their
/// answer, whatever is asked. Every second one has no requirement that could be found.
fn damaged(desk: &mut Desk, random: &mut Random) {
    for round in 0..24 {
        let count = 1 + random.below(3);
        let (all, _) = some(random, count);
        let mut three = entries(&all).to_vec();
        if round % 2 == 1 {
            three.remove(random.below(3));
        }
        let made = package(random, &three);
        let bytes = made.bytes();
        for damage in damage::all(&made, random) {
            let mut bytes = bytes.clone();
            damage.apply(&mut bytes);
            desk.bench.package(&bytes);
            desk.bench.note(damage.what);
            ask_refused(desk, &all[0], damage.number, damage.place);
        }
        let cuts =
            (0..bytes.len()).filter_map(|length| Some((length, damage::cut(&made, length)?)));
        for (length, (number, place)) in cuts {
            desk.bench.package(&bytes[..length]);
            ask_refused(desk, &all[0], number, place);
        }
        let known = match round % 2 {
            0 => answer(&all, &all[0].name, &Text::of(&all[0].version)),
            _ => Answer::new(25, 0),
        };
        sizes(desk, &all[0], bytes, known);
    }
    many_records(desk, random);
}

/// A refused package: whatever is asked gets the same answer.
fn ask_refused(desk: &mut Desk, one: &Required, number: u32, place: usize) {
    let known = Some(Answer::new(number, place));
    desk.meets(&one.name, &one.version, known);
    for name in [&b"absent"[..], b"", b"with\0zero"] {
        desk.meets(name, b"", known);
    }
}

/// As large as allowed, and larger.
fn sizes(desk: &mut Desk, one: &Required, mut bytes: Vec<u8>, known: Answer) {
    bytes.resize(65_536, 0);
    desk.bench.package(&bytes);
    desk.meets(&one.name, &one.version, Some(known));
    for size in [65_537, 70_000] {
        bytes.resize(size, 0);
        desk.bench.package(&bytes);
        ask_refused(desk, one, 2, 0);
    }
}

/// Among 512 records, and 513.
fn many_records(desk: &mut Desk, random: &mut Random) {
    let (all, runs) = some(random, 4);
    for count in [512, 513] {
        let fill = (3000..3000 + count - 3).map(|tag| Entry::new(tag, 7, &[&[1]]));
        let header: Vec<Entry> = entries(&all).into_iter().chain(fill).collect();
        let mut made = package(random, &entries(&all));
        made.header = structure(random, header);
        desk.bench.package(&made.bytes());
        if count == 512 {
            ask_each(desk, random, &all, &runs);
        } else {
            let known = Answer::new(7, made.h() + 8);
            desk.meets(&all[0].name, b"1", Some(known));
        }
    }
}

/// Bytes changed anywhere: nothing known.
fn changed(desk: &mut Desk, random: &mut Random) {
    for _ in 0..6000 {
        let count = 1 + random.below(4);
        let (all, runs) = some(random, count);
        let mut bytes = package(random, &entries(&all)).bytes();
        for _ in 0..1 + random.below(2) {
            change(random, &mut bytes);
        }
        desk.bench.package(&bytes);
        for (one, runs) in all.iter().zip(&runs) {
            desk.meets(&one.name, &one.version, None);
            let other = otherwise(random, runs);
            let version = Text::made(random, &other);
            desk.meets(&one.name, &version.bytes, None);
        }
    }
}

/// What a package of another writer requires, as its bytes say; the package must be right.
fn required_of(package: &[u8]) -> Vec<Required> {
    let part = |tag, ty| {
        reference::find(package, 1, tag, ty)
            .ok()
            .map(|part| &package[part])
    };
    let strings = |tag| -> Vec<&[u8]> {
        let data = part(tag, 8).unwrap_or(&[]);
        data.split_inclusive(|&byte| byte == 0).collect()
    };
    let flags = part(FLAGS, 4).unwrap_or(&[]).chunks_exact(4);
    let all = strings(NAMES).into_iter().zip(strings(VERSIONS)).zip(flags);
    let whole = |string: &[u8]| string[..string.len() - 1].to_vec();
    all.map(|((name, version), flags)| Required {
        name: whole(name),
        version: whole(version),
        flags: u32::from_be_bytes(flags.try_into().unwrap()),
    })
    .collect()
}

pub fn of_other_writers(desk: &mut Desk, random: &mut Random, package: &[u8]) {
    desk.bench.package(package);
    let all = required_of(package);
    for one in &all {
        for version in [&one.version[..], b"", b"0", b"1", b"4.6.0-1", b"999", b"z"] {
            ask(desk, &all, &one.name, &Text::of(version));
        }
        let more = [&one.version[..], b".1"].concat();
        ask(desk, &all, &one.name, &Text::of(&more));
        ask(desk, &all, &[&one.name[..], b"x"].concat(), &Text::of(b"1"));
        let mut other = one.version.clone();
        if !other.is_empty() {
            let at = random.below(other.len());
            other[at] = random.pick(b"0159az.");
        }
        ask(desk, &all, &one.name, &Text::of(&other));
    }
    ask(desk, &all, b"absent", &Text::of(b"1"));
}
