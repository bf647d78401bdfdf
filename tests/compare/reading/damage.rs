//! One damage for each of checks 14 to 18, 23 and 27 and each place, with the answer
//! it must get.

use super::accepted::{any_count, item, locales, right_item, NO_LINE};
use super::books::Book;
use super::desk::Outcomes;
use crate::content::*;
use crate::lines::{self, Line};
use crate::maker::is_single;
use crate::random::Random;
use crate::shapes::LAWFUL;

#[derive(Clone, Debug)]
enum Edit {
    Remove(usize, u32),
    Put(usize, Item),
    /// 1000 is off by this much.
    Size(u32),
    /// 1004 is the digest with these bits turned over.
    Digest(u128),
}

pub struct Damage {
    pub what: &'static str,
    /// Where its check stands among all: the number, then its place in the paper.
    order: (u32, u32),
    number: u32,
    place: u32,
    /// Where not empty: the place is the one that comes first in the index.
    places: Vec<u32>,
    /// Edition 1 has no such rule.
    from_edition_2: bool,
    edits: Vec<Edit>,
}

impl Damage {
    pub fn apply(&self, content: &mut Content) {
        for edit in &self.edits {
            match edit.clone() {
                Edit::Remove(structure, tag) => content.remove(structure, tag),
                Edit::Put(structure, item) => content.put(structure, item),
                Edit::Size(off) => content.size_off = off,
                Edit::Digest(off) => content.digest_off = off,
            }
        }
    }

    /// Number and place, once all damages are done to the content.
    fn refusal(&self, content: &Content) -> (u32, u32) {
        if self.places.is_empty() {
            return (self.number, self.place);
        }
        let header = content.package().header;
        let mut tags = header.records.iter().map(|record| record[0]);
        let first = tags.find(|tag| self.places.contains(tag));
        (self.number, first.expect("one of the places"))
    }

    fn tags(&self) -> impl Iterator<Item = (usize, u32)> + '_ {
        let edited = self.edits.iter().map(|edit| match edit {
            Edit::Remove(structure, tag) => (*structure, *tag),
            Edit::Put(structure, item) => (*structure, item.tag),
            Edit::Size(_) => (SIGNATURE, 1000),
            Edit::Digest(_) => (SIGNATURE, 1004),
        });
        edited.chain(self.places.iter().map(|&tag| (HEADER, tag)))
    }

    /// Checks 14 and 15 have a rule for each tag.
    pub fn is_of_a_line(&self) -> bool {
        self.order.0 == 14
    }

    /// More strings than locales.
    pub fn is_of_locales(&self) -> bool {
        !self.places.is_empty()
    }

    /// Of 20002: absent, of another type or count, not the sum.
    pub fn is_of_weight(&self) -> bool {
        self.from_edition_2
    }

    pub fn is_of_digest(&self) -> bool {
        self.number == 27
    }

    /// Two damages that leave each other alone: other tags, and another rule.
    pub fn beside(&self, other: &Damage) -> bool {
        self.order != other.order
            && self
                .tags()
                .all(|tag| other.tags().all(|theirs| tag != theirs))
    }
}

/// The damages of each rule, in the order in which the rules are checked.
pub fn by_rule(mut damages: Vec<Damage>) -> Vec<Vec<Damage>> {
    damages.sort_by_key(|damage| damage.order);
    let mut rules: Vec<Vec<Damage>> = Vec::new();
    for damage in damages {
        match rules.last_mut() {
            Some(rule) if rule[0].order == damage.order => rule.push(damage),
            _ => rules.push(vec![damage]),
        }
    }
    rules
}

/// What this content, with this book and these damages done, must give: the first check
/// decides.
pub fn outcome(book: &Book, content: &Content, damages: &[&Damage]) -> Outcomes {
    [1, 2, 3].map(|edition| {
        let seen = damages
            .iter()
            .filter(|damage| edition > 1 || !damage.from_edition_2)
            .map(|damage| (damage.order, damage.refusal(content)));
        let known = &book.known[edition - 1];
        let first = match known {
            Ok(_) => seen.min(),
            Err(refusal) => seen.chain([((20, 0), *refusal)]).min(),
        };
        match first {
            Some((_, refusal)) => Err(refusal),
            None => known.clone(),
        }
    })
}

/// Collects damages to a content.
struct List<'a> {
    content: &'a Content,
    damages: Vec<Damage>,
}

impl List<'_> {
    fn add(
        &mut self,
        what: &'static str,
        order: (u32, u32),
        refusal: (u32, u32),
        edits: Vec<Edit>,
    ) {
        let (number, place) = refusal;
        self.damages.push(Damage {
            what,
            order,
            number,
            place,
            places: Vec::new(),
            from_edition_2: place == 20_002,
            edits,
        });
    }

    /// The last group: these tags have more strings than there are locales.
    fn locales(&mut self, what: &'static str, places: Vec<u32>, edits: Vec<Edit>) {
        self.damages.push(Damage {
            what,
            order: (17, 8 + LED.len() as u32),
            number: 17,
            place: 0,
            places,
            from_edition_2: false,
            edits,
        });
    }

    fn group(&mut self, what: &'static str, group: u32, place: u32, edits: Vec<Edit>) {
        self.add(what, (17, group), (17, place), edits);
    }

    fn text(&mut self, what: &'static str, text: u32, place: u32, item: Item) {
        let edits = vec![Edit::Put(HEADER, item)];
        self.add(what, (18, text), (18, place), edits);
    }

    fn count(&self, tag: u32) -> usize {
        self.content
            .get(HEADER, tag)
            .map_or(0, |item| item.count as usize)
    }
}

pub fn all(content: &Content, random: &mut Random) -> Vec<Damage> {
    let mut list = List {
        content,
        damages: Vec::new(),
    };
    for line in lines::SIGNATURE.iter() {
        of_line(&mut list, random, SIGNATURE, line);
    }
    for line in lines::HEADER.iter() {
        of_line(&mut list, random, HEADER, line);
    }
    size(&mut list);
    needs(&mut list, random);
    file_counts(&mut list, random);
    file_names(&mut list, random);
    for (group, (leader, others)) in LED.into_iter().enumerate() {
        led(&mut list, random, 8 + group as u32, leader, others);
    }
    translations(&mut list, random);
    texts(&mut list, random);
    digest(&mut list, random);
    weight(&mut list, random);
    list.damages
}

fn line(tag: u32) -> &'static Line {
    let line = lines::HEADER.iter().find(|line| line.tag == tag);
    line.expect("a line")
}

/// A header entry of its line's type.
fn put(random: &mut Random, tag: u32, count: usize) -> Edit {
    Edit::Put(HEADER, right_item(random, line(tag), count, 1))
}

/// Checks 14 and 15: absent, each other type, other counts.
fn of_line(list: &mut List, random: &mut Random, structure: usize, line: &Line) {
    let tag = line.tag;
    let order = (14, (structure as u32) << 20 | tag);
    if line.required {
        let edits = vec![Edit::Remove(structure, tag)];
        list.add("required tag absent", order, (14, tag), edits);
    }
    let mut wrong = |what, random: &mut Random, ty, count| {
        let item = item(random, tag, ty, count);
        list.add(what, order, (15, tag), vec![Edit::Put(structure, item)]);
    };
    for ty in LAWFUL {
        if ty != line.ty {
            // Without its line, in edition 1, 20002 may be translated.
            let count = match is_single(structure, ty) || (tag, ty) == (20_002, 9) {
                true => 1,
                false => any_count(random, line),
            };
            wrong("other type", random, ty, count);
        }
    }
    // Another count of type 6 is check 10.
    if let (Some(exact), 4 | 7) = (line.count, line.ty) {
        let exact = exact as usize;
        for count in [exact - 1, exact + 1, 2 * exact, 2 * exact + 1, 256 + exact] {
            if count > 0 {
                wrong("other count", random, line.ty, count);
            }
        }
    }
}

/// Check 16.
fn size(list: &mut List) {
    let package = list.content.package();
    let h = package.h() as u32;
    let length = package.bytes().len() as u32;
    let right = length - h;
    for size in [
        0,
        1,
        length, // the file's length
        length - 96,
        right - 1,
        right + 1,
        right.next_multiple_of(8) + 8,
        package.header.size() as u32, // without the payload
        package.payload.len() as u32,
        right << 8,
        right | 1 << 16,
        right | 1 << 31,
        u32::MAX,
    ] {
        if size != right {
            let edits = vec![Edit::Size(size.wrapping_sub(right))];
            list.add("size", (16, 0), (16, 1000), edits);
        }
    }
}

/// 1011 needs 1005, 1012 needs 1002, 1023 to 1026 need 1085 to 1088.
fn needs(list: &mut List, random: &mut Random) {
    for (group, tag, needed) in [(0, 1011, 1005), (1, 1012, 1002)] {
        let count = random.pick(&[1, 65, 152]);
        let edits = vec![
            Edit::Put(SIGNATURE, item(random, tag, 7, count)),
            Edit::Remove(SIGNATURE, needed),
        ];
        list.group("signature's need", group, needed, edits);
    }
    for n in 0..4 {
        let edits = vec![put(random, 1023 + n, 1), Edit::Remove(HEADER, 1085 + n)];
        list.group("scriptlet's program", 2 + n, 1085 + n, edits);
    }
}

const FILE_TAGS: [u32; 12] = [
    1030, 1033, 1034, 1035, 1036, 1037, 1039, 1040, 1045, 1095, 1096, 1097,
];

/// A count that isn't this one.
fn other(random: &mut Random, count: usize) -> usize {
    let near = [count - 1, count + 1, count + 2, 2 * count];
    match random.pick(&near) {
        0 => count + 1,
        other => other,
    }
}

fn file_counts(list: &mut List, random: &mut Random) {
    let files = list.count(1028);
    for (position, tag) in FILE_TAGS.into_iter().enumerate() {
        for count in [files + 1, other(random, files)] {
            let edits = vec![put(random, tag, count)];
            list.group("file tag's count", 6, tag, edits.clone());
            // A second one above it.
            if let Some(&above) = FILE_TAGS[position + 1..].first() {
                let mut edits = edits;
                edits.push(put(random, above, count));
                list.group("two file tags' counts", 6, tag, edits);
            }
        }
    }
    let count = other(random, files);
    let edits = vec![put(random, 1028, count)];
    list.group("count of 1028", 6, 1030, edits);
}

fn file_names(list: &mut List, random: &mut Random) {
    let files = list.count(1028);
    let three = [1116, 1117, 1118];
    // The four tags, each with a count; 0 is absent.
    let mut names = |what, random: &mut Random, place, counts: [usize; 4]| {
        let edit = |(tag, count)| match count {
            0 => Edit::Remove(HEADER, tag),
            _ => put(random, tag, count),
        };
        let tags = [1027, 1116, 1117, 1118].into_iter().zip(counts);
        list.group(what, 7, place, tags.map(edit).collect());
    };
    let wrong = other(random, files);
    names("count of 1027", random, 1027, [wrong, 0, 0, 0]);
    names(
        "count of 1027, in both forms",
        random,
        1027,
        [wrong, files, files, 1],
    );
    names("no names", random, 1116, [0; 4]);
    for present in 1..8 {
        let count = |n: usize| if present >> n & 1 == 1 { files } else { 0 };
        let counts = [files, count(0), count(1), count(2)];
        names("names in both forms", random, 1027, counts);
        if let Some(missing) = (0..3).find(|&n| count(n) == 0) {
            let place = three[missing];
            names(
                "name tag missing",
                random,
                place,
                [0, count(0), count(1), count(2)],
            );
            // Missing goes before differing.
            let counts = [0, 1, 2, 3].map(|n| match n {
                0 => 0,
                n if count(n - 1) == 0 => 0,
                _ => wrong,
            });
            names("name tag missing, counts wrong", random, place, counts);
        }
    }
    for directories in [1, wrong] {
        names(
            "count of 1116",
            random,
            1116,
            [0, wrong, files, directories],
        );
        names(
            "count of 1117",
            random,
            1117,
            [0, files, wrong, directories],
        );
        names(
            "counts of both",
            random,
            1116,
            [0, wrong, wrong, directories],
        );
    }
}

const LED: [(u32, [u32; 2]); 5] = [
    (1049, [1048, 1050]),
    (1047, [1112, 1113]),
    (1054, [1053, 1055]),
    (1090, [1114, 1115]),
    (1081, [1080, 1082]),
];

fn led(list: &mut List, random: &mut Random, group: u32, leader: u32, others: [u32; 2]) {
    let [flags, versions] = others;
    let required = line(leader).required;
    let tags = [leader, flags, versions];
    let mut counts = |what, random: &mut Random, place, counts: [usize; 3]| {
        let edit = |(tag, count)| match count {
            0 => Edit::Remove(HEADER, tag),
            _ => put(random, tag, count),
        };
        let edits = tags.into_iter().zip(counts).map(edit).collect();
        list.group(what, group, place, edits);
    };
    let n = 1 + random.below(4);
    let (m, k) = (other(random, n), n + 3);
    counts("led: flags' count", random, flags, [n, m, n]);
    counts("led: versions' count", random, versions, [n, n, m]);
    counts("led: leader's count", random, flags, [m, n, n]);
    counts("led: three counts", random, flags, [n, m, k]);
    if required {
        return; // missing is check 14
    }
    for m in [n, m] {
        counts("led: leader alone", random, flags.min(versions), [n, 0, 0]);
        counts("led: flags alone", random, leader.min(versions), [0, m, 0]);
        counts("led: versions alone", random, leader.min(flags), [0, 0, m]);
        counts("led: versions missing", random, versions, [n, m, 0]);
        counts("led: flags missing", random, flags, [n, 0, m]);
        counts("led: leader missing", random, leader, [0, n, m]);
    }
}

/// Translated strings that have a line.
pub const TRANSLATED: [u32; 3] = [1004, 1005, 1016];

/// More strings than locales: of one tag, of several, of those that a tag 100 of fewer
/// strings leaves without a locale.
fn translations(list: &mut List, random: &mut Random) {
    let locales = locales(list.content);
    let count = |random: &mut Random| locales + random.pick(&[1, 1, 2, 5, 256]);
    let put = |random: &mut Random, tag, count| Edit::Put(HEADER, item(random, tag, 9, count));
    for tag in TRANSLATED.into_iter().chain(NO_LINE) {
        let many = count(random);
        let edits = vec![put(random, tag, many)];
        list.locales("translations", vec![tag], edits);
    }
    for _ in 0..6 {
        let mut tags: Vec<u32> = TRANSLATED.into_iter().chain(NO_LINE).collect();
        random.shuffle(&mut tags);
        tags.truncate(2 + random.below(4));
        let wrong = 2 + random.below(tags.len() - 1);
        let edit = |(n, &tag): (usize, &u32)| {
            let count = match n < wrong {
                true => count(random),
                false => locales,
            };
            put(random, tag, count)
        };
        let edits = tags.iter().enumerate().map(edit).collect();
        tags.truncate(wrong);
        list.locales("translations of several", tags, edits);
    }
    for fewer in 1..locales {
        let many = |item: &&Item| item.ty == 9 && item.count > fewer as u32;
        let all = &list.content.items[HEADER];
        let tags: Vec<u32> = all.iter().filter(many).map(|item| item.tag).collect();
        if !tags.is_empty() {
            let edits = vec![Edit::Put(HEADER, item(random, 100, 8, fewer))];
            list.locales("fewer locales", tags, edits);
        }
    }
}

/// Check 18.
fn texts(list: &mut List, random: &mut Random) {
    for text in [
        "", "l", "linu", "linuxx", "Linux", "linux ", " linux", "linus", "minux",
    ] {
        list.text("system", 0, 1021, strings(1021, 6, &[text]));
    }
    for n in 0..4 {
        let tag = 1085 + n;
        for text in [
            "", "/bin/s", "/bin/shh", "/bin/ksh", "bin/sh", "/bin/sh ", "/BIN/SH",
        ] {
            list.text("program", 1 + n, tag, strings(tag, 6, &[text]));
        }
    }
    let Some(indexes) = list.content.get(HEADER, 1116).cloned() else {
        return;
    };
    let names = list.content.get(HEADER, 1118).cloned().expect("1118");
    for position in 0..indexes.count as usize {
        let extremes = [names.count, names.count + 1, 1 << 16, 1 << 31, u32::MAX];
        let index = random.pick(&extremes).max(names.count);
        let mut wrong = indexes.clone();
        wrong.data[4 * position..4 * position + 4].copy_from_slice(&index.to_be_bytes());
        list.text("directory's number", 5, 1116, wrong);
    }
    let directories: Vec<&[u8]> = names.data.split(|&byte| byte == 0).collect();
    for position in 0..names.count as usize {
        for name in ["", "/srv", "/srv/x", "/srv/ ", "//\\"] {
            let mut wrong = directories[..names.count as usize].to_vec();
            wrong[position] = name.as_bytes();
            list.text("directory's name", 6, 1118, strings(1118, 8, &wrong));
        }
    }
}

/// Check 27: one bit, some bits, all bits; it stands between 18 and 19.
fn digest(list: &mut List, random: &mut Random) {
    let any = u128::from(random.next()) << 64 | u128::from(random.next());
    for turned in [1, 1 << 127, 1 << random.below(128), any | 1, u128::MAX] {
        let edits = vec![Edit::Digest(turned)];
        list.add("digest", (18, 1000), (27, 1004), edits);
    }
}

/// Check 23.
fn weight(list: &mut List, random: &mut Random) {
    let item = list.content.get(HEADER, 20_002).expect("20002");
    let right = u32::from_be_bytes(item.data[..4].try_into().unwrap());
    for weight in [
        0,
        right.wrapping_sub(1),
        right.wrapping_add(1),
        right.wrapping_neg(),
        right ^ 1 << 31,
        right ^ 1 << random.below(32),
        u32::MAX,
    ] {
        if weight != right {
            let edits = vec![Edit::Put(HEADER, words(20_002, &[weight]))];
            list.add("batch weight", (23, 0), (23, 20_002), edits);
        }
    }
}
