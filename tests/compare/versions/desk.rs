//! Compares versions, and asks for requirements, with the library and the reference.

use std::cmp::Ordering;

use reference::requirement::meets_for_c;
use reference::version::compare_for_c;

use super::texts::Text;
use crate::bench::{Answer, Bench};
use crate::fence::Fence;

extern "C" {
    fn station_compare(left: *const u8, left_len: usize, right: *const u8, right_len: usize)
        -> u32;
    fn station_meets(
        package: *const u8,
        package_len: usize,
        name: *const u8,
        name_len: usize,
        version: *const u8,
        version_len: usize,
    ) -> u64;
}

/// What the library answers.
pub const OLDER: u32 = 0;
pub const SAME: u32 = 1;
pub const NEWER: u32 = 2;

const WORDS: [&str; 3] = ["older", "same", "newer"];

fn number(order: Ordering) -> u32 {
    match order {
        Ordering::Less => OLDER,
        Ordering::Equal => SAME,
        Ordering::Greater => NEWER,
    }
}

fn word(answer: u32) -> String {
    let word = WORDS.get(answer as usize);
    word.map_or(answer.to_string(), |word| word.to_string())
}

/// Where texts are lent: each read-only before a page that faults.
pub struct Memory {
    left: Fence,
    right: Fence,
    lent: *const u8,
    /// The two texts for the report, each behind its length.
    report: Vec<u8>,
}

impl Memory {
    pub fn new() -> Memory {
        let left = Fence::new();
        Memory {
            lent: left.lend(&[]),
            left,
            right: Fence::new(),
            report: Vec::new(),
        }
    }

    fn put(&mut self, text: &[u8]) {
        self.report.extend((text.len() as u32).to_be_bytes());
        self.report.extend(text);
    }
}

/// The two texts of a report's file.
pub fn of_file(file: &[u8]) -> [&[u8]; 2] {
    let part = |file: &[u8]| {
        let (length, _) = file.split_first_chunk().expect("a length");
        4 + u32::from_be_bytes(*length) as usize
    };
    let (left, right) = file.split_at(part(file));
    [&left[4..], &right[4..part(right)]]
}

pub struct Desk<'a> {
    pub bench: &'a mut Bench,
    pub memory: &'a mut Memory,
}

impl Desk<'_> {
    /// Both ways round, and the left one with itself; gives the first answer.
    pub fn pair(&mut self, left: &Text, right: &Text) -> u32 {
        self.lend(left);
        self.with_itself(left);
        self.against(left, right)
    }

    /// Lends a text as the left one of the next pairs.
    pub fn lend(&mut self, left: &Text) {
        self.memory.lent = self.memory.left.lend(&left.bytes);
    }

    /// The text that was lent against this one, both ways round; gives the first answer.
    pub fn against(&mut self, left: &Text, right: &Text) -> u32 {
        let lent = self.memory.lent;
        let other = self.memory.right.lend(&right.bytes);
        let order = left.order(right);
        self.report(&left.bytes, &right.bytes);
        let answer = self.compare((lent, &left.bytes), (other, &right.bytes), Some(order));
        self.report(&right.bytes, &left.bytes);
        self.compare(
            (other, &right.bytes),
            (lent, &left.bytes),
            Some(order.reverse()),
        );
        answer
    }

    /// The text that was lent against itself, in the same memory.
    fn with_itself(&mut self, left: &Text) {
        let one = (self.memory.lent, &left.bytes[..]);
        self.report(&left.bytes, &left.bytes);
        self.compare(one, one, Some(Ordering::Equal));
    }

    /// Two parts of the text that was lent, in its memory, both ways round.
    pub fn parts(&mut self, lent: &Text, one: (usize, usize), other: (usize, usize)) {
        let at = self.memory.lent;
        let [(one, left), (other, right)] = [one, other].map(|(start, end)| {
            let part = &lent.bytes[start..end];
            ((at.wrapping_add(start), part), Text::of(part))
        });
        let order = left.order(&right);
        self.report(one.1, other.1);
        self.compare(one, other, Some(order));
        self.report(other.1, one.1);
        self.compare(other, one, Some(order.reverse()));
    }

    /// What is compared next, for the report.
    fn report(&mut self, left: &[u8], right: &[u8]) {
        self.memory.report.clear();
        self.memory.put(left);
        self.memory.put(right);
        self.bench.case(&self.memory.report);
        self.bench.asks("versions", Vec::new());
    }

    /// Each text with where it was lent.
    fn compare(
        &mut self,
        (left, left_text): (*const u8, &[u8]),
        (right, right_text): (*const u8, &[u8]),
        known: Option<Ordering>,
    ) -> u32 {
        let reference = compare_for_c(left_text, right_text);
        let library = unsafe { station_compare(left, left_text.len(), right, right_text.len()) };
        let known = known.map_or(reference, number);
        if library != reference || library != known {
            let [library, reference, known] = [library, reference, known].map(word);
            self.bench.fail(&format!(
                "library {library}, reference {reference}, known {known}"
            ));
        }
        self.bench.agree_version(library);
        library
    }

    /// How the library alone compares two texts.
    pub fn library(&mut self, left: &Text, right: &Text) -> u32 {
        self.report(&left.bytes, &right.bytes);
        let [left, right] = [(&self.memory.left, left), (&self.memory.right, right)]
            .map(|(fence, text)| (fence.lend(&text.bytes), text.bytes.len()));
        unsafe { station_compare(left.0, left.1, right.0, right.1) }
    }

    /// Asks whether a version meets what the lent package requires of a name.
    pub fn meets(&mut self, name: &[u8], version: &[u8], known: Option<Answer>) -> Answer {
        self.bench.asks_with("meets", [name, version]);
        let package = self.bench.bytes();
        let reference = Answer(meets_for_c(package, name, version));
        let (name, name_len) = (self.memory.left.lend(name), name.len());
        let (version, version_len) = (self.memory.right.lend(version), version.len());
        let (lent, len) = (self.bench.lent, package.len());
        let library =
            Answer(unsafe { station_meets(lent, len, name, name_len, version, version_len) });
        if library != reference || known.is_some_and(|known| known != reference) {
            let known = known.map_or(String::new(), |known| format!(", known {known}"));
            self.bench
                .fail(&format!("library {library}, reference {reference}{known}"));
        }
        self.bench.agree_requirement(library);
        library
    }
}

/// Shows both answers on two texts, to look into a difference.
pub fn show(left: &[u8], right: &[u8]) {
    let (one, other) = (Fence::new().lend(left), Fence::new().lend(right));
    println!("reference {}", word(compare_for_c(left, right)));
    let library = unsafe { station_compare(one, left.len(), other, right.len()) };
    println!("library   {}", word(library));
    let known = Text::of(left).order(&Text::of(right));
    println!("makers    {}", word(number(known)));
}

/// Shows both answers on a requirement.
pub fn show_meets(package: &[u8], name: &[u8], version: &[u8]) {
    println!("reference {}", Answer(meets_for_c(package, name, version)));
    let [lent, name_at, version_at] =
        [package, name, version].map(|bytes| Fence::new().lend(bytes));
    let library = Answer(unsafe {
        station_meets(
            lent,
            package.len(),
            name_at,
            name.len(),
            version_at,
            version.len(),
        )
    });
    println!("library   {library}");
}
