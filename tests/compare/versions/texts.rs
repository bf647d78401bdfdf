//! Version texts of which the maker knows the runs, and how two of them compare.

use std::cmp::Ordering;

use crate::random::Random;

/// A run. A number has no leading zeros here: 0 has no digit.
#[derive(Clone, Debug, PartialEq, Eq)]
pub enum Run {
    Letters(Vec<u8>),
    Number(Vec<u8>),
}

pub const DIGITS: &[u8] = b"0123456789";
pub const LETTERS: &[u8] = b"ABCDEFGHIJKLMNOPQRSTUVWXYZabcdefghijklmnopqrstuvwxyz";

/// Whether a byte is neither letter nor digit.
pub fn separates(byte: u8) -> bool {
    !DIGITS.contains(&byte) && !LETTERS.contains(&byte)
}

/// Bytes that order as texts of these runs do: for each run its class, then the letters and
/// a zero, or the number of digits and the digits; a zero at the end.
fn key(runs: &[Run]) -> Vec<u8> {
    let mut key = Vec::new();
    for run in runs {
        match run {
            Run::Letters(letters) => {
                key.push(1);
                key.extend(letters);
                key.push(0);
            }
            Run::Number(digits) => {
                key.push(2);
                key.extend((digits.len() as u64).to_be_bytes());
                key.extend(digits);
            }
        }
    }
    key.push(0);
    key
}

/// The runs of any text.
fn runs(text: &[u8]) -> Vec<Run> {
    let mut runs = Vec::new();
    for word in text.split(|&byte| separates(byte)) {
        let mut rest = word;
        while let Some(&first) = rest.first() {
            let number = DIGITS.contains(&first);
            let same = |byte: &&u8| DIGITS.contains(byte) == number;
            let length = rest.iter().take_while(same).count();
            let (run, behind) = rest.split_at(length);
            runs.push(match number {
                true => Run::Number(run.iter().copied().skip_while(|&d| d == b'0').collect()),
                false => Run::Letters(run.to_vec()),
            });
            rest = behind;
        }
    }
    runs
}

/// A text, and what it orders by.
#[derive(Clone, Debug)]
pub struct Text {
    pub bytes: Vec<u8>,
    key: Vec<u8>,
}

impl Text {
    pub fn of(bytes: &[u8]) -> Text {
        Text {
            bytes: bytes.to_vec(),
            key: key(&runs(bytes)),
        }
    }

    /// A text of these runs, with any separators and leading zeros.
    pub fn made(random: &mut Random, runs_put: &[Run]) -> Text {
        let bytes = spelled(random, runs_put);
        let key = key(runs_put);
        assert!(key == self::key(&runs(&bytes)), "other runs than put");
        Text { bytes, key }
    }

    pub fn order(&self, right: &Text) -> Ordering {
        self.key.cmp(&right.key)
    }
}

/// One to three separators: mostly usual ones.
pub fn separator(random: &mut Random) -> Vec<u8> {
    let one = |random: &mut Random| match random.below(8) {
        0 => loop {
            let byte = random.byte();
            if separates(byte) {
                break byte;
            }
        },
        1 => random.pick(b"/:@[`{\x00\x7F\x80\xFF~^"),
        2 => random.pick(b"_-+ "),
        _ => b'.',
    };
    let count = random.pick(&[1, 1, 1, 1, 2, 3]);
    (0..count).map(|_| one(random)).collect()
}

/// The runs as a text. Two of one class need a separator between them.
fn spelled(random: &mut Random, runs: &[Run]) -> Vec<u8> {
    let mut text = Vec::new();
    if random.one_in(8) {
        text.extend(separator(random));
    }
    for (at, run) in runs.iter().enumerate() {
        if at > 0 {
            let number = |run: &Run| matches!(run, Run::Number(_));
            let alike = number(&runs[at - 1]) == number(run);
            if alike || random.one_in(2) {
                text.extend(separator(random));
            }
        }
        match run {
            Run::Letters(letters) => text.extend(letters),
            Run::Number(digits) => {
                let zeros = random.pick(&[0, 0, 0, 0, 1, 1, 2, 5, 20]);
                text.resize(text.len() + zeros.max(usize::from(digits.is_empty())), b'0');
                text.extend(digits);
            }
        }
    }
    if random.one_in(8) {
        text.extend(separator(random));
    }
    text
}

/// A number of so many digits, none of them zero at the front.
pub fn number(random: &mut Random, digits: usize) -> Run {
    let mut number: Vec<u8> = (0..digits).map(|_| random.pick(DIGITS)).collect();
    if let Some(first) = number.first_mut() {
        *first = random.pick(&DIGITS[1..]);
    }
    Run::Number(number)
}

pub fn letters(random: &mut Random, count: usize) -> Run {
    Run::Letters((0..count).map(|_| random.pick(LETTERS)).collect())
}

/// A run as versions have it; now and then a long one.
pub fn usual(random: &mut Random) -> Run {
    match random.below(16) {
        0..=7 => {
            let digits = random.pick(&[0, 1, 1, 1, 1, 2, 2, 3]);
            number(random, digits)
        }
        8 => {
            let digits = random.pick(&[4, 8, 9, 10, 11, 18, 19, 20, 21, 38, 39, 40, 41]);
            number(random, digits)
        }
        9 => {
            let count = 1 + random.below(30);
            letters(random, count)
        }
        10 => Run::Letters(
            random
                .pick(&[&b"rc"[..], b"fc", b"el", b"beta", b"git", b"p"])
                .to_vec(),
        ),
        _ => Run::Letters(vec![random.pick(b"abcxyzABZ")]),
    }
}

pub fn some_runs(random: &mut Random, most: usize) -> Vec<Run> {
    (0..random.below(most + 1)).map(|_| usual(random)).collect()
}

/// The same runs but for one: left out, put in, another, or a little other.
pub fn otherwise(random: &mut Random, runs: &[Run]) -> Vec<Run> {
    let mut runs = runs.to_vec();
    let at = random.below(runs.len() + 1);
    if at == runs.len() || random.one_in(6) {
        runs.insert(at, usual(random));
        return runs;
    }
    match random.below(5) {
        0 => {
            runs.remove(at);
        }
        1 => runs[at] = usual(random),
        _ => nudge(random, &mut runs[at]),
    }
    runs
}

/// Changes, adds or takes off one letter or digit.
pub fn nudge(random: &mut Random, run: &mut Run) {
    let (bytes, from) = match run {
        Run::Letters(letters) => (letters, LETTERS),
        Run::Number(digits) => (digits, DIGITS),
    };
    let byte = random.pick(&from[1..]);
    match random.below(4) {
        0 => bytes.push(byte),
        1 if bytes.len() > 1 => {
            bytes.pop();
        }
        2 if !bytes.is_empty() => {
            let last = bytes.len() - 1;
            bytes[last] = byte;
        }
        _ if !bytes.is_empty() => {
            let at = random.below(bytes.len());
            bytes[at] = byte;
        }
        _ => bytes.push(byte),
    }
}

/// Changes a byte, puts one in or takes one out.
pub fn changed(random: &mut Random, text: &[u8], bytes: &[u8]) -> Vec<u8> {
    let mut text = text.to_vec();
    for _ in 0..1 + random.below(3) {
        let at = random.below(text.len() + 1);
        match random.below(3) {
            0 => text.insert(at, random.pick(bytes)),
            1 if at < text.len() => text[at] = random.pick(bytes),
            _ if at < text.len() => {
                text.remove(at);
            }
            _ => {}
        }
    }
    text
}
