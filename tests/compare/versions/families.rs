//! Pairs of version texts, family by family.

use super::desk::{Desk, NEWER, SAME};
use super::texts::*;
use crate::fence::ROOM;
use crate::random::Random;

/// All families with their names, in the order in which they run.
pub const ALL: [(&str, fn(&mut Desk, &mut Random)); 10] = [
    ("short version texts", short),
    ("single bytes of version texts", single_bytes),
    ("version texts", made),
    ("numbers of version texts", numbers),
    ("letters of version texts", words),
    ("many runs of version texts", many_runs),
    ("bytes as version texts", any_bytes),
    ("long version texts", long),
    ("parts of one version text", parts),
    ("order of version texts", order),
];

/// All texts over an alphabet of at most so many bytes.
fn all_texts(alphabet: &[u8], most: usize) -> Vec<Text> {
    let mut texts = vec![Vec::new()];
    let mut longest = texts.clone();
    for _ in 0..most {
        let longer = longest.iter().flat_map(|text| {
            alphabet
                .iter()
                .map(move |&byte| [&text[..], &[byte]].concat())
        });
        longest = longer.collect();
        texts.extend(longest.clone());
    }
    texts.iter().map(|text| Text::of(text)).collect()
}

/// Every two of a list, both ways round.
fn every_pair(desk: &mut Desk, texts: &[Text]) {
    for (at, left) in texts.iter().enumerate() {
        desk.pair(left, left);
        for right in &texts[at + 1..] {
            desk.against(left, right);
        }
    }
}

/// Every two of the texts of up to 4 bytes over 5, and up to 2 over 17.
fn short(desk: &mut Desk, _: &mut Random) {
    every_pair(desk, &all_texts(b"01aB.", 4));
    every_pair(desk, &all_texts(b"0129azAZ._~^\x00\x7F\x80\xE9\xFF", 2));
}

/// Each byte alone with each other, and between letters, digits and nothing.
fn single_bytes(desk: &mut Desk, _: &mut Random) {
    let bytes: Vec<Text> = (0..=255).map(|byte| Text::of(&[byte])).collect();
    every_pair(desk, &bytes);
    let around: [(&[u8], &[u8]); 9] = [
        (b"1", b"1"),
        (b"a", b"a"),
        (b"1", b"a"),
        (b"a", b"1"),
        (b"", b"1"),
        (b"", b"a"),
        (b"1", b""),
        (b"a", b""),
        (b"1.", b".1"),
    ];
    for (before, behind) in around {
        let with = |byte: &[u8]| Text::of(&[before, byte, behind].concat());
        let others = [b"", &b"."[..], b"0", b"1", b"a", b"z", b"A", b"1.1", b"a.a"];
        for byte in 0..=255 {
            for other in others {
                desk.pair(&with(&[byte]), &with(other));
                desk.pair(&with(&[byte]), &Text::of(other));
            }
        }
    }
}

/// Runs that the maker chose: the same in another spelling, one run otherwise, any others.
fn made(desk: &mut Desk, random: &mut Random) {
    for round in 0..60_000 {
        let runs = some_runs(random, 1 + round % 8);
        let left = Text::made(random, &runs);
        let same = Text::made(random, &runs);
        desk.pair(&left, &same);
        let changed = otherwise(random, &runs);
        desk.against(&left, &Text::made(random, &changed));
        let others = some_runs(random, 6);
        desk.against(&left, &Text::made(random, &others));
    }
}

/// Around the ends of a machine's numbers, and near multiples of them.
#[rustfmt::skip]
const LIMITS: [u128; 14] = [
    1, 9, 99, 1 << 7, 1 << 8, 1 << 15, 1 << 16, 1 << 31, 1 << 32, 1 << 53, 1 << 63, 1 << 64,
    1 << 96, 1 << 127,
];

/// The digits of a number, and how it is put into texts.
fn of_value(value: u128) -> Run {
    Run::Number(match value {
        0 => Vec::new(),
        _ => value.to_string().into_bytes(),
    })
}

fn numbers(desk: &mut Desk, random: &mut Random) {
    values(desk, random);
    lengths_of_numbers(desk, random);
    zeros(desk, random);
}

/// Every two numbers around limits, alone and behind other runs.
fn values(desk: &mut Desk, random: &mut Random) {
    let mut values = vec![0];
    for limit in LIMITS {
        values.extend([limit - 1, limit, limit + 1, limit + 2]);
        values.extend([2, 3, 10].map(|times| limit.saturating_mul(times)));
    }
    values.extend([u128::MAX - 1, u128::MAX]);
    for &one in &values {
        let first = some_runs(random, 2);
        let [left, behind] = [
            &[of_value(one)][..],
            &[&first[..], &[of_value(one)]].concat(),
        ]
        .map(|runs| Text::made(random, runs));
        for &other in &values {
            desk.pair(&left, &Text::made(random, &[of_value(other)]));
            let runs = [&first[..], &[of_value(other)]].concat();
            desk.pair(&behind, &Text::made(random, &runs));
        }
    }
}

/// Numbers of every length to 70 and of many to 5,000: a digit otherwise at each place or at
/// some, one digit more, and one less.
fn lengths_of_numbers(desk: &mut Desk, random: &mut Random) {
    let long = [
        127, 128, 255, 256, 257, 308, 309, 310, 1000, 4095, 4096, 4097, 5000,
    ];
    for length in (1..=70).chain(long) {
        let Run::Number(digits) = number(random, length) else {
            unreachable!("a number")
        };
        let left = Text::made(random, &[Run::Number(digits.clone())]);
        let places: Vec<usize> = match length {
            1..=70 => (0..length).collect(),
            _ => vec![0, 1, length / 2, length - 2, length - 1],
        };
        for at in places {
            for byte in [digits[at] - 1, digits[at] + 1] {
                let least = if at == 0 { b'1' } else { b'0' };
                let mut other = digits.clone();
                other[at] = byte.clamp(least, b'9');
                // Behind the first difference the digits may be anything.
                for place in &mut other[at + 1..] {
                    if random.one_in(3) {
                        *place = random.pick(DIGITS);
                    }
                }
                desk.pair(&left, &Text::made(random, &[Run::Number(other)]));
            }
        }
        let mut longer = digits.clone();
        longer.push(random.pick(DIGITS));
        desk.pair(&left, &Text::made(random, &[Run::Number(longer)]));
        let shorter = Run::Number(digits[..length - 1].to_vec());
        desk.pair(&left, &Text::made(random, &[shorter]));
        let nines = Run::Number(vec![b'9'; length - 1]);
        desk.pair(&left, &Text::made(random, &[nines]));
    }
}

/// Leading zeros, up to thousands, before numbers and alone.
fn zeros(desk: &mut Desk, random: &mut Random) {
    let counts = [
        0, 1, 2, 3, 7, 8, 9, 15, 16, 17, 31, 32, 63, 64, 65, 255, 256, 300, 3000,
    ];
    for one in counts {
        for other in counts {
            for digits in ["", "1", "9", "10", "18446744073709551616"] {
                let text = |zeros: usize, behind: &str| {
                    let zeros = zeros.max(usize::from(digits.is_empty()));
                    let text = ["0".repeat(zeros).as_str(), digits, behind].concat();
                    Text::of(text.as_bytes())
                };
                let behind = random.pick(&["", ".", "a", ".0", ".1", ".a1"]);
                desk.pair(&text(one, behind), &text(other, behind));
                desk.pair(&text(one, ""), &text(other, behind));
                desk.pair(&text(one, ".1"), &text(other, ".2"));
            }
        }
    }
}

/// Every two letters; runs of letters that differ at each place, and prefixes.
fn words(desk: &mut Desk, random: &mut Random) {
    for &one in LETTERS {
        for &other in LETTERS {
            for (before, behind) in [("", ""), ("1", "1"), ("ab", "c")] {
                let text = |letter| {
                    let letter = char::from(letter);
                    Text::of(format!("{before}{letter}{behind}").as_bytes())
                };
                desk.pair(&text(one), &text(other));
            }
        }
    }
    for length in (1..=40).chain([64, 255, 256, 1000, 4096]) {
        let Run::Letters(right) = letters(random, length) else {
            unreachable!("letters")
        };
        let left = Text::made(random, &[Run::Letters(right.clone())]);
        let step = (length / 40).max(1);
        for at in (0..length).step_by(step) {
            let mut other = right.clone();
            other[at] = random.pick(LETTERS);
            if random.one_in(2) {
                other.truncate(at + 1);
            }
            desk.pair(&left, &Text::made(random, &[Run::Letters(other)]));
            let mut case = right.clone();
            case[at] ^= 0x20;
            desk.pair(&left, &Text::made(random, &[Run::Letters(case)]));
            if at > 0 {
                let prefix = Run::Letters(right[..at].to_vec());
                let behind = [prefix, usual(random)];
                desk.pair(&left, &Text::made(random, &behind[..1 + at % 2]));
            }
        }
    }
}

/// Up to thousands of runs: all the same, one otherwise at the front, in the middle or at
/// the end, one more.
fn many_runs(desk: &mut Desk, random: &mut Random) {
    let counts = [
        1, 2, 3, 4, 7, 8, 9, 15, 16, 17, 31, 32, 33, 64, 100, 255, 256, 257, 1000, 3000,
    ];
    for count in counts {
        for _ in 0..6 {
            let runs: Vec<Run> = (0..count).map(|_| usual(random)).collect();
            let left = Text::made(random, &runs);
            desk.pair(&left, &Text::made(random, &runs));
            for at in [0, count / 2, count - 1] {
                let mut other = runs.clone();
                nudge(random, &mut other[at]);
                desk.pair(&left, &Text::made(random, &other));
                other[at] = usual(random);
                desk.pair(&left, &Text::made(random, &other));
            }
            desk.pair(&left, &Text::made(random, &runs[..count - 1]));
            let one_more = [&runs[..], &[usual(random)]].concat();
            desk.pair(&left, &Text::made(random, &one_more));
        }
    }
}

/// Bytes of any value, and of a few values; pairs that are almost alike.
fn any_bytes(desk: &mut Desk, random: &mut Random) {
    let all: Vec<u8> = (0..=255).collect();
    let alphabets: [&[u8]; 6] = [
        &all,
        b"0123456789abcABC._-+~^",
        b"019.a",
        b"/09:@AZ[`az{",
        b"01a\x00\x80\xFF",
        b"00001.",
    ];
    for round in 0..60_000 {
        let bytes = alphabets[round % alphabets.len()];
        let most = random.pick(&[4, 8, 12, 24, 60]);
        let length = random.below(most);
        let text: Vec<u8> = (0..length).map(|_| random.pick(bytes)).collect();
        let left = Text::of(&text);
        desk.pair(&left, &Text::of(&changed(random, &text, bytes)));
        let length = random.below(most);
        let other: Vec<u8> = (0..length).map(|_| random.pick(bytes)).collect();
        desk.against(&left, &Text::of(&other));
    }
}

/// Texts of up to 1 MiB of one sort, which differ at the end or not at all.
fn long(desk: &mut Desk, random: &mut Random) {
    let sorts: [&[u8]; 8] = [b"7", b"0", b"k", b".", b"\x00", b"\xFF", b"1.", b"a1"];
    for length in [4095, 4096, 4097, 65_535, 65_536, ROOM - 2] {
        for sort in sorts {
            let front = sort.repeat(length / sort.len());
            let with = |behind: &[u8]| Text::of(&[&front[..], behind].concat());
            let left = with(b"");
            for behind in [&b"0"[..], b"a", b".", b".1"] {
                desk.pair(&left, &with(behind));
            }
            desk.pair(&with(b"5"), &with(b"6"));
            desk.pair(&with(b"y"), &with(b"z"));
            let length = random.below(front.len());
            desk.pair(&left, &Text::of(&front[..length]));
        }
    }
}

/// Parts of one text in one memory: any two of a short one, some of others.
fn parts(desk: &mut Desk, random: &mut Random) {
    for text in [&b"1.01a"[..], b"a.a1.0", b"001.1", b"zz9.z"] {
        let lent = Text::of(text);
        desk.lend(&lent);
        let length = text.len();
        let every = (0..=length).flat_map(|start| (start..=length).map(move |end| (start, end)));
        let every: Vec<(usize, usize)> = every.collect();
        for &one in &every {
            for &other in &every {
                desk.parts(&lent, one, other);
            }
        }
    }
    for _ in 0..2000 {
        let runs = some_runs(random, 12);
        let lent = Text::made(random, &runs);
        desk.lend(&lent);
        let mut part = || {
            let [one, other] = [0; 2].map(|_| random.below(lent.bytes.len() + 1));
            (one.min(other), one.max(other))
        };
        for _ in 0..4 {
            let (one, other) = (part(), part());
            desk.parts(&lent, one, other);
        }
    }
}

/// The laws of a total order up to "same", of the library's answers alone: every three of
/// some texts.
fn order(desk: &mut Desk, random: &mut Random) {
    let mut texts = all_texts(b"01a.", 2);
    texts.extend(all_texts(b"9Zz", 1));
    for _ in 0..60 {
        let runs = some_runs(random, 3);
        texts.push(Text::made(random, &runs));
    }
    let count = texts.len();
    let mut answers = vec![vec![0; count]; count];
    for one in 0..count {
        for other in 0..count {
            answers[one][other] = desk.library(&texts[one], &texts[other]);
            desk.bench.agree_version(answers[one][other].min(NEWER));
        }
    }
    let at_most = |one: usize, other: usize| answers[one][other] <= SAME;
    for a in 0..count {
        for b in 0..count {
            let both_ways = answers[a][b] + answers[b][a] == NEWER && answers[a][b] <= NEWER;
            let through = |c| !(at_most(a, b) && at_most(b, c)) || at_most(a, c);
            if !both_ways || answers[a][a] != SAME || !(0..count).all(through) {
                desk.bench.fail("library: no order");
            }
        }
    }
}
