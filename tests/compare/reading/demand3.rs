//! Demand 3 of the letter, for every earlier and later edition, sentence by sentence, on
//! two readings of one package.

use std::fmt;

use crate::bench::Answer;

/// Every edition that there is; arrays by edition have their order.
pub const EDITIONS: [u32; 3] = [1, 2, 3];

/// The weighed kinds that each edition knows.
const WEIGHED: [&[u8]; 3] = [&[0x86], &[0x86, 0x98], &[0x86, 0x98, 0xAA]];

const BATCH_WEIGHT: u32 = 20002;

/// What a reading at an edition answered, and its buffer afterwards.
pub struct Read {
    pub edition: u32,
    pub answer: Answer,
    pub buffer: Vec<u8>,
}

impl Read {
    fn accepts(&self) -> bool {
        self.answer.number() == 0
    }

    /// A refusal that edition 1 has no rule for.
    fn is_about_weight(&self) -> bool {
        matches!(self.answer.number(), 14 | 15 | 23) && self.answer.place() == BATCH_WEIGHT
    }

    fn adds_weight_to(&self, earlier: &Read) -> bool {
        earlier.edition == 1 && self.is_about_weight()
    }
}

/// The place of the first weighed kind that an edition lacks.
fn first_lacked(edition: u32, book: &[u8]) -> Option<usize> {
    let known = WEIGHED[edition as usize - 1];
    let mut place = 0;
    while place < book.len() {
        let kind = book[place];
        if kind >= 128 && !known.contains(&kind) {
            return Some(place);
        }
        place += 1 + usize::from(kind % 16);
    }
    None
}

/// What two readings can have to do with each other. The second and the last are for
/// edition 1 as the earlier alone.
#[derive(Clone, Copy, PartialEq, Eq, PartialOrd, Ord)]
pub enum Case {
    BothAccept,
    EarlierAccepts,
    KindLacked,
    RefuseAlike,
    EarlierAt20,
    LaterAtWeight,
}

impl fmt::Display for Case {
    fn fmt(&self, f: &mut fmt::Formatter) -> fmt::Result {
        f.write_str(match self {
            Case::BothAccept => "both accept",
            Case::EarlierAccepts => "the earlier alone accepts",
            Case::KindLacked => "the earlier lacks a kind",
            Case::RefuseAlike => "both refuse alike",
            Case::EarlierAt20 => "both refuse, the earlier with 20",
            Case::LaterAtWeight => "both refuse, the later at 20002",
        })
    }
}

/// Every two editions with what their readings can have to do with each other.
pub fn cases() -> Vec<(u32, u32, Case)> {
    use Case::*;
    let mut all = Vec::new();
    for [earlier, later] in [[1, 2], [1, 3], [2, 3]] {
        all.extend(
            [BothAccept, KindLacked, RefuseAlike, EarlierAt20].map(|case| (earlier, later, case)),
        );
        if earlier == 1 {
            all.extend([EarlierAccepts, LaterAtWeight].map(|case| (earlier, later, case)));
        }
    }
    all
}

/// Where demand 3 holds of two readings, in which way. Both had buffers of one length that held
/// the same; `book` is asked only of a package that the later edition accepts.
pub fn case<'a>(earlier: &Read, later: &Read, book: impl FnOnce() -> &'a [u8]) -> Option<Case> {
    let alike = earlier.answer == later.answer;
    if later.accepts() {
        match first_lacked(earlier.edition, book()) {
            Some(place) => (earlier.answer == Answer::new(20, place)).then_some(Case::KindLacked),
            None => (alike && earlier.buffer == later.buffer).then_some(Case::BothAccept),
        }
    } else if earlier.accepts() {
        later
            .adds_weight_to(earlier)
            .then_some(Case::EarlierAccepts)
    } else if alike {
        Some(Case::RefuseAlike)
    } else if later.adds_weight_to(earlier) {
        Some(Case::LaterAtWeight)
    } else {
        (earlier.answer.number() == 20).then_some(Case::EarlierAt20)
    }
}

fn holds<'a>(earlier: &Read, later: &Read, book: impl FnOnce() -> &'a [u8]) -> bool {
    case(earlier, later, book).is_some()
}

/// Every two of these readings, in the editions' order.
pub fn pairs(reads: &[Read]) -> impl Iterator<Item = [&Read; 2]> {
    let before = move |at: usize| reads[..at].iter().map(move |earlier| [earlier, &reads[at]]);
    (0..reads.len()).flat_map(before)
}

/// Sees that `holds` tells right from wrong.
pub fn try_out() {
    for (earlier, later) in [(1, 2), (1, 3), (2, 3)] {
        try_pair(earlier, later);
    }
    try_books();
    try_pairs();
}

fn read(edition: u32, number: u32, place: usize, byte: u8) -> Read {
    Read {
        edition,
        answer: Answer::new(number, place),
        buffer: vec![byte; 12],
    }
}

const PLAIN: &[u8] = &[0x02, 0, 7, 0x86, 0, 1, 0, 0, 0, 9];
const TOLERATED: &[u8] = &[0x02, 0x98, 0x98, 0x98, 0, 1, 0, 0, 0, 9, 0, 0];
const WITH_LOT: &[u8] = &[0x02, 0xAA, 0xAA, 0xAA, 0, 1, 0, 0, 0, 9, 0xAA, 0, 0, 0];

/// What holds alike of every two editions, and the batch weight, of which it doesn't.
fn try_pair(earlier: u32, later: u32) {
    let one = |number, place, byte| read(earlier, number, place, byte);
    let two = |number, place, byte| read(later, number, place, byte);
    let holds = |one: &Read, two: &Read| holds(one, two, || PLAIN);
    let first = earlier == 1;

    assert!(holds(&one(0, 1, 5), &two(0, 1, 5)));
    assert!(!holds(&one(0, 2, 5), &two(0, 1, 5)));
    assert!(!holds(&one(0, 1, 6), &two(0, 1, 5)));
    assert!(!holds(&one(20, 3, 5), &two(0, 1, 5)));
    assert!(!holds(&one(24, 3, 5), &two(0, 1, 5)));
    for number in [14, 15, 23] {
        assert!(holds(&one(0, 1, 5), &two(number, 20002, 7)) == first);
        assert!(!holds(&one(0, 1, 5), &two(number, 20001, 7)));
        assert!(holds(&one(24, 3, 7), &two(number, 20002, 7)) == first);
        assert!(!holds(&one(24, 3, 7), &two(number, 20001, 7)));
        assert!(holds(&one(number, 20002, 7), &two(number, 20002, 7)));
        assert!(!holds(&one(number, 20002, 7), &two(24, 3, 7)));
    }
    assert!(!holds(&one(0, 1, 5), &two(20, 3, 7)));
    assert!(!holds(&one(0, 1, 5), &two(24, 3, 7)));
    assert!(!holds(&one(0, 1, 5), &two(16, 20002, 7)));
    // A wrong digest and a stray byte are no matter of editions.
    for (number, place) in [(27, 1004), (28, 164), (5, 168)] {
        assert!(holds(&one(number, place, 7), &two(number, place, 7)));
        assert!(!holds(&one(number, place, 7), &two(number, place + 1, 7)));
        assert!(!holds(&one(number, place, 7), &two(0, 1, 5)));
        assert!(!holds(&one(0, 1, 5), &two(number, place, 7)));
        assert!(!holds(&one(24, 3, 7), &two(number, place, 7)));
        assert!(!holds(&one(number, place, 7), &two(24, 3, 7)));
    }
    assert!(holds(&one(22, 0, 7), &two(22, 0, 7)));
    assert!(!holds(&one(22, 0, 7), &two(22, 7, 7)));
    assert!(!holds(&one(21, 0, 7), &two(22, 0, 7)));
    assert!(holds(&one(20, 0, 7), &two(22, 7, 7)));
    assert!(!holds(&one(22, 7, 7), &two(20, 0, 7)));
}

/// Books with kinds that an earlier edition lacks.
fn try_books() {
    let tried = |earlier, number, place, later, book: &'static [u8]| {
        let byte = if number == 0 { 5 } else { 7 };
        let earlier = read(earlier, number, place, byte);
        holds(&earlier, &read(later, 0, 1, 5), || book)
    };
    for (earlier, later, book) in [
        (1, 2, TOLERATED),
        (1, 3, TOLERATED),
        (1, 3, WITH_LOT),
        (2, 3, WITH_LOT),
    ] {
        assert!(tried(earlier, 20, 3, later, book));
        assert!(!tried(earlier, 20, 1, later, book));
        assert!(!tried(earlier, 21, 3, later, book));
        assert!(!tried(earlier, 0, 1, later, book));
    }
    assert!(tried(2, 0, 1, 3, TOLERATED));
    assert!(!tried(2, 20, 3, 3, TOLERATED));
}

/// Three readings of one package: every two are looked at.
fn try_pairs() {
    let broken = |reads: [Read; 3], book: &'static [u8]| -> Vec<[u32; 2]> {
        let wrong = pairs(&reads).filter(|[earlier, later]| !holds(earlier, later, || book));
        wrong.map(|pair| pair.map(|read| read.edition)).collect()
    };
    let with_lot = |one, two| [read(1, one, 3, 7), read(2, two, 3, 7), read(3, 0, 1, 5)];
    assert!(broken(with_lot(20, 20), WITH_LOT).is_empty());
    assert!(broken(with_lot(22, 20), WITH_LOT) == [[1, 2], [1, 3]]);
    assert!(broken(with_lot(20, 22), WITH_LOT) == [[2, 3]]);
    let no_weight = |three: Read| [read(1, 0, 1, 5), read(2, 14, 20002, 7), three];
    assert!(broken(no_weight(read(3, 14, 20002, 7)), PLAIN).is_empty());
    assert!(broken(no_weight(read(3, 0, 1, 5)), PLAIN) == [[2, 3]]);
    assert!(broken(no_weight(read(3, 15, 20002, 7)), PLAIN) == [[2, 3]]);
}
