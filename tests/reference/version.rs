//! Which of two version texts is newer (document 02).

use std::cmp::Ordering;

/// A longest run of letters or of digits. Letters go before digits.
#[derive(Clone, Copy, Debug, PartialEq, Eq, PartialOrd, Ord)]
enum Run<'a> {
    /// In byte order, a prefix first.
    Letters(&'a [u8]),
    /// By value: how many digits there are behind leading zeros, then those digits.
    Digits(usize, &'a [u8]),
}

/// What is left of a version text.
struct Runs<'a>(&'a [u8]);

impl<'a> Runs<'a> {
    /// Takes the bytes off that belong to a class, from the front on.
    fn take(&mut self, belongs: fn(&u8) -> bool) -> &'a [u8] {
        let other = self.0.iter().position(|byte| !belongs(byte));
        let (taken, rest) = self.0.split_at(other.unwrap_or(self.0.len()));
        self.0 = rest;
        taken
    }
}

fn separates(byte: &u8) -> bool {
    !byte.is_ascii_alphanumeric()
}

fn is_zero(byte: &u8) -> bool {
    *byte == b'0'
}

impl<'a> Iterator for Runs<'a> {
    type Item = Run<'a>;

    fn next(&mut self) -> Option<Run<'a>> {
        self.take(separates);
        if self.0.first()?.is_ascii_alphabetic() {
            return Some(Run::Letters(self.take(u8::is_ascii_alphabetic)));
        }
        self.take(is_zero);
        let digits = self.take(u8::is_ascii_digit);
        Some(Run::Digits(digits.len(), digits))
    }
}

/// Run by run; a missing run is the lowest.
pub fn compare(left: &[u8], right: &[u8]) -> Ordering {
    let (mut left, mut right) = (Runs(left), Runs(right));
    loop {
        match (left.next(), right.next()) {
            (None, None) => return Ordering::Equal,
            (one, other) if one != other => return one.cmp(&other),
            _ => {}
        }
    }
}

/// What C gets: 0 where the left one is older, 1 the same, 2 newer.
pub fn compare_for_c(left: &[u8], right: &[u8]) -> u32 {
    match compare(left, right) {
        Ordering::Less => 0,
        Ordering::Equal => 1,
        Ordering::Greater => 2,
    }
}
