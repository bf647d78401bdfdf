//! The pairs of tests/vectors/versions.txt.

use std::cmp::Ordering;

use super::quoted::unquoted;

/// Left, right, and how left compares with right.
pub struct Vector {
    pub left: Vec<u8>,
    pub right: Vec<u8>,
    pub order: Ordering,
}

/// A line: "LEFT" "RIGHT" ANSWER.
fn parse(line: &str) -> Option<Vector> {
    let words: Vec<&str> = line.split(' ').collect();
    let [left, right, answer] = words[..] else {
        return None;
    };
    let text = |word: &str| unquoted(word.strip_prefix('"')?.strip_suffix('"')?);
    let order = match answer {
        "older" => Ordering::Less,
        "same" => Ordering::Equal,
        "newer" => Ordering::Greater,
        _ => return None,
    };
    Some(Vector {
        left: text(left)?,
        right: text(right)?,
        order,
    })
}

pub fn all(file: &str) -> Vec<Vector> {
    let lines = file.lines();
    lines
        .filter(|line| !line.is_empty() && !line.starts_with('#'))
        .map(|line| parse(line).unwrap_or_else(|| panic!("no vector: {line}")))
        .collect()
}
