//! The catalogue by document 000's tables as printed (tables.txt), under the
//! exceptions of documents 01 and 02.

use std::sync::LazyLock;

#[derive(Clone, Copy, Debug, PartialEq, Eq)]
pub struct Line {
    pub tag: u32,
    pub ty: u32,
    /// `None` is any count.
    pub count: Option<u32>,
    pub required: bool,
}

pub static SIGNATURE: LazyLock<Vec<Line>> = LazyLock::new(|| {
    let mut lines = printed(&["1-4", "1-5", "1-6", "1-7"], &[1002, 1005, 1011, 1012]);
    // Tag 100 is required in the header only.
    let i18n = lines.iter_mut().find(|line| line.tag == 100).unwrap();
    i18n.required = false;
    lines
});

pub static HEADER: LazyLock<Vec<Line>> = LazyLock::new(|| {
    let tables = ["1-4", "1-8", "1-9", "1-10", "1-11", "1-14"];
    let mut lines = printed(&tables, &[1004, 1005, 1016, 1047, 1114]);
    let house = |tag, ty, count| Line {
        tag,
        ty,
        count,
        required: true,
    };
    lines.push(house(20_001, 7, None));
    lines.push(house(20_002, 4, Some(1)));
    lines
});

/// The rows of these tables, tags rising; some take any count, whatever is printed.
fn printed(tables: &[&str], any_count: &[u32]) -> Vec<Line> {
    let mut lines = Vec::new();
    let mut wanted = false;
    for text in include_str!("../reference/tables.txt").lines() {
        if let Some(title) = text.strip_prefix("Table ") {
            let number = title.split('.').next().unwrap();
            wanted = tables.contains(&number);
        }
        let words: Vec<&str> = text.split('|').map(str::trim).collect();
        let tag = words.get(1).and_then(|word| word.parse().ok());
        let (Some(tag), true) = (tag, wanted) else {
            continue;
        };
        let ty = match words[2] {
            "INT16" => 3,
            "INT32" => 4,
            "STRING" => 6,
            "BIN" => 7,
            "STRING_ARRAY" => 8,
            "I18NSTRING" => 9,
            other => panic!("{other}"),
        };
        lines.push(Line {
            tag,
            ty,
            // A blank count may stand behind the status.
            count: words[3].parse().ok().filter(|_| !any_count.contains(&tag)),
            required: words[3..].contains(&"Required"),
        });
    }
    lines.sort_by_key(|line| line.tag);
    lines
}
