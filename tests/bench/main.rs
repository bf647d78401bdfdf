//! Measures the C calls of libstation.a against the reference, librpm, openssl and an older library.
//!
//!     bench times DATA-FOLDER [PART-OF-A-NAME]
//!     bench counts DATA-FOLDER [PART-OF-A-NAME]
//!
//! Several parts have | between them. A line for each case, its columns apart by tabs; report.py makes
//! tables of them.

mod cases;
#[path = "../compare/content.rs"]
#[allow(dead_code)]
mod content;
mod counts;
mod library;
mod librpm;
mod lists;
#[path = "../compare/maker.rs"]
#[allow(dead_code)]
mod maker;
mod openssl;
mod packages;
#[path = "../compare/random.rs"]
#[allow(dead_code)]
mod random;
mod times;

use std::path::Path;

use cases::Case;

fn main() {
    librpm::silence();
    let words: Vec<String> = std::env::args().skip(1).collect();
    let words: Vec<&str> = words.iter().map(String::as_str).collect();
    match words[..] {
        ["times", data] => times::all(&cases(data, "")),
        ["times", data, part] => times::all(&cases(data, part)),
        ["counts", data] => counts::all(&cases(data, "")),
        ["counts", data, part] => counts::all(&cases(data, part)),
        _ => {
            eprintln!("usage: bench times|counts DATA-FOLDER [PART-OF-A-NAME]");
            std::process::exit(2)
        }
    }
}

/// The cases with one of these texts in their group and name.
fn cases(data: &str, part: &str) -> Vec<Case> {
    let mut all = cases::readings();
    all.extend(cases::look_ups());
    all.extend(cases::writings());
    all.extend(cases::data(Path::new(data)));
    all.extend(cases::growth());
    all.extend(cases::orders());
    all.extend(cases::digest_parts(&all));
    all.extend(cases::digests());
    all.extend(cases::versions());
    all.extend(cases::requirements());
    all.retain(|case| {
        let name = format!("{} {}", case.group, case.name);
        part.split('|').any(|part| name.contains(part))
    });
    all
}
