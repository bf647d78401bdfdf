//! Whether a version text meets what a package requires (document 02).

use std::cmp::Ordering;

use super::version::compare;
use super::{check, sound, Checked, Structure, INT32};

// Relations, in a required name's flags.
const LESS: u32 = 0x02;
const GREATER: u32 = 0x04;
const EQUAL: u32 = 0x08;

/// A required name's flags and version, which is without its zero byte.
struct Requirement<'a> {
    flags: u32,
    version: &'a [u8],
}

impl Requirement<'_> {
    fn is_met_by(&self, given: &[u8]) -> bool {
        let relation = match compare(given, self.version) {
            Ordering::Less => LESS,
            Ordering::Greater => GREATER,
            Ordering::Equal => EQUAL,
        };
        let flagged = self.flags & (LESS | GREATER | EQUAL);
        flagged == 0 || flagged & relation != 0
    }
}

impl<'a> Structure<'a> {
    /// What the header requires of a name: the flags and the version beside the first equal
    /// name.
    fn requirement(&self, name: &[u8]) -> Option<Requirement<'a>> {
        let required = self.required(name)?;
        let flags = self.record(1048, INT32)?;
        if flags.count != required.count {
            return None;
        }
        Some(Requirement {
            flags: self.numbers(flags).nth(required.position)?,
            version: required.version.strip_suffix(&[0])?,
        })
    }
}

/// Checks 2 to 13 and 28, then 25.
pub fn meets(package: &[u8], name: &[u8], version: &[u8]) -> Checked<bool> {
    let requirement = sound(package)?.header.requirement(name);
    check(25, requirement.is_some(), 0)?;
    Ok(requirement.is_some_and(|required| required.is_met_by(version)))
}

/// What C gets: on success the place is 1 for yes, 0 for no.
pub fn meets_for_c(package: &[u8], name: &[u8], version: &[u8]) -> u64 {
    match meets(package, name, version) {
        Ok(yes) => u64::from(yes),
        Err(refusal) => refusal.packed(),
    }
}
