//! Names and versions to ask with: those that a package requires, and changed ones.

use crate::entries::data;
use crate::input;
use crate::maker::Structure;
use crate::random::Random;
use crate::versions::texts::changed;

const NAMES: u32 = 1049;
const VERSIONS: u32 = 1050;
/// Strings of an entry that are looked at, at most.
const MOST: usize = 300;
/// What changes are made of.
const BYTES: &[u8] = b"0123456789abzABZ._-+~^/:@[`{\x00\x7F\x80\xE9\xFF";

/// A required name and the version beside it, and both changed.
#[derive(Clone, Debug)]
pub struct Asked {
    pub name: Vec<u8>,
    pub version: Vec<u8>,
    pub other_name: Vec<u8>,
    pub other_version: Vec<u8>,
    /// Another version of the package.
    pub third: Vec<u8>,
}

/// The strings of a header's entry, whatever its type, without their zero bytes.
fn strings(header: &Structure, tag: u32) -> Vec<&[u8]> {
    let data = data(header, tag).unwrap_or(&[]);
    let strings = data.split_inclusive(|&byte| byte == 0).take(MOST);
    strings
        .map(|string| string.strip_suffix(&[0]).unwrap_or(string))
        .collect()
}

pub fn of_package(package: &[u8], random: &mut Random) -> Asked {
    let header = input::parts(package).map_or_else(Structure::default, |parts| parts.header);
    let (names, versions) = (strings(&header, NAMES), strings(&header, VERSIONS));
    let at = random.below(names.len().max(1));
    let name = names.get(at).unwrap_or(&&b"kiln"[..]).to_vec();
    let version = versions.get(at).unwrap_or(&&b"1.0"[..]).to_vec();
    let third = versions.get(random.below(versions.len().max(1)));
    Asked {
        other_name: changed(random, &name, BYTES),
        other_version: changed(random, &version, BYTES),
        third: third.unwrap_or(&&b""[..]).to_vec(),
        name,
        version,
    }
}
