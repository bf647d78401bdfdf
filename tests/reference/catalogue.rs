//! The catalogue, copied from document 000 under the exceptions of documents 01 and 02, and
//! checks 14 and 15. tables.txt holds 000's tables as printed; a test compares.

use super::TRANSLATED_STRING as I18NSTRING;
use super::{check, Checked, Structure, BIN, INT16, INT32, STRING, STRING_ARRAY};
use Count::{Any, Exactly};
use Status::{Deprecated, Informational, Optional, Required};

#[derive(Clone, Copy, Debug, PartialEq, Eq)]
pub struct Line {
    pub tag: u32,
    pub ty: u32,
    pub count: Count,
    pub status: Status,
    /// The name in 000.
    pub name: &'static str,
}

/// A blank count is any; a printed one is exact.
#[derive(Clone, Copy, Debug, PartialEq, Eq)]
pub enum Count {
    Any,
    Exactly(u32),
}

/// `Required` must be present; every other status may be absent.
#[derive(Clone, Copy, Debug, PartialEq, Eq)]
pub enum Status {
    Required,
    Optional,
    Informational,
    Deprecated,
}

const fn line(tag: u32, ty: u32, count: Count, status: Status, name: &'static str) -> Line {
    Line {
        tag,
        ty,
        count,
        status,
        name,
    }
}

/// The batch weight's tag; its line exists from edition 2 on.
pub const BATCH_WEIGHT: u32 = 20002;
pub const BOOK: u32 = 20001;

/// 62, 63, 100 and tables 1-5 to 1-7.
#[rustfmt::skip]
pub const SIGNATURE: [Line; 11] = [
    line(62,    BIN,          Exactly(16), Optional,      "RPMTAG_HEADERSIGNATURES"),
    line(63,    BIN,          Exactly(16), Optional,      "RPMTAG_HEADERIMMUTABLE"),
    line(100,   STRING_ARRAY, Any,         Optional,      "RPMTAG_HEADERI18NTABLE"), // 000: Required
    line(1000,  INT32,        Exactly(1),  Required,      "SIGTAG_SIGSIZE"),
    line(1002,  BIN,          Any,         Optional,      "SIGTAG_PGP"), // 000: 1
    line(1004,  BIN,          Exactly(16), Required,      "SIGTAG_MD5"),
    line(1005,  BIN,          Any,         Optional,      "SIGTAG_GPG"), // 000: 65
    line(1007,  INT32,        Exactly(1),  Optional,      "SIGTAG_PAYLOADSIZE"),
    line(1010,  STRING,       Exactly(1),  Optional,      "SIGTAG_SHA1HEADER"),
    line(1011,  BIN,          Any,         Optional,      "SIGTAG_DSAHEADER"), // 000: 1
    line(1012,  BIN,          Any,         Optional,      "SIGTAG_RSAHEADER"), // 000: 1
];

/// 62, 63, 100, tables 1-8 to 1-11 and 1-14, and the house tags.
#[rustfmt::skip]
pub const HEADER: [Line; 71] = [
    line(62,    BIN,          Exactly(16), Optional,      "RPMTAG_HEADERSIGNATURES"),
    line(63,    BIN,          Exactly(16), Optional,      "RPMTAG_HEADERIMMUTABLE"),
    line(100,   STRING_ARRAY, Any,         Required,      "RPMTAG_HEADERI18NTABLE"),
    line(1000,  STRING,       Exactly(1),  Required,      "RPMTAG_NAME"),
    line(1001,  STRING,       Exactly(1),  Required,      "RPMTAG_VERSION"),
    line(1002,  STRING,       Exactly(1),  Required,      "RPMTAG_RELEASE"),
    line(1004,  I18NSTRING,   Any,         Required,      "RPMTAG_SUMMARY"), // 000: 1
    line(1005,  I18NSTRING,   Any,         Required,      "RPMTAG_DESCRIPTION"), // 000: 1
    line(1006,  INT32,        Exactly(1),  Informational, "RPMTAG_BUILDTIME"),
    line(1007,  STRING,       Exactly(1),  Informational, "RPMTAG_BUILDHOST"),
    line(1009,  INT32,        Exactly(1),  Required,      "RPMTAG_SIZE"),
    line(1010,  STRING,       Exactly(1),  Informational, "RPMTAG_DISTRIBUTION"),
    line(1011,  STRING,       Exactly(1),  Informational, "RPMTAG_VENDOR"),
    line(1014,  STRING,       Exactly(1),  Required,      "RPMTAG_LICENSE"),
    line(1016,  I18NSTRING,   Any,         Required,      "RPMTAG_GROUP"), // 000: 1
    line(1020,  STRING,       Exactly(1),  Informational, "RPMTAG_URL"),
    line(1021,  STRING,       Exactly(1),  Required,      "RPMTAG_OS"),
    line(1022,  STRING,       Exactly(1),  Required,      "RPMTAG_ARCH"),
    line(1023,  STRING,       Exactly(1),  Optional,      "RPMTAG_PREIN"),
    line(1024,  STRING,       Exactly(1),  Optional,      "RPMTAG_POSTIN"),
    line(1025,  STRING,       Exactly(1),  Optional,      "RPMTAG_PREUN"),
    line(1026,  STRING,       Exactly(1),  Optional,      "RPMTAG_POSTUN"),
    line(1027,  STRING_ARRAY, Any,         Optional,      "RPMTAG_OLDFILENAMES"),
    line(1028,  INT32,        Any,         Required,      "RPMTAG_FILESIZES"),
    line(1030,  INT16,        Any,         Required,      "RPMTAG_FILEMODES"),
    line(1033,  INT16,        Any,         Required,      "RPMTAG_FILERDEVS"),
    line(1034,  INT32,        Any,         Required,      "RPMTAG_FILEMTIMES"),
    line(1035,  STRING_ARRAY, Any,         Required,      "RPMTAG_FILEMD5S"),
    line(1036,  STRING_ARRAY, Any,         Required,      "RPMTAG_FILELINKTOS"),
    line(1037,  INT32,        Any,         Required,      "RPMTAG_FILEFLAGS"),
    line(1039,  STRING_ARRAY, Any,         Required,      "RPMTAG_FILEUSERNAME"),
    line(1040,  STRING_ARRAY, Any,         Required,      "RPMTAG_FILEGROUPNAME"),
    line(1044,  STRING,       Exactly(1),  Informational, "RPMTAG_SOURCERPM"),
    line(1045,  INT32,        Any,         Optional,      "RPMTAG_FILEVERIFYFLAGS"),
    line(1046,  INT32,        Exactly(1),  Optional,      "RPMTAG_ARCHIVESIZE"),
    line(1047,  STRING_ARRAY, Any,         Required,      "RPMTAG_PROVIDENAME"), // 000: 1
    line(1048,  INT32,        Any,         Required,      "RPMTAG_REQUIREFLAGS"),
    line(1049,  STRING_ARRAY, Any,         Required,      "RPMTAG_REQUIRENAME"),
    line(1050,  STRING_ARRAY, Any,         Required,      "RPMTAG_REQUIREVERSION"),
    line(1053,  INT32,        Any,         Optional,      "RPMTAG_CONFLICTFLAGS"),
    line(1054,  STRING_ARRAY, Any,         Optional,      "RPMTAG_CONFLICTNAME"),
    line(1055,  STRING_ARRAY, Any,         Optional,      "RPMTAG_CONFLICTVERSION"),
    line(1064,  STRING,       Exactly(1),  Informational, "RPMTAG_RPMVERSION"),
    line(1080,  INT32,        Any,         Optional,      "RPMTAG_CHANGELOGTIME"),
    line(1081,  STRING_ARRAY, Any,         Optional,      "RPMTAG_CHANGELOGNAME"),
    line(1082,  STRING_ARRAY, Any,         Optional,      "RPMTAG_CHANGELOGTEXT"),
    line(1085,  STRING,       Exactly(1),  Optional,      "RPMTAG_PREINPROG"),
    line(1086,  STRING,       Exactly(1),  Optional,      "RPMTAG_POSTINPROG"),
    line(1087,  STRING,       Exactly(1),  Optional,      "RPMTAG_PREUNPROG"),
    line(1088,  STRING,       Exactly(1),  Optional,      "RPMTAG_POSTUNPROG"),
    line(1090,  STRING_ARRAY, Any,         Optional,      "RPMTAG_OBSOLETENAME"),
    line(1094,  STRING,       Exactly(1),  Optional,      "RPMTAG_COOKIE"),
    line(1095,  INT32,        Any,         Required,      "RPMTAG_FILEDEVICES"),
    line(1096,  INT32,        Any,         Required,      "RPMTAG_FILEINODES"),
    line(1097,  STRING_ARRAY, Any,         Required,      "RPMTAG_FILELANGS"),
    line(1112,  INT32,        Any,         Required,      "RPMTAG_PROVIDEFLAGS"),
    line(1113,  STRING_ARRAY, Any,         Required,      "RPMTAG_PROVIDEVERSION"),
    line(1114,  INT32,        Any,         Optional,      "RPMTAG_OBSOLETEFLAGS"), // 000: 1
    line(1115,  STRING_ARRAY, Any,         Optional,      "RPMTAG_OBSOLETEVERSION"),
    line(1116,  INT32,        Any,         Optional,      "RPMTAG_DIRINDEXES"),
    line(1117,  STRING_ARRAY, Any,         Optional,      "RPMTAG_BASENAMES"),
    line(1118,  STRING_ARRAY, Any,         Optional,      "RPMTAG_DIRNAMES"),
    line(1122,  STRING,       Exactly(1),  Informational, "RPMTAG_OPTFLAGS"),
    line(1123,  STRING,       Exactly(1),  Informational, "RPMTAG_DISTURL"),
    line(1124,  STRING,       Exactly(1),  Required,      "RPMTAG_PAYLOADFORMAT"),
    line(1125,  STRING,       Exactly(1),  Required,      "RPMTAG_PAYLOADCOMPRESSOR"),
    line(1126,  STRING,       Exactly(1),  Required,      "RPMTAG_PAYLOADFLAGS"),
    line(1131,  STRING,       Exactly(1),  Deprecated,    "RPMTAG_RHNPLATFORM"),
    line(1132,  STRING,       Exactly(1),  Informational, "RPMTAG_PLATFORM"),
    line(20001, BIN,          Any,         Required,      "book"),
    line(20002, INT32,        Exactly(1),  Required,      "batch weight"), // from edition 2 on
];

impl Count {
    fn allows(self, count: u32) -> bool {
        match self {
            Any => true,
            Exactly(exact) => count == exact,
        }
    }
}

impl Line {
    fn exists_in(&self, edition: u32) -> bool {
        self.tag != BATCH_WEIGHT || edition >= 2
    }
}

/// Checks 14 and 15, line by line.
pub(super) fn check_lines(edition: u32, structure: Structure, lines: &[Line]) -> Checked<()> {
    for line in lines.iter().filter(|line| line.exists_in(edition)) {
        let place = line.tag as usize;
        let Some(record) = structure.tagged(line.tag) else {
            check(14, line.status != Required, place)?;
            continue;
        };
        let agrees = record.ty == line.ty && line.count.allows(record.count);
        check(15, agrees, place)?;
    }
    Ok(())
}
