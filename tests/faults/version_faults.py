"""Faults in version.rs and requirement.rs, and in what a required name is in lib.rs."""

# As in package_faults.py; "version" is the comparison of texts, "requirement" what meets one.

# ---- Texts ----

BEGIN = "    let (mut left, mut right) = (Runs(left), Runs(right));\n"
END = "            (None, None) => return Ordering::Equal,\n"
DIFFER = "            (one, other) if one != other => return one.cmp(&other),\n"
LOOP = (
    "    loop {\n        match (left.next(), right.next()) {\n" + END + DIFFER + "            _ => {}\n        }\n    }\n"
)
ZEROS = "        self.take(is_zero);\n"
DIGITS = "        Some(Run::Digits(digits.len(), digits))\n"
LETTERS = "self.take(u8::is_ascii_alphabetic)"
SEPARATORS = "        self.take(separates);\n"
ORDER = (
    "    /// In byte order, a prefix first.\n    Letters(&'a [u8]),\n"
    "    /// By value: how many digits there are behind leading zeros, then those digits.\n    Digits(usize, &'a [u8]),\n"
)
ANSWERS = (
    "        Ordering::Less => 0,\n        Ordering::Equal => 1,\n        Ordering::Greater => 2,\n"
)


def seen_as(text):
    """Texts seen as something else; `text` is one of them."""
    return BEGIN, (
        "    fn seen(text: &[u8]) -> Vec<u8> {\n"
        f"        {text}\n"
        "    }\n"
        "    let (one, other) = (seen(left), seen(right));\n"
        "    let (mut left, mut right) = (Runs(&one), Runs(&other));\n"
    )


def bytes_as(arms):
    """Bytes seen as others."""
    return seen_as(f"text.iter().map(|&byte| match byte {{ {arms}, _ => byte }}).collect()")


def skipped(byte):
    """A byte that does not even separate."""
    return seen_as(f"text.iter().copied().filter(|&byte| {byte}).collect()")


def first(test):
    """What is tested before all else; `left` and `right` are the texts."""
    return BEGIN, f"    {test}\n" + BEGIN


def arm(text):
    """Runs compared otherwise in some cases."""
    return DIFFER, f"            {text},\n" + DIFFER


def letters(test, then):
    return arm(f"(Some(Run::Letters(one)), Some(Run::Letters(other))) if {test} => {then}")


def digits(test, then):
    return arm(f"(Some(Run::Digits(_, one)), Some(Run::Digits(_, other))) if {test} => {then}")


def run(text):
    """Another run of digits."""
    return DIGITS, f"        Some({text})\n"


def cut(digits):
    """Numbers of so many digits."""
    return run(f"Run::Digits(digits.len().min({digits}), &digits[..digits.len().min({digits})])")


def value(kind, how):
    """Numbers of so many bits."""
    fold = (
        f"digits.iter().fold(0{kind}, |value, digit| "
        f"value.{how}_mul(10).{how}_add({kind}::from(digit - b'0')))"
    )
    return run(f"Run::Digits({fold} as usize, &[])")


def at_most(runs):
    """So many runs compared."""
    return LOOP, LOOP.replace("    loop {", f"    for _ in 0..{runs} {{") + "    Ordering::Equal\n"


def reads(text):
    """Reads outside what was lent."""
    return first(f"std::hint::black_box(unsafe {{ {text} }});")


def writes(text):
    """Writes into what was lent."""
    return first(f"unsafe {{ {text} }};")


VERSION = [
    ("leading zeros count", ZEROS, ""),
    ("one leading zero dropped", ZEROS, "        self.0 = self.0.strip_prefix(b\"0\").unwrap_or(self.0);\n"),
    ("at most 16 leading zeros dropped", ZEROS,
     "        for _ in 0..16 {\n            self.0 = self.0.strip_prefix(b\"0\").unwrap_or(self.0);\n        }\n"),
    ("at most 255 leading zeros dropped", ZEROS,
     "        for _ in 0..255 {\n            self.0 = self.0.strip_prefix(b\"0\").unwrap_or(self.0);\n        }\n"),
    ("zeros behind a number dropped", *run(
        "{\n            let zeros = digits.iter().rev().take_while(|&&digit| digit == b'0').count();\n"
        "            let digits = &digits[..digits.len() - zeros];\n            Run::Digits(digits.len(), digits)\n        }")),
    ("0 is a missing run", DIGITS, "        if digits.is_empty() {\n            return self.next();\n        }\n" + DIGITS),
    ("0 is the same as 1", *run("Run::Digits(digits.len().max(1), if digits.is_empty() { b\"1\" } else { digits })")),
    ("0 and 00 differ", ZEROS, "        if !self.0.iter().take_while(|byte| byte.is_ascii_digit()).all(is_zero) {\n"
     "            self.take(is_zero);\n        }\n"),
    ("letters above digits", ORDER, "    Digits(usize, &'a [u8]),\n    Letters(&'a [u8]),\n"),
    ("letters and digits by bytes", *arm(
        "(Some(Run::Letters(one)), Some(Run::Digits(_, other))) if one < other => return Ordering::Less,\n"
        "            (Some(Run::Letters(_)), Some(Run::Digits(..))) => return Ordering::Greater,\n"
        "            (Some(Run::Digits(_, one)), Some(Run::Letters(other))) if one < other => return Ordering::Less,\n"
        "            (Some(Run::Digits(..)), Some(Run::Letters(_))) => return Ordering::Greater")),
    ("letters and digits the same", *arm(
        "(Some(Run::Letters(_)), Some(Run::Digits(..))) | (Some(Run::Digits(..)), Some(Run::Letters(_))) => {}")),
    ("left letters always older", *arm("(Some(Run::Letters(_)), Some(_)) => return Ordering::Less")),
    ("longer letters newer", *letters("one.len() != other.len()", "return one.len().cmp(&other.len())")),
    ("longer letters older", *letters("one.len() != other.len()", "return other.len().cmp(&one.len())")),
    ("a prefix last", *letters("one != other && (one.starts_with(other) || other.starts_with(one))",
                               "return other.len().cmp(&one.len())")),
    ("a prefix the same", *letters("one.starts_with(other) || other.starts_with(one)", "{}")),
    ("first letters compared", *letters("one[0] == other[0]", "{}")),
    ("first 8 letters compared", *letters("one.iter().take(8).eq(other.iter().take(8))", "{}")),
    ("first 255 letters compared", *letters("one.iter().take(255).eq(other.iter().take(255))", "{}")),
    ("last letters compared", *letters("one.last() == other.last()", "{}")),
    ("letters from the end on", *letters("one != other", "return one.iter().rev().cmp(other.iter().rev())")),
    ("case ignored", *letters("one.eq_ignore_ascii_case(other)", "{}")),
    ("case last", *letters("!one.eq_ignore_ascii_case(other)",
                           "return one.to_ascii_lowercase().cmp(&other.to_ascii_lowercase())")),
    ("small letters before capitals", *bytes_as("b'a'..=b'z' => byte - 32, b'A'..=b'Z' => byte + 32")),
    ("letters in reverse", *letters("one != other", "return other.cmp(&one)")),
    ("numbers of 16 bits", *value("u16", "wrapping")),
    ("numbers of 32 bits", *value("u32", "wrapping")),
    ("numbers of 64 bits", *value("u64", "wrapping")),
    ("numbers up to 2^32 - 1", *value("u32", "saturating")),
    ("numbers up to 2^64 - 1", *value("u64", "saturating")),
    ("numbers of 128 bits", DIGITS, DIGITS.replace(
        "Some(", "let most = digits.len().min(38);\n        Some(").replace(
        "digits.len(), digits", "most, &digits[digits.len() - most..]")),
    ("9 digits", *cut(9)),
    ("19 digits", *cut(19)),
    ("255 digits", *cut(255)),
    ("4,096 digits", *cut(4096)),
    ("last 19 digits", *run("Run::Digits(digits.len().min(19), &digits[digits.len().saturating_sub(19)..])")),
    ("number of digits in 8 bits", *run("Run::Digits(digits.len() as u8 as usize, digits)")),
    ("number of digits in 16 bits", *run("Run::Digits(digits.len() as u16 as usize, digits)")),
    ("digits by bytes", *run("Run::Digits(0, digits)")),
    ("numbers of one length the same", *run("Run::Digits(digits.len(), &[])")),
    ("first digit not compared", *run("Run::Digits(digits.len(), digits.get(1..).unwrap_or(&[]))")),
    ("last digit not compared", *run("Run::Digits(digits.len(), &digits[..digits.len().saturating_sub(1)])")),
    ("second digit not compared", *digits("one.len() == other.len() && one.iter().step_by(2).eq(other.iter().step_by(2))", "{}")),
    ("digits from the end on", *digits("one.len() == other.len() && one != other",
                                       "return one.iter().rev().cmp(other.iter().rev())")),
    ("fewer digits newer", *digits("one.len() != other.len()", "return other.len().cmp(&one.len())")),
    ("numbers in reverse", *digits("one != other", "return (other.len(), other).cmp(&(one.len(), one))")),
    ("nothing above letters", *arm(
        "(None, Some(Run::Letters(_))) => return Ordering::Greater,\n"
        "            (Some(Run::Letters(_)), None) => return Ordering::Less")),
    ("nothing the same as letters", *arm(
        "(None, Some(Run::Letters(_))) | (Some(Run::Letters(_)), None) => return Ordering::Equal")),
    ("the empty text the same as letters", *first(
        "if left.is_empty() && right.first().is_some_and(u8::is_ascii_alphabetic) {\n        return Ordering::Equal;\n    }")),
    ("nothing the same as 0", *arm(
        "(None, Some(Run::Digits(0, _))) | (Some(Run::Digits(0, _)), None) => return Ordering::Equal")),
    ("nothing above all", *arm("(None, Some(_)) => return Ordering::Greater,\n            (Some(_), None) => return Ordering::Less")),
    ("only common runs compared", *arm("(None, _) | (_, None) => return Ordering::Equal")),
    ("the right one's further runs not compared", *arm("(None, _) => return Ordering::Equal")),
    ("the left one's further runs not compared", *arm("(_, None) => return Ordering::Equal")),
    ("first run alone", *at_most(1)),
    ("two runs", *at_most(2)),
    ("three runs", *at_most(3)),
    ("8 runs", *at_most(8)),
    ("255 runs", *at_most(255)),
    ("1,024 runs", *at_most(1024)),
    ("last run not compared", *seen_as(
        "let last = text.iter().rposition(separates).unwrap_or(0);\n        text[..last].to_vec()")),
    ("more runs newer", *first(
        "let (more, fewer) = (Runs(left).count(), Runs(right).count());\n"
        "    if more != fewer {\n        return more.cmp(&fewer);\n    }")),
    ("longer texts newer", *first("if left.len() != right.len() {\n        return left.len().cmp(&right.len());\n    }")),
    ("texts of one length by bytes", *first("if left.len() == right.len() {\n        return left.cmp(right);\n    }")),
    ("texts by bytes", *first("if true {\n        return left.cmp(right);\n    }")),
    ("one address the same", *first("if left.as_ptr() == right.as_ptr() {\n        return Ordering::Equal;\n    }")),
    ("letters go on through digits", LETTERS, "self.take(u8::is_ascii_alphanumeric)"),
    ("runs of one letter", LETTERS, "{\n                let (letter, rest) = self.0.split_at(1);\n"
     "                self.0 = rest;\n                letter\n            }"),
    ("separators in front older", *first(
        "if left.first().is_some_and(separates) && !right.first().is_some_and(separates) {\n        return Ordering::Less;\n    }")),
    ("separators at the end newer", *first(
        "if left.last().is_some_and(separates) && left.strip_suffix(&left[left.len() - 1..]) == Some(right) {\n"
        "        return Ordering::Greater;\n    }")),
    ("/ taken for a digit", *bytes_as("b'/' => b'0'")),
    (": taken for a digit", *bytes_as("b':' => b'9'")),
    ("@ taken for a letter", *bytes_as("b'@' => b'A'")),
    ("[ taken for a letter", *bytes_as("b'[' => b'Z'")),
    ("` taken for a letter", *bytes_as("b'`' => b'a'")),
    ("{ taken for a letter", *bytes_as("b'{' => b'z'")),
    ("[ to ` taken for letters", *bytes_as("b'['..=b'`' => b'Z'")),
    ("0 separates", *bytes_as("b'0' => b'.'")),
    ("9 separates", *bytes_as("b'9' => b'.'")),
    ("A separates", *bytes_as("b'A' => b'.'")),
    ("Z separates", *bytes_as("b'Z' => b'.'")),
    ("a separates", *bytes_as("b'a' => b'.'")),
    ("z separates", *bytes_as("b'z' => b'.'")),
    ("bytes above 127 taken for letters", *bytes_as("128..=255 => b'z'")),
    ("bytes above 127 in 7 bits", *bytes_as("128..=255 => byte & 0x7F")),
    ("letters of Latin-1", *bytes_as("0xC0..=0xFF => b'z'")),
    ("FF taken for a letter", *bytes_as("0xFF => b'z'")),
    ("a zero byte ends the text", *seen_as("text.split(|&byte| byte == 0).next().unwrap().to_vec()")),
    ("a zero byte taken for 0", *bytes_as("0 => b'0'")),
    ("zero bytes skipped", *skipped("byte != 0")),
    ("_ skipped", *skipped("byte != b'_'")),
    ("+ skipped", *skipped("byte != b'+'")),
    ("bytes above 127 skipped", *skipped("byte < 128")),
    ("- ends the text", *seen_as("text.split(|&byte| byte == b'-').next().unwrap().to_vec()")),
    ("what stands before : left out", *seen_as("text.rsplit(|&byte| byte == b':').next().unwrap().to_vec()")),
    ("tilde older than nothing", *first(
        "if let Some(at) = left.iter().position(|&byte| byte == b'~') {\n"
        "        if compare(&left[..at], right) == Ordering::Equal {\n            return Ordering::Less;\n        }\n    }")),
    ("tilde below letters", *bytes_as("b'~' => b'A'")),
    ("caret newer than nothing", *first(
        "if let Some(at) = left.iter().position(|&byte| byte == b'^') {\n"
        "        if left[..at] == *right {\n            return Ordering::Greater;\n        }\n    }")),
    ("texts of 255 bytes", *seen_as("text[..text.len().min(255)].to_vec()")),
    ("texts of 4,096 bytes", *seen_as("text[..text.len().min(4096)].to_vec()")),
    ("texts of 65,536 bytes", *seen_as("text[..text.len().min(65_536)].to_vec()")),
    ("lengths of 16 bits", *seen_as("text[..text.len() & 0xFFFF].to_vec()")),
    ("last byte not compared", *seen_as("text[..text.len().saturating_sub(1)].to_vec()")),
    ("first byte not compared", *seen_as("text[text.len().min(1)..].to_vec()")),
    ("always the same", *first("if true {\n        return Ordering::Equal;\n    }")),
    ("older and newer exchanged", ANSWERS, ANSWERS.replace("0,", "x,").replace("2,", "0,").replace("x,", "2,")),
    ("the same is 0", ANSWERS, ANSWERS.replace("=> 0", "=> 1").replace("Equal => 1", "Equal => 0")),
    ("older is 2^32 - 1", ANSWERS, ANSWERS.replace("=> 0", "=> u32::MAX")),
    ("newer is 3", ANSWERS, ANSWERS.replace("=> 2", "=> 3")),
    ("reads behind the left text", *reads("left.as_ptr().add(left.len()).read_volatile()")),
    ("reads behind the right text", *reads("right.as_ptr().add(right.len()).read_volatile()")),
    ("writes into the left text", *writes(
        "if !left.is_empty() { left.as_ptr().cast_mut().write_volatile(left[0]) }")),
    ("writes into the right text", *writes(
        "if !right.is_empty() { right.as_ptr().cast_mut().write_volatile(right[0]) }")),
]

# ---- Requirements ----

RELATIONS = "const LESS: u32 = 0x02;\nconst GREATER: u32 = 0x04;\nconst EQUAL: u32 = 0x08;\n"
COMPARED = "        let relation = match compare(given, self.version) {\n"
EQUAL = "            Ordering::Equal => EQUAL,\n"
FLAGGED = "        let flagged = self.flags & (LESS | GREATER | EQUAL);\n"
MET = "        flagged == 0 || flagged & relation != 0\n"
FLAGS_ENTRY = "        let flags = self.record(1048, INT32)?;\n"
COUNT = "        if flags.count != required.count {\n"
FLAGS = "            flags: self.numbers(flags).nth(required.position)?,\n"
WHOLE_VERSION = "            version: required.version.strip_suffix(&[0])?,\n"
ASKED = "    let requirement = sound(package)?.header.requirement(name);\n"
CHECK_25 = "    check(25, requirement.is_some(), 0)?;\n"
PLACE = "        Ok(yes) => u64::from(yes),\n"

# In lib.rs.
NAMES_ENTRY = "        let names = self.record(1049, STRING_ARRAY)?;\n        let versions"
VERSIONS_ENTRY = "        let versions = self.record(1050, STRING_ARRAY)?;\n"
ONE_COUNT = "        if names.count != versions.count {\n            return None;\n        }\n        let position = self\n"
EQUAL_NAME = "            .position(|string| string.strip_suffix(&[0]) == Some(name))?;\n"
BESIDE = "            version: self.strings(versions).nth(position)?,\n"


def relations(less, greater, equal):
    return RELATIONS, f"const LESS: u32 = {less};\nconst GREATER: u32 = {greater};\nconst EQUAL: u32 = {equal};\n"


def equal_name(test):
    """Another test of `string`, with its zero byte, against `name`."""
    return EQUAL_NAME, f"            .position(|string| {test})?;\n"


def asked_first(text):
    """What is done before all else."""
    return ASKED, f"    {text}\n" + ASKED


def given(text):
    """The given version seen as something else."""
    return COMPARED, COMPARED.replace("given,", f"{text},")


def flags(text):
    """Other flags."""
    return FLAGS, f"            flags: {text},\n"


REQUIREMENT = [
    ("less and greater exchanged", *relations("0x04", "0x02", "0x08")),
    ("greater and equal exchanged", *relations("0x02", "0x08", "0x04")),
    ("less and equal exchanged", *relations("0x08", "0x04", "0x02")),
    ("relations one bit lower", *relations("0x01", "0x02", "0x04")),
    ("relations one bit higher", *relations("0x04", "0x08", "0x10")),
    ("given and required exchanged", COMPARED, COMPARED.replace("given, self.version", "self.version, given")),
    ("equal ignored", EQUAL, "            Ordering::Equal => 0,\n"),
    ("the same is less too", EQUAL, "            Ordering::Equal => EQUAL | LESS,\n"),
    ("the same is greater too", EQUAL, "            Ordering::Equal => EQUAL | GREATER,\n"),
    ("the same always meets", EQUAL, "            Ordering::Equal => return true,\n"),
    ("no flags mean no", MET, "        flagged & relation != 0\n"),
    ("no flags mean equal", MET, "        (if flagged == 0 { EQUAL } else { flagged }) & relation != 0\n"),
    ("all flags mean no", MET, "        flagged == 0 || (flagged & relation != 0 && flagged != LESS | GREATER | EQUAL)\n"),
    ("less and greater mean any", MET, MET.replace("flagged == 0", "flagged == 0 || flagged == LESS | GREATER")),
    ("every flagged relation must hold", MET, "        flagged & relation == flagged\n"),
    ("exactly the flagged relation", MET, "        flagged == 0 || flagged == relation\n"),
    ("flagged relations must not hold", MET, "        flagged == 0 || flagged & relation == 0\n"),
    ("with another bit no flags mean no", MET, MET.replace("flagged == 0", "self.flags == 0")),
    ("with another bit none counts", MET, MET.replace("flagged == 0", "self.flags & !0x0F != 0 || flagged == 0")),
    ("0x01 counts as a relation", FLAGGED, FLAGGED.replace("EQUAL)", "EQUAL | 0x01)")),
    ("0x10 counts as a relation", FLAGGED, FLAGGED.replace("EQUAL)", "EQUAL | 0x10)")),
    ("bits of the second byte count", FLAGGED, FLAGGED.replace("self.flags &", "(self.flags | self.flags >> 8) &")),
    ("bits of the highest byte count", FLAGGED, FLAGGED.replace("self.flags &", "(self.flags | self.flags >> 24) &")),
    ("the highest bit means any", MET, MET.replace("flagged == 0", "flagged == 0 || self.flags >> 31 == 1")),
    ("versions by bytes", COMPARED, COMPARED.replace("compare(given, self.version)", "given.cmp(self.version)")),
    ("equal by bytes", EQUAL, "            Ordering::Equal if given != self.version => 0,\n" + EQUAL),
    ("given version up to a zero byte", *given("given.split(|&byte| byte == 0).next().unwrap()")),
    ("given version without its last byte", *given("&given[..given.len().saturating_sub(1)]")),
    ("given version up to -", *given("given.split(|&byte| byte == b'-').next().unwrap()")),
    ("as much of the given version as the required one has", *given("&given[..given.len().min(self.version.len())]")),
    ("versions up to -", COMPARED,
     "        let upto = |text: &[u8]| text.iter().position(|&byte| byte == b'-').unwrap_or(text.len());\n"
     + COMPARED.replace("given, self.version", "&given[..upto(given)], &self.version[..upto(self.version)]")),
    ("an empty given version meets nothing", MET, "        !given.is_empty() && (" + MET.strip() + ")\n"),
    ("an empty given version meets all", MET, "        given.is_empty() || " + MET.lstrip()),
    ("an empty required version means any", MET, "        self.version.is_empty() || " + MET.lstrip()),
    ("flags of the first name", *flags("self.numbers(flags).next()?")),
    ("flags of the last name", *flags("self.numbers(flags).last()?")),
    ("flags of the name behind", *flags("self.numbers(flags).nth((required.position + 1) % flags.count as usize)?")),
    ("flags of the name before", *flags("self.numbers(flags).nth(required.position.saturating_sub(1))?")),
    ("flags of all names together", *flags("self.numbers(flags).fold(0, |all, one| all | one)")),
    ("flags little-endian", *flags("self.numbers(flags).nth(required.position)?.swap_bytes()")),
    ("flags' highest byte", *flags("self.numbers(flags).nth(required.position)? >> 24")),
    ("flags' halves exchanged", *flags("self.numbers(flags).nth(required.position)?.rotate_left(16)")),
    ("flags' number in 8 bits", *flags("self.numbers(flags).nth(required.position & 0xFF)?")),
    ("1048 of int16, too", FLAGS_ENTRY, FLAGS_ENTRY.replace("?;", ".or(self.record(1048, 3))?;")),
    ("1048 of int8, too", FLAGS_ENTRY, FLAGS_ENTRY.replace("?;", ".or(self.record(1048, 2))?;")),
    ("1048 of bin, too", FLAGS_ENTRY, FLAGS_ENTRY.replace("?;", ".or(self.record(1048, 7))?;")),
    ("1048 of any type", FLAGS_ENTRY, FLAGS_ENTRY.replace("record(1048, INT32)", "tagged(1048)")),
    ("1047 in place of 1048", FLAGS_ENTRY, FLAGS_ENTRY.replace("1048", "1047")),
    ("without 1048 any version", FLAGS_ENTRY,
     "        let Some(flags) = self.record(1048, INT32) else {\n"
     "            return Some(Requirement { flags: 0, version: required.version });\n        };\n"),
    ("without 1048 an equal version", FLAGS_ENTRY,
     "        let Some(flags) = self.record(1048, INT32) else {\n"
     "            return Some(Requirement { flags: EQUAL, version: required.version });\n        };\n"),
    ("1048's count not tested", COUNT, "        if false {\n"),
    ("1048 may be longer", COUNT, COUNT.replace("!=", "<")),
    ("1048 may be shorter", COUNT, COUNT.replace("!=", ">")),
    ("1048's count in 8 bits", COUNT, COUNT.replace("flags.count != required.count", "flags.count as u8 != required.count as u8")),
    ("the signature's three, too", ASKED,
     "    let opened = sound(package)?;\n"
     "    let requirement = opened.header.requirement(name).or(opened.signature.requirement(name));\n"),
    ("the signature's three first", ASKED,
     "    let opened = sound(package)?;\n"
     "    let requirement = opened.signature.requirement(name).or(opened.header.requirement(name));\n"),
    ("the signature's 1048, too", ASKED,
     "    let opened = sound(package)?;\n"
     "    let requirement = opened.header.requirement(name).or_else(|| {\n"
     "        let required = opened.header.required(name)?;\n"
     "        let flags = opened.signature.record(1048, INT32)?;\n"
     "        let flags = opened.signature.numbers(flags).nth(required.position)?;\n"
     "        Some(Requirement { flags, version: required.version })\n    });\n"),
    ("the signature alone", ASKED, ASKED.replace("header", "signature")),
    ("1049 of type 9, too", NAMES_ENTRY, NAMES_ENTRY.replace("?;", ".or(self.record(1049, 9))?;")),
    ("1049 of a string, too", NAMES_ENTRY, NAMES_ENTRY.replace("?;", ".or(self.record(1049, STRING))?;")),
    ("1050 of type 9, too", VERSIONS_ENTRY, VERSIONS_ENTRY.replace("?;", ".or(self.record(1050, 9))?;")),
    ("1050 of a string, too", VERSIONS_ENTRY, VERSIONS_ENTRY.replace("?;", ".or(self.record(1050, STRING))?;")),
    ("1113 in place of 1050", VERSIONS_ENTRY, VERSIONS_ENTRY.replace("1050", "1113")),
    ("1050's count not tested", ONE_COUNT, "        let position = self\n"),
    ("1050 may be longer", ONE_COUNT, ONE_COUNT.replace("!=", ">")),
    ("1050 may be shorter", ONE_COUNT, ONE_COUNT.replace("!=", "<")),
    ("the last equal name", EQUAL_NAME,
     "            .enumerate()\n            .filter(|(_, string)| string.strip_suffix(&[0]) == Some(name))\n"
     "            .last()?\n            .0;\n"),
    ("names by prefix", *equal_name("string.starts_with(name)")),
    ("names that the lent one begins with", *equal_name("name.starts_with(string.strip_suffix(&[0]).unwrap())")),
    ("names in any case", *equal_name("string.strip_suffix(&[0]).unwrap().eq_ignore_ascii_case(name)")),
    ("names with their zero byte", *equal_name("string == name || string.strip_suffix(&[0]) == Some(name)")),
    ("names up to a zero byte",
     *equal_name("string.strip_suffix(&[0]) == name.split(|&byte| byte == 0).next()")),
    ("names by their first 16 bytes",
     *equal_name("string.strip_suffix(&[0]).unwrap().iter().take(16).eq(name.iter().take(16))")),
    ("names by their first 255 bytes",
     *equal_name("string.strip_suffix(&[0]).unwrap().iter().take(255).eq(name.iter().take(255))")),
    ("names by their lengths", *equal_name("string.len() == name.len() + 1")),
    ("names' lengths in 8 bits", *equal_name(
        "string.len() as u8 == (name.len() + 1) as u8 && string.iter().zip(name).all(|(one, other)| one == other)")),
    ("names' first byte not compared", *equal_name("string.len() == name.len() + 1 && (name.is_empty() || string[1..name.len()] == name[1..])")),
    ("names' last byte not compared", *equal_name(
        "string.len() == name.len() + 1 && (name.is_empty() || string[..name.len() - 1] == name[..name.len() - 1])")),
    ("an empty name matches none", *equal_name("!name.is_empty() && string.strip_suffix(&[0]) == Some(name)")),
    ("an empty name matches any", *equal_name("name.is_empty() || string.strip_suffix(&[0]) == Some(name)")),
    ("256 names looked through", EQUAL_NAME, "            .take(256)\n" + EQUAL_NAME),
    ("first name not looked at", EQUAL_NAME, "            .enumerate()\n            .skip(1)\n"
     "            .find(|(_, string)| string.strip_suffix(&[0]) == Some(name))?\n            .0;\n"),
    ("version of the first name", BESIDE, BESIDE.replace("nth(position)", "next()")),
    ("version of the name behind", BESIDE, BESIDE.replace("nth(position)", "nth((position + 1) % versions.count as usize)")),
    ("version's number in 8 bits", BESIDE, BESIDE.replace("nth(position)", "nth(position & 0xFF)")),
    ("a required name is its own version", WHOLE_VERSION,
     "            version: self.strings(self.record(1049, super::STRING_ARRAY)?).nth(required.position)?,\n"),
    ("25 before the checks for a name with a zero byte", *asked_first("check(25, !name.contains(&0), 0)?;")),
    ("25 before the checks for an empty name", *asked_first("check(25, !name.is_empty(), 0)?;")),
    ("25 before the checks for an empty version", *asked_first("check(25, !version.is_empty(), 0)?;")),
    ("25 for every failing check", ASKED,
     ASKED.replace("sound(package)?", "sound(package).map_err(|_| super::Refusal { number: 25, place: 0 })?")),
    ("25 for an unsound header", ASKED,
     "    let opened = sound(package).map_err(|refusal| match refusal.place {\n"
     "        0..=160 => refusal,\n        _ => super::Refusal { number: 25, place: 0 },\n    })?;\n"
     "    let requirement = opened.header.requirement(name);\n"),
    ("28 not tested", ASKED,
     "    let opened = match sound(package) {\n"
     "        Err(super::Refusal { number: 28, place }) => {\n"
     "            let mut other = package.to_vec();\n"
     "            let place = place as usize;\n"
     "            other[place..place.next_multiple_of(8).min(package.len())].fill(0);\n"
     "            return meets(&other, name, version);\n        }\n        other => other?,\n    };\n"
     "    let requirement = opened.header.requirement(name);\n"),
    ("number 26", CHECK_25, CHECK_25.replace("25", "26")),
    ("25's place 1", CHECK_25, CHECK_25.replace(", 0)", ", 1)")),
    ("25's place 1049", CHECK_25, CHECK_25.replace(", 0)", ", 1049)")),
    ("no for a name that is not there", CHECK_25, ""),
    ("yes for a name that is not there", CHECK_25, "    if requirement.is_none() {\n        return Ok(true);\n    }\n"),
    ("no for a name with a zero byte", CHECK_25, "    if name.contains(&0) {\n        return Ok(false);\n    }\n" + CHECK_25),
    ("yes and no exchanged", PLACE, PLACE.replace("from(yes)", "from(!yes)")),
    ("yes is 2", PLACE, PLACE.replace("u64::from(yes)", "2 * u64::from(yes)")),
    ("no is 25", PLACE, "        Ok(false) => 25 << 32,\n        Ok(true) => 1,\n"),
    ("reads behind the package", *asked_first(
        "std::hint::black_box(unsafe { package.as_ptr().add(package.len()).read_volatile() });")),
    ("reads behind the name", *asked_first(
        "std::hint::black_box(unsafe { name.as_ptr().add(name.len()).read_volatile() });")),
    ("reads behind the version", *asked_first(
        "std::hint::black_box(unsafe { version.as_ptr().add(version.len()).read_volatile() });")),
    ("writes into the package", *asked_first(
        "if !package.is_empty() {\n        unsafe { package.as_ptr().cast_mut().write_volatile(package[0]) };\n    }")),
    ("writes into the name", *asked_first(
        "if !name.is_empty() {\n        unsafe { name.as_ptr().cast_mut().write_volatile(name[0]) };\n    }")),
    ("writes into the version", *asked_first(
        "if !version.is_empty() {\n        unsafe { version.as_ptr().cast_mut().write_volatile(version[0]) };\n    }")),
]

FAULTS = [("version", *fault) for fault in VERSION] + [("requirement", *fault) for fault in REQUIREMENT]
