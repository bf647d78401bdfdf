"""Faults in check 28: lib.rs, where it is, and the calls that run it."""

# As in package_faults.py.
GAP = "    check_gap(package, signature.end(), header_start)?;\n"
LOOP = "signature_end..header_start.min(package.len())"
FOR = f"    for place in {LOOP} {{\n"
CHECK_28 = "        check(28, package[place] == 0, place)?;\n"
LENGTH = "header_start - signature_end"
STRAYS = f"({LOOP}).filter(|&place| package[place] != 0)"
SIZE = "    check(2, package.len() <= MAX_PACKAGE, 0)?;\n"
LEAD = "    check_lead(&package[..LEAD_SIZE])?;\n"
SIGNATURE = "    let signature = Structure::read(package, LEAD_SIZE, Part::Signature)?;\n"
HEADER = "    let header = Structure::read(package, header_start, Part::Header)?;\n"
EDITION = "    check(1, (1..=3).contains(&edition), 0)?;\n"
OPENED = "    // Checks 2 to 13 and 28.\n    let opened = sound(package)?;\n"
LOOK_UP = "    let structure = sound(package)?.structure(structure);\n    match"
FOUND = "    let (structure, record) = look_up(package, structure, tag, ty)?;\n"
WHOLE = FOUND + '    let data = record.data(structure.store).expect("check 12 passed");\n'
ELEMENT = FOUND + "    check(26, element < record.count, 0)?;\n"
BUFFER = "            doses.len() as u64\n        }\n        Err(refusal) => refusal.packed(),\n"
# The package with zero bytes in the place of stray ones.
ZEROED = (
    "let mut zeroed = package.to_vec();\n"
    "            let start = stray.place as usize;\n"
    "            let end = start.next_multiple_of(8).min(zeroed.len());\n"
    "            zeroed[start..end].fill(0);\n"
)


def tested(holds):
    """Another test of each byte."""
    return CHECK_28, f"        check(28, {holds}, place)?;\n"


def places(those):
    """Other places that are tested."""
    return LOOP, those


def place(where):
    """Another place."""
    return CHECK_28, f"        check(28, package[place] == 0, {where})?;\n"


def whole(holds):
    """A test of the whole gap, with the right place."""
    return FOR + CHECK_28, (
        f"    let gap = package.get({LOOP}).unwrap_or(&[]);\n"
        f"{FOR}        check(28, package[place] == 0 || ({holds}), place)?;\n"
    )


def after_header(numbers):
    """These of the header's checks go before."""
    return GAP, (
        "    if let Err(refusal) = Structure::read(package, header_start, Part::Header) {\n"
        f"        if matches!(refusal.number, {numbers}) {{\n            return Err(refusal);\n        }}\n    }}\n"
        + GAP
    )


def before_signature(numbers):
    """It goes before these of the signature's checks."""
    return SIGNATURE, (
        "    if let Err(refusal) = Structure::read(package, LEAD_SIZE, Part::Signature) {\n"
        f"        if matches!(refusal.number, {numbers}) {{\n"
        "            let end = 112 + 16 * be32(package, 104) as usize + be32(package, 108) as usize;\n"
        "            check_gap(package, end, end.next_multiple_of(8))?;\n        }\n    }\n" + SIGNATURE
    )


def in_reading(answer):
    """The reading, with its answer where there is a stray byte; `later` is that without it."""
    return OPENED, (
        "    if let Err(stray) = sound(package) {\n        if stray.number == 28 {\n            " + ZEROED
        + "            let later = doses(edition, &zeroed, room);\n"
        f"            return {answer};\n        }}\n    }}\n" + OPENED
    )


def after_contents(numbers):
    """These checks of the contents go before."""
    return in_reading(
        f"match later {{ Err(other) if matches!(other.number, {numbers}) => Err(other), _ => Err(stray) }}")


def not_where(text, condition):
    """A look-up that doesn't test where this holds."""
    return text, (
        "    let package: &[u8] = match sound(package) {\n"
        f"        Err(stray) if stray.number == 28 && ({condition}) => {{\n            " + ZEROED
        + "            Box::leak(zeroed.into_boxed_slice())\n        }\n        _ => package,\n    };\n" + text
    )


def to_buffer(change):
    """A refusal that changes the dose buffer."""
    return BUFFER, BUFFER.replace("refusal.packed(),", (
        f"{{\n            if refusal.number == 28 {{\n                {change};\n            }}\n"
        "            refusal.packed()\n        }"))


def more(text, test):
    """Another test besides."""
    return text, text + test


FAULTS = [
    (28, "not tested", *tested("true || place == 0")),
    (28, "last byte not tested", *places("signature_end..(header_start - 1).min(package.len())")),
    (28, "first byte not tested", *places("signature_end + 1..header_start.min(package.len())")),
    (28, "first byte only", *places("signature_end..header_start.min(signature_end + 1).min(package.len())")),
    (28, "last byte only", *places("signature_end.max(header_start - 1)..header_start.min(package.len())")),
    (28, "first and last byte only", *tested(
        "package[place] == 0 || place != signature_end && place + 1 != header_start")),
    *[(28, f"byte {n} not tested", *tested(f"package[place] == 0 || place - signature_end == {n}"))
      for n in range(1, 7)],
    *[(28, f"byte {n} from H not tested", *tested(f"package[place] == 0 || header_start - place == {n}"))
      for n in range(2, 8)],
    *[(28, f"gap of {n} not tested", *tested(f"package[place] == 0 || {LENGTH} == {n}")) for n in range(1, 8)],
    (28, "gaps of up to 3 only", *tested(f"package[place] == 0 || {LENGTH} > 3")),
    (28, "gaps of 4 only", *tested(f"package[place] == 0 || {LENGTH} != 4")),
    (28, "four bytes before H only", *places("signature_end.max(header_start - 4)..header_start.min(package.len())")),
    (28, "to a multiple of 4 only", *places("signature_end..signature_end.next_multiple_of(4).min(package.len())")),
    (28, "to a multiple of 16", *places("signature_end..signature_end.next_multiple_of(16).min(package.len())")),
    (28, "eight bytes where there is no gap",
     *places("signature_end..(signature_end + 1).next_multiple_of(8).min(package.len())")),
    (28, "byte behind the gap too", *places("signature_end..(header_start + 1).min(package.len())")),
    (28, "magic's first byte too", *more(
        GAP, "    check(28, package.get(header_start).map_or(true, |&byte| byte == 0x8E), header_start)?;\n")),
    (28, "for a wrong magic behind a gap", *more(
        GAP, "    let magic = package.get(header_start..header_start + 4).unwrap_or(&[0x8E, 0xAD, 0xE8, 1]);\n"
        "    let gap = header_start > signature.end();\n"
        "    check(28, !gap || magic == [0x8E, 0xAD, 0xE8, 1], header_start)?;\n")),
    (28, "byte before the gap too", *places("signature_end - 1..header_start.min(package.len())")),
    (28, "byte before the gap too, where there is a gap",
     *places("signature_end - usize::from(header_start > signature_end)..header_start.min(package.len())")),
    (28, "store's alignment before the header", *more(
        GAP, "    let ends = signature.records().filter_map(|one| one.data(signature.store)).map(|data| data.end);\n"
        "    let slack = signature.store_place + ends.max().unwrap_or(0);\n"
        "    check_gap(package, slack, signature.end())?;\n")),
    (28, "padding behind the header too", *more(
        HEADER, "    check_gap(package, header.end(), header.end().next_multiple_of(8))?;\n")),
    (28, "lead's last bytes too", *more(SIGNATURE, "    check_gap(package, 80, LEAD_SIZE)?;\n")),

    (28, "place in the gap", *place("place - signature_end")),
    (28, "place in the structure", *place("place - LEAD_SIZE")),
    (28, "place of the gap", *place("signature_end")),
    (28, "place H", *place("header_start")),
    (28, "place H - 1", *place("header_start - 1")),
    (28, "place of the byte behind", *place("place + 1")),
    (28, "place of the byte before", *place("place - 1")),
    (28, "place of the last stray byte", *place(f"{STRAYS}.last().unwrap_or(place)")),
    (28, "place from H", *place("header_start - place")),
    (28, "place of 8 bits", *place("place % 256")),
    (28, "place of 15 bits", *place("place % 32_768")),
    (28, "place 0", *place("0")),
    (28, "place is the byte", *place("usize::from(package[place])")),
    (28, "place is the package's length", *place("package.len()")),
    (28, "place is how many there are", *place(f"{STRAYS}.count()")),
    (28, "place at a multiple of 4", *place("place / 4 * 4")),
    *[(28, f"number {n}", CHECK_28, CHECK_28.replace("28", str(n))) for n in (0, 4, 5, 6, 8, 12, 13, 16, 27, 29)],

    (28, "only FF is seen", *tested("package[place] != 0xFF")),
    (28, "only bytes from 80 on are seen", *tested("package[place] < 0x80")),
    (28, "only bytes below 80 are seen", *tested("package[place] % 0x80 == 0")),
    (28, "1 allowed", *tested("package[place] <= 1")),
    (28, "FF allowed", *tested("matches!(package[place], 0 | 0xFF)")),
    (28, "space allowed", *tested("matches!(package[place], 0 | 0x20)")),
    (28, "8E allowed", *tested("matches!(package[place], 0 | 0x8E)")),
    *[(28, f"bit {n} not seen", *tested(f"package[place] & !(1 << {n}) == 0")) for n in range(8)],
    (28, "odd places only", *tested("package[place] == 0 || place % 2 == 0")),
    (28, "even places only", *tested("package[place] == 0 || place % 2 == 1")),
    (28, "sum zero in 8 bits allowed", *whole("gap.iter().fold(0u8, |sum, &byte| sum.wrapping_add(byte)) == 0")),
    (28, "even parity allowed", *whole("gap.iter().fold(0, |sum, &byte| sum ^ byte) == 0")),
    (28, "bytes that are all alike allowed", *whole("gap.iter().all(|&byte| byte == gap[0])")),
    (28, "bytes that are all alike allowed, from two on", *whole(
        "gap.len() > 1 && gap.iter().all(|&byte| byte == gap[0])")),
    (28, "one stray byte allowed", *whole("gap.iter().filter(|&&byte| byte != 0).count() == 1")),
    (28, "two stray bytes allowed", *whole("gap.iter().filter(|&&byte| byte != 0).count() == 2")),
    (28, "gap without a zero byte allowed", *whole("!gap.contains(&0)")),
    (28, "zero as the first byte trusted", *whole("gap[0] == 0")),
    (28, "zero as the last byte trusted", *whole("gap.last() == Some(&0)")),
    (28, "zero as the last byte trusted in a whole gap", *whole(f"gap.len() == {LENGTH} && gap.last() == Some(&0)")),
    (28, "second byte of two alike allowed", *tested("package[place] == 0 || package[place] == package[place - 1]")),

    (28, "cut gap not tested", *places("signature_end..if header_start <= package.len() { header_start } else { 0 }")),
    (28, "gap at the package's end not tested",
     *places("signature_end..if header_start < package.len() { header_start } else { 0 }")),
    (28, "last byte of a package not tested", *places("signature_end..header_start.min(package.len() - 1)")),
    (28, "last byte of a cut gap only", *tested(
        "package[place] == 0 || header_start > package.len() && place + 1 != package.len()")),
    (28, "first byte of a cut gap only", *tested(
        "package[place] == 0 || header_start > package.len() && place != signature_end")),
    (28, "where the gap is cut off", FOR, "    check(28, header_start <= package.len(), package.len())?;\n" + FOR),
    (28, "where the gap is cut off, at H", FOR, "    check(28, header_start <= package.len(), header_start)?;\n" + FOR),
    (28, "where nothing follows the signature", FOR,
     f"    check(28, {LENGTH} == 0 || signature_end < package.len(), signature_end)?;\n" + FOR),
    (28, "where there is no header record", FOR,
     "    check(28, header_start + 16 <= package.len(), package.len())?;\n" + FOR),
    (28, "5 first in a cut gap", FOR, "    check(5, header_start <= package.len(), header_start)?;\n" + FOR),
    (28, "5 first at the package's end", FOR, "    check(5, header_start < package.len(), header_start)?;\n" + FOR),
    (28, "5 for a stray byte in a cut gap", CHECK_28,
     "        check(5, header_start <= package.len() || package[place] == 0, header_start)?;\n" + CHECK_28),
    (28, "reads behind a cut gap", FOR + CHECK_28,
     "    for place in signature_end..header_start {\n"
     "        check(28, unsafe { std::ptr::read_volatile(package.as_ptr().add(place)) } == 0, place)?;\n"),
    (28, "stray bytes are zeroed", CHECK_28,
     "        if package[place] != 0 {\n"
     "            unsafe { std::ptr::write_volatile(package.as_ptr().add(place).cast_mut(), 0) };\n        }\n"),
    (28, "not in packages of over 4,096 bytes", *tested("package[place] == 0 || package.len() > 4096")),
    (28, "not in the largest package", *tested("package[place] == 0 || package.len() == MAX_PACKAGE")),
    (28, "not from 65,528 on", *tested("package[place] == 0 || place > 65_528")),
    (28, "not behind one record", *tested("package[place] == 0 || be32(package, 104) == 1")),
    (28, "not behind 512 records", *tested("package[place] == 0 || be32(package, 104) == 512")),

    *[(28, f"after the header's {most}", *after_header(f"5..={most}")) for most in range(5, 14)],
    *[(28, f"after the header's {only} alone", *after_header(only)) for only in (6, 7, 8, 9, 10, 11, 12, 13)],
    *[(28, f"before the signature's {least}", *before_signature(f"{least}..=13"))
      for least in (13, 12, 11, 10, 9, 7, 6)],
    (28, "before 4", LEAD,
     "    if let Err(refusal) = check_lead(&package[..LEAD_SIZE]) {\n"
     "        let mut other = package.to_vec();\n"
     "        other[..LEAD_SIZE].fill(0);\n"
     "        other[..5].copy_from_slice(&[0xED, 0xAB, 0xEE, 0xDB, 3]);\n"
     "        other[76..80].copy_from_slice(&[0, 1, 0, 5]);\n"
     "        let stray = sound(&other).err().filter(|stray| stray.number == 28);\n"
     "        return Err(stray.unwrap_or(refusal));\n    }\n"),
    (28, "before 2", SIZE,
     "    if package.len() > MAX_PACKAGE {\n"
     "        let stray = sound(&package[..MAX_PACKAGE]).err().filter(|stray| stray.number == 28);\n"
     "        stray.map_or(Ok(()), Err)?;\n    }\n" + SIZE),
    (28, "before 1", EDITION,
     "    sound(package).err().filter(|stray| stray.number == 28).map_or(Ok(()), Err)?;\n" + EDITION),

    (28, "after 14", *after_contents("14")),
    (28, "after 15", *after_contents("14 | 15")),
    (28, "after 15 alone", *after_contents("15")),
    (28, "after 16", *after_contents("16")),
    (28, "after 17", *after_contents("17")),
    (28, "after 18", *after_contents("18")),
    (28, "after 27", *after_contents("27")),
    (28, "after 19", *after_contents("19")),
    (28, "after 20", *after_contents("20")),
    (28, "after 21", *after_contents("21")),
    (28, "after 22", *after_contents("22")),
    (28, "after 23", *after_contents("23")),
    (28, "after 24", *after_contents("24")),
    (28, "not in the reading", *in_reading("later")),
    (28, "accepted where all else is right", *in_reading("later.map_err(|_| stray)")),
    (28, "not at edition 1", *in_reading("if edition == 1 { later } else { Err(stray) }")),
    (28, "not at edition 2", *in_reading("if edition == 2 { later } else { Err(stray) }")),
    (28, "16 for a stray byte", *in_reading("check(16, later.is_err(), 1000).and(Err(stray))")),
    (28, "27 for a stray byte", *in_reading("check(27, later.is_err(), 1004).and(Err(stray))")),
    (28, "not in look-ups", *not_where(LOOK_UP, "true")),
    (28, "not in look-ups of the signature", *not_where(LOOK_UP, "structure == 0")),
    (28, "not in look-ups of the header", *not_where(LOOK_UP, "structure != 0")),
    (28, "not in look-ups of whole entries", *not_where(WHOLE, "true")),
    (28, "not in look-ups of elements", *not_where(ELEMENT, "true")),
    (28, "buffer cleared", *to_buffer("buffer.fill(0)")),
    (28, "a byte of the buffer changed", *to_buffer("buffer.iter_mut().take(1).for_each(|byte| *byte ^= 1)")),
    (28, "buffer's last byte cleared", *to_buffer("buffer.iter_mut().rev().take(1).for_each(|byte| *byte = 0)")),
]
