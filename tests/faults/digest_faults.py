"""Faults in digest.rs, the digest and its call, and in check 27 of reading.rs."""

# As in package_faults.py; "digest" is the call and what it computes.
TEXTS = "    contents::check_texts(&header)?;\n\n"
GROUPS = "    contents::check_groups(&opened)?;\n"
STATED = '    let stated = signature.data(signature.tagged(1004).expect("check 14 passed"));\n'
CHECK_27 = "    check(27, stated == md5(&package[opened.header_start..]), 1004)?;\n"
DIGEST = STATED + CHECK_27
SIZE = (
    "    let size = number(&signature, 1000) as usize;\n"
    "    check(16, size == package.len() - opened.header_start, 1000)?;\n\n    // Checks 17 and 18.\n"
)
BOOK = (
    '\n    let book = header.data(header.tagged(BOOK).expect("check 14 passed"));\n'
    "    check(19, book.len() <= MAX_BOOK, BOOK as usize)?;\n"
)
RECORDS = "\n    // Checks 20 to 22.\n    let doses = book::doses(edition, book)?;\n"
WEIGHT = (
    "\n    if edition >= 2 {\n"
    "        let right = book::sum(&doses) == u64::from(number(&header, BATCH_WEIGHT));\n"
    "        check(23, right, BATCH_WEIGHT as usize)?;\n    }\n"
)
ROOM = "    let needed = 3 * doses.len();\n    check(24, room >= needed, needed)?;\n"

EQUAL = "stated == md5(&package[opened.header_start..])"


def of(part):
    """Check 27 on the digest of another part."""
    return EQUAL, f"stated == md5(&{part})"


def equal(test):
    """Check 27 with another test of `stated` and `right`."""
    return CHECK_27, (
        "    let right = md5(&package[opened.header_start..]);\n"
        f"    check(27, {test}, 1004)?;\n"
    )


CHECK_34 = "    check(34, buffer.len() >= DIGEST_SIZE, DIGEST_SIZE)?;\n"
WRITE = "    buffer[..DIGEST_SIZE].copy_from_slice(&md5(message));\n"
BITS = "    let bits = (length as u64).wrapping_mul(8);\n"
PADDING = "    last.push(0x80);\n"
LAST = "    last.extend(bits.to_le_bytes());\n"
BLOCKS = "    for block in blocks.chain("
STEP = "[d, b.wrapping_add(rotated), b, c]"
ADDED = "        *register = register.wrapping_add(next);\n"


def round_of(number, function, other):
    """A round with another function."""
    text = f"    next = round({number}, {function}, next, &words);\n"
    return text, text.replace(f", {function},", f", {other},")


FAULTS = [
    (27, "not tested", CHECK_27, ""),
    (27, "from the lead on", *of("package")),
    (27, "from the signature on", *of("package[96..]")),
    (27, "from the signature's end on", *of("package[signature.end()..]")),
    (27, "from the index on", *of("package[opened.header_start + 16..]")),
    (27, "from the header's store on", *of("package[header.store_place..]")),
    (27, "payload alone", *of("package[opened.payload..]")),
    (27, "without the payload", *of("package[opened.header_start..opened.payload]")),
    (27, "last byte not digested", *of("package[opened.header_start..package.len() - 1]")),
    (27, "first byte not digested", *of("package[opened.header_start + 1..]")),
    (27, "first 4,096 bytes", *of("package[opened.header_start..package.len().min(4096)]")),
    (27, "first 65,000 bytes", *of("package[opened.header_start..package.len().min(65_000)]")),
    (27, "whole blocks only",
     *of("package[opened.header_start..package.len() - (package.len() - opened.header_start) % 64]")),
    (27, "gap counted in", *of("package[opened.header_start - (signature.end() % 8 != 0) as usize..]")),
    (27, "padded to 8",
     *of("[&package[opened.header_start..], &[0; 8][..(8 - package.len() % 8) % 8]].concat()")),
    (27, "first 15 bytes compared", *equal("stated[..15] == right[..15]")),
    (27, "last 15 bytes compared", *equal("stated[1..] == right[1..]")),
    (27, "first 8 bytes compared", *equal("stated[..8] == right[..8]")),
    (27, "first word compared", *equal("stated[..4] == right[..4]")),
    (27, "byte 7 not compared", *equal("stated[..7] == right[..7] && stated[8..] == right[8..]")),
    (27, "one equal byte suffices", *equal("stated.iter().zip(right).any(|(&one, other)| one == other)")),
    (27, "highest bits not compared",
     *equal("stated.iter().zip(right).all(|(&one, other)| one & 0x7F == other & 0x7F)")),
    (27, "sums compared",
     *equal("stated.iter().map(|&b| b as u32).sum::<u32>() == right.iter().map(|&b| b as u32).sum::<u32>()")),
    (27, "one wrong byte allowed",
     *equal("stated.iter().zip(right).filter(|(&one, other)| one != *other).count() <= 1")),
    (27, "bytes in reverse", *equal("stated.iter().rev().eq(&right)")),
    (27, "words in reverse",
     *equal("stated.chunks(4).rev().flatten().eq(&right)")),
    (27, "capital letters as small ones", *equal("stated == right || stated.to_ascii_lowercase() == right")),
    (27, "zeros accepted", *equal("stated == right || stated == [0; 16]")),
    (27, "FF accepted", *equal("stated == right || stated == [0xFF; 16]")),
    (27, "1004 of the header",
     STATED, STATED.replace("signature.", "header.")),
    (27, "1002 in its place", STATED,
     '    let stated = signature.data(signature.tagged(1002).or(signature.tagged(1004)).expect("check 14 passed"));\n'),
    (27, "place 0", CHECK_27, CHECK_27.replace(", 1004)", ", 0)")),
    (27, "place 1000", CHECK_27, CHECK_27.replace(", 1004)", ", 1000)")),
    (27, "place H", CHECK_27, CHECK_27.replace(", 1004)", ", opened.header_start)")),
    (27, "number 16", CHECK_27, CHECK_27.replace("check(27", "check(16")),
    (27, "number 28", CHECK_27, CHECK_27.replace("check(27", "check(28")),
    (27, "before 16", SIZE + GROUPS + TEXTS + DIGEST, DIGEST + SIZE + GROUPS + TEXTS),
    (27, "before 17", GROUPS + TEXTS + DIGEST, DIGEST + GROUPS + TEXTS),
    (27, "before 18", TEXTS + DIGEST, DIGEST + TEXTS),
    (27, "after 19", DIGEST + BOOK, BOOK + DIGEST),
    (27, "after 22", DIGEST + BOOK + RECORDS, BOOK + RECORDS + DIGEST),
    (27, "after 23", DIGEST + BOOK + RECORDS + WEIGHT, BOOK + RECORDS + WEIGHT + DIGEST),
    (27, "after 24", DIGEST + BOOK + RECORDS + WEIGHT + ROOM, BOOK + RECORDS + WEIGHT + ROOM + DIGEST),
    (27, "from edition 2 on", CHECK_27, CHECK_27.replace("check(27, ", "check(27, edition == 1 || ")),
    (27, "in edition 1 only", CHECK_27, CHECK_27.replace("check(27, ", "check(27, edition >= 2 || ")),
    (27, "not without a payload", CHECK_27,
     CHECK_27.replace("check(27, ", "check(27, opened.payload == package.len() || ")),
    (27, "only without a payload", CHECK_27,
     CHECK_27.replace("check(27, ", "check(27, opened.payload < package.len() || ")),
    (27, "not for large packages", CHECK_27,
     CHECK_27.replace("check(27, ", "check(27, package.len() > 60_000 || ")),

    ("digest", "length in bytes", BITS, BITS.replace(".wrapping_mul(8)", "")),
    ("digest", "length of 32 bits", BITS, BITS.replace("length as u64", "length as u32").replace(
        ".wrapping_mul(8)", ".wrapping_mul(8) as u64")),
    ("digest", "length of 16 bits", BITS, BITS.replace("length as u64", "length as u16").replace(
        ".wrapping_mul(8)", ".wrapping_mul(8) as u64")),
    ("digest", "length of the rest", BITS, BITS.replace("length as", "rest.len() as")),
    ("digest", "length with the padding", BITS, BITS.replace("length as", "(length + last.len() - rest.len()) as")),
    ("digest", "length big-endian", LAST, LAST.replace("to_le", "to_be")),
    ("digest", "length's words exchanged", LAST, LAST.replace("bits.", "bits.rotate_left(32).")),
    ("digest", "padding of another bit", PADDING, PADDING.replace("0x80", "0x01")),
    ("digest", "padding of zeros", PADDING, PADDING.replace("0x80", "0")),
    ("digest", "no padding of 56 bytes", PADDING,
     "    if rest.len() != 56 {\n        last.push(0x80);\n    }\n"),
    ("digest", "56 to 63 bytes in one block", BITS, BITS + "    last.truncate(56);\n"),
    ("digest", "55 bytes in two blocks", BITS,
     BITS + "    if rest.len() == 55 {\n        last.resize(120, 0);\n    }\n"),
    ("digest", "no block behind whole blocks", PADDING,
     "    if rest.is_empty() && length > 0 {\n        return last;\n    }\n" + PADDING),
    ("digest", "first block left out", BLOCKS, BLOCKS.replace("blocks.", "blocks.skip(1).")),
    ("digest", "1,024 blocks at most", BLOCKS, BLOCKS.replace("blocks.", "blocks.take(1024).")),
    ("digest", "every second block", BLOCKS, BLOCKS.replace("blocks.", "blocks.step_by(2).")),
    ("digest", "first constant changed", "0xd76aa478", "0xd76aa479"),
    ("digest", "last constant changed", "0xeb86d391", "0xeb86d390"),
    ("digest", "a constant's highest bit", "0x04881d05", "0x84881d05"),
    ("digest", "a constant of the second round", "0x02441453", "0x02441454"),
    ("digest", "two constants exchanged", "0xfffa3942, 0x8771f681", "0x8771f681, 0xfffa3942"),
    ("digest", "constants of the second round again", "T[16 * number + step]",
     "T[16 * number.min(2) + step]"),
    ("digest", "first two rounds exchanged", "    next = round(0, f, next, &words);\n    next = round(1, g, next, &words);\n",
     "    next = round(1, g, next, &words);\n    next = round(0, f, next, &words);\n"),
    ("digest", "last two rounds exchanged", "    next = round(2, h, next, &words);\n    next = round(3, i, next, &words);\n",
     "    next = round(3, i, next, &words);\n    next = round(2, h, next, &words);\n"),
    ("digest", "three rounds", "    next = round(3, i, next, &words);\n", ""),
    ("digest", "F in the second round", *round_of(1, "g", "f")),
    ("digest", "H in the fourth round", *round_of(3, "i", "h")),
    ("digest", "F with or", "(x & y) | (!x & z)", "(x & y) | (x & z)"),
    ("digest", "G's complement elsewhere", "(x & z) | (y & !z)", "(x & !z) | (y & z)"),
    ("digest", "H without z", "x ^ y ^ z", "x ^ y"),
    ("digest", "I with and", "y ^ (x | !z)", "y ^ (x & !z)"),
    ("digest", "a shift of the first round", "[7, 12, 17, 22]", "[7, 12, 17, 21]"),
    ("digest", "a shift of the last round", "[6, 10, 15, 21]", "[6, 10, 15, 22]"),
    ("digest", "shifts of two rounds exchanged", "    [5, 9, 14, 20],\n    [4, 11, 16, 23],\n",
     "    [4, 11, 16, 23],\n    [5, 9, 14, 20],\n"),
    ("digest", "rotated right", "sum.rotate_left(", "sum.rotate_right("),
    ("digest", "shifted, not rotated", "sum.rotate_left(SHIFTS[number][step % 4])", "(sum << SHIFTS[number][step % 4])"),
    ("digest", "words of the second round", "(1, 5)", "(0, 5)"),
    ("digest", "words of the third round", "(5, 3)", "(5, 7)"),
    ("digest", "words of the fourth round", "(0, 7)", "(0, 5)"),
    ("digest", "registers moved otherwise", STEP, "[b.wrapping_add(rotated), d, b, c]"),
    ("digest", "B not added", STEP, "[d, rotated, b, c]"),
    ("digest", "blocks not added up", ADDED, ADDED.replace("register.wrapping_add(next)", "next")),
    ("digest", "first register not added", ADDED,
     ADDED.replace("register.wrapping_add(next)", "if *register == 0x67452301 { next } else { register.wrapping_add(next) }")),
    ("digest", "words big-endian", "u32::from_le_bytes(four)", "u32::from_be_bytes(four)"),
    ("digest", "digest big-endian", "&register.to_le_bytes()", "&register.to_be_bytes()"),
    ("digest", "registers in reverse", ".zip(registers) {\n        four", ".zip(registers.into_iter().rev()) {\n        four"),
    ("digest", "register A", "0x67452301", "0x67452300"),
    ("digest", "registers B and D exchanged", "0xefcdab89, 0x98badcfe, 0x10325476", "0x10325476, 0x98badcfe, 0xefcdab89"),
    ("digest", "a last zero byte cut off", "    let blocks = message.chunks_exact(BLOCK_SIZE);\n",
     "    let message = message.strip_suffix(&[0]).unwrap_or(message);\n"
     "    let blocks = message.chunks_exact(BLOCK_SIZE);\n"),

    ("digest", "34 not given at 15", CHECK_34, CHECK_34.replace(">= DIGEST_SIZE", ">= 15")
     + "    let mut room = [0; DIGEST_SIZE];\n    let (out, buffer) = (buffer, &mut room[..]);\n"
       "    out.iter_mut().for_each(|byte| *byte = 0);\n"),
    ("digest", "34 given at 16", CHECK_34, CHECK_34.replace(">= DIGEST_SIZE", "> DIGEST_SIZE")),
    ("digest", "34 given above 16", CHECK_34, CHECK_34.replace(">= DIGEST_SIZE", "== DIGEST_SIZE")),
    ("digest", "34 given below 20", CHECK_34, CHECK_34.replace(">= DIGEST_SIZE", "> 19")),
    ("digest", "34 not tested", CHECK_34, ""),
    ("digest", "room of 16 bits", CHECK_34, CHECK_34.replace("buffer.len()", "(buffer.len() & 0xFFFF)")),
    ("digest", "34's place 0", CHECK_34, CHECK_34.replace(", DIGEST_SIZE)", ", 0)")),
    ("digest", "34's place is what lacks", CHECK_34,
     CHECK_34.replace(", DIGEST_SIZE)", ", DIGEST_SIZE.saturating_sub(buffer.len()))")),
    ("digest", "number 33", CHECK_34, CHECK_34.replace("check(34", "check(33")),
    ("digest", "place 0", "        Ok(size) => u64::from(size),\n", "        Ok(_) => 0,\n"),
    ("digest", "place is the message's length",
     "        Ok(size) => u64::from(size),\n", "        Ok(_) => message.len() as u32 as u64,\n"),
    ("digest", "buffer cleared before 34", CHECK_34, "    buffer.fill(0);\n" + CHECK_34),
    ("digest", "what fits is written before 34", CHECK_34,
     "    buffer.iter_mut().zip(md5(message)).for_each(|(byte, other)| *byte = other);\n" + CHECK_34),
    ("digest", "rest of the buffer cleared", WRITE, "    buffer.fill(0);\n" + WRITE),
    ("digest", "a byte behind cleared", WRITE,
     WRITE + "    if let Some(byte) = buffer.get_mut(DIGEST_SIZE) {\n        *byte = 0;\n    }\n"),
    ("digest", "at the buffer's end", WRITE,
     "    let start = buffer.len() - DIGEST_SIZE;\n    buffer[start..].copy_from_slice(&md5(message));\n"),
    ("digest", "nothing written", WRITE, ""),
    ("digest", "15 bytes written", WRITE, "    buffer[..15].copy_from_slice(&md5(message)[..15]);\n"),
    ("digest", "digest of the buffer's rest too", WRITE,
     "    let all = [message, &buffer[DIGEST_SIZE..]].concat();\n" + WRITE.replace("md5(message)", "md5(&all)")),
    ("digest", "reads behind the message", WRITE, WRITE +
     "    std::hint::black_box(unsafe { message.as_ptr().add(message.len()).read_volatile() });\n"),
    ("digest", "writes into the message", WRITE, WRITE +
     "    if !message.is_empty() {\n"
     "        unsafe { message.as_ptr().cast_mut().write_volatile(0) };\n    }\n"),
    ("digest", "writes before the buffer", WRITE,
     WRITE + "    unsafe { buffer.as_mut_ptr().sub(1).write_volatile(0) };\n"),
    ("digest", "writes behind the buffer", WRITE,
     WRITE + "    unsafe { buffer.as_mut_ptr().add(buffer.len()).write_volatile(0) };\n"),
]
