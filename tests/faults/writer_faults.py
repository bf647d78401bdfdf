"""Faults in the writer: checks 32 to 34, what is written, the buffer."""

# As in package_faults.py. Texts are those of writer.rs.
TYPE = "    check(32, elements(record.ty).is_some(), 0)?;\n"
COUNT = "    check(32, record.count_is_right(part), 0)?;\n"
RIGHT_COUNT = "check(32, record.count_is_right(part)"
STRINGS = "data.ends_with(&[0]) && zeros(data) == count"
REPEATS = "earlier.tag == record.tag"
REPEATED = "            check(32, !self.entries.iter().any(repeats), 0)?;\n"
SEARCH = "            let repeats = |(earlier, _): &(Record, _)| earlier.tag == record.tag;\n" + REPEATED
# All tags of the list, those before with the writer's own, how many of these there are, how many
# of the list rise in front.
TAGS = (
    "            let tags: Vec<u32> = list.entries.chunks_exact(ENTRY_SIZE).map(|one| be32(one, 0)).collect();\n"
    "            let before: Vec<u32> = self.entries.iter().map(|(one, _)| one.tag).collect();\n"
    "            let (tag, own) = (record.tag, nindex - tags.len());\n"
    "            let front = (1..tags.len()).find(|&n| tags[n] <= tags[n - 1]).unwrap_or(tags.len());\n"
    "            let above = before.iter().all(|&one| one < tag);\n"
)
ANY = "before.contains(&tag)"
LIST_LENGTH = "        check(32, list.entries.len() % ENTRY_SIZE == 0, 0)?;\n"
NINDEX = "        let nindex = self.entries.len() + list.entries.len() / ENTRY_SIZE;\n"
RANGE = "        check(32, (1..=MAX_NINDEX).contains(&nindex), 0)?;\n"
SIZE = "            check(32, size <= rest.len(), 0)?;\n"
LEFT_OVER = "        check(32, rest.is_empty(), 0)\n"
NAME = (
    "    check(32, (1..=MAX_NAME).contains(&name.len()), 0)?;\n"
    "    check(32, !name.contains(&0), 0)?;\n"
)
FIRST = "    first.put(SIGSIZE, &size);\n"
SECOND = "    first.put(SIGMD5, &[0; DIGEST_SIZE]);\n"
HEADER_WRITTEN = "    second.write(&mut package[header_start..]);\n"
DIGEST = "    let digest = md5(&package[header_start..]);\n"
SET_DIGEST = "    first.set(SIGMD5.tag, &digest);\n"
SIGNATURE = "    first.put_list(signature, Part::Signature)?;\n"
LAYOUT = (
    "    let mut second = Layout::default();\n"
    "    second.put_list(header, Part::Header)?;\n"
    "    // From H to the end there is the header alone.\n"
    "    let size = (second.size() as u32).to_be_bytes();\n"
    "    let mut first = Layout::default();\n"
    + FIRST + SECOND + SIGNATURE + "\n"
    "    let first_end = LEAD_SIZE + first.size();\n"
    "    let header_start = first_end.next_multiple_of(8);\n"
    "    let length = header_start + second.size();\n"
)
CHECK_33 = "    check(33, length <= MAX_PACKAGE, 0)?;\n"
CHECK_34 = "    check(34, length <= buffer.len(), length)?;\n"
PACKAGE = "    let package = &mut buffer[..length];\n"
ZEROS = "    package.fill(0);\n"
PLACE = "self.hsize.next_multiple_of(align)"
RECORD = "            put_numbers(place, [record.tag, record.ty, record.offset, record.count]);\n"
HEADER_RECORD = "put_numbers(header, [0x8EAD_E801, 0, nindex, self.hsize as u32])"
DATA = "store[record.offset as usize..][..data.len()].copy_from_slice(data);"
END = (
    "    Ok(length as u32)\n}\n\n"
    "/// For C: the answer is number × 2^32 + place.\npub fn write_for_c("
)
SIGSIZE_DATA = (
    "    let at = LEAD_SIZE + 16 + 16 * first.entries.len();\n"
    "    package[at..at + 4].copy_from_slice(&((VALUE) as u32).to_be_bytes());\n"
)


def sigsize(value):
    """1000 holds another number."""
    return SIGSIZE_DATA.replace("VALUE", value) + END


def search(holds, place="0"):
    """Another search for a repeated tag."""
    return TAGS + f"            check(32, {holds}, {place})?;\n"


def flagged(those):
    """A search that is made where one of those before has the tag's lowest 12 bits."""
    return search(f"above || !before.iter().enumerate().any(|(n, &one)| {{ let _ = n; {those} }}) || !{ANY}")


FAULTS = [
    (32, "type not tested", TYPE, ""),
    (32, "type 10 as strings",
     "check(32, elements(record.ty).is_some(), 0)",
     "check(32, elements(record.ty).is_some() || record.ty == 10, 0)"),
    (32, "type of 8 bits", "ty: be32(numbers, 4),\n                offset: 0",
     "ty: be32(numbers, 4) & 255,\n                offset: 0"),
    (32, "count not tested", COUNT, ""),
    (32, "count 0 allowed", RIGHT_COUNT, RIGHT_COUNT + " || record.count == 0"),
    (32, "count 2 for type 6", RIGHT_COUNT, RIGHT_COUNT + " || record.ty == 6"),
    (32, "type 9 of any count in the signature",
     RIGHT_COUNT, RIGHT_COUNT + " || record.ty == 9 && record.count > 0"),
    (32, "type 9 of none", COUNT,
     "    if record.ty == 9 && record.count == 0 && data.is_empty() {\n        return Ok(());\n    }\n" + COUNT),
    (32, "type 9 held to 1 in the header",
     RIGHT_COUNT, RIGHT_COUNT + " && (record.ty != 9 || record.count == 1)"),
    (32, "type 9 refused in the signature",
     RIGHT_COUNT, RIGHT_COUNT + " && (record.ty, part) != (9, Part::Signature)"),
    (32, "signature's list as the header's",
     "put_list(signature, Part::Signature)", "put_list(signature, Part::Header)"),
    (32, "header's list as the signature's",
     "put_list(header, Part::Header)", "put_list(header, Part::Signature)"),
    (32, "type 9 not counted", STRINGS, "data.ends_with(&[0]) && (zeros(data) == count || record.ty == 9)"),
    (32, "more strings than locales refused", REPEATED, REPEATED +
     "            let locales = self.entries.iter().find(|(one, _)| one.tag == 100);\n"
     "            let locales = locales.map_or(u32::MAX, |(one, _)| one.count);\n"
     "            check(32, record.ty != 9 || record.count <= locales, 0)?;\n"),
    (32, "several strings without locales refused", LEFT_OVER,
     "        let has_locales = self.entries.iter().any(|(one, _)| one.tag == 100);\n"
     "        let several = self.entries.iter().any(|(one, _)| one.ty == 9 && one.count > 1);\n"
     "        check(32, has_locales || !several, 0)?;\n" + LEFT_OVER),
    (32, "type 8 held to 1",
     RIGHT_COUNT, RIGHT_COUNT + " && (record.ty != 8 || record.count == 1)"),
    (32, "data not tested", "    check(32, right, 0)\n", "    check(32, right || true, 0)\n"),
    (32, "numbers' size not tested", "data.len() == size * count", "true"),
    (32, "more numbers accepted", "data.len() == size * count", "data.len() >= size * count"),
    (32, "fewer numbers accepted", "data.len() == size * count", "data.len() <= size * count"),
    (32, "numbers of one byte", "data.len() == size * count", "data.len() == count"),
    (32, "part of a number accepted", "data.len() == size * count", "data.len() / size == count"),
    (32, "product in 32 bits", "data.len() == size * count",
     "data.len() == (size as u32).wrapping_mul(count as u32) as usize"),
    (32, "last zero not asked",
     STRINGS, "zeros(data) + usize::from(!data.ends_with(&[0])) == count"),
    (32, "bytes behind the last zero", STRINGS, "zeros(data) == count"),
    (32, "strings not counted", STRINGS, "data.ends_with(&[0])"),
    (32, "more strings accepted", STRINGS, "data.ends_with(&[0]) && zeros(data) >= count"),
    (32, "fewer strings accepted", STRINGS, "data.ends_with(&[0]) && zeros(data) <= count"),
    (32, "strings counted in 16 bits",
     STRINGS, "data.ends_with(&[0]) && zeros(data) as u16 == count as u16"),
    (32, "empty strings refused", STRINGS, STRINGS + " && data[0] != 0"),
    (32, "repeated tag accepted", REPEATED, REPEATED.replace("!self", "true || !self")),
    (32, "only the entry before", "self.entries.iter().any(repeats)",
     "self.entries.iter().rev().take(1).any(repeats)"),
    (32, "first entry missed",
     "self.entries.iter().any(repeats)", "self.entries.iter().skip(1).any(repeats)"),
    (32, "caller's 1000 accepted", REPEATS, REPEATS + " && record.tag != 1000"),
    (32, "caller's 1004 accepted", REPEATS, REPEATS + " && record.tag != 1004"),
    (32, "caller's 1004 accepted with a right digest's size", REPEATS,
     REPEATS + " && (record.tag, record.ty, record.count) != (1004, 7, 16)"),
    (32, "caller's 1004 accepted as another type", REPEATS,
     REPEATS + " && (record.tag != 1004 || record.ty == 7)"),
    (32, "caller's 1000 and 1004 accepted", REPEATS,
     REPEATS + " && !matches!(record.tag, 1000 | 1004)"),
    (32, "1004 refused in the header",
     REPEATED, REPEATED.replace("!self", "record.tag != 1004 && !self")),
    (32, "1004 not counted", NINDEX,
     NINDEX.replace("self.entries.len() +", "self.entries.len().min(1) +")),
    (32, "511 of the caller's allowed", RANGE, RANGE.replace("MAX_NINDEX", "MAX_NINDEX + self.entries.len() / 2")),
    (32, "510 of the caller's refused", RANGE, RANGE.replace("MAX_NINDEX", "MAX_NINDEX - self.entries.len() / 2")),
    (32, "same type as well", REPEATS, REPEATS + " && earlier.ty == record.ty"),
    (32, "tags must rise", REPEATS, "earlier.tag >= record.tag"),
    (32, "tags of 16 bits", REPEATS, "earlier.tag as u16 == record.tag as u16"),
    (32, "1000 refused in the header",
     REPEATED, REPEATED.replace("!self", "record.tag != 1000 && !self")),
    (32, "rise of the first two tags trusted", SEARCH,
     search(f"tags.len() > 1 && tags[0] < tags[1] || !{ANY}")),
    (32, "last tag above the first trusted", SEARCH, search(f"tags[0] < tags[tags.len() - 1] || !{ANY}")),
    (32, "rise over the entry before trusted", SEARCH,
     search(f"before.last().is_some_and(|&last| last < tag) || !{ANY}")),
    (32, "rise without the writer's own trusted", SEARCH,
     search(f"before[own..].iter().all(|&one| one < tag) || !{ANY}")),
    (32, "only the highest before", SEARCH, search("before.iter().max() != Some(&tag)")),
    (32, "highest of 16 bits", SEARCH, search(f"before.iter().all(|&one| one & 0xFFFF < tag) || !{ANY}")),
    (32, "last entry not tested", SEARCH, search(f"before.len() + 1 == nindex || !{ANY}")),
    (32, "last of 512 not tested", SEARCH, search(f"before.len() == 511 || !{ANY}")),
    (32, "even distances only", SEARCH, search("!before.iter().rev().skip(1).step_by(2).any(|&one| one == tag)")),
    (32, "odd distances only", SEARCH, search("!before.iter().rev().step_by(2).any(|&one| one == tag)")),
    (32, "only within 256 entries", SEARCH, search("!before.iter().rev().take(256).any(|&one| one == tag)")),
    (32, "only within 510 entries", SEARCH, search("!before.iter().rev().take(510).any(|&one| one == tag)")),
    (32, "caller's 1000 as the last of 510 accepted", SEARCH,
     search(f"(before.len(), tag, own) == (511, 1000, 2) || !{ANY}")),
    (32, "equal neighbours allowed", SEARCH, search("!before.iter().rev().skip(1).any(|&one| one == tag)")),
    (32, "caller's own behind 1004 accepted", SEARCH,
     search(f"own > 0 && before.len() == own && matches!(tag, 1000 | 1004) || !{ANY}")),
    (32, "caller's own tested at the first entry only", SEARCH,
     search(f"own > 0 && before.len() > own && matches!(tag, 1000 | 1004) || !{ANY}")),
    (32, "lowest 8 bits compared", SEARCH, search("!before.iter().any(|&one| one as u8 == tag as u8)")),
    (32, "lowest 12 bits compared", SEARCH, search("!before.iter().any(|&one| (one ^ tag) & 0xFFF == 0)")),
    (32, "lowest 31 bits compared", SEARCH, search("!before.iter().any(|&one| one << 1 == tag << 1)")),
    (32, "rising front not flagged", SEARCH, flagged("n >= own + front && (one ^ tag) & 0xFFF == 0")),
    (32, "front's last entry not flagged", SEARCH, flagged("n + 1 != own + front && (one ^ tag) & 0xFFF == 0")),
    (32, "flags set by 11 bits", SEARCH, flagged("one & 0x7FF == tag & 0xFFF")),
    (32, "search ends at a higher tag", SEARCH,
     search("!before.iter().take_while(|&&one| one <= tag).any(|&one| one == tag)")),
    (32, "search as if sorted", SEARCH, search("before.binary_search(&tag).is_err()")),
    (32, "first of the same last byte decides", SEARCH,
     search("before.iter().find(|&&one| one as u8 == tag as u8) != Some(&tag)")),
    (32, "last of four not compared", SEARCH,
     search("!before.chunks(4).any(|four| four.iter().take(3).any(|&one| one == tag))")),
    (32, "rest behind the fours not compared", SEARCH,
     search("!before[..before.len() / 4 * 4].contains(&tag)")),
    (32, "tag 0 may repeat", SEARCH, search(f"tag == 0 || !{ANY}")),
    (32, "largest tag may repeat", SEARCH, search(f"tag == u32::MAX || !{ANY}")),
    (32, "repeats not tested in the signature", SEARCH,
     search(f"own > 0 && !matches!(tag, 1000 | 1004) || !{ANY}")),
    (32, "repeats not tested in the header", SEARCH, search(f"own == 0 || !{ANY}")),
    (32, "repeats tested after 33", SEARCH,
     TAGS + f"            check(if list.data.len() < MAX_PACKAGE {{ 32 }} else {{ 33 }}, !{ANY}, 0)?;\n"),
    (32, "place is that of the entry", SEARCH, search(f"!{ANY}", "before.len()")),
    (32, "place is the tag", "any(repeats), 0)", "any(repeats), record.tag as usize)"),
    (32, "range not tested", RANGE, ""),
    (32, "1000 and 1004 not counted", NINDEX,
     "        let nindex = self.entries.len().max(list.entries.len() / ENTRY_SIZE);\n"),
    (32, "1000 and 1004 counted twice",
     NINDEX, NINDEX.replace("self.entries.len()", "2 * self.entries.len()")),
    (32, "513 allowed", RANGE, RANGE.replace("MAX_NINDEX", "513")),
    (32, "512 refused", RANGE, RANGE.replace("MAX_NINDEX", "511")),
    (32, "no entry allowed", RANGE, RANGE.replace("1..=", "0..=")),
    (32, "empty signature list refused",
     RANGE, RANGE.replace("&nindex)", "&nindex) && !list.entries.is_empty()")),
    (32, "list's rest ignored", LIST_LENGTH, ""),
    (32, "list a multiple of 8", LIST_LENGTH, LIST_LENGTH.replace("ENTRY_SIZE", "8")),
    (32, "size cut to the data", SIZE, "            let size = size.min(rest.len());\n"),
    (32, "size past the end by one", SIZE,
     "            check(32, size <= rest.len() + 1, 0)?;\n"
     "            let size = size.min(rest.len());\n"),
    (32, "sizes summed in 32 bits", SIZE,
     "            let end = list.data.len() - rest.len() + size;\n"
     "            check(32, end as u32 as usize <= list.data.len(), 0)?;\n"),
    (32, "size of 16 bits",
     "be32(numbers, 12) as usize;\n            check",
     "be32(numbers, 12) as u16 as usize;\n            check"),
    (32, "data left over accepted", LEFT_OVER, "        Ok(())\n"),
    (32, "data of no entry accepted",
     LEFT_OVER, "        check(32, rest.is_empty() || list.entries.is_empty(), 0)\n"),
    (32, "name of 66 bytes", "MAX_NAME: usize = 65", "MAX_NAME: usize = 66"),
    (32, "name of 65 refused", "MAX_NAME: usize = 65", "MAX_NAME: usize = 64"),
    (32, "empty name accepted", "(1..=MAX_NAME)", "(0..=MAX_NAME)"),
    (32, "zero in the name accepted", "    check(32, !name.contains(&0), 0)?;\n", ""),
    (32, "name's last byte not seen", "!name.contains(&0)", "!name[..name.len() - 1].contains(&0)"),
    (32, "name's first byte not seen", "!name.contains(&0)", "!name[1..].contains(&0)"),
    (32, "name's length of 8 bits", "contains(&name.len())", "contains(&(name.len() & 255))"),
    (32, "name after 33", NAME + LAYOUT + CHECK_33, LAYOUT + CHECK_33 + NAME),
    (32, "name after 34", NAME + LAYOUT + CHECK_33 + CHECK_34, LAYOUT + CHECK_33 + CHECK_34 + NAME),
    (32, "signature after 33", SIGNATURE,
     "    check(33, second.size() < MAX_PACKAGE, 0)?;\n" + SIGNATURE),

    (33, "limit one too low", "length <= MAX_PACKAGE", "length < MAX_PACKAGE"),
    (33, "limit one too high", "length <= MAX_PACKAGE", "length <= MAX_PACKAGE + 1"),
    (33, "not tested", CHECK_33, ""),
    (33, "place is the length", "length <= MAX_PACKAGE, 0", "length <= MAX_PACKAGE, length"),
    (33, "after 34", CHECK_33 + CHECK_34, CHECK_34 + CHECK_33),
    (33, "header alone", "length <= MAX_PACKAGE", "second.size() <= MAX_PACKAGE"),
    (33, "number 2", "check(33,", "check(2,"),
    (33, "buffer cleared", CHECK_33, CHECK_33.replace(
        "    check", "    if length > MAX_PACKAGE {\n        buffer.fill(0);\n    }\n    check")),

    (34, "place 0", "length <= buffer.len(), length)", "length <= buffer.len(), 0)"),
    (34, "place is what is missing",
     "length <= buffer.len(), length)",
     "length <= buffer.len(), length.wrapping_sub(buffer.len()))"),
    (34, "one byte more asked",
     "length <= buffer.len(), length)", "length < buffer.len(), length)"),
    (34, "one byte less asked",
     "length <= buffer.len(), length)", "length <= buffer.len() + 1, length)"),
    (34, "lead and signature only",
     "length <= buffer.len(), length)", "header_start <= buffer.len(), length)"),
    (34, "not tested", CHECK_34, ""),
    (34, "first byte written before", CHECK_34,
     "    if let Some(first) = buffer.first_mut() {\n        *first = 0xED;\n    }\n" + CHECK_34),
    (34, "buffer cleared before", CHECK_34, "    buffer.fill(0);\n" + CHECK_34),
    (34, "lead written before", CHECK_34,
     "    if buffer.len() >= LEAD_SIZE {\n        write_lead(&mut buffer[..LEAD_SIZE], name);\n    }\n"
     + CHECK_34),

    ("writer", "1000 holds the whole length", END, sigsize("length")),
    ("writer", "1000 holds the store's size",
     "second.size() as u32).to_be_bytes()", "second.hsize as u32).to_be_bytes()"),
    ("writer", "1000 counts from the signature's end", END, sigsize("length - first_end")),
    ("writer", "1000 is little-endian",
     "second.size() as u32).to_be_bytes()", "second.size() as u32).to_le_bytes()"),
    ("writer", "1000 is bin",
     "ty: INT32,\n    offset: 0,\n    count: 1,", "ty: 7,\n    offset: 0,\n    count: 4,"),
    ("writer", "1000 last", FIRST + SECOND + SIGNATURE, SECOND + SIGNATURE + FIRST),
    ("writer", "1004 before 1000", FIRST + SECOND, SECOND + FIRST),
    ("writer", "1004 last", SECOND + SIGNATURE, SIGNATURE + SECOND),
    ("writer", "1004 left out", SECOND, ""),
    ("writer", "1000 and 1004 last", FIRST + SECOND + SIGNATURE, SIGNATURE + FIRST + SECOND),
    ("writer", "1000 and 1004 left out", FIRST + SECOND, ""),
    ("writer", "1004 of zeros", SET_DIGEST, ""),
    ("writer", "1004 is int8", "ty: BIN,\n    offset: 0,", "ty: 2,\n    offset: 0,"),
    ("writer", "1004 of count 1", "count: DIGEST_SIZE as u32,", "count: 1,"),
    ("writer", "1004 under 1005", "tag: 1004,\n    ty: BIN", "tag: 1005,\n    ty: BIN"),
    ("writer", "digest of the whole package", DIGEST, DIGEST.replace("[header_start..]", "[..]")),
    ("writer", "digest from the signature on", DIGEST, DIGEST.replace("header_start", "LEAD_SIZE")),
    ("writer", "digest from the signature's end on", DIGEST, DIGEST.replace("header_start", "first_end")),
    ("writer", "digest from the index on", DIGEST, DIGEST.replace("header_start", "header_start + 16")),
    ("writer", "digest from the store on", DIGEST,
     DIGEST.replace("header_start", "header_start + 16 + 16 * second.entries.len()")),
    ("writer", "digest without the last byte", DIGEST, DIGEST.replace("..]", "..length - 1]")),
    ("writer", "digest without the store", DIGEST, DIGEST.replace("..]", "..length - second.hsize]")),
    ("writer", "digest before the header is written", HEADER_WRITTEN + DIGEST, DIGEST + HEADER_WRITTEN),
    ("writer", "digest of the whole buffer", DIGEST,
     DIGEST.replace("md5(&package[header_start..])", "{\n        let all = buffer.to_vec();\n"
                    "        md5(&all[header_start..])\n    }") + "    let package = &mut buffer[..length];\n"),
    ("writer", "digest in reverse", SET_DIGEST, "    let digest: Vec<u8> = digest.into_iter().rev().collect();\n" + SET_DIGEST),
    ("writer", "digest's last byte left out", SET_DIGEST, SET_DIGEST.replace("&digest", "&digest[..15]")),
    ("writer", "1000 left out", FIRST, ""),
    ("writer", "not aligned", PLACE, "self.hsize"),
    ("writer", "int32 to 2", PLACE, "self.hsize.next_multiple_of(align.min(2))"),
    ("writer", "int16 not aligned",
     PLACE, "self.hsize.next_multiple_of(align / 2 * align / 2 * align / 4 + 1)"),
    ("writer", "all aligned to 4", PLACE, "self.hsize.next_multiple_of(4)"),
    ("writer", "bin aligned to 2",
     PLACE, "self.hsize.next_multiple_of(if record.ty == 7 { 2 } else { align })"),
    ("writer", "a store's end padded", "self.hsize = place + data.len();",
     "self.hsize = (place + data.len()).next_multiple_of(align);\n"
     "        self.hsize += self.hsize % 2;"),
    ("writer", "hsize counts the gap", HEADER_RECORD, HEADER_RECORD.replace(
        "self.hsize as u32", "self.hsize.next_multiple_of(4) as u32")),
    ("writer", "hsize counts the index", HEADER_RECORD, HEADER_RECORD.replace(
        "self.hsize as u32", "(self.hsize + 16 * self.entries.len()) as u32")),
    ("writer", "nindex without one", "let nindex = self.entries.len() as u32;",
     "let nindex = self.entries.len().max(2) as u32 - 1;"),
    ("writer", "structure's magic", "0x8EAD_E801", "0x8EAD_E800"),
    ("writer", "reserved not zero", "[0x8EAD_E801, 0, nindex", "[0x8EAD_E801, 1, nindex"),
    ("writer", "offset and count swapped", RECORD, RECORD.replace(
        "record.offset, record.count", "record.count, record.offset")),
    ("writer", "count of bytes", RECORD, RECORD.replace("record.count", "data.len() as u32")),
    ("writer", "records in reverse",
     "places.zip(&self.entries)", "places.zip(self.entries.iter().rev())"),
    ("writer", "records by tag", "    second.put_list(header, Part::Header)?;\n",
     "    second.put_list(header, Part::Header)?;\n    second.entries.sort_by_key(|(record, _)| record.tag);\n"),
    ("writer", "data in another order", DATA,
     "let after = store.len() - record.offset as usize - data.len();\n"
     "            store[after..][..data.len()].copy_from_slice(data);"),
    ("writer", "last byte of data left out", DATA,
     "store[record.offset as usize..][..data.len() - 1].copy_from_slice(&data[..data.len() - 1]);"),
    ("writer", "H not rounded up", "first_end.next_multiple_of(8)", "first_end"),
    ("writer", "H a multiple of 4",
     "first_end.next_multiple_of(8)", "first_end.next_multiple_of(4)"),
    ("writer", "always some padding",
     "first_end.next_multiple_of(8)", "(first_end + 1).next_multiple_of(8)"),
    ("writer", "padding after the header", "header_start + second.size();",
     "(header_start + second.size()).next_multiple_of(8);"),
    ("writer", "a byte of payload",
     "header_start + second.size();", "header_start + second.size() + 1;"),
    ("writer", "gap not zeroed", ZEROS,
     "    package[..first_end].fill(0);\n    package[header_start..].fill(0);\n"),
    ("writer", "alignment not zeroed", ZEROS, "    package[..header_start].fill(0);\n"),
    ("writer", "architecture not zeroed", ZEROS,
     "    package[..8].fill(0);\n    package[10..].fill(0);\n"),
    ("writer", "lead's last bytes not zeroed", ZEROS,
     "    package[..80].fill(0);\n    package[LEAD_SIZE..].fill(0);\n"),
    ("writer", "name not filled up", ZEROS,
     "    package[..10].fill(0);\n    package[76..].fill(0);\n"),
    ("writer", "name's last byte not zeroed", ZEROS,
     "    package[..75].fill(0);\n    package[76..].fill(0);\n"),
    ("writer", "nothing zeroed", ZEROS, ""),
    ("writer", "architecture 1", "    lead[76..80]", "    lead[9] = 1;\n    lead[76..80]"),
    ("writer", "system 0", "&[0, 1, 0, 5]", "&[0, 0, 0, 5]"),
    ("writer", "signature type 6", "&[0, 1, 0, 5]", "&[0, 1, 0, 6]"),
    ("writer", "minor 1", "0xDB, 3, 0]", "0xDB, 3, 1]"),
    ("writer", "name at 8", "lead[10..10 + name.len()]", "lead[8..8 + name.len()]"),
    ("writer", "rest of the buffer cleared", PACKAGE + ZEROS, "    buffer.fill(0);\n" + PACKAGE),
    ("writer", "a byte behind cleared", PACKAGE,
     "    if let Some(byte) = buffer.get_mut(length) {\n        *byte = 0;\n    }\n" + PACKAGE),
    ("writer", "place 0", "        Ok(length) => u64::from(length),", "        Ok(_) => 0,"),
    ("writer", "place is H", END, END.replace("Ok(length as", "Ok(header_start as")),
    ("writer", "refuses everything", NAME, "    check(32, false, 0)?;\n" + NAME),
    ("writer", "reads behind the name", NAME,
     "    std::hint::black_box(unsafe { name.as_ptr().add(name.len()).read_volatile() });\n"
     + NAME),
    ("writer", "reads behind a list", LIST_LENGTH, LIST_LENGTH +
     "        let end = unsafe { list.entries.as_ptr().add(list.entries.len()) };\n"
     "        std::hint::black_box(unsafe { end.read_volatile() });\n"),
    ("writer", "reads behind the data", LIST_LENGTH, LIST_LENGTH +
     "        let end = unsafe { list.data.as_ptr().add(list.data.len()) };\n"
     "        std::hint::black_box(unsafe { end.read_volatile() });\n"),
    ("writer", "writes into the name", NAME,
     NAME + "    unsafe { name.as_ptr().cast_mut().write_volatile(b'n') };\n"),
    ("writer", "writes before the buffer", END,
     "    unsafe { buffer.as_mut_ptr().sub(1).write_volatile(0) };\n" + END),
    ("writer", "writes behind the buffer", END,
     "    unsafe { buffer.as_mut_ptr().add(buffer.len()).write_volatile(0) };\n" + END),
]
