"""Faults in the reading: check 1, checks 14 to 24, the dose buffer, demand 3."""

# As in package_faults.py. Texts are those of catalogue.rs, contents.rs, book.rs
# and reading.rs.
LINES = "    catalogue::check_lines(edition, signature, &catalogue::SIGNATURE)?;\n"
HEADER_LINES = "    catalogue::check_lines(edition, header, &catalogue::HEADER)?;\n"
CHECK_1 = "    check(1, (1..=3).contains(&edition), 0)?;\n"
OPENED = "    let opened = sound(package)?;\n    let (signature, header)"
CHECK_16 = "    check(16, size == package.len() - opened.header_start, 1000)?;\n"
SIZE = "    let size = number(&signature, 1000) as usize;\n"
GROUPS = "    contents::check_groups(&opened)?;\n"
TEXTS = "    contents::check_texts(&header)?;\n"
DIGEST = (
    '    let stated = signature.data(signature.tagged(1004).expect("check 14 passed"));\n'
    "    check(27, stated == md5(&package[opened.header_start..]), 1004)?;\n"
)
THE_BOOK = '    let book = header.data(header.tagged(BOOK).expect("check 14 passed"));\n'
CHECK_19 = "    check(19, book.len() <= MAX_BOOK, BOOK as usize)?;\n"
BOOK = "    let doses = book::doses(edition, book)?;\n"
RECORD = "        check(20, !is_weighed(kind) || is_known(kind, edition), place)?;\n"
END = "        check(21, end <= book.len(), place)?;\n"
RANGES = "(1..=999).contains(&self.oxide) && (1..=5_000_000).contains(&self.milligrams)"
CHECK_22 = "            check(22, dose.is_right(), place)?;\n"
RECORDS_END = (
    "            doses.push(dose);\n        }\n        place = end;\n    }\n    Ok(doses)\n"
)
CHECK_23 = "        check(23, right, BATCH_WEIGHT as usize)?;\n"
WEIGHT = (
    "    if edition >= 2 {\n"
    "        let right = book::sum(&doses) == u64::from(number(&header, BATCH_WEIGHT));\n"
    + CHECK_23 + "    }\n"
)
NEEDED = "    let needed = 3 * doses.len();\n"
CHECK_24 = "    check(24, room >= needed, needed)?;\n"
WRITE_C = "                place.copy_from_slice(&number.to_be_bytes());\n"
REFUSED_C = "        Err(refusal) => refusal.packed(),\n    }\n}\n\n/// The program"
COUNT_C = "            doses.len() as u64\n"
NUMBERS = "[u32::from(dose.oxide), dose.milligrams, dose.lot]"
FILES_RIGHT = "let right = !header.has(tag) || header.count(tag) == files;"
NAMES_MISSING = (
    "    for tag in 1116..=1118 {\n        check(17, header.has(tag), tag as usize)?;\n    }\n"
)
NAMES_COUNT = (
    "    for tag in 1116..=1117 {\n"
    "        check(17, header.count(tag) == files, tag as usize)?;\n"
    "    }\n"
)
LED_MISSING = (
    "    for tag in members {\n"
    "        check(17, header.has(tag) || !any, tag as usize)?;\n"
    "    }\n"
)
LED_COUNT = (
    "    for tag in others {\n"
    "        check(17, header.count(tag) == header.count(leader), tag as usize)?;\n"
    "    }\n"
)
LOCALES = "    check_locales(header)\n}\n"
LED_GROUPS = "    for (leader, others) in LED {\n"
IS_TRANSLATED = "record.ty == TRANSLATED_STRING"
TRANSLATED = "header.records().filter(translated)"
ENOUGH = "Some(record.count) <= locales"
CHECK_LOCALES = (
    "    for record in header.records().filter(translated) {\n"
    "        check(17, Some(record.count) <= locales, record.tag as usize)?;\n"
    "    }\n"
)
OVER = "header.records().filter(|one| translated(one) && Some(one.count) > locales)"
SYSTEM_TEXT = '    check(18, is_text(header, 1021, b"linux\\0"), 1021)?;\n'
PROGRAM_TEXTS = (
    "    for tag in 1085..=1088 {\n"
    '        check(18, is_text(header, tag, b"/bin/sh\\0"), tag as usize)?;\n'
    "    }\n"
)
INSIDE = "        check(18, inside, 1116)?;\n"
ENDED = (
    '        let ended = header.strings(names).all(|name| name.ends_with(b"/\\0"));\n'
    "        check(18, ended, 1118)?;\n"
)

FAULTS = [
    (1, "edition 0 allowed", "(1..=3).contains(&edition), 0", "edition <= 3, 0"),
    (1, "edition 4 allowed", "(1..=3).contains(&edition), 0", "(1..=4).contains(&edition), 0"),
    (1, "place is the edition",
     "(1..=3).contains(&edition), 0", "(1..=3).contains(&edition), edition as usize"),
    (1, "edition of 8 bits", CHECK_1, "    let edition = edition & 255;\n" + CHECK_1),
    (1, "edition of 16 bits", CHECK_1, "    let edition = edition as u16 as u32;\n" + CHECK_1),
    (1, "edition of 31 bits", CHECK_1, "    let edition = edition << 1 >> 1;\n" + CHECK_1),
    (1, "after 13",
     CHECK_1 + "\n    // Checks 2 to 13 and 28.\n    let opened = sound(package)?;\n",
     "    let opened = sound(package)?;\n" + CHECK_1),

    (14, "not tested", "line.status != Required", "true"),
    (14, "deprecated asked", "line.status != Required",
     "!matches!(line.status, Required | Deprecated)"),
    (14, "place 0",
     "check(14, line.status != Required, place)", "check(14, line.status != Required, 0)"),
    (14, "signature's lines not run", LINES, ""),
    (14, "100 asked of the signature",
     'Optional,      "RPMTAG_HEADERI18NTABLE"', 'Required,      "RPMTAG_HEADERI18NTABLE"'),
    (14, "100 not asked of the header",
     'Required,      "RPMTAG_HEADERI18NTABLE"', 'Optional,      "RPMTAG_HEADERI18NTABLE"'),
    (14, "1009 not asked", 'Required,      "RPMTAG_SIZE"', 'Optional,      "RPMTAG_SIZE"'),
    (14, "1126 not asked",
     'Required,      "RPMTAG_PAYLOADFLAGS"', 'Optional,      "RPMTAG_PAYLOADFLAGS"'),
    (14, "1045 asked",
     'Optional,      "RPMTAG_FILEVERIFYFLAGS"', 'Required,      "RPMTAG_FILEVERIFYFLAGS"'),
    (14, "1132 asked",
     'Informational, "RPMTAG_PLATFORM"', 'Required,      "RPMTAG_PLATFORM"'),
    (14, "all of 14 before 15",
     "    for line in lines.iter().filter(|line| line.exists_in(edition)) {\n",
     "    for line in lines.iter().filter(|line| line.exists_in(edition)) {\n"
     "        check(14, line.status != Status::Required || structure.tagged(line.tag).is_some(),\n"
     "            line.tag as usize)?;\n"
     "    }\n"
     "    for line in lines.iter().filter(|line| line.exists_in(edition)) {\n"),
    (14, "header's lines first", LINES + HEADER_LINES, HEADER_LINES + LINES),
    (14, "lines from the last", "in lines.iter().filter", "in lines.iter().rev().filter"),
    (14, "other type is absent",
     "let Some(record) = structure.tagged(line.tag) else",
     "let Some(record) = structure.record(line.tag, line.ty) else"),

    (15, "type ignored", "record.ty == line.ty && ", ""),
    (15, "count ignored", " && line.count.allows(record.count)", ""),
    (15, "count at least", "count == exact", "count >= exact"),
    (15, "count at most", "count == exact", "count <= exact"),
    (15, "count of 8 bits", "count == exact", "count & 255 == exact"),
    (15, "place 0", "check(15, agrees, place)", "check(15, agrees, 0)"),
    (15, "place of the next tag", "check(15, agrees, place)", "check(15, agrees, place + 1)"),
    (15, "string for translated string",
     "record.ty == line.ty &&", "(record.ty == line.ty || (record.ty, line.ty) == (6, 9)) &&"),
    (15, "string array for translated string",
     "record.ty == line.ty &&", "(record.ty == line.ty || (record.ty, line.ty) == (8, 9)) &&"),
    (15, "translated string for string array",
     "record.ty == line.ty &&", "(record.ty == line.ty || (record.ty, line.ty) == (9, 8)) &&"),
    (15, "translated string for string",
     "record.ty == line.ty &&", "(record.ty == line.ty || (record.ty, line.ty) == (9, 6)) &&"),
    (15, "string for string array",
     "record.ty == line.ty &&", "(record.ty == line.ty || (record.ty, line.ty) == (6, 8)) &&"),
    (15, "int8 for bin",
     "record.ty == line.ty &&", "(record.ty == line.ty || (record.ty, line.ty) == (2, 7)) &&"),
    (15, "optional lines not tested",
     "record.ty == line.ty &&", "line.status != Required || record.ty == line.ty &&"),
    (15, "1002 held to 1",
     'Any,         Optional,      "SIGTAG_PGP"', 'Exactly(1),  Optional,      "SIGTAG_PGP"'),
    (15, "1005 held to 65",
     'Any,         Optional,      "SIGTAG_GPG"', 'Exactly(65), Optional,      "SIGTAG_GPG"'),
    (15, "1012 held to 1",
     'Any,         Optional,      "SIGTAG_RSAHEADER"',
     'Exactly(1),  Optional,      "SIGTAG_RSAHEADER"'),
    (15, "1047 held to 1",
     'Any,         Required,      "RPMTAG_PROVIDENAME"',
     'Exactly(1),  Required,      "RPMTAG_PROVIDENAME"'),
    (15, "1114 held to 1",
     'Any,         Optional,      "RPMTAG_OBSOLETEFLAGS"',
     'Exactly(1),  Optional,      "RPMTAG_OBSOLETEFLAGS"'),
    (15, "header's 1004 held to 1",
     'Any,         Required,      "RPMTAG_SUMMARY"', 'Exactly(1),  Required,      "RPMTAG_SUMMARY"'),
    (15, "header's 1005 held to 1",
     'Any,         Required,      "RPMTAG_DESCRIPTION"',
     'Exactly(1),  Required,      "RPMTAG_DESCRIPTION"'),
    (15, "1016 held to 1",
     'Any,         Required,      "RPMTAG_GROUP"', 'Exactly(1),  Required,      "RPMTAG_GROUP"'),
    (15, "100 held to 1",
     'Any,         Required,      "RPMTAG_HEADERI18NTABLE"',
     'Exactly(1),  Required,      "RPMTAG_HEADERI18NTABLE"'),
    (15, "1033 of 32 bits",
     'INT16,        Any,         Required,      "RPMTAG_FILERDEVS"',
     'INT32,        Any,         Required,      "RPMTAG_FILERDEVS"'),
    (15, "1004 of any count",
     'Exactly(16), Required,      "SIGTAG_MD5"', 'Any,         Required,      "SIGTAG_MD5"'),
    (15, "header's 1007 as the signature's",
     'STRING,       Exactly(1),  Informational, "RPMTAG_BUILDHOST"',
     'INT32,        Exactly(1),  Informational, "RPMTAG_BUILDHOST"'),
    (15, "20002 of any count",
     'Exactly(1),  Required,      "batch weight"', 'Any,         Required,      "batch weight"'),

    (16, "not tested", "size == package.len() - opened.header_start", "true"),
    (16, "file's length",
     "size == package.len() - opened.header_start", "size == package.len()"),
    (16, "from the signature's start",
     "size == package.len() - opened.header_start", "size == package.len() - 96"),
    (16, "without the payload",
     "size == package.len() - opened.header_start",
     "size == opened.payload - opened.header_start"),
    (16, "at most", "size == package.len() - ", "size <= package.len() - "),
    (16, "at least", "size == package.len() - ", "size >= package.len() - "),
    (16, "size of 16 bits",
     "size == package.len() - ", "size as u16 as usize == package.len() - "),
    (16, "place H", "opened.header_start, 1000)", "opened.header_start, opened.header_start)"),
    (16, "after 17",
     SIZE + CHECK_16 + "\n    // Checks 17 and 18.\n" + GROUPS, GROUPS + SIZE + CHECK_16),

    (17, "1011 not tested", "    check_needs(signature, 1011, 1005)?;\n", ""),
    (17, "1012 not tested", "    check_needs(signature, 1012, 1002)?;\n", ""),
    (17, "1012 before 1011",
     "    check_needs(signature, 1011, 1005)?;\n    check_needs(signature, 1012, 1002)?;\n",
     "    check_needs(signature, 1012, 1002)?;\n    check_needs(signature, 1011, 1005)?;\n"),
    (17, "1011 needs 1002",
     "check_needs(signature, 1011, 1005)", "check_needs(signature, 1011, 1002)"),
    (17, "1005 needs 1011 too",
     "    check_needs(signature, 1012, 1002)?;\n",
     "    check_needs(signature, 1005, 1011)?;\n    check_needs(signature, 1012, 1002)?;\n"),
    (17, "need's place is the tag that has it",
     "check(17, right, needed as usize)", "check(17, right, tag as usize)"),
    (17, "1026 not tested", "for script in 1023..=1026 {", "for script in 1023..=1025 {"),
    (17, "programs need scriptlets",
     "check_needs(header, script, script - 1023 + 1085)",
     "check_needs(header, script - 1023 + 1085, script)"),
    (17, "scriptlets need the first program",
     "check_needs(header, script, script - 1023 + 1085)", "check_needs(header, script, 1085)"),
    (17, "scriptlets from the last", "for script in 1023..=1026 {",
     "for script in (1023..=1026).rev() {"),
    (17, "file tags from the last", "for tag in FILE_TAGS {",
     "for tag in FILE_TAGS.into_iter().rev() {"),
    (17, "1045 not counted", "1039, 1040, 1045, 1095", "1039, 1040, 1040, 1095"),
    (17, "1097 not counted", "1095, 1096, 1097,", "1095, 1096, 1096,"),
    (17, "1030 not counted", "    1030, 1033, 1034, 1035,", "    1033, 1033, 1034, 1035,"),
    (17, "1045 must be there", FILES_RIGHT, "let right = header.count(tag) == files;"),
    (17, "at most N", FILES_RIGHT, "let right = header.count(tag) <= files;"),
    (17, "at least N",
     FILES_RIGHT, "let right = !header.has(tag) || header.count(tag) >= files;"),
    (17, "counts of 1030, not 1028",
     "let files = header.count(1028);", "let files = header.count(1030);"),
    (17, "place 1028", "check(17, right, tag as usize)", "check(17, right, 1028)"),
    (17, "count of 1027 not tested",
     "header.count(1027) == files && alone", "alone"),
    (17, "1027 beside the three", "header.count(1027) == files && alone",
     "header.count(1027) == files"),
    (17, "1027 beside 1118",
     "(1116..=1118).all(|tag| !header.has(tag))", "(1116..=1117).all(|tag| !header.has(tag))"),
    (17, "place 1116 for both forms", "files && alone, 1027)", "files && alone, 1116)"),
    (17, "1118 may be missing", NAMES_MISSING, NAMES_MISSING.replace("1118", "1117")),
    (17, "highest missing name", NAMES_MISSING,
     NAMES_MISSING.replace("1116..=1118", "(1116..=1118).rev()")),
    (17, "names not asked", NAMES_MISSING,
     "    if !header.has(1116) && !header.has(1117) && !header.has(1118) {\n"
     "        return Ok(());\n    }\n" + NAMES_MISSING),
    (17, "count of 1117 not tested", NAMES_COUNT, NAMES_COUNT.replace("1117", "1116")),
    (17, "1118 of N", NAMES_COUNT, NAMES_COUNT.replace("1117", "1118")),
    (17, "differing before missing in names",
     NAMES_MISSING + NAMES_COUNT,
     NAMES_COUNT.replace("header.count(tag) == files",
                         "!header.has(tag) || header.count(tag) == files")
     + NAMES_MISSING),
    (17, "names before counts",
     "    let files = header.count(1028);\n",
     "    let files = header.count(1028);\n    check_names(header, files)?;\n"),
    (17, "1081's group not run",
     "    (1090, [1114, 1115]),\n    (1081, [1080, 1082]),\n",
     "    (1090, [1114, 1115]),\n    (1090, [1114, 1115]),\n"),
    (17, "1047's group first",
     "    (1049, [1048, 1050]),\n    (1047, [1112, 1113]),\n",
     "    (1047, [1112, 1113]),\n    (1049, [1048, 1050]),\n"),
    (17, "1081's group before 1054's",
     "    (1054, [1053, 1055]),\n    (1090, [1114, 1115]),\n    (1081, [1080, 1082]),\n",
     "    (1081, [1080, 1082]),\n    (1054, [1053, 1055]),\n    (1090, [1114, 1115]),\n"),
    (17, "leader forgotten", LED_MISSING, LED_MISSING.replace("in members", "in others")),
    (17, "leader decides alone",
     "let any = members.iter().any(|&tag| header.has(tag));", "let any = header.has(leader);"),
    (17, "leader first",
     "    members.sort();\n", ""),
    (17, "led groups must be there", "header.has(tag) || !any", "header.has(tag)"),
    (17, "led counts not compared", LED_COUNT, ""),
    (17, "led count at least", LED_COUNT,
     LED_COUNT.replace("header.count(tag) ==", "header.count(tag) >=")),
    (17, "last count not compared", LED_COUNT,
     LED_COUNT.replace("in others", "in others.into_iter().take(1)")),
    (17, "differing before missing",
     LED_MISSING + LED_COUNT,
     LED_COUNT.replace("header.count(tag) ==",
                       "!header.has(tag) || !header.has(leader) || header.count(tag) ==")
     + LED_MISSING),
    (17, "led place is the leader", LED_COUNT,
     LED_COUNT.replace("tag as usize", "leader as usize")),
    (17, "locales not tested", LOCALES, "    Ok(())\n}\n"),
    (17, "locales before the led groups",
     LED_GROUPS, "    check_locales(header)?;\n" + LED_GROUPS),
    (17, "locales before 1081's group",
     LED_GROUPS,
     LED_GROUPS + "        if leader == 1081 {\n            check_locales(header)?;\n        }\n"),
    (17, "locales before the file names",
     "    check_names(header, files)?;\n", "    check_locales(header)?;\n    check_names(header, files)?;\n"),
    (17, "locales before all other groups", "    check_needs(signature, 1011, 1005)?;\n",
     "    check_locales(header)?;\n    check_needs(signature, 1011, 1005)?;\n"),
    (17, "locales after 18", LOCALES, "    check_texts(header)?;\n" + LOCALES),
    (17, "fewer strings than locales", ENOUGH, "Some(record.count) < locales"),
    (17, "as many strings as locales", ENOUGH, "Some(record.count) == locales"),
    (17, "at least as many strings as locales", ENOUGH, "Some(record.count) >= locales"),
    (17, "one string more than locales", ENOUGH, "Some(record.count - 1) <= locales"),
    (17, "one string for one locale only", ENOUGH, "record.count == 1 || locales > Some(1)"),
    (17, "strings of 8 bits", ENOUGH, "Some(record.count & 255) <= locales"),
    (17, "locales of 8 bits", ENOUGH, "Some(record.count) <= locales.map(|count| count & 255)"),
    (17, "strings of 15 bits", ENOUGH, "Some(record.count & 0x7FFF) <= locales"),
    (17, "locales' lowest tag", CHECK_LOCALES,
     "    let lowest = " + OVER + ".map(|one| one.tag).min();\n"
     "    check(17, lowest.is_none(), lowest.unwrap_or(0) as usize)?;\n"),
    (17, "locales' highest tag", CHECK_LOCALES,
     "    let highest = " + OVER + ".map(|one| one.tag).max();\n"
     "    check(17, highest.is_none(), highest.unwrap_or(0) as usize)?;\n"),
    (17, "locales' last tag", CHECK_LOCALES,
     "    let last = " + OVER + ".last();\n"
     "    check(17, last.is_none(), last.map_or(0, |one| one.tag) as usize)?;\n"),
    (17, "the tag of most strings", CHECK_LOCALES,
     "    let most = " + OVER + ".max_by_key(|one| one.count);\n"
     "    check(17, most.is_none(), most.map_or(0, |one| one.tag) as usize)?;\n"),
    (17, "tags with a line first", CHECK_LOCALES,
     "    let own = |one: &Record| matches!(one.tag, 1004 | 1005 | 1016);\n"
     "    let place = " + OVER + ".find(own).or(" + OVER + ".next());\n"
     "    check(17, place.is_none(), place.map_or(0, |one| one.tag) as usize)?;\n"),
    (17, "locales of tags with a line only", IS_TRANSLATED,
     IS_TRANSLATED + " && super::catalogue::HEADER.iter().any(|line| line.tag == record.tag)"),
    (17, "locales of tags without a line only", IS_TRANSLATED,
     IS_TRANSLATED + " && super::catalogue::HEADER.iter().all(|line| line.tag != record.tag)"),
    (17, "locales of 1004, 1005 and 1016 only",
     IS_TRANSLATED, IS_TRANSLATED + " && matches!(record.tag, 1004 | 1005 | 1016)"),
    (17, "locales of 1004 and 1005 only",
     IS_TRANSLATED, IS_TRANSLATED + " && record.tag != 1016"),
    (17, "locales of the first tags only", IS_TRANSLATED, IS_TRANSLATED + " && record.tag < 1 << 31"),
    (17, "locales of tags above 100 only", IS_TRANSLATED, IS_TRANSLATED + " && record.tag > 100"),
    (17, "locales of the first entry only", TRANSLATED, TRANSLATED + ".take(1)"),
    (17, "locales not of the first entry", TRANSLATED, TRANSLATED + ".skip(1)"),
    (17, "locales of string arrays too", IS_TRANSLATED, "matches!(record.ty, 8 | TRANSLATED_STRING)"),
    (17, "locales of string arrays only", IS_TRANSLATED, "record.ty == 8 && record.tag != 100"),
    (17, "locales are 1118's", "let locales = header.count(100);", "let locales = header.count(1118);"),
    (17, "locales are 1097's", "let locales = header.count(100);", "let locales = header.count(1097);"),
    (17, "locales are 1004's", "let locales = header.count(100);", "let locales = header.count(1004);"),
    (17, "locales are the signature's", LOCALES,
     "    check(17, !signature.has(100) || signature.count(100) >= header.count(1004), 1004)?;\n" + LOCALES),
    (17, "locales' place 100",
     ENOUGH + ", record.tag as usize)", ENOUGH + ", 100)"),
    (17, "locales' place is the count",
     ENOUGH + ", record.tag as usize)", ENOUGH + ", record.count as usize)"),

    (18, "system not tested", SYSTEM_TEXT, ""),
    (18, "system's beginning",
     "header.data(record) == text", "header.data(record).starts_with(&text[..text.len() - 1])"),
    (18, "text's first bytes",
     "header.data(record) == text", "text.starts_with(&header.data(record)[..header.data(record).len() - 1])"),
    (18, "case ignored",
     "header.data(record) == text", "header.data(record).eq_ignore_ascii_case(text)"),
    (18, "1088 not tested", "for tag in 1085..=1088 {", "for tag in 1085..=1087 {"),
    (18, "programs must be there", "        None => true,\n", "        None => tag == 1021,\n"),
    (18, "place of the first program",
     'b"/bin/sh\\0"), tag as usize)', 'b"/bin/sh\\0"), 1085)'),
    (18, "index at the count", "index < names.count", "index <= names.count"),
    (18, "index below N", "index < names.count", "index < indexes.count"),
    (18, "signed index", "index < names.count", "(index as i32) < names.count as i32"),
    (18, "index of 16 bits", "index < names.count", "index % 65_536 < names.count"),
    (18, "first index only", "header.numbers(indexes).all(", "header.numbers(indexes).take(1).all("),
    (18, "first index not seen",
     "header.numbers(indexes).all(", "header.numbers(indexes).skip(1).all("),
    (18, "first directory only",
     "header.strings(names).all(", "header.strings(names).take(1).all("),
    (18, "last directory only",
     "header.strings(names).all(", "header.strings(names).skip(names.count as usize - 1).all("),
    (18, "empty directory allowed",
     'name.ends_with(b"/\\0")', 'name.len() == 1 || name.ends_with(b"/\\0")'),
    (18, "directory starts with /", 'name.ends_with(b"/\\0")', 'name.starts_with(b"/")'),
    (18, "directory holds /", 'name.ends_with(b"/\\0")', "name.contains(&b'/')"),
    (18, "1118 before 1116", INSIDE + ENDED, ENDED + INSIDE),
    (18, "place of 1118", "check(18, ended, 1118)", "check(18, ended, 1117)"),
    (18, "programs from the last", "for tag in 1085..=1088 {", "for tag in (1085..=1088).rev() {"),
    (18, "programs before the system", SYSTEM_TEXT + PROGRAM_TEXTS, PROGRAM_TEXTS + SYSTEM_TEXT),
    (18, "none tested", TEXTS, ""),
    (18, "before 17", GROUPS + TEXTS, TEXTS + GROUPS),
    (18, "after 27", TEXTS + "\n" + DIGEST, DIGEST + TEXTS),
    (18, "after 19",
     TEXTS + "\n" + DIGEST + "\n" + THE_BOOK + CHECK_19, DIGEST + THE_BOOK + CHECK_19 + TEXTS),

    (19, "limit one too low", "MAX_BOOK: usize = 4096", "MAX_BOOK: usize = 4095"),
    (19, "limit one too high", "MAX_BOOK: usize = 4096", "MAX_BOOK: usize = 4097"),
    (19, "not tested", CHECK_19, ""),
    (19, "place is the length", "book.len() <= MAX_BOOK, BOOK as usize)",
     "book.len() <= MAX_BOOK, book.len())"),
    (19, "after 22",
     CHECK_19 + "\n    // Checks 20 to 22.\n" + BOOK, BOOK + CHECK_19),

    (20, "not tested", RECORD, ""),
    (20, "unknown weighed kind skipped",
     RECORD + END + "        if is_weighed(kind) {\n",
     END + "        if is_weighed(kind) && is_known(kind, edition) {\n"),
    (20, "128 is a remark", "kind >= 128", "kind > 128"),
    (20, "unknown remark refused",
     "!is_weighed(kind) || is_known(kind, edition)", "is_known(kind, edition)"),
    (20, "86 only in edition 1", "since <= edition", "since == edition"),
    (20, "place of the body",
     "is_weighed(kind) || is_known(kind, edition), place)",
     "is_weighed(kind) || is_known(kind, edition), body)"),
    (20, "21 before 20", RECORD + END, END + RECORD),
    (20, "96 known",
     "known == kind && since", "(known == kind || (known, kind) == (0x14, 0x96)) && since"),
    (20, "any weighed kind of 6 bytes known",
     "known == kind && since", "(known == kind || known == 0x86 && kind % 16 == 6) && since"),

    (21, "not tested for remarks",
     "check(21, end <= book.len(), place)", "check(21, !is_weighed(kind) || end <= book.len(), place)"),
    (21, "not tested for unknown remarks",
     "check(21, end <= book.len(), place)", "check(21, !is_known(kind, 3) || end <= book.len(), place)"),
    (21, "one byte behind asked", "check(21, end <= book.len()", "check(21, end < book.len()"),
    (21, "one byte may lack", "check(21, end <= book.len()", "check(21, end <= book.len() + 1"),
    (21, "place is the book's end",
     "end <= book.len(), place)", "end <= book.len(), book.len())"),
    (21, "bodies of kind mod 8", "kind % 16", "kind % 8"),
    (21, "unknown remarks without body",
     "usize::from(kind % 16)",
     "if is_weighed(kind) || is_known(kind, 3) { usize::from(kind % 16) } else { 0 }"),

    (22, "not tested", RANGES, "true"),
    (22, "oxide 0", "(1..=999)", "(0..=999)"),
    (22, "oxide 1000", "(1..=999)", "(1..=1000)"),
    (22, "oxide 999 refused", "(1..=999)", "(1..=998)"),
    (22, "milligrams 0", "(1..=5_000_000)", "(0..=5_000_000)"),
    (22, "milligrams 5,000,001", "(1..=5_000_000)", "(1..=5_000_001)"),
    (22, "milligrams 5,000,000 refused", "(1..=5_000_000)", "(1..5_000_000)"),
    (22, "one of the two suffices", ".contains(&self.oxide) && ", ".contains(&self.oxide) || "),
    (22, "oxide of 8 bits", "oxide: be16(body, 0),", "oxide: u16::from(body[1]),"),
    (22, "milligrams of 16 bits",
     "milligrams: be32(body, 2),", "milligrams: u32::from(be16(body, 4)),"),
    (22, "place of the body",
     "check(22, dose.is_right(), place)", "check(22, dose.is_right(), body)"),
    (22, "not tested for 98",
     "check(22, dose.is_right(), place)", "check(22, dose.is_right() || kind == 0x98, place)"),
    (22, "tolerance 0 refused",
     "check(22, dose.is_right(), place)",
     "check(22, dose.is_right() && book[body + 6..end] != [0, 0], place)"),
    (22, "tolerance FFFF refused",
     "check(22, dose.is_right(), place)",
     "check(22, dose.is_right() && book[body + 6..end] != [0xFF, 0xFF], place)"),
    (22, "page 0 refused", END,
     END + "        check(22, kind != 2 || book[body..end] != [0, 0], place)?;\n"),
    (22, "date 0 refused", END,
     END + "        check(22, kind != 0x14 || book[body..end] != [0; 4], place)?;\n"),
    (22, "after all records",
     CHECK_22 + RECORDS_END,
     RECORDS_END.replace(
         "    Ok(doses)\n",
         "    let mut place = 0;\n"
         "    while place < book.len() {\n"
         "        let end = place + 1 + usize::from(book[place] & 15);\n"
         "        let right = |record: &[u8]| Dose::of(record[0], &record[1..]).is_right();\n"
         "        check(22, !is_weighed(book[place]) || right(&book[place..end]), place)?;\n"
         "        place = end;\n"
         "    }\n"
         "    Ok(doses)\n")),

    (23, "not tested", CHECK_23, ""),
    (23, "in edition 1 too", "    if edition >= 2 {\n", "    if header.record(BATCH_WEIGHT, 4).is_some() {\n"),
    (23, "sum at most", "book::sum(&doses) ==", "book::sum(&doses) <="),
    (23, "sum at least", "book::sum(&doses) ==", "book::sum(&doses) >="),
    (23, "sum of 31 bits",
     "let right = book::sum(&doses) ==", "let right = book::sum(&doses) & 0x7FFF_FFFF =="),
    (23, "place 20001", "check(23, right, BATCH_WEIGHT as usize)", "check(23, right, BOOK as usize)"),
    (23, "an oxide counted once",
     "let right = book::sum(&doses) ==",
     "let mut once = doses.clone();\n        once.sort_by_key(|dose| dose.oxide);\n"
     "        once.dedup_by_key(|dose| dose.oxide);\n        let right = book::sum(&once) =="),
    (23, "first dose not in the sum",
     "doses.iter().map(|dose| u64::from(dose.milligrams)).sum()",
     "doses.iter().skip(1).map(|dose| u64::from(dose.milligrams)).sum()"),
    (23, "after 24",
     WEIGHT + NEEDED + CHECK_24, NEEDED + CHECK_24 + WEIGHT),

    (24, "not tested", CHECK_24, ""),
    (24, "one number may lack", "room >= needed, needed", "room + 1 >= needed, needed"),
    (24, "one number more asked", "room >= needed, needed", "room > needed, needed"),
    (24, "place is the dose count", "room >= needed, needed", "room >= needed, needed / 3"),
    (24, "place is the bytes", "room >= needed, needed", "room >= needed, 4 * needed"),
    (24, "place is what lacks",
     "room >= needed, needed", "room >= needed, needed.saturating_sub(room)"),
    (24, "remainder used", "buffer.len() / 4)", "buffer.len().div_ceil(4))"),
    (24, "room in bytes", "buffer.len() / 4)", "buffer.len())"),
    (24, "room in bytes of 16 bits", "buffer.len() / 4)", "buffer.len() as u16 as usize / 4)"),
    (24, "room of 16 bits", "buffer.len() / 4)", "buffer.len() / 4 % 65_536)"),
    (24, "room for any book asked", "room >= needed, needed", "room >= needed.max(3), needed"),

    # The dose buffer.
    ("buffer", "little-endian", WRITE_C, WRITE_C.replace("to_be", "to_le")),
    ("buffer", "milligrams first", NUMBERS, "[dose.milligrams, u32::from(dose.oxide), dose.lot]"),
    ("buffer", "nothing written", WRITE_C, ""),
    ("buffer", "fixed doses", WRITE_C, WRITE_C.replace("&number.", "&(number % 1 + 27).")),
    ("buffer", "one dose too many counted", COUNT_C, "            doses.len() as u64 + 1\n"),
    ("buffer", "numbers counted", COUNT_C, "            3 * doses.len() as u64\n"),
    ("buffer", "rest cleared", COUNT_C,
     "            buffer[12 * doses.len()..].fill(0);\n" + COUNT_C),
    ("buffer", "one number behind cleared", COUNT_C,
     "            buffer[12 * doses.len()..].iter_mut().take(4).for_each(|byte| *byte = 0);\n"
     + COUNT_C),
    ("buffer", "remainder cleared", COUNT_C,
     "            let whole = buffer.len() / 4 * 4;\n            buffer[whole..].fill(0);\n"
     + COUNT_C),
    ("buffer", "refusal clears the buffer", REFUSED_C,
     REFUSED_C.replace("refusal.packed(),", "{ buffer.fill(0); refusal.packed() }")),
    ("buffer", "refusal 24 writes what fits", REFUSED_C,
     REFUSED_C.replace(
         "refusal.packed(),",
         "{ if refusal.number == 24 { buffer.iter_mut().take(4).for_each(|b| *b = 0); }"
         " refusal.packed() }")),
    ("buffer", "doses written before the sum", REFUSED_C,
     REFUSED_C.replace(
         "refusal.packed(),",
         "{ if refusal.number == 23 { buffer.iter_mut().take(4).for_each(|b| *b = 0); }"
         " refusal.packed() }")),
    ("buffer", "writes before the buffer", COUNT_C,
     "            unsafe { buffer.as_mut_ptr().sub(1).write_volatile(0) };\n" + COUNT_C),
    ("buffer", "writes behind the buffer", COUNT_C,
     "            unsafe { buffer.as_mut_ptr().add(buffer.len()).write_volatile(0) };\n" + COUNT_C),

    # Demand 3: the editions differ where they must not, or agree where they must not.
    ("demand3", "98 in edition 1", "(0x98, 2)", "(0x98, 1)"),
    ("demand3", "edition 1 skips weighed kinds",
     RECORD + END + "        if is_weighed(kind) {\n",
     RECORD.replace("!is_weighed", "edition == 1 || !is_weighed") + END
     + "        if is_weighed(kind) && is_known(kind, edition) {\n"),
    ("demand3", "edition 1 refuses every book",
     "!is_weighed(kind) || is_known(kind, edition)",
     "edition >= 2 && (!is_weighed(kind) || is_known(kind, edition))"),
    ("demand3", "edition 1 refuses dates",
     "!is_weighed(kind) || is_known(kind, edition)",
     "!is_weighed(kind) && (kind != 0x14 || edition >= 2) || is_known(kind, edition)"),
    ("demand3", "a date's body in edition 1",
     "usize::from(kind % 16)",
     "if kind == 0x14 && edition == 1 { 0 } else { usize::from(kind % 16) }"),
    ("demand3", "edition 1 asks for 20002", "self.tag != BATCH_WEIGHT || edition >= 2", "true"),
    ("demand3", "1045's line from edition 2 on",
     "self.tag != BATCH_WEIGHT || edition >= 2",
     "self.tag != BATCH_WEIGHT && self.tag != 1045 || edition >= 2"),
    ("demand3", "no groups in edition 1", GROUPS, "    if edition >= 2 {\n    " + GROUPS + "    }\n"),
    ("demand3", "locales from edition 2 on", GROUPS,
     "    let of_locales = |place| header.tagged(place).is_some_and(|record| record.ty == 9);\n"
     "    match contents::check_groups(&opened) {\n"
     "        Err(refusal) if edition == 1 && of_locales(refusal.place) => {}\n"
     "        other => other?,\n"
     "    }\n"),
    ("demand3", "20002 has no locales in edition 1", GROUPS,
     "    match contents::check_groups(&opened) {\n"
     "        Err(refusal) if edition == 1 && refusal.place == BATCH_WEIGHT => {}\n"
     "        other => other?,\n"
     "    }\n"),
    ("demand3", "other milligrams in edition 2",
     "check(22, dose.is_right(), place)",
     "check(22, dose.is_right() && (edition != 2 || dose.milligrams < 5_000_000), place)"),
    ("demand3", "more room in edition 1",
     NEEDED, "    let needed = 3 * doses.len() + usize::from(edition == 1);\n"),
    ("demand3", "rest cleared in edition 1", COUNT_C,
     "            if edition == 1 {\n                buffer[12 * doses.len()..].fill(0);\n"
     "            }\n" + COUNT_C),
]
