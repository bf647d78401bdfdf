/*
 * What the numbers of include/station.h mean, in plain words. docs/REFUSALS.md holds
 * this table as `station --refusals` writes it. No thousands marks: they have been
 * misread.
 */
#ifndef REFUSALS_H
#define REFUSALS_H

#include <stddef.h>
#include <stdint.h>

/* What a place is. */
enum place {
    NOWHERE,       /* nothing, always 0 */
    LENGTH,        /* the package's length */
    LEAD_FIELD,    /* file offset of a field of the lead */
    START,         /* file offset where a structure should start */
    HEADER_RECORD, /* file offset in the first 16 bytes of a structure */
    INDEX_RECORD,  /* file offset of an index record */
    GAP_BYTE,      /* file offset of a byte between signature and header */
    TAG,           /* a tag */
    BOOK_RECORD,   /* offset in the book of a record's kind byte */
    NUMBERS,       /* how many numbers the dose buffer needs */
    BYTES          /* how many bytes the package buffer or the digest buffer needs */
};

struct refusal {
    enum place kind;
    const char *meaning, *place, *cause, *remedy;
};

#define AGAIN "Fetch the package again. If that does not help, ask the supplier "
#define RECORD_PLACE "file offset of the index record"
#define KIND_PLACE "offset in the book of the record's kind byte"

static const struct refusal refusals[] = {
    [0] = {NOWHERE,
           "accepted; in a look-up: found; of a requirement: answered; in a writing: "
           "written; of a digest: done",
           "how many doses; in a look-up: file offset of the bytes; of a requirement: 1 "
           "if the version meets it, else 0; in a writing: the package's length in bytes; "
           "of a digest: 16",
           "a right package",
           "Nothing."},
    [1] = {NOWHERE,
           "the edition asked for is not 1, 2 or 3",
           "0",
           "a setting of the station; the package was not looked at",
           "Set the station to edition 1, 2 or 3."},
    [2] = {NOWHERE,
           "the package is longer than 65536 bytes",
           "0",
           "pictures or other large files in the package; a file that is no book",
           "Ask the supplier for a package of at most 65536 bytes, with the book and "
           "little else."},
    [3] = {LENGTH,
           "the package is shorter than a lead, 96 bytes",
           "its length in bytes",
           "an empty file; a copy that broke off",
           AGAIN "for a whole package."},
    [4] = {LEAD_FIELD,
           "a field of the lead is wrong",
           "file offset of the field",
           "a file that is no RPM package; a source package; a package for another "
           "system",
           "See that it is the right file. Ask the supplier for a binary RPM package "
           "(format 3.0) for Linux."},
    [5] = {START,
           "the package ends before the 16 bytes that its signature or header begins "
           "with",
           "file offset where they should start",
           "a copy that broke off",
           AGAIN "for a whole package."},
    [6] = {HEADER_RECORD,
           "the signature or header does not begin with 8E AD E8 01 and four zero bytes",
           "file offset of the four bytes that are wrong",
           "bytes that were changed, lost or added on the way",
           AGAIN "for a package in the format of LSB 3.0."},
    [7] = {HEADER_RECORD,
           "the signature or header has no index record, or more than 512",
           "file offset of the number of records",
           "a damaged number; very many extra tags",
           AGAIN "for a package of 1 to 512 records in each."},
    [8] = {HEADER_RECORD,
           "the signature or header passes the package's end",
           "file offset of the size of its store",
           "a copy that broke off; a damaged number",
           AGAIN "for a whole package."},
    [9] = {INDEX_RECORD,
           "an index record's type is none of 1 to 4 and 6 to 9",
           RECORD_PLACE,
           "a newer writer, whose type 5 is a 64-bit number; a damaged record",
           "Ask the supplier for a package that uses the types of LSB 3.0 alone."},
    [10] = {INDEX_RECORD,
            "an index record's count is 0, or not 1 for a string or, in the signature, "
            "a translated string",
            RECORD_PLACE,
            "a damaged record; a fault of the program that wrote the package",
            AGAIN "for a package made with another program or version."},
    [11] = {INDEX_RECORD,
            "an index record's data is not aligned: int16 to 2 bytes, int32 to 4",
            RECORD_PLACE,
            "a fault of the program that wrote the package",
            "Ask the supplier for a package made with another program or version."},
    [12] = {INDEX_RECORD,
            "an index record's data is not all inside the store",
            RECORD_PLACE,
            "a damaged record; a string without its zero byte",
            AGAIN "for a package made anew."},
    [13] = {INDEX_RECORD,
            "an earlier index record has the same tag",
            RECORD_PLACE,
            "an entry that was added and not replaced",
            "Ask the supplier for a package that has each tag once."},
    [14] = {TAG,
            "a required tag is absent",
            "the tag",
            "20001: a package without a book; 20002: a book for edition 1; any other: a "
            "writer that leaves it out",
            "See that the package is a recipe book. Ask the supplier for one with that "
            "tag."},
    [15] = {TAG,
            "a tag has not the type or the count that the catalogue gives it",
            "the tag",
            "a number stored at another width; several values where one is asked for",
            "Ask the supplier for a package with the catalogue's type and count for "
            "that tag."},
    [16] = {TAG,
            "the signature's 1000 is not the length from the header's start to the "
            "package's end",
            "1000",
            "bytes lost or added at the end; a package changed after it was made",
            AGAIN "for a package with the right size in 1000."},
    [17] = {TAG,
            "tags that belong together: one is missing, or their counts differ, or file "
            "names stand in both forms (1027, and 1116 to 1118), or a text has more "
            "translations than the package lists locales (100)",
            "the lowest missing tag, else the lowest whose count differs; 1027 where it "
            "is at fault; of texts with too many translations the first in the index",
            "tags added or dropped by hand; a script without its program; a summary, "
            "description or group in more languages than 100 lists",
            "Ask the supplier for a package with all tags of that group, or none; with "
            "too many translations, for one that lists their locales."},
    [18] = {TAG,
            "a text: 1021 is not \"linux\"; one of 1085 to 1088 is not \"/bin/sh\"; a "
            "number of 1116 is not below the count of 1118; a string of 1118 does not "
            "end with \"/\"",
            "the tag",
            "a package for another system; a script for another program",
            "Ask the supplier for a package for Linux, its scripts (if any) for "
            "/bin/sh, its directories ending with \"/\"."},
    [19] = {TAG,
            "the book is longer than 4096 bytes",
            "20001",
            "too many records for one book",
            "Ask the supplier to split the book."},
    [20] = {BOOK_RECORD,
            "a weighed record of a kind that the edition does not know",
            KIND_PLACE,
            "a book for a later edition; a fault of the program that made the book",
            "Ask the supplier for a book of the station's edition, or have the station "
            "brought to the book's. The record cannot be left out: the batch would lack "
            "an oxide."},
    [21] = {BOOK_RECORD,
            "a record passes the book's end",
            KIND_PLACE,
            "a book cut short; a wrong kind byte, here or before",
            "Ask the supplier for a whole book."},
    [22] = {BOOK_RECORD,
            "an oxide is not 1 to 999, or milligrams are not 1 to 5000000",
            KIND_PLACE,
            "a weight in another unit; a wrong code",
            "Ask the supplier to correct that record. Do not guess the weight."},
    [23] = {TAG,
            "the doses' sum is not the batch weight (editions 2 and 3)",
            "20002",
            "a dose changed and not the batch weight, or the other way round",
            "Ask the supplier which is right, and for a corrected book. Do not work it "
            "out at the station."},
    [24] = {NUMBERS,
            "the dose buffer is too short",
            "how many 32-bit numbers are needed, three for each dose",
            "a fault of the host program, not of the package",
            "Lend STATION_DOSES_ROOM bytes, which is enough for every book."},
    [25] = {NOWHERE,
            "look-up: no record has that tag and that type; of a requirement: the package "
            "has none for that name, or its names, versions and flags (1049, 1050, 1048) "
            "are not string array, string array and int32 of one count",
            "0",
            "an optional entry that is absent; a question with the wrong type; a name "
            "that the package does not require, or one spelled otherwise",
            "Take the entry as absent. Do not read it by another type. Of a requirement: "
            "if the package is accepted, it does not require that name; else take no "
            "version as right."},
    [26] = {NOWHERE,
            "element look-up: the entry has no element of that number",
            "0",
            "a loop that has come to the entry's end; a text that has no translation "
            "for that locale",
            "Stop there: the lowest number that gives 26 is the entry's count. rpm shows "
            "element 0 in place of a missing translation."},
    [27] = {TAG,
            "the package is damaged: the digest (MD5) of its bytes from the header's "
            "start to its end is not the one that the signature's 1004 states",
            "1004",
            "a bit or a byte that changed on the way or on the disk, perhaps in a dose; a "
            "package changed after it was made",
            AGAIN "for a package made anew. Do not use its doses, even if they look "
                  "right: one of them may be what is damaged."},
    [28] = {GAP_BYTE,
            "a byte between the signature's end and the header's start is not zero",
            "file offset of the first such byte",
            "stray memory, left there by the program that wrote the package; bytes that "
            "were changed on the way",
            AGAIN "for a package that has zero bytes there."},
    [32] = {NOWHERE,
            "writing: the name, a list or an entry is none that can be written",
            "0",
            "a type, or a count, that no entry of the list may have; data that is not "
            "what type and count say, or a string without its zero byte; a tag twice; "
            "1000 or 1004 in the signature's list, or more than 510 entries there; no "
            "entry for the header, or more than 512; a name that is empty, over 65 bytes "
            "or has a zero byte",
            "Correct what the host program lends. Nothing was written."},
    [33] = {NOWHERE,
            "writing: the package would be longer than 65536 bytes",
            "0",
            "too many entries, or too much data in them",
            "Leave entries out or shorten them. Nothing was written."},
    [34] = {BYTES,
            "writing: the package buffer is too short; of a digest: the digest buffer is",
            "how many bytes are needed",
            "a fault of the host program, not of what it lends to be written or digested",
            "Lend so many bytes; STATION_PACKAGE_ROOM is enough for every package, "
            "STATION_DIGEST_BYTES for a digest. Nothing was written."},
};

enum { REFUSALS = sizeof refusals / sizeof refusals[0] };

/* The line of a number, or NULL for a number that has none. */
static inline const struct refusal *refusal_of(uint32_t number)
{
    if (number >= REFUSALS || refusals[number].meaning == NULL)
        return NULL;
    return &refusals[number];
}

#undef AGAIN
#undef RECORD_PLACE
#undef KIND_PLACE

#endif
