/*
 * station.h: read and write an RPM package (a recipe book) from C, look into it, make
 * a digest of bytes, and say which of two versions is the newer.
 *
 * Link with libstation.a; no other library is needed.
 *
 * Lending. Every call that reads a package gets the whole of it as a pointer and a
 * length; station_meets also gets a name and a version text in the same way,
 * station_compare two version texts, station_write a name and lists of entries,
 * station_digest any bytes. A call reads nothing outside those bytes, changes none of
 * them, and keeps nothing: when it returns, the memory is yours again. What is only
 * read may overlap. station_read also gets a dose buffer, station_write a package
 * buffer, station_digest a digest buffer; they write there, and only when they succeed.
 * There is no state and nothing to free, and calls may run at the same time, each
 * with a buffer of its own. The bytes may be anything, of any length; no call asks
 * you to test them first, and none fails otherwise than by its answer. No pointer
 * may be NULL, and a buffer must not overlap anything else that is lent with it.
 * What is empty, be it a package, a text, a list, its data or a buffer, is any other
 * pointer with length 0 (for an empty package the answer is number 3, place 0).
 *
 * Answers. station_compare answers STATION_OLDER, STATION_SAME or STATION_NEWER; it
 * refuses nothing. Every other call answers number * 2^32 + place. Number 0 is success.
 * Any other number is the first check that the package, the question, or what is to be
 * written did not pass:
 *
 *   number  meaning                                      place
 *    0      station_read: accepted                       how many doses
 *           look-ups: found                              file offset of the bytes
 *           station_write: written                       the package's length
 *           station_digest: done                         16
 *           station_meets: the version was compared      1 if it meets what is
 *                                                        required, else 0
 *    1      the edition is none of 1 to 3                0
 *    2      the package is longer than 65,536 bytes      0
 *    3      it is shorter than a lead, 96 bytes          its length
 *    4      a field of the lead is wrong                 that field's offset
 *           (0 magic, 4 major, 5 minor, 6 type, 10 name,
 *           76 system, 78 signature type)
 *    5      the package ends before the 16 bytes that    where they should start
 *           a header structure begins with
 *    6      those 16 bytes do not begin with 8E AD E8 01 offset of the magic, or
 *           and four zero bytes                          of the four zero bytes
 *    7      the structure has no record, or over 512     offset of that number
 *    8      the structure passes the package's end       offset of its store size
 *    9      a record's type is none of 1-4 and 6-9       offset of the record
 *   10      a record's count is 0, or not 1 for a        offset of the record
 *           string (6) or, in the signature, a
 *           translated string (9)
 *   11      a record's data is not aligned: int16 to 2,  offset of the record
 *           int32 to 4
 *   12      a record's data is not all inside the store  offset of the record
 *   13      an earlier record has the same tag           offset of the record
 *   14      a required tag is absent                     the tag
 *   15      a tag has not the type or the count that     the tag
 *           the catalogue gives it
 *   16      the signature's 1000 is not the length from  1000
 *           the header's start to the package's end
 *   17      tags that belong together: one is missing,   the lowest missing tag,
 *           or their counts differ, or file names stand  else the lowest whose
 *           in both forms (1027 and 1116 to 1118);       count differs; 1027;
 *           or a translated string (9) of the header     the first such tag in the
 *           has more strings than tag 100 has locales    index
 *   18      a text: 1021 is not "linux", one of 1085 to  the tag
 *           1088 is not "/bin/sh", a number of 1116 is
 *           not below the count of 1118, a string of
 *           1118 does not end with "/"
 *   19      the book (20001) is longer than 4,096 bytes  20001
 *   20      a weighed record of a kind that the edition  where in the book the
 *           does not know                                record's kind byte is
 *   21      a record passes the book's end               the same
 *   22      an oxide is not 1 to 999, or milligrams are  the same
 *           not 1 to 5,000,000
 *   23      the doses' sum is not the batch weight       20002
 *           (20002); from edition 2 on
 *   24      the dose buffer has room for fewer than      how many numbers are
 *           three numbers per dose                       needed: three per dose
 *   25      look-ups: no record has that tag and that    0
 *           type; station_meets: the package does not
 *           say what it requires of that name
 *   26      the entry has no element of that number      0
 *   27      the signature's 1004 is not the MD5 digest   1004
 *           of the bytes from the header's start to the
 *           package's end: the package is damaged
 *   28      a byte between the signature's end and the   offset of the first such
 *           header's start, the first multiple of 8 at   byte
 *           or after that end, is not zero
 *   32      the name, a list or an entry is none that    0
 *           can be written
 *   33      the package would be longer than 65,536      0
 *           bytes
 *   34      the package buffer or the digest buffer is   how many bytes are needed
 *           too short
 *
 * Places of 4 to 13 and 28 are offsets from the package's first byte, those of 20 to
 * 22 from the book's first byte; those of 14 to 19, 23 and 27 are tags. No call answers
 * 29 to 31 or a number above 34; take a number that you do not know for a refusal.
 *
 * The checks run in this order: 1 (station_read only); 2 to 4; 5 to 13 for the
 * signature; 28; 5 to 13 for the header; then 14 to 18, 27 and 19 to 24 for
 * station_read, 25 and 26 for look-ups, 25 for station_meets. Within a structure 9 to
 * 13 run record by record. 14 and 15 run tag by tag, the signature's tags first. 20 to
 * 22 run record by record of the book. So a damaged header, or a byte before it that is
 * not zero, is reported even if you ask for an entry of the signature. Where a package
 * ends between signature and header, 28 tests the bytes that are there; if these are
 * zero it is 5. Look-ups and station_meets do not compare the digest: they also answer
 * for a package that station_read refuses with 27. station_write runs 32, 33 and 34
 * alone, station_digest 34.
 */
#ifndef STATION_H
#define STATION_H

#include <stddef.h>
#include <stdint.h>

#ifdef __cplusplus
extern "C" {
#endif

/* The two parts of an answer. */
#define STATION_NUMBER(answer) ((uint32_t)((answer) >> 32))
#define STATION_PLACE(answer) ((uint32_t)(answer))

/* Bytes of a dose in the dose buffer, and of room for any book's doses. */
#define STATION_DOSE_BYTES 12
#define STATION_DOSES_ROOM (585 * STATION_DOSE_BYTES)

/* Bytes of an entry in a list, and of room for any package that can be written. */
#define STATION_ENTRY_BYTES 16
#define STATION_PACKAGE_ROOM 65536

/* Bytes of a digest. */
#define STATION_DIGEST_BYTES 16

/* The answers of station_compare. */
#define STATION_OLDER 0
#define STATION_SAME 1
#define STATION_NEWER 2

/*
 * Which doses does the book state?
 *
 *   edition               1, 2 or 3, the rules to read by; any other is refused (1)
 *   package, package_len  the lent package
 *   doses, doses_len      the lent dose buffer; its length is in bytes
 *
 * The dose buffer holds numbers of four bytes each, big-endian; one to three bytes
 * left over at its end are not used.
 *
 * On success the number is 0 and the place is how many doses the book states. They
 * stand at the buffer's front in the book's order, three numbers each, 12 bytes
 * (STATION_DOSE_BYTES): oxide (1 to 999), milligrams (1 to 5,000,000), lot (any number;
 * 0 where the book states no lot), at every edition. 1,250 mg of oxide 27, lot 70315:
 *
 *                oxide        milligrams   lot
 *   doses        00 00 00 1B  00 00 04 E2  00 01 12 AB
 *
 * The bytes behind the doses stay as they were. A book may state none. Any other
 * number leaves every byte of the buffer as it was; nothing is written before all
 * checks have passed. STATION_DOSES_ROOM bytes are enough for every book; with less, a
 * book of more doses is refused (24).
 *
 * A package that was damaged on the way, be it by one bit of the book, which is part of
 * the header, or of the payload, is refused (27), if no check before that fails. This is
 * for damage: whoever changes a package on purpose can state its digest anew. No
 * signature is looked at.
 *
 * Edition 2 knows all that edition 1 does, a date record and a dose with a
 * tolerance besides, and asks for the batch weight (20002), which must be the sum
 * of the milligrams. Edition 3 keeps all of edition 2, the batch weight too, and knows
 * a dose with a lot. An edition skips remarks that it does not know. A weighed
 * record that it does not know is refused (20), never skipped.
 */
uint64_t station_read(uint32_t edition, const uint8_t *package, size_t package_len,
                      uint8_t *doses, size_t doses_len);

/*
 * Where is the data of an entry?
 *
 *   package, package_len  the lent package
 *   structure             0 for the signature, any other number for the header
 *   tag                   the entry's tag
 *   type                  the entry's type: 1 char, 2 int8, 3 int16, 4 int32,
 *                         6 string, 7 bin, 8 string array, 9 translated string
 *
 * On success the number is 0 and the place is the offset of the data's first
 * byte; the data lies wholly inside the package. Numbers in it are big-endian,
 * each string ends with a zero byte. Tag and type must both be the record's: a
 * tag with another type is not found (25), nor is an unlawful type.
 */
uint64_t station_find(const uint8_t *package, size_t package_len,
                      uint32_t structure, uint32_t tag, uint32_t type);

/*
 * Where is one element of an entry?
 *
 *   element               which one, from 0; at or above the count it is 26
 *
 * The rest is as for station_find. On success the place is the offset of the
 * element's first byte: a char, int8 or bin element is one byte, an int16 two, an
 * int32 four, and a string runs up to and with its zero byte.
 *
 * The elements of a translated string (9) go by locale number: element i is the text
 * in the locale that element i of the header's tag 100, a string array (8), names. A
 * text may have fewer strings than there are locales; for a locale at or above its
 * count it is 26. Where 100 is "C", "de", "fr" and the summary, 1004, is "Notes",
 * "Notizen", its element 1 is the text in "de", and 2 is 26.
 */
uint64_t station_find_element(const uint8_t *package, size_t package_len,
                              uint32_t structure, uint32_t tag, uint32_t type,
                              uint32_t element);

/*
 * Write a package.
 *
 *   name, name_len         the lead's name: 1 to 65 bytes, none of them zero
 *   signature, .._len      the list of the signature's entries; it may be empty
 *   signature_data, .._len their data
 *   header, .._len         the list of the header's entries
 *   header_data, .._len    their data
 *   package, package_len   the lent package buffer
 *
 * A list has 16 bytes an entry (STATION_ENTRY_BYTES): four numbers of four bytes
 * each, big-endian, which are tag, type, count, and how many bytes its data has.
 * The data of all entries is lent apart, in the list's order, each right behind the
 * one before. The header entries 1000, string, "sky", and 20002, int32, 1250:
 *
 *                tag          type         count        bytes of data
 *   header       00 00 03 E8  00 00 00 06  00 00 00 01  00 00 00 04
 *                00 00 4E 22  00 00 00 04  00 00 00 01  00 00 00 04
 *   header_data  73 6B 79 00  00 00 04 E2
 *
 * with header_len 32 and header_data_len 8. Data is what type and count say, no
 * less and no more: of a fixed size, count times the element's size; of strings,
 * so many, each with its zero byte. Nothing is aligned in what is lent.
 *
 * Written are the lead with the name, its free bytes zero; the signature, whose first
 * two entries are 1000, int32, the length from the header's start to the package's
 * end, and 1004, bin, the MD5 digest of those bytes, and the rest yours; zero bytes to
 * the header's start; the header. There is no payload. Entries and data stand in the
 * list's order, the data packed, with zero bytes where alignment asks for them. 1000
 * and 1004 are written for you: a signature list that holds either is refused.
 *
 * On success the number is 0 and the place is the package's length; the bytes of
 * the buffer behind it stay as they were. Any other number leaves every byte of the
 * buffer as it was:
 *
 *   32  - the name is not 1 to 65 bytes, or has a zero byte;
 *       - a list's length is no multiple of 16, an entry's data passes the end of
 *         the data, or bytes of data belong to no entry;
 *       - the signature's list is over 510 entries (512 with 1000 and 1004) or holds
 *         1000 or 1004; the header's list is empty or over 512 entries;
 *       - an entry's type is none of 1-4 and 6-9; its count is 0, or not 1 for a
 *         string (6) or, in the signature's list, a translated string (9); an
 *         earlier entry of its list has its tag; or its data is not exactly what
 *         type and count say
 *   33  the package would be longer than 65,536 bytes
 *   34  the package buffer is shorter than the package; with the place's number of
 *       bytes, or STATION_PACKAGE_ROOM, it is written
 *
 * What is written passes checks 2 to 13, 16, 27 and 28: the look-ups show each entry
 * with its data. Whether station_read accepts it is up to the entries: a translated
 * string, say, that has more strings than tag 100 is written, and refused when it is
 * read (17). Read it before you send it out. examples/make_book.c does.
 */
uint64_t station_write(const uint8_t *name, size_t name_len,
                       const uint8_t *signature, size_t signature_len,
                       const uint8_t *signature_data, size_t signature_data_len,
                       const uint8_t *header, size_t header_len,
                       const uint8_t *header_data, size_t header_data_len,
                       uint8_t *package, size_t package_len);

/*
 * The MD5 digest (RFC 1321) of bytes.
 *
 *   bytes, bytes_len       the lent bytes: anything, of any length, also none
 *   digest, digest_len     the lent digest buffer
 *
 * On success the number is 0 and the place is 16. The digest's 16 bytes
 * (STATION_DIGEST_BYTES) stand at the buffer's front, in the order in which md5sum
 * prints them; the bytes behind them stay as they were. With less room the answer is
 * 34, place 16, and every byte of the buffer stays as it was. The bytes of "abc":
 *
 *   bytes        61 62 63
 *   digest       90 01 50 98 3C D2 4F B0 D6 96 3F 7D 28 E1 7F 72
 *
 *   uint8_t digest[STATION_DIGEST_BYTES];
 *   station_digest(bytes, 3, digest, sizeof digest);
 *
 * The digest that a package states is the data of the signature's 1004, bin; it is that
 * of the package's bytes from the header's start to its end. examples/station.c shows
 * both where they differ.
 */
uint64_t station_digest(const uint8_t *bytes, size_t bytes_len,
                        uint8_t *digest, size_t digest_len);

/*
 * Which of two versions is the newer?
 *
 *   left, left_len         a lent version text: anything, of any length, also none
 *   right, right_len       another one, or the same
 *
 * The answer says what left is against right: STATION_OLDER (0), STATION_SAME (1) or
 * STATION_NEWER (2). It is no number and place. The other way round it is the contrary,
 * and any versions can be sorted by it.
 *
 * It is rpm's rule without its tilde and caret. A text is a list of runs, each as many
 * digits, or as many letters, in a row as there are; 0 to 9, A to Z and a to z count,
 * every other byte only separates, be it a dot, a tilde, a zero byte or one above 127.
 * Texts are compared run by run, and the first two runs that differ decide. A missing
 * run is the lowest, then come letters, then digits. Digits go by their value, however
 * many there are; letters by their bytes, so capitals come before small ones, and what
 * another run begins with comes before it.
 *
 *   left     right    left is
 *   "1.9"    "1.10"   older: 9 is less than 10
 *   "1.0"    "1_00"   same: separators and leading zeros do not count
 *   "1"      "1.a"    older: a missing run is below letters
 *   "1.a"    "1.1"    older: letters are below digits
 *   "2.0b"   "2.0a"   newer
 *
 * The zero byte that ends a string of a package changes nothing: it separates. A version
 * and a release in one text, "1.2-3", are the same as the version "1.2.3"; compare
 * versions with versions.
 */
uint32_t station_compare(const uint8_t *left, size_t left_len,
                         const uint8_t *right, size_t right_len);

/*
 * Does a version meet what a package requires of a name?
 *
 *   package, package_len   the lent package
 *   name, name_len         the required name, without a zero byte
 *   version, version_len   the version text that is to meet it
 *
 * What a package requires stands in three entries of its header: names (1049) and
 * versions (1050), string arrays (8), and flags (1048), int32 (4), all of one count. The
 * first name that equals the lent one, whole, has its version and its flags beside it.
 * Three bits of the flags name relations; each other bit is ignored:
 *
 *   0x02   less: the lent version is older than the required one
 *   0x04   greater: it is newer
 *   0x08   equal: it is the same
 *
 * Whole texts are compared, as station_compare does. One flagged relation that holds
 * suffices: 0x0C is "at least". With none of the three flagged any version will do.
 *
 * On success the number is 0 and the place is 1 if the version meets what is required,
 * else 0. The number is 25 if no name equals the lent one (one that holds a zero byte
 * equals none; an empty one equals an empty one), or if the three entries are not there
 * in these types and of one count.
 */
uint64_t station_meets(const uint8_t *package, size_t package_len,
                       const uint8_t *name, size_t name_len,
                       const uint8_t *version, size_t version_len);

#ifdef __cplusplus
}
#endif

#endif
