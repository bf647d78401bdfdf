/*
 * The reading as a host program in C makes it, with exact answers.
 *
 *   read_test DATA-FOLDER
 *
 * Package and dose buffer each end right before a page that faults.
 */
#define PROGRAM "read_test"
#include "package.h"
#include "least.h"

/* ---- A reading, and what it does to the buffer ---- */

typedef uint32_t dose[3]; /* oxide, milligrams, lot */

/* Every edition that there is. */
enum { FIRST = 1, LATEST = 3 };

static void reading(const char *what, uint32_t edition, size_t room, uint32_t number,
                    uint32_t place, const dose *doses)
{
    static uint8_t before[8192];
    static uint8_t *fence;
    if (fence == NULL)
        fence = build_fence();
    for (size_t i = 0; i < room; i++)
        before[i] = (uint8_t)(asked + 3 * i + 1);
    uint8_t *buffer = memcpy(fence - room, before, room);
    expect(what, station_read(edition, lend(), length, buffer, room), number, place);

    /* On success the doses at the front; otherwise, and behind them, no change. */
    for (size_t i = 0; number == 0 && i < 3 * place; i++)
        for (int j = 0; j < 4; j++)
            before[4 * i + j] = (uint8_t)(doses[i / 3][i % 3] >> (24 - 8 * j));
    if (memcmp(buffer, before, room) != 0) {
        fprintf(stderr, PROGRAM ": %s: other bytes in the buffer\n", what);
        exit(1);
    }
}

static void accepted(const char *what, uint32_t edition, uint32_t count, const dose *doses)
{
    reading(what, edition, STATION_DOSE_BYTES * count, 0, count, doses);
    reading(what, edition, STATION_DOSES_ROOM, 0, count, doses);
}

static void refused(const char *what, uint32_t edition, uint32_t number, uint32_t place)
{
    reading(what, edition, 0, number, place, NULL);
    reading(what, edition, STATION_DOSES_ROOM, number, place, NULL);
}

/* From an edition on, each has the same answer. */
static void accepted_from(const char *what, uint32_t edition, uint32_t count, const dose *doses)
{
    for (; edition <= LATEST; edition++)
        accepted(what, edition, count, doses);
}

static void refused_from(const char *what, uint32_t edition, uint32_t number, uint32_t place)
{
    for (; edition <= LATEST; edition++)
        refused(what, edition, number, place);
}

static void refused_alike(const char *what, uint32_t number, uint32_t place)
{
    refused_from(what, FIRST, number, place);
}

/* ---- Making a package ---- */

enum { SIGNATURE, HEADER };

static struct entry entries[2][64];
static size_t counts[2];
static uint32_t payload, h;

/* What the least package doses. */
static const dose cobalt[] = {{27, 1250, 0}};

static void least(void)
{
    memcpy(entries[SIGNATURE], least_signature, sizeof least_signature);
    memcpy(entries[HEADER], least_header, sizeof least_header);
    counts[SIGNATURE] = sizeof least_signature / sizeof least_signature[0];
    counts[HEADER] = sizeof least_header / sizeof least_header[0];
    payload = 0;
}

static void drop(int structure, uint32_t tag)
{
    for (size_t i = 0; i < counts[structure]; i++)
        if (entries[structure][i].tag == tag)
            entries[structure][i] = entries[structure][--counts[structure]];
}

static void set(int structure, struct entry entry)
{
    drop(structure, entry.tag);
    entries[structure][counts[structure]++] = entry;
}

static void write_structure(int structure)
{
    static uint32_t records[64][4];
    static uint8_t store[ROOM];
    size_t size = 0;
    for (size_t i = 0; i < counts[structure]; i++) {
        const struct entry *entry = &entries[structure][i];
        size_t align = entry->type == 4 ? 4 : entry->type == 3 ? 2 : 1;
        while (size % align != 0)
            store[size++] = 0;
        uint32_t record[4] = {entry->tag, entry->type, (uint32_t)size, entry->count};
        memcpy(records[i], record, sizeof record);
        memcpy(store + size, entry->data, entry->size);
        size += entry->size;
    }
    put_structure((const uint32_t(*)[4])records, counts[structure], store, size);
}

/* Where the signature's store has the data of a tag that has this type; 0 if it has none. */
static uint32_t signature_data(uint32_t tag, uint8_t type)
{
    uint32_t store = 112 + 16 * (uint32_t)counts[SIGNATURE];
    for (uint32_t at = 112; at < store; at += 16)
        if (package[at + 2] == tag >> 8 && package[at + 3] == (uint8_t)tag &&
            package[at + 7] == type)
            return store + package[at + 11];
    return 0;
}

/* Puts the right digest into the signature's 1004; digest_test.c tests it. */
static void put_digest(void)
{
    uint32_t at = signature_data(1004, 7);
    if (at != 0)
        station_digest(package + h, length - h, package + at, 16);
}

/* Writes the package; the signature's 1000 is length - H, its 1004 the digest. */
static void make(void)
{
    put_lead();
    write_structure(SIGNATURE);
    h = (uint32_t)(length + 7) / 8 * 8;
    length = h;
    write_structure(HEADER);
    length += payload;
    uint32_t at = signature_data(1000, 4);
    if (at != 0)
        put(at, (uint32_t)length - h);
    put_digest();
}

/* The least package with one entry changed, absent or added. */
static void with(int structure, struct entry entry)
{
    least();
    set(structure, entry);
    make();
}

static void without(int structure, uint32_t tag)
{
    least();
    drop(structure, tag);
    make();
}

/* A book in the least package, with a batch weight. */
static void with_book(const void *book, uint32_t size, uint32_t weight)
{
    static uint8_t word[4];
    for (int i = 0; i < 4; i++)
        word[i] = (uint8_t)(weight >> (24 - 8 * i));
    least();
    set(HEADER, (struct entry)BIN(20001, book, size));
    set(HEADER, (struct entry)WORD(20002, word));
    make();
}

/* ---- Tests ---- */

static void example(void)
{
    least();
    payload = 5;
    make();
    accepted_from("example", FIRST, 1, cobalt);
    static const uint32_t editions[] = {0, 4, 257, 259, 65538, 1u << 31, (1u << 31) + 3,
                                        UINT32_MAX};
    for (size_t i = 0; i < sizeof editions / sizeof editions[0]; i++)
        refused("no such edition", editions[i], 1, 0);
    size_t whole = length;
    length = 0;
    refused("no such edition, no package", 4, 1, 0);
    refused_alike("empty", 3, 0);
    length = 95;
    refused_alike("95 bytes", 3, 95);
    length = 65537;
    refused("no such edition, too long", 0, 1, 0);
    refused_alike("too long", 2, 0);
    length = whole;
    put(h + 8, 0);
    refused_alike("no records", 7, h + 8);
    make();
    put(h + 16 + 4, 5);
    refused_alike("type 5", 9, h + 16);
}

static void buffers(void)
{
    static const uint8_t book[] = "\x86\x00\x1B\x00\x00\x00\x09\x86\x00\x1C\x00\x4C\x4B\x40";
    static const dose doses[] = {{27, 9, 0}, {28, 5000000, 0}};
    with_book(book, 14, 5000009);
    for (uint32_t edition = FIRST; edition <= LATEST; edition++) {
        for (size_t room = 0; room < 24; room++)
            reading("too short", edition, room, 24, 6, NULL);
        for (size_t room = 24; room < 38; room++)
            reading("room", edition, room, 0, 2, doses);
    }
    with_book(book, 14, 5000010);
    refused_from("other sum", 2, 23, 20002);
    reading("23 before 24", 2, 23, 23, 20002, NULL);
    reading("23 before 24", 3, 23, 23, 20002, NULL);
    reading("no sum in edition 1", 1, 23, 24, 6, NULL);
    accepted("no sum in edition 1", 1, 2, doses);
}

/* A record with a lot: oxide 27, 1250 mg. */
#define LOT_OF(lot) "\xAA\x00\x1B\x00\x00\x04\xE2" lot

static void lots(void)
{
    static const struct {
        const char *book;
        dose dose;
    } samples[] = {
        {LOT_OF("\x00\x00\x00\x00"), {27, 1250, 0}},
        {LOT_OF("\x00\x00\x00\x01"), {27, 1250, 1}},
        {LOT_OF("\x01\x02\x03\x04"), {27, 1250, 0x01020304}},
        {LOT_OF("\x80\x00\x00\x00"), {27, 1250, 1u << 31}},
        {LOT_OF("\x86\x00\x1B\x00"), {27, 1250, 0x86001B00}},
        {LOT_OF("\xFF\xFF\xFF\xFF"), {27, 1250, UINT32_MAX}},
    };
    for (size_t i = 0; i < sizeof samples / sizeof samples[0]; i++) {
        with_book(samples[i].book, 11, 1250);
        accepted("lot", 3, 1, &samples[i].dose);
        refused("lot", 1, 20, 0);
        refused("lot", 2, 20, 0);
        for (size_t room = 0; room < 12; room++)
            reading("lot, too short", 3, room, 24, 3, NULL);
        for (size_t room = 12; room < 25; room++)
            reading("lot, room", 3, room, 0, 1, &samples[i].dose);
        for (uint32_t size = 1; size < 11; size++) {
            with_book(samples[i].book, size, 1250);
            refused("lot cut", 3, 21, 0);
            refused("lot cut", 2, 20, 0);
            refused("lot cut", 1, 20, 0);
        }
    }

    /* Each its own lot; 0 without one. */
    static const dose five[] = {
        {27, 1250, 5}, {2, 1, 0}, {27, 1250, UINT32_MAX}, {1, 2, 0}, {27, 1250, 0}};
    static const char mixed[] = "\x02\xAA\xAA" LOT_OF("\x00\x00\x00\x05")
                                "\x86\x00\x02\x00\x00\x00\x01" LOT_OF("\xFF\xFF\xFF\xFF")
                                "\x98\x00\x01\x00\x00\x00\x02\xFF\xFF" LOT_OF("\x00\x00\x00\x00");
    with_book(mixed, sizeof mixed - 1, 3753);
    accepted("mixed kinds", 3, 5, five);
    refused("mixed kinds", 1, 20, 3);
    refused("mixed kinds", 2, 20, 3);
    with_book(mixed, sizeof mixed - 1, 3752);
    refused("mixed kinds, other sum", 3, 23, 20002);
    with_book(mixed, sizeof mixed - 2, 3753);
    refused("mixed kinds, cut", 3, 21, 41);

    /* Behind what an earlier edition knows. */
    static const dose three[] = {{2, 1, 0}, {1, 2, 0}, {27, 1250, 9}};
    static const char later[] = "\x86\x00\x02\x00\x00\x00\x01"
                                "\x98\x00\x01\x00\x00\x00\x02\xFF\xFF" LOT_OF("\x00\x00\x00\x09");
    with_book(later, sizeof later - 1, 1253);
    accepted("behind others", 3, 3, three);
    refused("behind others", 1, 20, 7);
    refused("behind others", 2, 20, 16);
    drop(HEADER, 20002);
    make();
    refused("no batch weight", 1, 20, 7);
    refused_from("no batch weight", 2, 14, 20002);

    with_book("\xAA\x00\x00\x00\x00\x04\xE2\x00\x00\x00\x01", 11, 1250);
    refused("oxide 0", 3, 22, 0);
    with_book("\xAA\x00\x1B\x00\x4C\x4B\x41\x00\x00\x00\x01", 11, 5000001);
    refused("too many milligrams", 3, 22, 0);
    with_book("\xBA\x00\x1B\x00\x00\x04\xE2\x00\x00\x00\x01", 11, 1250);
    refused_alike("no such kind", 20, 0);

    static uint8_t full[4096];
    static dose all[372];
    for (uint32_t i = 0; i < 372; i++) {
        memcpy(full + 11 * i, LOT_OF("\x00\x00\x00\x00"), 11);
        full[11 * i + 9] = (uint8_t)(i >> 8);
        full[11 * i + 10] = (uint8_t)i;
        memcpy(all[i], (dose){27, 1250, i}, sizeof all[i]);
    }
    with_book(full, 4096, 372 * 1250);
    accepted("372 lots", 3, 372, (const dose *)all);
    reading("371 fit", 3, 371 * 12, 24, 1116, NULL);
    reading("two numbers a dose", 3, 372 * 8, 24, 1116, NULL);
}

static void books(void)
{
    static const dose most[] = {{27, 5000000, 0}};
    static const struct {
        const char *book;
        uint32_t size, edition, number;
        const dose *doses;
    } samples[] = {
        {"\x86\x00\x1B\x00\x4C\x4B\x40", 7, 2, 0, most},
        {"\x86\x00\x1B\x00\x4C\x4B\x41", 7, 2, 22, NULL},
        {"\x98\x00\x1B\x00\x00\x04\xE2\x00\x05", 9, 1, 20, NULL},
        {"\x98\x00\x1B\x00\x00\x04\xE2\x00\x05", 9, 2, 0, cobalt},
        {"\x98\x00\x1B\x00\x00\x04\xE2\x00\x05", 9, 3, 0, cobalt},
        {"\x14\x00\x00", 3, 1, 21, NULL},
        {"\x14\x00\x00", 3, 2, 21, NULL},
        {"\x96", 1, 2, 20, NULL},
        {"\x7F", 1, 2, 21, NULL},
        {"\x80", 1, 2, 20, NULL},
        {"\x86\x00\x00\x00\x00\x04\xE2", 7, 2, 22, NULL},
        {"\x86\x03\xE8\x00\x00\x04\xE2", 7, 2, 22, NULL},
        {"\x86\x00\x1B\x00\x00\x00\x00", 7, 2, 22, NULL},
    };
    for (size_t i = 0; i < sizeof samples / sizeof samples[0]; i++) {
        const dose *doses = samples[i].doses;
        uint32_t edition = samples[i].edition;
        with_book(samples[i].book, samples[i].size, doses ? doses[0][1] : 0);
        if (doses)
            accepted("sample", edition, 1, doses);
        else
            refused("sample", edition, samples[i].number, 0);
        /* Edition 3 keeps what edition 2 says. */
        if (edition == 2)
            reading("sample", 3, STATION_DOSES_ROOM, samples[i].number, doses ? 1 : 0, doses);
    }
    with_book("\x00", 1, 0);
    accepted_from("no doses", FIRST, 0, NULL);

    static const dose three[] = {{2, 1, 0}, {1, 2, 0}, {2, 3, 0}};
    static const char mixed[] = "\x02\x98\x98\x86\x00\x02\x00\x00\x00\x01"
                                "\x98\x00\x01\x00\x00\x00\x02\xFF\xFF"
                                "\x86\x00\x02\x00\x00\x00\x03";
    with_book(mixed, sizeof mixed - 1, 6);
    accepted_from("doses in order", 2, 3, three);
    refused("a newer kind is not skipped", 1, 20, 10);
    with_book(mixed, sizeof mixed - 2, 6);
    refused_from("end of the last", 2, 21, 19);

    with_book(zeros, 4096, 0);
    accepted_from("4,096 bytes", FIRST, 0, NULL);
    with_book(zeros, 4097, 0);
    refused_alike("4,097 bytes", 19, 20001);

    static uint8_t full[4096];
    static dose all[585];
    for (int i = 0; i < 585; i++) {
        memcpy(full + 7 * i, "\x86\x00\x1B\x00\x4C\x4B\x40", 7);
        memcpy(all[i], most[0], sizeof most[0]);
    }
    with_book(full, 4096, 2925000000u);
    accepted_from("585 doses", FIRST, 585, (const dose *)all);
    for (uint32_t edition = FIRST; edition <= LATEST; edition++) {
        reading("584 fit", edition, 584 * 12, 24, 1755, NULL);
        reading("two numbers a dose", edition, 585 * 8, 24, 1755, NULL);
    }
}

static void lines(void)
{
    static const uint32_t required[] = {
        100,  1000, 1001, 1002, 1004, 1005, 1009, 1014, 1016, 1021, 1022, 1028,
        1030, 1033, 1034, 1035, 1036, 1037, 1039, 1040, 1047, 1048, 1049, 1050,
        1095, 1096, 1097, 1112, 1113, 1124, 1125, 1126, 20001};
    for (size_t i = 0; i < sizeof required / sizeof required[0]; i++) {
        uint32_t tag = required[i];
        without(HEADER, tag);
        refused_alike("required tag", 14, tag);
        with(HEADER, (struct entry)ZEROS(tag, 2, 1, 1));
        refused_alike("other type", 15, tag);
    }
    for (uint32_t tag = 1000; tag <= 1004; tag += 4) {
        without(SIGNATURE, tag);
        refused_alike("required tag of the signature", 14, tag);
        with(SIGNATURE, (struct entry)ZEROS(tag, 3, 1, 2));
        refused_alike("other type in the signature", 15, tag);
    }
    with(SIGNATURE, (struct entry)BIN(1004, zeros, 17));
    refused_alike("digest of 17", 15, 1004);
    with(SIGNATURE, (struct entry)BIN(1002, zeros, 152));
    accepted_from("1002 of any count", FIRST, 1, cobalt);
    with(HEADER, (struct entry)ZEROS(1009, 4, 2, 4));
    refused_alike("two sizes", 15, 1009);
    with(HEADER, (struct entry)STRINGS(1012, 3, "\0\0"));
    accepted_from("tag without a line", FIRST, 1, cobalt);
    with(HEADER, (struct entry)BIN(1006, zeros, 4));
    refused_alike("optional tag of another type", 15, 1006);

    /* The batch weight has a line from edition 2 on. */
    without(HEADER, 20002);
    accepted("no batch weight", 1, 1, cobalt);
    refused_from("no batch weight", 2, 14, 20002);
    with(HEADER, (struct entry)BIN(20002, zeros, 4));
    accepted("batch weight of another type", 1, 1, cobalt);
    refused_from("batch weight of another type", 2, 15, 20002);
    with(HEADER, (struct entry)ZEROS(20002, 4, 2, 4));
    accepted("two batch weights", 1, 1, cobalt);
    refused_from("two batch weights", 2, 15, 20002);
    with(HEADER, (struct entry)WORD(20002, zeros));
    accepted("batch weight 0", 1, 1, cobalt);
    refused_from("batch weight 0", 2, 23, 20002);
}

static void size(void)
{
    least();
    payload = 20;
    make();
    length--;
    refused_alike("one byte lost", 16, 1000);
    length += 2;
    refused_alike("one byte more", 16, 1000);
    length--;
    put(144, (uint32_t)length);
    refused_alike("the file's length", 16, 1000);
    put(144, (uint32_t)length - h);
    accepted_from("length - H", FIRST, 1, cobalt);
}

static void groups(void)
{
    with(SIGNATURE, (struct entry)BIN(1011, zeros, 1));
    refused_alike("1011 without 1005", 17, 1005);
    with(SIGNATURE, (struct entry)BIN(1012, zeros, 1));
    refused_alike("1012 without 1002", 17, 1002);
    set(SIGNATURE, (struct entry)BIN(1011, zeros, 1));
    make();
    refused_alike("1011 goes first", 17, 1005);
    for (uint32_t i = 0; i < 4; i++) {
        with(HEADER, (struct entry)STRING(1023 + i, "true"));
        refused_alike("scriptlet without program", 17, 1085 + i);
        set(HEADER, (struct entry)STRING(1085 + i, "/bin/sh"));
        make();
        accepted_from("scriptlet", FIRST, 1, cobalt);
    }
    with(HEADER, (struct entry)ZEROS(1033, 3, 2, 2));
    refused_alike("1033 of two", 17, 1033);
    with(HEADER, (struct entry)ZEROS(1028, 4, 2, 4));
    refused_alike("two files", 17, 1030);
    with(HEADER, (struct entry)STRINGS(1027, 1, "/srv/book"));
    refused_alike("names in both forms", 17, 1027);
    for (uint32_t tag = 1116; tag <= 1118; tag++)
        drop(HEADER, tag);
    make();
    accepted_from("old names", FIRST, 1, cobalt);
    set(HEADER, (struct entry)STRINGS(1027, 2, "a\0b"));
    make();
    refused_alike("two old names", 17, 1027);
    without(HEADER, 1117);
    refused_alike("no 1117", 17, 1117);
    with(HEADER, (struct entry)STRINGS(1117, 2, "a\0b"));
    refused_alike("1117 of two", 17, 1117);
    with(HEADER, (struct entry)STRINGS(1049, 2, "a\0b"));
    refused_alike("two requires", 17, 1048);
    with(HEADER, (struct entry)STRINGS(1113, 2, "a\0b"));
    refused_alike("two versions provided", 17, 1113);
    with(HEADER, (struct entry)ZEROS(1053, 4, 1, 4));
    refused_alike("conflict flags alone", 17, 1054);
    with(HEADER, (struct entry)STRINGS(1115, 1, "1"));
    refused_alike("obsoleted version alone", 17, 1090);
    with(HEADER, (struct entry)STRINGS(1081, 1, "me"));
    refused_alike("change without time", 17, 1080);
    set(HEADER, (struct entry)ZEROS(1080, 4, 2, 4));
    make();
    refused_alike("missing goes before differing", 17, 1082);
}

/* Translated strings, one for each locale of tag 100 at most. */
static void locales(void)
{
    static const uint32_t tags[] = {1004, 1005, 1016, 99, 1012, 30000, UINT32_MAX};
    for (size_t i = 0; i < sizeof tags / sizeof tags[0]; i++) {
        with(HEADER, (struct entry){tags[i], 9, 2, "a\0b", 4});
        refused_alike("two strings, one locale", 17, tags[i]);
        set(HEADER, (struct entry)STRINGS(100, 2, "C\0de"));
        make();
        accepted_from("two locales", FIRST, 1, cobalt);
        set(HEADER, (struct entry){tags[i], 9, 3, "a\0b\0", 5});
        make();
        refused_alike("three strings, two locales", 17, tags[i]);
        set(HEADER, (struct entry)STRINGS(100, 3, "C\0de\0fr"));
        set(HEADER, (struct entry){tags[i], 9, 2, "a\0b", 4});
        make();
        accepted_from("fewer strings than locales", FIRST, 1, cobalt);
        drop(HEADER, 100);
        make();
        refused_alike("no locales", 14, 100);
        set(HEADER, (struct entry){100, 9, 3, "C\0de\0fr", 8});
        make();
        refused_alike("locales of type 9", 15, 100);
    }

    /* The first in index order; what is set goes last. */
    with(HEADER, (struct entry){30000, 9, 2, "a\0b", 4});
    set(HEADER, (struct entry){5, 9, 2, "a\0b", 4});
    make();
    refused_alike("the higher tag first", 17, 30000);
    set(HEADER, (struct entry){30000, 9, 3, "a\0b\0", 5});
    make();
    refused_alike("the lower tag first", 17, 5);
    set(HEADER, (struct entry)STRINGS(1081, 1, "me"));
    make();
    refused_alike("the other groups first", 17, 1080);
    with(HEADER, (struct entry){1004, 9, 2, "a\0b", 4});
    set(HEADER, (struct entry)STRING(1021, "Linux"));
    make();
    refused_alike("before the texts", 17, 1004);
    with(HEADER, (struct entry)STRINGS(1012, 3, "a\0b\0c"));
    accepted_from("a string array has no locales", FIRST, 1, cobalt);

    /* In the signature there is one string. */
    with(SIGNATURE, (struct entry){30000, 9, 1, "a", 2});
    accepted_from("one string in the signature", FIRST, 1, cobalt);
    with(SIGNATURE, (struct entry){30000, 9, 2, "a\0b", 4});
    set(HEADER, (struct entry)STRINGS(100, 2, "C\0de"));
    make();
    refused_alike("two strings in the signature", 10, 112 + 2 * 16);
    for (int structure = SIGNATURE; structure <= HEADER; structure++) {
        with(structure, (struct entry){30000, 9, 0, "", 1});
        uint32_t last = 16 * (uint32_t)(counts[structure] - 1);
        refused_alike("no string", 10, (structure == HEADER ? h + 16 : 112) + last);
    }

    /* Edition 1 has no line for 20002. */
    with(HEADER, (struct entry){20002, 9, 2, "a\0b", 4});
    refused("two strings for the weight", 1, 17, 20002);
    refused_from("two strings for the weight", 2, 15, 20002);
    with(HEADER, (struct entry){20002, 9, 1, "a", 2});
    accepted("one string for the weight", 1, 1, cobalt);
    refused_from("one string for the weight", 2, 15, 20002);
}

static void texts(void)
{
    with(HEADER, (struct entry)STRING(1021, "Linux"));
    refused_alike("system", 18, 1021);
    for (uint32_t tag = 1085; tag <= 1088; tag++) {
        with(HEADER, (struct entry)STRING(tag, "/bin/bash"));
        refused_alike("program", 18, tag);
    }
    with(HEADER, (struct entry)WORD(1116, "\0\0\0\1"));
    refused_alike("directory's number", 18, 1116);
    set(HEADER, (struct entry)STRINGS(1118, 2, "/\0/srv/"));
    make();
    accepted_from("two directories", FIRST, 1, cobalt);
    set(HEADER, (struct entry)STRINGS(1118, 2, "/\0/srv"));
    make();
    refused_alike("directory without /", 18, 1118);
}

/* A bit turned over at a place; the answer is the same at each edition. */
static void turned(const char *what, size_t at, uint32_t number)
{
    package[at] ^= 0x04;
    if (number == 0)
        accepted_from(what, FIRST, 1, cobalt);
    else
        refused_alike(what, number, 1004);
    package[at] ^= 0x04;
}

static void digests(void)
{
    static const uint8_t wrong[16] = {1};
    least();
    payload = 70;
    make();
    accepted_from("digest", FIRST, 1, cobalt);
    uint32_t stated = signature_data(1004, 7);
    for (uint32_t i = 0; i < 16; i++)
        turned("digest", stated + i, 27);
    for (uint32_t i = 1; i <= 70; i++)
        turned("payload", length - i, 27);
    /* The weight is right before the payload, the book of 10 bytes before it, in 12. */
    for (uint32_t i = 1; i <= 16; i++)
        turned("book and weight", length - 70 - i, 27);
    for (uint32_t at = 80; at < 96; at++)
        turned("lead", at, 0);

    /* Without the last byte, from the payload on, from the lead on. */
    station_digest(package + h, length - h - 1, package + stated, 16);
    refused_alike("last byte left out", 27, 1004);
    station_digest(package + length - 70, 70, package + stated, 16);
    refused_alike("payload alone", 27, 1004);
    station_digest(package, length, package + stated, 16);
    refused_alike("whole file", 27, 1004);
    put_digest();
    accepted_from("right again", FIRST, 1, cobalt);

    /* Between 18 and 19. */
    with(HEADER, (struct entry)STRING(1021, "Linux"));
    memcpy(package + signature_data(1004, 7), wrong, 16);
    refused_alike("after the texts", 18, 1021);
    with_book(zeros, 4097, 0);
    memcpy(package + signature_data(1004, 7), wrong, 16);
    refused_alike("before the book's length", 27, 1004);
    with_book("\x96", 1, 0);
    memcpy(package + signature_data(1004, 7), wrong, 16);
    refused_alike("before the kinds", 27, 1004);
    least();
    make();
    memcpy(package + signature_data(1004, 7), wrong, 16);
    reading("before the room", 2, 7, 27, 1004, NULL);
    reading("before the room", 3, 11, 27, 1004, NULL);
}

/* A stray byte right before H; the answer is the same at each edition. */
static void stray(const char *what)
{
    package[h - 1] = 0x0A;
    refused_alike(what, 28, h - 1);
    package[h - 1] = 0;
}

/* The bytes from the signature's end to H: 3 to 0 of them before 184, 7 to 4 before 192. */
static void gaps(void)
{
    static const uint8_t wrong[16] = {1};
    for (uint32_t size = 1; size <= 8; size++) {
        with(SIGNATURE, (struct entry)BIN(1002, zeros, size));
        accepted_from("gap of zero bytes", FIRST, 1, cobalt);
        size_t whole = length;
        for (uint32_t at = 180 + size; at < h; at++) {
            package[at] = 0x0A;
            refused_alike("stray byte", 28, at);
            reading("stray byte, no room", 3, 11, 28, at, NULL);
            refused("no such edition", 4, 1, 0);
            length = at + 1;
            refused_alike("cut behind it", 28, at);
            length = at;
            refused_alike("cut before it", 5, h);
            length = whole;
            package[at] = 0;
        }
    }

    /* What comes behind. */
    without(HEADER, 20001);
    stray("before the lines");
    without(HEADER, 20002);
    stray("before the weight's line");
    with(HEADER, (struct entry)STRING(1021, "Linux"));
    stray("before the texts");
    with_book(zeros, 4097, 0);
    stray("before the book's length");
    with_book("\x96", 1, 0);
    stray("before the kinds");
    with_book("\x00", 1, 1);
    stray("before the sum");
    least();
    make();
    put(signature_data(1000, 4), 0);
    stray("before the size");
    make();
    memcpy(package + signature_data(1004, 7), wrong, 16);
    stray("before the digest");
    refused_alike("the digest alone", 27, 1004);
}

static void other_writers(const char *folder)
{
    static const char *const without_book[] = {"rb-one.rpm", "rb-deps.rpm",
                                               "rb-scripts.rpm", "rb-i18n.rpm",
                                               "rb-signed-rsa.rpm",
                                               "rb-legacy-nodirtokens-kinds.rpm"};
    static const char *const houses[] = {"house-one-region.rpm", "house-i18n.rpm",
                                         "house-make-64.rpm"};
    for (size_t i = 0; i < sizeof without_book / sizeof without_book[0]; i++) {
        read_package(folder, without_book[i]);
        refused_alike(without_book[i], 14, 20001);
    }
    for (size_t i = 0; i < sizeof houses / sizeof houses[0]; i++) {
        read_package(folder, houses[i]);
        accepted_from(houses[i], FIRST, 1, cobalt);
        reading("no room", 3, 11, 24, 3, NULL);
        package[length++] = 0;
        refused_alike("one byte more", 16, 1000);
    }
}

int main(int count, char **words)
{
    if (count != 2) {
        fprintf(stderr, PROGRAM " DATA-FOLDER\n");
        return 2;
    }
    example();
    buffers();
    books();
    lots();
    lines();
    size();
    groups();
    locales();
    texts();
    digests();
    gaps();
    other_writers(words[1]);
    printf(PROGRAM ": %d answers right\n", asked);
    return 0;
}
