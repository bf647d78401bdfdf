/*
 * The look-ups as a host program in C makes them, with exact answers.
 *
 *   find_test DATA-FOLDER
 *
 * Every package is lent right before a page that faults.
 */
#define PROGRAM "find_test"
#include "package.h"

static void find(const char *what, uint32_t structure, uint32_t tag, uint32_t type,
                 uint32_t number, uint32_t place)
{
    expect(what, station_find(lend(), length, structure, tag, type), number, place);
}

static void element(const char *what, uint32_t structure, uint32_t tag, uint32_t type,
                    uint32_t n, uint32_t number, uint32_t place)
{
    expect(what, station_find_element(lend(), length, structure, tag, type, n), number,
           place);
}

/* The package is refused whatever is asked. */
static void refused(const char *what, uint32_t number, uint32_t place)
{
    find(what, 0, 1000, 4, number, place);
    find(what, 1, 1000, 6, number, place);
    element(what, 0, 1000, 4, 0, number, place);
    element(what, UINT32_MAX, UINT32_MAX, UINT32_MAX, UINT32_MAX, number, place);
}

/* ---- Making a package ---- */

/* A right lead, and a signature of one int32 at 128. */
static void begin(void)
{
    static const uint32_t records[][4] = {{1000, 4, 0, 1}};
    put_lead();
    put_structure(records, 1, "\0\0\4\342", 4);
    length = 136;
}

enum { H = 136, FIRST = H + 16, SECOND = H + 32, THIRD = H + 48, STORE = H + 64 };

/* The package that most tests start from: three records, 14 bytes of store. */
static void make(void)
{
    static const uint32_t records[][4] = {
        {1000, 6, 0, 1}, {1117, 8, 0, 3}, {1030, 3, 10, 2}};
    begin();
    put_structure(records, 3, "lead\0\0tin\0\1\2\3\4", 14);
}

/* One number of the package wrong. */
static void wrong(const char *what, size_t at, uint32_t value, uint32_t number,
                  uint32_t place)
{
    make();
    put(at, value);
    refused(what, number, place);
}

/* ---- Tests ---- */

static void look_ups(void)
{
    make();
    find("signature", 0, 1000, 4, 0, 128);
    find("header", 1, 1000, 6, 0, STORE);
    find("header by another number", 2, 1117, 8, 0, STORE);
    find("header by the largest number", UINT32_MAX, 1030, 3, 0, STORE + 10);
    find("tag of the other structure", 0, 1030, 3, 25, 0);
    find("other type", 1, 1000, 8, 25, 0);
    find("type that no record may have", 1, 1000, 0, 25, 0);
    find("absent tag", 1, 1001, 6, 25, 0);

    element("first string", 1, 1117, 8, 0, 0, STORE);
    element("empty string", 1, 1117, 8, 1, 0, STORE + 5);
    element("last string", 1, 1117, 8, 2, 0, STORE + 6);
    element("no such string", 1, 1117, 8, 3, 26, 0);
    element("single string", 1, 1000, 6, 0, 0, STORE);
    element("no second one", 1, 1000, 6, 1, 26, 0);
    element("last int16", 1, 1030, 3, 1, 0, STORE + 12);
    element("no such int16", 1, 1030, 3, 2, 26, 0);
    element("largest number", 1, 1030, 3, UINT32_MAX, 26, 0);
    element("25 before 26", 1, 1030, 4, UINT32_MAX, 25, 0);
}

static void lengths(void)
{
    make();
    size_t whole = length;
    length = 0;
    refused("empty", 3, 0);
    length = 95;
    refused("95 bytes", 3, 95);
    length = 111;
    refused("no header record of the signature", 5, 96);
    length = 112;
    refused("no index of the signature", 8, 108);
    length = 132;
    refused("H behind the end", 5, H);
    length = H + 15;
    refused("no header record of the header", 5, H);
    length = whole - 1;
    refused("one byte short", 8, H + 12);
    length = 65536;
    find("as long as allowed", 1, 1000, 6, 0, STORE);
    length = 65537;
    refused("too long", 2, 0);
}

static void lead_fields(void)
{
    static const int fields[][2] = {{3, 0}, {4, 4}, {5, 5}, {7, 6}, {76, 76}, {79, 78}};
    for (size_t i = 0; i < sizeof fields / sizeof fields[0]; i++) {
        make();
        package[fields[i][0]] ^= 1;
        refused("lead field", 4, (uint32_t)fields[i][1]);
    }
    make();
    memset(package + 10, 'n', 66);
    refused("name without a zero byte", 4, 10);
    package[75] = 0;
    find("name of 65 bytes", 1, 1000, 6, 0, STORE);
    memset(package + 80, 'x', 16);
    package[8] = package[9] = 'x';
    find("free bytes", 1, 1000, 6, 0, STORE);
}

static void structures(void)
{
    for (uint32_t start = 96; start <= H; start += H - 96) {
        wrong("magic", start, 0x8EADE802, 6, start);
        wrong("reserved", start + 4, 1, 6, start + 4);
        wrong("nindex 0", start + 8, 0, 7, start + 8);
        wrong("nindex 513", start + 8, 513, 7, start + 8);
        wrong("nindex 2^28", start + 8, 1u << 28, 7, start + 8);
        wrong("nindex past the end", start + 8, 512, 8, start + 12);
        wrong("hsize", start + 12, 1000, 8, start + 12);
        wrong("hsize 2^32 - 1", start + 12, UINT32_MAX, 8, start + 12);
        wrong("type 0", start + 20, 0, 9, start + 16);
        wrong("count 0", start + 28, 0, 10, start + 16);
    }
    wrong("type 5", SECOND + 4, 5, 9, SECOND);
    wrong("type 10", THIRD + 4, 10, 9, THIRD);
    wrong("two strings of type 6", FIRST + 12, 2, 10, FIRST);
    wrong("int16 at 9", THIRD + 8, 9, 11, THIRD);
    wrong("string behind the store", FIRST + 8, 14, 12, FIRST);
    wrong("a string too many", SECOND + 12, 4, 12, SECOND);
    wrong("an int16 too many", THIRD + 12, 3, 12, THIRD);
    wrong("product over 2^32", THIRD + 12, (1u << 31) + 1, 12, THIRD);
    wrong("sum over 2^32", THIRD + 8, UINT32_MAX - 1, 12, THIRD);
    wrong("tag of the first record", THIRD, 1000, 13, THIRD);
}

/* The bytes from the signature's end to H, which is 160: 0 to 7 of them. */
static void gaps(void)
{
    static const uint32_t header[][4] = {{1000, 6, 0, 1}};
    static const uint8_t strays[] = {1, 0x80, 0xFF};
    static const uint8_t store[16] = "store";
    for (uint32_t gap = 0; gap < 8; gap++) {
        uint32_t end = 160 - gap;
        uint32_t records[][4] = {{1000, 4, 0, 1}, {1002, 7, 4, 12 - gap}};
        put_lead();
        put_structure((const uint32_t(*)[4])records, 2, store, 16 - gap);
        length = 160;
        refused("no header", 5, 160);
        put_structure(header, 1, "tin", 4);
        find("before the gap", 0, 1000, 4, 0, 144);
        find("behind the gap", 1, 1000, 6, 0, 192);
        size_t whole = length;
        for (uint32_t at = end; at < 160; at++) {
            for (size_t i = 0; i < sizeof strays; i++) {
                package[at] = strays[i];
                refused("stray byte", 28, at);
                length = 160;
                refused("stray byte, no header", 28, at);
                length = at + 1;
                refused("cut behind it", 28, at);
                length = at;
                refused("cut before it", 5, 160);
                length = whole;
            }
            package[159] = 1;
            refused("the first of two", 28, at);
            package[96] ^= 1;
            refused("signature's magic", 6, 96);
            package[96] ^= 1;
            put(128, 1000);
            refused("tag of the signature's first record", 13, 128);
            put(128, 1002);
            put(160, 0);
            refused("before the header's magic", 28, at);
            put(160, 0x8EADE801);
            put(168, 0);
            refused("before its nindex", 28, at);
            put(168, 1);
            put(180, 0);
            refused("before its first type", 28, at);
            put(180, 6);
            package[at] = package[159] = 0;
        }
        package[end - 1] = 0xFF;
        find("signature's last byte", 1, 1000, 6, 0, 192);
        package[160] = 0;
        refused("header's first byte", 6, 160);
    }
}

/* Strings of type 9 go by locale number; in the signature there is one. */
static void locales(void)
{
    static const uint32_t number[][4] = {{1000, 4, 0, 1}};
    static const char store[] = "Glass\0Glas\0\0vidro";
    static const uint32_t starts[] = {0, 6, 11, 12};
    for (uint32_t count = 0; count <= 5; count++) {
        uint32_t records[][4] = {{1004, 9, 0, count}};
        begin();
        put_structure((const uint32_t(*)[4])records, 1, store, sizeof store);
        if (count == 0 || count == 5) {
            refused("no such count", count == 0 ? 10 : 12, H + 16);
            continue;
        }
        find("whole entry", 1, 1004, 9, 0, H + 32);
        find("no string array", 1, 1004, 8, 25, 0);
        for (uint32_t n = 0; n < count; n++)
            element("locale", 1, 1004, 9, n, 0, H + 32 + starts[n]);
        element("no such locale", 1, 1004, 9, count, 26, 0);
        element("next one", 1, 1004, 9, count + 1, 26, 0);
        element("256 more", 1, 1004, 9, 256, 26, 0);
        element("65,536 more", 1, 1004, 9, 65536, 26, 0);
        element("largest number", 1, 1004, 9, UINT32_MAX, 26, 0);
        package[H + 32 + sizeof store - 1] = 'x';
        if (count == 4)
            refused("last zero byte lost", 12, H + 16);

        begin();
        length = 96;
        put_structure((const uint32_t(*)[4])records, 1, store, sizeof store);
        length = (length + 7) / 8 * 8;
        uint32_t h = (uint32_t)length;
        put_structure(number, 1, "\0\0\4\342", 4);
        if (count == 1) {
            element("locale of the signature", 0, 1004, 9, 0, 0, 128);
            element("no second one", 0, 1004, 9, 1, 26, 0);
            find("header behind it", 1, 1000, 4, 0, h + 32);
        } else
            refused("translations in the signature", 10, 112);
    }
}

/* Document 01's samples: a store of 8 bytes. */
static void store_of_8(void)
{
    static const struct {
        uint32_t record[4];
        const char *store;
        uint32_t number;
    } samples[] = {
        {{1, 4, 4, 1}, "\0\0\0\0\0\0\0\0", 0}, {{1, 4, 4, 2}, "\0\0\0\0\0\0\0\0", 12},
        {{1, 4, 2, 1}, "\0\0\0\0\0\0\0\0", 11}, {{1, 6, 7, 1}, "1234567\0", 0},
        {{1, 6, 7, 1}, "12345678", 12},         {{1, 7, 8, 1}, "\0\0\0\0\0\0\0\0", 12},
    };
    for (size_t i = 0; i < sizeof samples / sizeof samples[0]; i++) {
        const uint32_t *record = samples[i].record;
        begin();
        put_structure(&samples[i].record, 1, samples[i].store, 8);
        find("store of 8", 1, 1, record[1], samples[i].number,
             samples[i].number == 0 ? H + 32 + record[2] : H + 16);
    }
}

/* Document 002's signature: 3 records, 172 bytes of store, so H = 336. */
static void document_002(void)
{
    static const uint32_t signature[][4] = {
        {1000, 4, 0, 1}, {1001, 7, 4, 16}, {1002, 7, 20, 152}};
    static const uint32_t header[][4] = {{1000, 6, 0, 1}};
    static const char store[172];
    begin();
    length = 96;
    put_structure(signature, 3, store, sizeof store);
    refused("ends after the signature", 5, 336);
    length = 336;
    put_structure(header, 1, "rpm", 4);
    find("1000", 0, 1000, 4, 0, 160);
    find("1001", 0, 1001, 7, 0, 164);
    find("1002", 0, 1002, 7, 0, 180);
    element("last byte of 1002", 0, 1002, 7, 151, 0, 331);
    find("name", 1, 1000, 6, 0, 368);
}

/* nindex 512 is right, 513 is not. */
static void many_records(void)
{
    static uint32_t records[513][4];
    for (uint32_t i = 0; i < 513; i++) {
        records[i][0] = 1 + i;
        records[i][1] = 7;
        records[i][3] = 1;
    }
    begin();
    put_structure((const uint32_t(*)[4])records, 512, "x", 1);
    find("last of 512", 1, 512, 7, 0, H + 16 + 512 * 16);
    find("not among 512", 1, 513, 7, 25, 0);
    put(H + 16 + 511 * 16, 1);
    refused("last tag is the first", 13, H + 16 + 511 * 16);
    begin();
    put_structure((const uint32_t(*)[4])records, 513, "x", 1);
    refused("513 records", 7, H + 8);
}

/* ---- Packages of other writers ---- */

/* The place is what it should be, and the bytes are there. */
static void shows(uint32_t structure, uint32_t tag, uint32_t type, uint32_t n,
                  uint32_t place, const void *bytes, size_t count)
{
    element("element", structure, tag, type, n, 0, place);
    if (memcmp(package + place, bytes, count) != 0) {
        fprintf(stderr, PROGRAM ": other bytes at %u\n", place);
        exit(1);
    }
}

static void other_writers(const char *folder)
{
    read_package(folder, "rb-one.rpm");
    shows(0, 1000, 4, 0, 332, "\0\0\6\130", 4);
    shows(1, 1000, 6, 0, 5370, "one", 4);
    shows(1, 1004, 9, 0, 5380, "Glaze notes", 12);
    shows(1, 1030, 3, 0, 5516, "\201\244", 2);
    shows(1, 1050, 8, 1, 5731, "4.6.0-1", 8);
    find("signature's region", 0, 62, 7, 0, 4484);
    find("header's region", 1, 63, 7, 0, 6005);
    find("no book", 1, 20001, 7, 25, 0);
    element("one file only", 1, 1030, 3, 1, 26, 0);

    read_package(folder, "house-one-region.rpm");
    find("book", 1, 20001, 7, 0, 1869);
    shows(1, 20001, 7, 9, 1878, "\342", 1);
    shows(1, 20002, 4, 0, 1880, "\0\0\4\342", 4);
    find("batch weight is no bin", 1, 20002, 7, 25, 0);
    length = 1899;
    refused("cut", 8, 348);

    read_package(folder, "rb-i18n.rpm");
    shows(1, 1004, 9, 0, 5399, "Glaze notes", 12);
    shows(1, 1004, 9, 1, 5411, "Glasurnotizen", 14);
    shows(1, 1004, 9, 3, 5439, "Notas de esmalte", 17);
    shows(1, 1016, 9, 1, 5555, "Anwendungen/Glasur", 19);
    element("no fifth locale", 1, 1004, 9, 4, 26, 0);
    element("no third one", 1, 1016, 9, 2, 26, 0);
    find("no string array", 1, 1016, 8, 25, 0);
}

int main(int count, char **words)
{
    if (count != 2) {
        fprintf(stderr, PROGRAM " DATA-FOLDER\n");
        return 2;
    }
    look_ups();
    lengths();
    lead_fields();
    structures();
    gaps();
    locales();
    store_of_8();
    document_002();
    many_records();
    other_writers(words[1]);
    printf(PROGRAM ": %d answers right\n", asked);
    return 0;
}
