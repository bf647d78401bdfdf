/*
 * Versions as a host program in C compares them, and what a package requires, with exact
 * answers.
 *
 *   version_test
 *
 * Texts and packages end right before a page that faults; texts also begin right behind
 * one, and stand at any address.
 */
#define PROGRAM "version_test"
#include "package.h"

/* A page that faults, ROOM bytes, and another such page. */
static uint8_t *between_pages(void)
{
    uint8_t *all = mmap(NULL, ROOM + 2 * PAGE, PROT_NONE, MAP_PRIVATE | MAP_ANONYMOUS, -1, 0);
    if (all == MAP_FAILED || mprotect(all + PAGE, ROOM, PROT_READ | PROT_WRITE) != 0) {
        perror("pages");
        exit(1);
    }
    return all + PAGE;
}

/* Where the two texts of a question are put. */
static uint8_t *memory(int which)
{
    static uint8_t *places[2];
    if (places[which] == NULL)
        places[which] = between_pages();
    return places[which];
}

/* ---- Versions ---- */

static void right_answer(const char *left, const char *right, uint32_t answer,
                         uint32_t expected)
{
    asked++;
    if (answer == expected)
        return;
    fprintf(stderr, PROGRAM ": \"%s\" against \"%s\": %u, expected %u\n", left, right, answer,
            expected);
    exit(1);
}

/* Compares two texts of these lengths at the pages' starts, at their ends, and at odd
   addresses, both ways round. */
static void compare_bytes(const char *left, size_t left_len, const char *right,
                          size_t right_len, uint32_t expected)
{
    for (size_t from = 0; from < 12; from++) {
        size_t one = from < 10 ? from : ROOM - left_len - (from - 10);
        size_t other = from % 2 == 0 ? ROOM - right_len : 9 - from % 9;
        uint8_t *lefts = memcpy(memory(0) + one, left, left_len);
        uint8_t *rights = memcpy(memory(1) + other, right, right_len);
        right_answer(left, right, station_compare(lefts, left_len, rights, right_len), expected);
        right_answer(right, left, station_compare(rights, right_len, lefts, left_len),
                     STATION_NEWER - expected);
        right_answer(left, left, station_compare(lefts, left_len, lefts, left_len),
                     STATION_SAME);
    }
}

static void compare(const char *left, const char *right, uint32_t expected)
{
    compare_bytes(left, strlen(left), right, strlen(right), expected);
}

static void versions(void)
{
    compare("1.0", "1_0", STATION_SAME);
    compare("1.0", "1.00", STATION_SAME);
    compare("1", "1.a", STATION_OLDER);
    compare("1.a", "1.1", STATION_OLDER);
    compare("1.9", "1.10", STATION_OLDER);
    compare("2.0b", "2.0a", STATION_NEWER);
    compare("", "", STATION_SAME);
    compare("", "...", STATION_SAME);
    compare("", "0", STATION_OLDER);
    compare("", "a", STATION_OLDER);
    compare("a", "0", STATION_OLDER);
    compare("1.0", "1", STATION_NEWER);
    compare("010", "9", STATION_NEWER);
    compare("abc", "abcd", STATION_OLDER);
    compare("Z", "a", STATION_OLDER);
    compare("5.5p10", "5.5p1", STATION_NEWER);
    compare("1.0~rc1", "1.0.rc1", STATION_SAME);
    compare("1.0^git", "1.0", STATION_NEWER);
    compare("18446744073709551616", "18446744073709551615", STATION_NEWER);
    compare("0000000000000000000000000000000000000001", "1", STATION_SAME);
    compare("9999999999999999999999999999999999999999",
            "9999999999999999999999999999999999999998", STATION_NEWER);
}

/* Zero bytes and bytes above 127 separate as others do. */
static void any_bytes(void)
{
    compare_bytes("1\0002", 3, "1.2", 3, STATION_SAME);
    compare_bytes("1\0", 2, "1", 1, STATION_SAME);
    compare_bytes("1\0002", 3, "1", 1, STATION_NEWER);
    compare_bytes("1\3512", 3, "1.2", 3, STATION_SAME);
    compare_bytes("\377", 1, "", 0, STATION_SAME);
    for (int byte = 0; byte < 256; byte++) {
        char text[] = {'1', (char)byte, '2'};
        int digit = byte >= '0' && byte <= '9';
        int letter = (byte >= 'A' && byte <= 'Z') || (byte >= 'a' && byte <= 'z');
        compare_bytes(text, 3, "1.2", 3,
                      digit ? STATION_NEWER : letter ? STATION_OLDER : STATION_SAME);
    }
}

/* Texts that fill the memory between the pages. */
static void long_texts(void)
{
    for (const char *fill = "70k."; *fill != 0; fill++) {
        uint8_t *left = memset(memory(0), *fill, ROOM), *right = memset(memory(1), *fill, ROOM);
        right_answer("long", "long", station_compare(left, ROOM, right, ROOM), STATION_SAME);
        right[ROOM - 1] = *fill == 'k' ? 'z' : '8';
        right_answer("long", "longer", station_compare(left, ROOM, right, ROOM), STATION_OLDER);
        right_answer("longer", "long", station_compare(right, ROOM, left, ROOM), STATION_NEWER);
    }
}

/* Parts of one text, in its own memory. */
static void overlapping(void)
{
    uint8_t *text = memcpy(memory(0) + ROOM - 6, "1.2.10", 6);
    right_answer("1.2", "1.2.10", station_compare(text, 3, text, 6), STATION_OLDER);
    right_answer("2.10", "1.2.10", station_compare(text + 2, 4, text, 6), STATION_NEWER);
    right_answer("10", "0", station_compare(text + 4, 2, text + 5, 1), STATION_NEWER);
    right_answer("", "", station_compare(text, 0, text + 6, 0), STATION_SAME);
}

/* ---- Requirements ---- */

enum { H = 136, INDEX = H + 16, NAMES = INDEX + 16, VERSIONS = INDEX + 32, STORE = INDEX + 48 };

/* What is required: lead with the flags, tin at most 2, "" equal to "", tin at least 3. */
static void make(uint32_t flags)
{
    static const uint32_t own[][4] = {{1000, 4, 0, 1}};
    static const uint32_t records[][4] = {{1048, 4, 0, 4}, {1049, 8, 16, 4}, {1050, 8, 30, 4}};
    static const char store[] = "\0\0\0\0" "\0\0\0\n" "\0\0\0\b" "\0\0\0\f"
                                "lead\0tin\0\0tin\0" "1.3\0" "2\0" "\0" "3";
    put_lead();
    put_structure(own, 1, "\0\0\4\342", 4);
    length = H;
    put_structure(records, 3, store, sizeof store);
    put(STORE, flags);
}

static void meets_bytes(const char *what, const void *name, size_t name_len,
                        const void *version, size_t version_len, uint32_t number,
                        uint32_t place)
{
    for (size_t odd = 0; odd < 4; odd++) {
        uint8_t *names = memcpy(memory(0) + ROOM - name_len - odd, name, name_len);
        uint8_t *versions = memcpy(memory(1) + (odd % 2 ? odd : ROOM - version_len), version,
                                   version_len);
        expect(what,
               station_meets(lend(), length, names, name_len, versions, version_len), number,
               place);
    }
}

static void meets(const char *name, const char *version, uint32_t number, uint32_t place)
{
    meets_bytes(name, name, strlen(name), version, strlen(version), number, place);
}

static void names(void)
{
    make(8);
    meets("lead", "1.3", 0, 1);
    meets("lead", "1_03", 0, 1);
    meets("lead", "1.4", 0, 0);
    meets("tin", "2", 0, 1);
    meets("tin", "1", 0, 1);
    meets("tin", "3", 0, 0);
    meets("", "", 0, 1);
    meets("", "1", 0, 0);
    meets("absent", "1", 25, 0);
    meets("lea", "1.3", 25, 0);
    meets("leads", "1.3", 25, 0);
    meets("LEAD", "1.3", 25, 0);
    meets_bytes("with its zero byte", "lead", 5, "1.3", 3, 25, 0);
    meets_bytes("two names", "lead\0tin", 8, "1.3", 3, 25, 0);
    meets_bytes("a zero byte alone", "", 1, "", 0, 25, 0);
    meets_bytes("a version with a zero byte", "lead", 4, "1.3", 4, 0, 1);
    meets_bytes("a version behind a zero byte", "lead", 4, "1\0003", 3, 0, 1);
}

/* Older, the same, newer, with all flags; other bits do not count. */
static void flags(void)
{
    static const char *const given[] = {"1.2", "1.3", "1.4"};
    static const uint32_t bits[] = {0x02, 0x08, 0x04};
    static const uint32_t others[] = {0, 0x10, 0x100, 0x02000000, 0x0E00, 0x80000000, 0xFFFFFFF0};
    for (uint32_t flagged = 0; flagged < 16; flagged++)
        for (size_t i = 0; i < sizeof others / sizeof others[0]; i++)
            for (size_t j = 0; j < 3; j++) {
                make(flagged | others[i]);
                meets("lead", given[j], 0, (flagged & 0x0E) == 0 || (flagged & bits[j]) != 0);
            }
}

/* One number of an index record otherwise. */
static void otherwise(const char *what, size_t at, uint32_t value, uint32_t number,
                      uint32_t place)
{
    make(8);
    put(at, value);
    meets_bytes(what, "lead", 4, "1.3", 3, number, place);
    meets_bytes(what, "absent", 6, "", 0, number, place);
}

static void entries(void)
{
    otherwise("no flags", INDEX, 1047, 25, 0);
    otherwise("flags of int16", INDEX + 4, 3, 25, 0);
    otherwise("flags of int8", INDEX + 4, 2, 25, 0);
    otherwise("flags of bin", INDEX + 4, 7, 25, 0);
    otherwise("fewer flags", INDEX + 12, 3, 25, 0);
    otherwise("more flags", INDEX + 12, 5, 25, 0);
    otherwise("no names", NAMES, 1051, 25, 0);
    otherwise("translated names", NAMES + 4, 9, 25, 0);
    otherwise("fewer names", NAMES + 12, 3, 25, 0);
    otherwise("no versions", VERSIONS, 1051, 25, 0);
    otherwise("translated versions", VERSIONS + 4, 9, 25, 0);
    otherwise("fewer versions", VERSIONS + 12, 3, 25, 0);
}

/* The look-ups' checks go before. */
static void refused(void)
{
    otherwise("lead", 4, 0x04000000, 4, 4);
    otherwise("magic of the signature", 96, 0, 6, 96);
    otherwise("nindex", H + 8, 0, 7, H + 8);
    otherwise("hsize", H + 12, 1 << 20, 8, H + 12);
    otherwise("type", INDEX + 4, 0, 9, INDEX);
    otherwise("count", NAMES + 12, 0, 10, NAMES);
    otherwise("alignment", INDEX + 8, 1, 11, INDEX);
    otherwise("data", VERSIONS + 12, 5, 12, VERSIONS);
    otherwise("tag", VERSIONS, 1049, 13, VERSIONS);
    otherwise("gap", H - 4, 1, 28, H - 1);
    make(8);
    length = 0;
    meets("lead", "1.3", 3, 0);
    length = H + 15;
    meets("lead", "1.3", 5, H);
    make(8);
    length--;
    meets("lead", "1.3", 8, H + 12);
    make(8);
    length = 65536;
    meets("lead", "1.3", 0, 1);
    length = 65537;
    meets("lead", "1.3", 2, 0);
}

int main(void)
{
    versions();
    any_bytes();
    long_texts();
    overlapping();
    names();
    flags();
    entries();
    refused();
    printf(PROGRAM ": %d answers right\n", asked);
    return 0;
}
