/*
 * The writer as a host program in C calls it, with exact answers and bytes.
 *
 *   write_test FILE
 *
 * Name, lists, data and buffer each end right before a page that faults. A whole book
 * is left in the file.
 */
#define PROGRAM "write_test"
#include "package.h"
#include "least.h"

/* ---- What is lent ---- */

enum { SIGNATURE, HEADER };

struct list {
    uint8_t entries[16 * 600];
    size_t entries_len;
    uint8_t data[ROOM];
    size_t data_len;
};

static struct list lists[2];
static uint8_t name[128];
static size_t name_len;

static void set_name(const void *bytes, size_t count)
{
    memcpy(name, bytes, count);
    name_len = count;
}

static void put_number(uint8_t *at, uint32_t number)
{
    for (int i = 0; i < 4; i++)
        at[i] = (uint8_t)(number >> (24 - 8 * i));
}

/* Adds an entry to a list: its four numbers, and its data behind the others'. */
static void add(int structure, struct entry entry)
{
    struct list *list = &lists[structure];
    uint8_t *at = list->entries + list->entries_len;
    put_number(at, entry.tag);
    put_number(at + 4, entry.type);
    put_number(at + 8, entry.count);
    put_number(at + 12, (uint32_t)entry.size);
    list->entries_len += 16;
    memcpy(list->data + list->data_len, entry.data, entry.size);
    list->data_len += entry.size;
}

/* The name "b", no entry of the signature, one char in the header. */
static void smallest(void)
{
    set_name("b", 1);
    memset(lists, 0, sizeof lists);
    add(HEADER, (struct entry){1, 1, 1, "x", 1});
}

/* ---- A writing, and what it does to the buffer ---- */

static const uint8_t *at_fence(int which, const uint8_t *bytes, size_t count)
{
    static uint8_t *fences[5];
    if (fences[which] == NULL)
        fences[which] = build_fence();
    return memcpy(fences[which] - count, bytes, count);
}

static uint64_t call(uint8_t *buffer, size_t room)
{
    const struct list *one = &lists[SIGNATURE], *two = &lists[HEADER];
    return station_write(at_fence(0, name, name_len), name_len,
                         at_fence(1, one->entries, one->entries_len), one->entries_len,
                         at_fence(2, one->data, one->data_len), one->data_len,
                         at_fence(3, two->entries, two->entries_len), two->entries_len,
                         at_fence(4, two->data, two->data_len), two->data_len,
                         buffer, room);
}

/* On success the package is what is in `package`; otherwise, and behind it, no change. */
static void writing(const char *what, size_t room, uint32_t number, uint32_t place)
{
    static uint8_t after[ROOM];
    static uint8_t *fence;
    if (fence == NULL)
        fence = build_fence();
    uint8_t *buffer = fence - room;
    for (size_t i = 0; i < room; i++)
        buffer[i] = after[i] = (uint8_t)(asked + 3 * i + 1);
    expect(what, call(buffer, room), number, place);
    if (number == 0)
        memcpy(after, package, length);
    if (memcmp(buffer, after, room) != 0) {
        fprintf(stderr, PROGRAM ": %s: other bytes in the buffer\n", what);
        exit(1);
    }
}

/* Written into every buffer around its length, and into large ones. */
static void written(const char *what)
{
    for (size_t room = 0; room < length; room++)
        writing(what, room, 34, (uint32_t)length);
    for (size_t room = length; room < length + 20; room++)
        writing(what, room, 0, (uint32_t)length);
    writing(what, 65536, 0, (uint32_t)length);
    writing(what, 100000, 0, (uint32_t)length);
}

static void refused(const char *what)
{
    static const size_t rooms[] = {0, 1, 169, 200, 65536, 100000};
    for (size_t i = 0; i < sizeof rooms / sizeof rooms[0]; i++)
        writing(what, rooms[i], 32, 0);
}

/* ---- Tests ---- */

static void smallest_package(void)
{
    static const uint8_t lead_and_signature[] = {
        0xED, 0xAB, 0xEE, 0xDB, 3, 0, 0, 0, 0, 0, 'b', 0, 0, 0, 0, 0,
        0, 0, 0, 0, 0, 0, 0, 0, 0, 0, 0, 0, 0, 0, 0, 0,
        0, 0, 0, 0, 0, 0, 0, 0, 0, 0, 0, 0, 0, 0, 0, 0,
        0, 0, 0, 0, 0, 0, 0, 0, 0, 0, 0, 0, 0, 0, 0, 0,
        0, 0, 0, 0, 0, 0, 0, 0, 0, 0, 0, 0, 0, 1, 0, 5,
        0, 0, 0, 0, 0, 0, 0, 0, 0, 0, 0, 0, 0, 0, 0, 0,
        /* 96: two records, 20 bytes of store; 1000, int32, at 0, count 1; 1004, bin, at
         * 4, count 16 */
        0x8E, 0xAD, 0xE8, 0x01, 0, 0, 0, 0, 0, 0, 0, 2, 0, 0, 0, 20,
        0, 0, 0x03, 0xE8, 0, 0, 0, 4, 0, 0, 0, 0, 0, 0, 0, 1,
        0, 0, 0x03, 0xEC, 0, 0, 0, 7, 0, 0, 0, 4, 0, 0, 0, 16,
        /* 144: 201 - 168; what md5sum says of the 33 bytes; zero bytes to H */
        0, 0, 0, 33,
        0x37, 0x75, 0xAF, 0x42, 0xF9, 0xDA, 0x38, 0x3F,
        0x00, 0x79, 0xFC, 0x54, 0x07, 0x47, 0xC5, 0x0B,
        0, 0, 0, 0,
    };
    static const uint8_t header[] = {
        /* 168: one record, 1 byte of store; 1, char, at 0, count 1 */
        0x8E, 0xAD, 0xE8, 0x01, 0, 0, 0, 0, 0, 0, 0, 1, 0, 0, 0, 1,
        0, 0, 0, 1, 0, 0, 0, 1, 0, 0, 0, 0, 0, 0, 0, 1,
        'x',
    };
    smallest();
    memcpy(package, lead_and_signature, 168);
    memcpy(package + 168, header, 33);
    length = 201;
    written("smallest");
}

/* Data in list order, with zero bytes before int16 and int32. */
static void alignment(void)
{
    static const uint32_t signature[][4] = {
        {1000, 4, 0, 1}, {1004, 7, 4, 16}, {269, 6, 20, 1}, {1007, 4, 24, 1}};
    static const uint32_t header[][4] = {
        {1001, 6, 0, 1}, {1030, 3, 2, 2}, {7, 2, 6, 1}, {1000, 4, 8, 1}, {5, 8, 12, 3}};
    smallest();
    set_name("glass", 5);
    lists[HEADER].entries_len = lists[HEADER].data_len = 0;
    add(SIGNATURE, (struct entry){269, 6, 1, "a", 2});
    add(SIGNATURE, (struct entry){1007, 4, 1, "\1\2\3\4", 4});
    add(HEADER, (struct entry){1001, 6, 1, "", 1});
    add(HEADER, (struct entry){1030, 3, 2, "\1\2\3\4", 4});
    add(HEADER, (struct entry){7, 2, 1, "\7", 1});
    add(HEADER, (struct entry){1000, 4, 1, "\0\0\4\342", 4});
    add(HEADER, (struct entry){5, 8, 3, "tin\0\0lead", 10});
    put_lead();
    memcpy(package + 10, "glass", 5);
    put_structure(signature, 4, "\0\0\0\166................a\0\0\0\1\2\3\4", 28);
    length = 208; /* the signature ends at 204 */
    put_structure(header, 5, "\0\0\1\2\3\4\7\0\0\0\4\342tin\0\0lead", 22);
    station_digest(package + 208, length - 208, package + 180, 16);
    written("alignment");
}

static void leave(const char *path)
{
    FILE *file = fopen(path, "wb");
    if (file == NULL || fwrite(package, 1, length, file) != length || fclose(file) != 0) {
        perror(path);
        exit(1);
    }
}

/* A whole book: written, read at each edition, looked into. */
static void whole_book(const char *path)
{
    static uint8_t buffer[4096];
    uint8_t doses[STATION_DOSES_ROOM];
    smallest();
    set_name("book-1-1", 8);
    lists[HEADER].entries_len = lists[HEADER].data_len = 0;
    for (size_t i = 0; i < sizeof least_header / sizeof least_header[0]; i++)
        add(HEADER, least_header[i]);
    uint64_t answer = call(buffer, sizeof buffer);
    length = STATION_PLACE(answer);
    expect("book written", answer, 0, (uint32_t)length);
    memcpy(package, buffer, length);
    written("book");

    for (uint32_t edition = 1; edition <= 3; edition++)
        expect("book read", station_read(edition, lend(), length, doses, sizeof doses), 0, 1);
    package[length - 5] ^= 1;
    expect("bit turned over", station_read(1, lend(), length, doses, sizeof doses), 27, 1004);
    package[length - 5] ^= 1;
    expect("size", station_find(lend(), length, 0, 1000, 4), 0, 144);
    expect("digest", station_find(lend(), length, 0, 1004, 7), 0, 148);
    /* H is 168, and the header has 37 records; "C" is first. */
    expect("locales", station_find(lend(), length, 1, 100, 8), 0, 168 + 16 + 37 * 16);
    expect("weight", station_find(lend(), length, 1, 20002, 4), 0, (uint32_t)length - 4);
    /* The signature ends at 164. */
    for (uint32_t at = 164; at < 168; at++) {
        package[at] = 1;
        expect("stray byte", station_read(3, lend(), length, doses, sizeof doses), 28, at);
        expect("stray byte", station_find(lend(), length, 1, 20002, 4), 28, at);
        package[at] = 0;
    }
    if (memcmp(package + 10, "book-1-1", 9) != 0 ||
        memcmp(doses, "\0\0\0\33\0\0\4\342\0\0\0\0", STATION_DOSE_BYTES) != 0) {
        fprintf(stderr, PROGRAM ": the book's name or dose\n");
        exit(1);
    }
    leave(path);
}

/* One wrong entry, in either list. */
static void wrong_entry(const char *what, uint32_t type, uint32_t count, const void *data,
                        size_t size)
{
    for (int structure = SIGNATURE; structure <= HEADER; structure++) {
        smallest();
        add(structure, (struct entry){3, type, count, data, size});
        refused(what);
    }
}

static void wrong_entries(void)
{
    wrong_entry("type 0", 0, 1, "x", 1);
    wrong_entry("type 5", 5, 1, "x", 1);
    wrong_entry("type 10", 10, 1, "x", 2);
    wrong_entry("type 263", 263, 1, "x", 1);
    wrong_entry("count 0", 7, 0, "", 0);
    wrong_entry("count 0 of strings", 8, 0, "", 0);
    wrong_entry("two of type 6", 6, 2, "a\0b", 4);
    wrong_entry("none of type 9", 9, 0, "", 0);
    wrong_entry("a byte too few", 7, 3, "ab", 2);
    wrong_entry("a byte too many", 7, 1, "ab", 2);
    wrong_entry("half an int16", 3, 2, "abc", 3);
    wrong_entry("product over 2^32", 4, (1u << 30) + 1, "abcd", 4);
    wrong_entry("no data", 4, 1u << 30, "", 0);
    wrong_entry("string without its zero byte", 6, 1, "ab", 2);
    wrong_entry("byte behind the string", 6, 1, "a\0b", 3);
    wrong_entry("a second string", 6, 1, "a", 3);
    wrong_entry("last string without its zero byte", 8, 2, "a\0b", 3);
    wrong_entry("a string too few", 8, 3, "a\0b", 4);
    wrong_entry("a string too many", 8, 1, "a\0b", 4);
    wrong_entry("most strings", 8, UINT32_MAX, "\0\0", 3);
}

/* Several strings of type 9 are right in the header only. */
static void translated(void)
{
    static const uint32_t own[][4] = {{1000, 4, 0, 1}, {1004, 7, 4, 16}};
    static const uint32_t counts[] = {1, 2, 5};
    static const char strings[] = "\0Glas\0glass\0\0vidro";
    static const size_t sizes[] = {1, 6, 19};
    for (size_t i = 0; i < 3; i++) {
        struct entry entry = {1005, 9, counts[i], strings, sizes[i]};
        uint32_t records[][4] = {{1005, 9, 0, counts[i]}};
        smallest();
        lists[HEADER].entries_len = lists[HEADER].data_len = 0;
        add(HEADER, entry);
        put_lead();
        memcpy(package + 10, "b\0\0\0", 4);
        put_structure(own, 2, "\0\0\0\0................", 20);
        length = 168;
        put_structure((const uint32_t(*)[4])records, 1, strings, sizes[i]);
        put(144, (uint32_t)length - 168);
        station_digest(package + 168, length - 168, package + 148, 16);
        written("translated string");

        smallest();
        add(SIGNATURE, entry);
        if (counts[i] == 1)
            expect("one in the signature", call(package, 65536), 0, 217);
        else
            refused("translations in the signature");
    }
    wrong_entry("a translation too few", 9, 3, "a\0b", 4);
    wrong_entry("a translation too many", 9, 1, "a\0b", 4);
    wrong_entry("last translation without its zero byte", 9, 2, "a\0b", 3);
}

static void wrong_tags(void)
{
    for (int structure = SIGNATURE; structure <= HEADER; structure++) {
        smallest();
        add(structure, (struct entry){3, 7, 1, "x", 1});
        add(structure, (struct entry){4, 7, 1, "x", 1});
        add(structure, (struct entry){3, 6, 1, "x", 2});
        refused("repeated tag");
    }
    smallest();
    add(SIGNATURE, (struct entry){1000, 4, 1, "\0\0\0\41", 4});
    refused("1000 in the signature");
    smallest();
    add(SIGNATURE, (struct entry){1004, 7, 16, zeros, 16});
    refused("1004 in the signature");
    add(SIGNATURE, (struct entry){1000, 4, 1, "\0\0\0\41", 4});
    refused("1004 and 1000 in the signature");
    smallest();
    add(SIGNATURE, (struct entry){1004, 6, 1, "", 1});
    refused("1004 of another type");
    smallest();
    add(HEADER, (struct entry){1004, 7, 1, "x", 1});
    add(HEADER, (struct entry){1000, 7, 1, "x", 1});
    expect("1004 and 1000 in the header", call(package, 65536), 0, 235);
}

static void wrong_names(void)
{
    uint8_t long_name[66];
    memset(long_name, 'n', sizeof long_name);
    smallest();
    set_name("", 0);
    refused("empty name");
    set_name(long_name, 66);
    refused("name of 66 bytes");
    set_name(long_name, 65);
    expect("name of 65 bytes", call(package, 65536), 0, 201);
    set_name("b", 2);
    refused("zero byte at the name's end");
    set_name("b\0k", 3);
    refused("zero byte in the name");
    set_name("\0k", 2);
    refused("zero byte at the name's start");
}

/* As many chars as that, from the tag 2000 on. */
static void add_chars(int structure, uint32_t count)
{
    for (uint32_t i = 0; i < count; i++)
        add(structure, (struct entry){2000 + i, 1, 1, "x", 1});
}

/* Writes into a large buffer, and leaves what is written in `package`. */
static void holds(const char *what, uint32_t count)
{
    expect(what, call(package, 65536), 0, count);
    length = count;
    writing(what, count, 0, count);
    writing(what, count - 1, 34, count);
}

static void ranges(void)
{
    smallest();
    lists[HEADER].entries_len = lists[HEADER].data_len = 0;
    refused("no entry in the header");
    smallest();
    add_chars(HEADER, 511);
    holds("512 in the header", 168 + 16 + 512 * 17);
    add(HEADER, (struct entry){5, 1, 1, "x", 1});
    refused("513 in the header");
    smallest();
    add_chars(SIGNATURE, 510);
    holds("512 in the signature", 8840 + 33);
    add(SIGNATURE, (struct entry){5, 1, 1, "x", 1});
    refused("513 in the signature");
}

/* Lists that are no lists. */
static void ill_formed(void)
{
    for (int structure = SIGNATURE; structure <= HEADER; structure++) {
        for (size_t more = 1; more < 16; more++) {
            smallest();
            lists[structure].entries_len += more;
            refused("length no multiple of 16");
        }
        smallest();
        lists[structure].data_len += 1;
        refused("data of no entry");
        smallest();
        add(structure, (struct entry){3, 7, 3, "abc", 3});
        lists[structure].data_len -= 1;
        refused("size past the end");

        /* The sizes' sum is that of the data in 32 bits. */
        smallest();
        add(structure, (struct entry){3, 7, UINT32_MAX, "x", 1});
        add(structure, (struct entry){4, 7, 3, "y", 1});
        size_t end = lists[structure].entries_len;
        put_number(lists[structure].entries + end - 20, UINT32_MAX);
        put_number(lists[structure].entries + end - 4, 3);
        refused("sizes over 2^32");
    }
}

static void limit(void)
{
    static uint8_t data[65536];
    memset(data, 'd', sizeof data);
    for (uint32_t over = 0; over < 3; over++) {
        uint32_t count = 65536 - 200 + over;
        smallest();
        lists[HEADER].entries_len = lists[HEADER].data_len = 0;
        add(HEADER, (struct entry){20001, 7, count, data, count});
        if (over == 0) {
            holds("65,536 bytes", 65536);
            writing("no room", 0, 34, 65536);
            continue;
        }
        writing("over the limit", 0, 33, 0);
        writing("over the limit", 65536, 33, 0);
        writing("over the limit", 100000, 33, 0);
        add(SIGNATURE, (struct entry){3, 5, 1, "x", 1});
        refused("32 before 33");
    }
}

int main(int count, char **words)
{
    if (count != 2) {
        fprintf(stderr, PROGRAM " FILE\n");
        return 2;
    }
    smallest_package();
    alignment();
    whole_book(words[1]);
    wrong_entries();
    translated();
    wrong_tags();
    wrong_names();
    ranges();
    ill_formed();
    limit();
    printf(PROGRAM ": %d answers right\n", asked);
    return 0;
}
