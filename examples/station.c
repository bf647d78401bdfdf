/*
 * station: reads a recipe book as a weighing station would, and prints its doses, or
 * says in plain words why the package is refused.
 *
 *   station [--edition N] FILE         FILE may be - for standard input; N is 3 by default
 *   station --meets NAME VERSION FILE  whether a version meets what the package requires
 *   station --compare LEFT RIGHT       which of two versions is newer
 *   station --refusals                 the table of docs/REFUSALS.md
 *
 * It ends with 0 for an accepted package, a version that meets what is required, and a
 * comparison; 1 for a refused package and a version that does not; and 2 where it could
 * not read the file, write its answer or understand its arguments.
 *
 * The calls alone decide. What is said about a refusal beside its number and place
 * is there to help whoever mends the package; no dose comes from it.
 */
#include <errno.h>
#include <inttypes.h>
#include <stdbool.h>
#include <stdio.h>
#include <string.h>

#include "station.h"

#include "refusals.h"
#include "tags.h"

enum { ACCEPTED, REFUSED, TROUBLE };
enum { USUAL_EDITION = 3 };
enum { LEAD_SIZE = 96, RECORD_SIZE = 16 };

/* The lowest weighed kind, and where oxide and milligrams are in such a record. */
enum { WEIGHED = 128, OXIDE = 1, MILLIGRAMS = 3 };

/* One byte more than check 2 lets pass: what follows cannot matter. */
enum { PACKAGE_ROOM = 65536 + 1 };

/* How many bytes of an entry are shown. */
enum { TEXT_SHOWN = 64, BYTES_SHOWN = 16 };

#define NEXT_LINE "\n        "

/* Lent bytes: a package or doses. */
struct bytes {
    const uint8_t *start;
    size_t length;
};

/* A big-endian number of up to four bytes; a byte past the end counts as 0. */
static uint32_t number_at(struct bytes all, uint64_t at, int size)
{
    uint32_t number = 0;
    for (int i = 0; i < size; i++, at++)
        number = number << 8 | (at < all.length ? all.start[at] : 0u);
    return number;
}

/* ---- Bytes for people ---- */

static void print_bytes(struct bytes all, uint64_t at, uint64_t size)
{
    for (uint64_t i = 0; i < size && i < BYTES_SHOWN && at + i < all.length; i++)
        printf("%s%02X", i == 0 ? "" : " ", all.start[at + i]);
    if (size > BYTES_SHOWN)
        printf(" ..");
}

/* The string at a place, in quotes; what is not plain ASCII as \xNN. */
static void print_text(struct bytes all, uint64_t at)
{
    uint64_t end = at;
    putchar('"');
    for (; end < all.length && all.start[end] != 0 && end - at < TEXT_SHOWN; end++) {
        uint8_t byte = all.start[end];
        if (byte < ' ' || byte > '~' || byte == '"' || byte == '\\')
            printf("\\x%02X", byte);
        else
            putchar(byte);
    }
    putchar('"');
    if (end < all.length && all.start[end] != 0)
        printf("..");
}

/* ---- Entries, through the look-ups ---- */

/* An entry; its count is 0 where the structure has no such tag. */
struct entry {
    int structure;
    uint32_t tag, type, count, place;
};

/* How many elements a present entry has. */
static uint32_t count_of(struct bytes package, int structure, uint32_t tag, uint32_t type)
{
    uint32_t present = 0, beyond = (uint32_t)package.length;
    while (beyond - present > 1) {
        uint32_t middle = present + (beyond - present) / 2;
        uint64_t answer = station_find_element(package.start, package.length,
                                               (uint32_t)structure, tag, type, middle);
        if (STATION_NUMBER(answer) == 0)
            present = middle;
        else
            beyond = middle;
    }
    return beyond;
}

static struct entry entry_of(struct bytes package, int structure, uint32_t tag)
{
    for (uint32_t type = CHAR; type <= I18NSTRING; type++) {
        uint64_t answer = station_find(package.start, package.length, (uint32_t)structure,
                                       tag, type);
        if (STATION_NUMBER(answer) == 0)
            return (struct entry){structure, tag, type,
                                  count_of(package, structure, tag, type),
                                  STATION_PLACE(answer)};
    }
    return (struct entry){structure, tag, 0, 0, 0};
}

/* Whether an entry, present or absent, breaks the catalogue's line. */
static bool breaks(struct entry entry, const struct line *line)
{
    if (entry.count == 0)
        return line->status == REQUIRED;
    return entry.type != line->type || (line->count != ANY && entry.count != line->count);
}

static const char *structure_name(int structure)
{
    return structure == SIGNATURE ? "signature" : "header";
}

/* The first string or number of an entry, or its first bytes. */
static void print_value(struct bytes package, struct entry entry)
{
    int size = entry.type == INT16 ? 2 : 4;
    switch (entry.type) {
    case STRING:
    case STRING_ARRAY:
    case I18NSTRING:
        print_text(package, entry.place);
        break;
    case INT16:
    case INT32:
        printf("%" PRIu32 " (", number_at(package, entry.place, size));
        print_bytes(package, entry.place, (uint64_t)size);
        putchar(')');
        break;
    default:
        print_bytes(package, entry.place, entry.count);
        return;
    }
    if (entry.count > 1)
        printf(", ..");
}

static void print_type(uint32_t type, uint32_t count)
{
    printf("%s, ", type_names[type]);
    if (count == ANY)
        printf("any count");
    else
        printf("count %" PRIu32, count);
}

static void print_entry(struct bytes package, struct entry entry)
{
    const struct line *line = line_of(entry.structure, entry.tag);
    printf("the %s's tag %" PRIu32, structure_name(entry.structure), entry.tag);
    if (line != NULL)
        printf(" (%s)", line->name);
    if (entry.count == 0) {
        printf(" is absent");
        return;
    }
    printf(" is ");
    print_type(entry.type, entry.count);
    printf(", at file offset %" PRIu32 ": ", entry.place);
    print_value(package, entry);
}

/* ---- Doses ---- */

static void print_doses(struct bytes doses, uint32_t count)
{
    uint64_t sum = 0;
    for (uint32_t i = 0; i < count; i++) {
        uint64_t at = (uint64_t)i * STATION_DOSE_BYTES;
        uint32_t oxide = number_at(doses, at, 4), milligrams = number_at(doses, at + 4, 4);
        uint32_t lot = number_at(doses, at + 8, 4);
        printf("oxide %3" PRIu32 "  %7" PRIu32 " mg  lot %" PRIu32 "\n", oxide, milligrams,
               lot);
        sum += milligrams;
    }
    printf("%" PRIu32 " dose%s, %" PRIu64 " mg in all\n", count, count == 1 ? "" : "s",
           sum);
}

static void print_accepted(struct bytes package, uint32_t edition, struct bytes doses,
                           uint32_t count)
{
    printf("accepted at edition %" PRIu32 ": ", edition);
    print_value(package, entry_of(package, HEADER, 1000));
    printf(", version ");
    print_value(package, entry_of(package, HEADER, 1001));
    printf(", release ");
    print_value(package, entry_of(package, HEADER, 1002));
    putchar('\n');
    print_doses(doses, count);
}

/* ---- Where a check failed ---- */

/* Where the signature ends, if its numbers are right. */
static uint64_t signature_end(struct bytes package)
{
    uint64_t records = number_at(package, LEAD_SIZE + 8, 4);
    uint64_t store = number_at(package, LEAD_SIZE + 12, 4);
    return LEAD_SIZE + RECORD_SIZE + records * RECORD_SIZE + store;
}

/* Where the header then starts: at the first multiple of 8 from there on. */
static uint64_t header_start(struct bytes package)
{
    return (signature_end(package) + 7) / 8 * 8;
}

/* The structure that a place of checks 5 to 13 is in. */
static int structure_at(struct bytes package, uint32_t place)
{
    return place < header_start(package) ? SIGNATURE : HEADER;
}

static uint64_t start_of(struct bytes package, int structure)
{
    return structure == SIGNATURE ? LEAD_SIZE : header_start(package);
}

static void print_lead_field(struct bytes package, uint32_t place)
{
    static const struct {
        uint32_t place, size;
        const char *name, *right;
    } fields[] = {
        {0, 4, "magic", "ED AB EE DB"},
        {4, 1, "major version", "03"},
        {5, 1, "minor version", "00"},
        {6, 2, "type", "00 00, a binary package"},
        {10, 66, "name", "at most 65 bytes and a zero byte"},
        {76, 2, "system", "00 01, Linux"},
        {78, 2, "signature type", "00 05"},
    };
    printf("file offset %" PRIu32, place);
    for (size_t i = 0; i < sizeof fields / sizeof fields[0]; i++) {
        if (fields[i].place != place)
            continue;
        printf(", the lead's %s: ", fields[i].name);
        print_bytes(package, place, fields[i].size);
        printf(NEXT_LINE "right is %s", fields[i].right);
    }
}

static void print_start(struct bytes package, uint32_t place)
{
    printf("file offset %" PRIu32 ", where the %s should start; bytes of the package: %zu",
           place, structure_name(structure_at(package, place)), package.length);
}

static void print_header_record(struct bytes package, uint32_t place)
{
    int structure = structure_at(package, place);
    uint64_t start = start_of(package, structure);
    printf("file offset %" PRIu32 ", in the %s, which starts at %" PRIu64 " with ", place,
           structure_name(structure), start);
    print_bytes(package, start, 8);
    printf(NEXT_LINE "records: %" PRIu32 ", bytes of store: %" PRIu32
                     ", bytes of the package: %zu",
           number_at(package, start + 8, 4), number_at(package, start + 12, 4),
           package.length);
}

static void print_index_record(struct bytes package, uint32_t place)
{
    int structure = structure_at(package, place);
    uint64_t start = start_of(package, structure);
    uint32_t tag = number_at(package, place, 4);
    const struct line *line = line_of(structure, tag);
    printf("file offset %" PRIu32 ", record %" PRIu64 " of %" PRIu32 " in the %s's index",
           place, (place - start) / RECORD_SIZE, number_at(package, start + 8, 4),
           structure_name(structure));
    printf(NEXT_LINE "tag %" PRIu32 "%s%s%s, type %" PRIu32 ", offset %" PRIu32
                     ", count %" PRIu32 "; bytes of store: %" PRIu32,
           tag, line == NULL ? "" : " (", line == NULL ? "" : line->name,
           line == NULL ? "" : ")", number_at(package, place + 4, 4),
           number_at(package, place + 8, 4), number_at(package, place + 12, 4),
           number_at(package, start + 12, 4));
}

static void print_gap_byte(struct bytes package, uint32_t place)
{
    uint64_t gap = signature_end(package), start = header_start(package);
    printf("file offset %" PRIu32 ", in the gap between signature and header: ", place);
    print_bytes(package, place, 1);
    printf(NEXT_LINE "the gap starts at %" PRIu64 ", the header should start at %" PRIu64
                     "; bytes of the package: %zu",
           gap, start, package.length);
    printf(NEXT_LINE "bytes of the gap: ");
    print_bytes(package, gap, start - gap);
    printf(", right is 00 for each");
}

/* Whether the signature lacks a tag that the one beside it needs. */
static bool lacks(struct bytes package, const struct group *group, uint32_t tag)
{
    return group->structure == SIGNATURE &&
           entry_of(package, SIGNATURE, group->beside).count > 0 &&
           entry_of(package, SIGNATURE, tag).count == 0;
}

/* The group that a 17 at a tag is by, or NULL. Only the last has translated strings of the
   header; at 1005, which both structures may have, the signature's pair goes first. */
static const struct group *group_at(struct bytes package, uint32_t tag)
{
    const struct group *group = group_of(tag);
    if (entry_of(package, HEADER, tag).type != I18NSTRING)
        return group;
    return group != NULL && lacks(package, group, tag) ? group : &locales;
}

/* The structure whose tag is the place of a refusal. */
static int structure_with(struct bytes package, uint32_t number, uint32_t tag)
{
    const struct line *line = line_of(SIGNATURE, tag);
    const struct group *group = group_at(package, tag);
    switch (number) {
    case 14:
    case 15: /* the signature's lines go first */
        return line != NULL && breaks(entry_of(package, SIGNATURE, tag), line) ? SIGNATURE
                                                                               : HEADER;
    case 16:
    case 27:
        return SIGNATURE;
    case 17:
        return group != NULL ? group->structure : HEADER;
    default:
        return HEADER;
    }
}

/* What the catalogue asks of a tag. */
static void print_line(int structure, uint32_t tag)
{
    const struct line *line = line_of(structure, tag);
    if (line == NULL)
        return;
    printf(NEXT_LINE "right is ");
    print_type(line->type, line->count);
}

static void print_header_size(struct bytes package)
{
    uint64_t start = header_start(package);
    printf(NEXT_LINE "the header starts at %" PRIu64 "; from there to the end are %" PRIu64
                     " bytes",
           start, package.length - start);
}

/* The digest of a package's bytes from the header on. */
static void print_digest(struct bytes package)
{
    uint8_t digest[STATION_DIGEST_BYTES];
    uint64_t start = header_start(package);
    (void)station_digest(package.start + start, package.length - start, digest,
                         sizeof digest);
    print_header_size(package);
    printf(NEXT_LINE "their digest is ");
    print_bytes((struct bytes){digest, sizeof digest}, 0, sizeof digest);
}

static void print_group(struct bytes package, uint32_t tag)
{
    const struct group *group = group_at(package, tag);
    if (group == NULL)
        return;
    printf(NEXT_LINE "rule: %s", group->rule);
    if (group->beside == tag)
        return;
    printf(NEXT_LINE);
    print_entry(package, entry_of(package, group->structure, group->beside));
}

/* The sum that a book states whose records have passed checks 20 to 22. */
static void print_sum(struct bytes package)
{
    struct entry book = entry_of(package, HEADER, BOOK);
    uint64_t sum = 0;
    for (uint64_t i = 0; i < book.count;) {
        uint32_t kind = number_at(package, book.place + i, 1);
        if (kind >= WEIGHED)
            sum += number_at(package, book.place + i + MILLIGRAMS, 4);
        i += 1 + kind % 16;
    }
    printf(NEXT_LINE "the doses sum to %" PRIu64 " mg", sum);
}

static void print_tag(struct bytes package, uint32_t number, uint32_t tag)
{
    int structure = structure_with(package, number, tag);
    print_entry(package, entry_of(package, structure, tag));
    switch (number) {
    case 14:
    case 15:
        print_line(structure, tag);
        break;
    case 16:
        print_header_size(package);
        break;
    case 17:
        print_group(package, tag);
        break;
    case 23:
        print_sum(package);
        break;
    case 27:
        print_digest(package);
        break;
    default:
        break;
    }
}

static void print_book_record(struct bytes package, uint32_t number, uint32_t place)
{
    struct entry book = entry_of(package, HEADER, BOOK);
    uint64_t at = (uint64_t)book.place + place;
    uint32_t kind = number_at(package, at, 1), body = kind % 16;
    uint32_t left = book.count > place ? book.count - place - 1 : 0;
    printf("byte %" PRIu32 " of the book, counted from 0 (file offset %" PRIu64 ")", place,
           at);
    printf(NEXT_LINE "kind %02" PRIX32 " (hex), bytes of body: %" PRIu32
                     ", left in the book: %" PRIu32 NEXT_LINE "record: ",
           kind, body, left);
    print_bytes(package, at, 1 + (uint64_t)(body < left ? body : left));
    if (number == 22)
        printf(", oxide %" PRIu32 ", %" PRIu32 " mg", number_at(package, at + OXIDE, 2),
               number_at(package, at + MILLIGRAMS, 4));
}

static void print_place(struct bytes package, uint32_t number, uint32_t place)
{
    switch (refusal_of(number)->kind) {
    case NOWHERE:
        printf("%" PRIu32 ", no place in the package", place);
        break;
    case LENGTH:
        printf("%" PRIu32 " bytes, the package's length", place);
        break;
    case LEAD_FIELD:
        print_lead_field(package, place);
        break;
    case START:
        print_start(package, place);
        break;
    case HEADER_RECORD:
        print_header_record(package, place);
        break;
    case INDEX_RECORD:
        print_index_record(package, place);
        break;
    case GAP_BYTE:
        print_gap_byte(package, place);
        break;
    case TAG:
        print_tag(package, number, place);
        break;
    case BOOK_RECORD:
        print_book_record(package, number, place);
        break;
    case NUMBERS:
        printf("%" PRIu32 " numbers of the dose buffer are needed", place);
        break;
    case BYTES:
        printf("%" PRIu32 " bytes of the buffer are needed", place);
        break;
    }
}

static void print_refused(struct bytes package, uint32_t number, uint32_t place)
{
    const struct refusal *refusal = refusal_of(number);
    printf("refused %" PRIu32 " at %" PRIu32 "\n", number, place);
    if (refusal != NULL) {
        printf("Means:  %s.\n", refusal->meaning);
        printf("Place:  ");
        print_place(package, number, place);
        printf("\nOften:  %s.\n", refusal->cause);
        printf("To do:  %s\n", refusal->remedy);
    } else {
        printf("Means:  a check that this program does not know.\n");
    }
}

/* ---- Versions ---- */

static struct bytes text_of(const char *word)
{
    return (struct bytes){(const uint8_t *)word, strlen(word)};
}

/* Says how one version stands to another. */
static int compare(struct bytes left, struct bytes right)
{
    static const char *const words[] = {
        [STATION_OLDER] = "older than",
        [STATION_SAME] = "the same as",
        [STATION_NEWER] = "newer than",
    };
    print_text(left, 0);
    printf(" is %s ",
           words[station_compare(left.start, left.length, right.start, right.length)]);
    print_text(right, 0);
    putchar('\n');
    return ACCEPTED;
}

/* Says whether a version meets what a package requires for a name. */
static int meets(struct bytes package, struct bytes name, struct bytes version)
{
    uint64_t answer = station_meets(package.start, package.length, name.start, name.length,
                                    version.start, version.length);
    bool met = STATION_PLACE(answer) == 1;
    if (STATION_NUMBER(answer) != 0) {
        print_refused(package, STATION_NUMBER(answer), STATION_PLACE(answer));
        return REFUSED;
    }
    printf("%s: ", met ? "yes" : "no");
    print_text(version, 0);
    printf(" %s what is required for ", met ? "meets" : "does not meet");
    print_text(name, 0);
    putchar('\n');
    return met ? ACCEPTED : REFUSED;
}

/* ---- The program ---- */

/* Reads a book and prints the answer. */
static int read_book(struct bytes package, uint32_t edition)
{
    uint8_t room[STATION_DOSES_ROOM];
    uint64_t answer =
        station_read(edition, package.start, package.length, room, sizeof room);
    uint32_t number = STATION_NUMBER(answer), place = STATION_PLACE(answer);
    struct bytes doses = {room, sizeof room};
    if (number != 0) {
        print_refused(package, number, place);
        printf("Weigh nothing from this package.\n");
        return REFUSED;
    }
    print_accepted(package, edition, doses, place);
    return ACCEPTED;
}

/* Reads up to a package's room from a file; says so and answers false if it cannot. */
static bool read_package(const char *name, struct bytes *package)
{
    static uint8_t room[PACKAGE_ROOM];
    bool standard = strcmp(name, "-") == 0;
    FILE *file = standard ? stdin : fopen(name, "rb");
    bool right = file != NULL;
    if (right) {
        *package = (struct bytes){room, fread(room, 1, PACKAGE_ROOM, file)};
        right = !ferror(file);
    }
    if (!right)
        fprintf(stderr, "station: %s: %s\n", standard ? "standard input" : name,
                strerror(errno));
    if (file != NULL && !standard)
        (void)fclose(file);
    return right;
}

static int print_table(void)
{
    printf("| No. | Means | Place | Often | To do |\n|---|---|---|---|---|\n");
    for (uint32_t i = 0; i < REFUSALS; i++) {
        const struct refusal *refusal = refusal_of(i);
        if (refusal != NULL)
            printf("| %" PRIu32 " | %s | %s | %s | %s |\n", i, refusal->meaning,
                   refusal->place, refusal->cause, refusal->remedy);
    }
    return ACCEPTED;
}

static int usage(void)
{
    fprintf(stderr, "usage: station [--edition N] FILE    (- is standard input)\n"
                    "       station --meets NAME VERSION FILE\n"
                    "       station --compare LEFT RIGHT\n"
                    "       station --refusals\n");
    return TROUBLE;
}

/* A decimal number of 32 bits. */
static bool number_from(const char *text, uint32_t *number)
{
    uint64_t value = 0;
    const char *digit = text;
    for (; *digit >= '0' && *digit <= '9' && value <= UINT32_MAX; digit++)
        value = 10 * value + (uint64_t)(*digit - '0');
    *number = (uint32_t)value;
    return digit != text && *digit == 0 && value <= UINT32_MAX;
}

/* Whether the first word is an option, with so many words in all. */
static bool is_option(int count, char **words, const char *option, int wanted)
{
    return count == wanted && strcmp(words[1], option) == 0;
}

static int run(int count, char **words)
{
    struct bytes package;
    uint32_t edition = USUAL_EDITION;
    bool asked = is_option(count, words, "--meets", 5);
    if (is_option(count, words, "--refusals", 2))
        return print_table();
    if (is_option(count, words, "--compare", 4))
        return compare(text_of(words[2]), text_of(words[3]));
    if (is_option(count, words, "--edition", 4)) {
        if (!number_from(words[2], &edition))
            return usage();
    } else if (count != 2 && !asked) {
        return usage();
    }
    const char *name = words[count - 1];
    if (name[0] == '-' && name[1] != 0)
        return usage();
    if (!read_package(name, &package))
        return TROUBLE;
    return asked ? meets(package, text_of(words[2]), text_of(words[3]))
                 : read_book(package, edition);
}

/* Whether everything printed has gone out. */
static bool written(void)
{
    if (fflush(stdout) == 0 && !ferror(stdout))
        return true;
    fprintf(stderr, "station: the answer could not be written\n");
    return false;
}

int main(int count, char **words)
{
    int end = run(count, words);
    return written() ? end : TROUBLE;
}
