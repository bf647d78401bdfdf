/*
 * make_book: makes a recipe book on the station: a package that the station accepts at
 * edition 3, from lines that have an oxide and its milligrams each, and perhaps the lot.
 *
 *   make_book [-f] [-o FILE] NAME VERSION [LINES]
 *
 * LINES is a file; without it, or if it is -, the lines are read from standard input. The
 * package is written to FILE, by default NAME-VERSION.rpm. A file that is there already is
 * kept unless -f is given. The file appears when it is whole, or not at all.
 *
 *   # sky blue
 *   27 1250
 *   14  800 70315   # copper, of lot 70315
 *
 * A line has two numbers, the oxide (1 to 999) and its milligrams (1 to 5000000), or three,
 * the last of them the lot (0 to 4294967295), in digits alone: no comma, point, sign or
 * unit. Spaces and tabs may stand before, between and behind them. A word that begins with
 * # and all behind it is a remark; a line without numbers is passed over. The doses stand
 * in the book as the lines do. Only a book without lots can be read at editions 1 and 2.
 *
 * It ends with 0 when the package is made; with 1 where the name, the version or a line is
 * wrong, or the package is refused; and with 2 where it could not read or write a file or
 * understand its arguments. The same input always makes the same package.
 */
#define _XOPEN_SOURCE 700

#include <assert.h>
#include <errno.h>
#include <fcntl.h>
#include <inttypes.h>
#include <signal.h>
#include <stdbool.h>
#include <stdio.h>
#include <stdlib.h>
#include <string.h>
#include <sys/stat.h>
#include <unistd.h>

#include "station.h"

#include "refusals.h"
#include "tags.h"

enum { MADE, REFUSED, TROUBLE };
enum { EDITION = 3 };
enum { MOST_OXIDE = 999, MOST_MILLIGRAMS = 5000000 };

/* A dose in the book, without a lot and with one: its kind, and its bytes with the kind. */
enum { DOSE_KIND = 0x86, DOSE_SIZE = 7, LOT_KIND = 0xAA, LOT_SIZE = 11 };
enum {
    BOOK_ROOM = 4096,
    MOST_DOSES = BOOK_ROOM / DOSE_SIZE,
    MOST_LOTS = BOOK_ROOM / LOT_SIZE
};

/* Bytes of a lead's name. */
enum { MOST_NAME = 65 };
#define RELEASE "1"
#define FILE_END ".rpm"

/* Bytes of a line, and how many wrong lines are told of. */
enum { MOST_LINE = 255, MOST_WRONG = 10 };

/* Room for the entries of one structure and for their data. */
enum { ENTRIES_ROOM = 40 * STATION_ENTRY_BYTES, DATA_ROOM = BOOK_ROOM + 1024 };

_Static_assert((uint64_t)MOST_DOSES * MOST_MILLIGRAMS <= UINT32_MAX,
               "the sum of any book's doses fits 32 bits");
_Static_assert(STATION_DOSE_BYTES == 3 * sizeof(uint32_t), "a dose is oxide, milligrams and lot");
_Static_assert(MOST_DOSES * STATION_DOSE_BYTES <= STATION_DOSES_ROOM,
               "any book's doses can be read again");

struct dose {
    uint32_t oxide, milligrams, lot; /* lot 0 where none is stated */
    bool has_lot;
};

struct recipe {
    const char *name, *version;
    char title[MOST_NAME + 1]; /* NAME-VERSION-RELEASE */
    struct dose doses[MOST_DOSES];
    uint32_t count;
    size_t book_size; /* bytes of the doses in the book */
};

static size_t record_size(const struct dose *dose)
{
    return dose->has_lot ? LOT_SIZE : DOSE_SIZE;
}

static uint32_t batch_weight(const struct recipe *recipe)
{
    uint32_t sum = 0;
    for (uint32_t i = 0; i < recipe->count; i++)
        sum += recipe->doses[i].milligrams;
    return sum;
}

/* How many doses have a lot. */
static uint32_t lots(const struct recipe *recipe)
{
    uint32_t count = 0;
    for (uint32_t i = 0; i < recipe->count; i++)
        count += recipe->doses[i].has_lot;
    return count;
}

/* ---- Lines ---- */

struct lines {
    FILE *file;
    const char *name;
    unsigned long number; /* of the line read last, from 1 */
    int wrong;            /* how many lines are wrong */
    bool stopped;         /* whether the lines behind are left unread */
};

/* Bytes of a line between blanks. */
struct word {
    const char *start;
    size_t length;
};

/* Counts a wrong line and begins the message about it. */
static void wrong_line(struct lines *lines)
{
    lines->wrong++;
    lines->stopped = lines->wrong == MOST_WRONG;
    fprintf(stderr, "make_book: %s:%lu: ", lines->name, lines->number);
}

/* A word in quotes; what is not plain ASCII as \xNN. */
static void print_word(struct word word)
{
    fputc('"', stderr);
    for (size_t i = 0; i < word.length; i++) {
        unsigned char byte = (unsigned char)word.start[i];
        if (byte < ' ' || byte > '~' || byte == '"' || byte == '\\')
            fprintf(stderr, "\\x%02X", byte);
        else
            fputc(byte, stderr);
    }
    fputc('"', stderr);
}

static bool is_blank(char byte)
{
    return byte == ' ' || byte == '\t';
}

/* Takes the next word off the line's front. It is empty at the line's end, which a word
   that begins with # is too. */
static struct word next_word(struct word *line)
{
    size_t start = 0;
    while (start < line->length && is_blank(line->start[start]))
        start++;
    if (start < line->length && line->start[start] == '#')
        line->length = start;
    size_t end = start;
    while (end < line->length && !is_blank(line->start[end]))
        end++;
    struct word word = {line->start + start, end - start};
    *line = (struct word){line->start + end, line->length - end};
    return word;
}

/* What keeps a word from being a whole number, or NULL. */
static const char *mark_in(struct word word)
{
    for (size_t i = 0; i < word.length; i++) {
        char byte = word.start[i];
        if (byte == ',')
            return "has a comma";
        if (byte == '.')
            return "has a point";
        if (byte == '+' || byte == '-')
            return "has a sign";
        if (byte < '0' || byte > '9')
            return "is not a whole number";
    }
    return NULL;
}

/* The number that digits state, or most + 1 if it is over most. */
static uint64_t number_of(struct word word, uint32_t most)
{
    uint64_t number = 0;
    for (size_t i = 0; i < word.length && number <= most; i++)
        number = 10 * number + (uint64_t)(word.start[i] - '0');
    return number <= most ? number : (uint64_t)most + 1;
}

/* A whole number from least to most; says what is wrong if the word is none. */
static bool take_number(struct lines *lines, const char *what, struct word word,
                        uint32_t least, uint32_t most, uint32_t *number)
{
    const char *mark = mark_in(word);
    uint64_t found = mark == NULL ? number_of(word, most) : 0;
    *number = (uint32_t)found;
    if (mark == NULL && found >= least && found <= most)
        return true;
    wrong_line(lines);
    fprintf(stderr, "%s ", what);
    print_word(word);
    if (mark != NULL)
        fprintf(stderr, " %s: write digits alone\n", mark);
    else
        fprintf(stderr, " is not %" PRIu32 " to %" PRIu32 "\n", least, most);
    return false;
}

/* The lot of a dose, from the words behind its milligrams; says what is wrong with them. */
static bool take_lot(struct lines *lines, struct word rest, struct dose *dose)
{
    struct word lot = next_word(&rest);
    dose->has_lot = lot.length > 0;
    dose->lot = 0;
    if (!dose->has_lot)
        return true;
    if (!take_number(lines, "lot", lot, 0, UINT32_MAX, &dose->lot))
        return false;
    struct word more = next_word(&rest);
    if (more.length == 0)
        return true;
    wrong_line(lines);
    print_word(more);
    fprintf(stderr, " is too much: a line is OXIDE MILLIGRAMS [LOT]\n");
    return false;
}

/* The dose of a line whose first word is the oxide; says what is wrong if it has none. */
static bool take_dose(struct lines *lines, struct word oxide, struct word rest,
                      struct dose *dose)
{
    if (!take_number(lines, "oxide", oxide, 1, MOST_OXIDE, &dose->oxide))
        return false;
    struct word milligrams = next_word(&rest);
    if (milligrams.length == 0) {
        wrong_line(lines);
        fprintf(stderr, "no milligrams behind oxide %" PRIu32 "\n", dose->oxide);
        return false;
    }
    return take_number(lines, "milligrams", milligrams, 1, MOST_MILLIGRAMS,
                       &dose->milligrams) &&
           take_lot(lines, rest, dose);
}

/* Adds a line's dose to the recipe, if it has one. */
static void take_line(struct lines *lines, struct word line, struct recipe *recipe)
{
    struct dose dose;
    if (line.length > MOST_LINE) {
        wrong_line(lines);
        fprintf(stderr, "the line is longer than %d bytes\n", MOST_LINE);
        lines->stopped = true;
        return;
    }
    if (line.length > 0 && line.start[line.length - 1] == '\r')
        line.length--;
    struct word oxide = next_word(&line);
    if (oxide.length == 0 || !take_dose(lines, oxide, line, &dose))
        return;
    if (record_size(&dose) > BOOK_ROOM - recipe->book_size) {
        wrong_line(lines);
        fprintf(stderr, "one dose too many: a book has room for %d, or for %d with lots\n",
                MOST_DOSES, MOST_LOTS);
        lines->stopped = true;
        return;
    }
    recipe->doses[recipe->count++] = dose;
    recipe->book_size += record_size(&dose);
}

/* Reads the next line; of a long one, MOST_LINE + 1 bytes. False at the end. */
static bool next_line(struct lines *lines, char *room, struct word *line)
{
    int byte = 0;
    *line = (struct word){room, 0};
    while (line->length <= MOST_LINE && (byte = getc(lines->file)) != EOF && byte != '\n')
        room[line->length++] = (char)byte;
    if (ferror(lines->file) || (byte == EOF && line->length == 0))
        return false;
    lines->number++;
    return true;
}

/* Reads all lines; says what is wrong with them, and that there is no dose. */
static int take_lines(struct lines *lines, struct recipe *recipe)
{
    char room[MOST_LINE + 1];
    struct word line;
    while (!lines->stopped && next_line(lines, room, &line))
        take_line(lines, line, recipe);
    if (ferror(lines->file)) {
        fprintf(stderr, "make_book: %s: %s\n", lines->name, strerror(errno));
        return TROUBLE;
    }
    if (lines->stopped)
        fprintf(stderr, "make_book: %s: the lines behind were not read\n", lines->name);
    else if (lines->wrong == 0 && recipe->count == 0)
        fprintf(stderr, "make_book: %s: no doses\n", lines->name);
    return lines->wrong == 0 && recipe->count > 0 ? MADE : REFUSED;
}

/* The same for a file by its name. */
static int take_file(const char *name, struct recipe *recipe)
{
    struct lines lines = {stdin, "standard input", 0, 0, false};
    if (strcmp(name, "-") != 0)
        lines = (struct lines){fopen(name, "rb"), name, 0, 0, false};
    if (lines.file == NULL) {
        fprintf(stderr, "make_book: %s: %s\n", name, strerror(errno));
        return TROUBLE;
    }
    if (isatty(fileno(lines.file)))
        fprintf(stderr, "OXIDE MILLIGRAMS [LOT] on each line; Ctrl-D ends them\n");
    int end = take_lines(&lines, recipe);
    if (lines.file != stdin)
        (void)fclose(lines.file);
    return end;
}

/* ---- Lists of entries, as station_write is lent them ---- */

struct list {
    uint8_t entries[ENTRIES_ROOM], data[DATA_ROOM];
    size_t entries_length, data_length;
};

/* A big-endian number of so many bytes. */
static void put_number(uint8_t *at, uint32_t number, int size)
{
    for (int i = size - 1; i >= 0; i--, number >>= 8)
        at[i] = (uint8_t)number;
}

static void add(struct list *list, uint32_t tag, uint32_t type, uint32_t count,
                const void *data, size_t size)
{
    assert(STATION_ENTRY_BYTES <= ENTRIES_ROOM - list->entries_length);
    assert(size <= DATA_ROOM - list->data_length);
    uint8_t *entry = list->entries + list->entries_length;
    put_number(entry, tag, 4);
    put_number(entry + 4, type, 4);
    put_number(entry + 8, count, 4);
    put_number(entry + 12, (uint32_t)size, 4);
    memcpy(list->data + list->data_length, data, size);
    list->entries_length += STATION_ENTRY_BYTES;
    list->data_length += size;
}

/* One string with its zero byte. */
static void add_text(struct list *list, uint32_t tag, uint32_t type, const char *text)
{
    add(list, tag, type, 1, text, strlen(text) + 1);
}

/* One int16 or int32. */
static void add_number(struct list *list, uint32_t tag, uint32_t type, uint32_t number)
{
    uint8_t data[4];
    int size = type == INT16 ? 2 : 4;
    put_number(data, number, size);
    add(list, tag, type, 1, data, (size_t)size);
}

/* ---- The entries of a book ---- */

/* 100 to 1022: what the package is. */
static void list_title(struct list *header, const struct recipe *recipe)
{
    add_text(header, 100, STRING_ARRAY, "C");
    add_text(header, 1000, STRING, recipe->name);
    add_text(header, 1001, STRING, recipe->version);
    add_text(header, 1002, STRING, RELEASE);
    add_text(header, 1004, I18NSTRING, "Recipe book");
    add_text(header, 1005, I18NSTRING, "Doses for the weighing station.");
    add_number(header, 1009, INT32, 0);
    add_text(header, 1014, STRING, "none");
    add_text(header, 1016, I18NSTRING, "Books");
    add_text(header, 1021, STRING, "linux");
    add_text(header, 1022, STRING, "noarch");
}

/* 1028 to 1040: the one file that a package must list. It is a ghost (flag 64): it has a
   name and is not in the payload. */
static void list_file(struct list *header)
{
    add_number(header, 1028, INT32, 0);
    add_number(header, 1030, INT16, 0100644);
    add_number(header, 1033, INT16, 0);
    add_number(header, 1034, INT32, 0);
    add_text(header, 1035, STRING_ARRAY, "");
    add_text(header, 1036, STRING_ARRAY, "");
    add_number(header, 1037, INT32, 64);
    add_text(header, 1039, STRING_ARRAY, "root");
    add_text(header, 1040, STRING_ARRAY, "root");
}

/* 1047 to 1050: the name that is provided, and what rpm must know to read the package. */
static void list_relations(struct list *header, const struct recipe *recipe)
{
    add_text(header, 1047, STRING_ARRAY, recipe->name);
    add_number(header, 1048, INT32, 1 << 24 | 8 | 2);
    add_text(header, 1049, STRING_ARRAY, "rpmlib(CompressedFileNames)");
    add_text(header, 1050, STRING_ARRAY, "3.0.4-1");
}

/* 1095 to 1126: the rest of the file, of what is provided, and of the payload. */
static void list_rest(struct list *header, const struct recipe *recipe)
{
    const char *provided = recipe->title + strlen(recipe->name) + 1;
    add_number(header, 1095, INT32, 1);
    add_number(header, 1096, INT32, 1);
    add_text(header, 1097, STRING_ARRAY, "");
    add_number(header, 1112, INT32, 8);
    add_text(header, 1113, STRING_ARRAY, provided);
    add_number(header, 1116, INT32, 0);
    add_text(header, 1117, STRING_ARRAY, recipe->name);
    add_text(header, 1118, STRING_ARRAY, "/usr/share/books/");
    add_text(header, 1124, STRING, "cpio");
    add_text(header, 1125, STRING, "gzip");
    add_text(header, 1126, STRING, "9");
}

/* A dose as a record of the book. */
static void put_record(uint8_t *record, const struct dose *dose)
{
    record[0] = dose->has_lot ? LOT_KIND : DOSE_KIND;
    put_number(record + 1, dose->oxide, 2);
    put_number(record + 3, dose->milligrams, 4);
    if (dose->has_lot)
        put_number(record + 7, dose->lot, 4);
}

/* 20001 and 20002: the book and the batch weight. */
static void list_book(struct list *header, const struct recipe *recipe)
{
    uint8_t book[BOOK_ROOM] = {0};
    uint8_t *record = book;
    for (uint32_t i = 0; i < recipe->count; i++) {
        put_record(record, &recipe->doses[i]);
        record += record_size(&recipe->doses[i]);
    }
    add(header, BOOK, BIN, (uint32_t)recipe->book_size, book, recipe->book_size);
    add_number(header, BATCH_WEIGHT, INT32, batch_weight(recipe));
}

static void list_header(struct list *header, const struct recipe *recipe)
{
    list_title(header, recipe);
    list_file(header);
    list_relations(header, recipe);
    list_rest(header, recipe);
    list_book(header, recipe);
}

/* ---- The package ---- */

/* Says why a call refused. */
static void print_refused(const char *call, uint32_t number, uint32_t place)
{
    const struct refusal *refusal = refusal_of(number);
    fprintf(stderr, "make_book: %s: refused %" PRIu32 " at %" PRIu32 "\n", call, number,
            place);
    if (refusal == NULL) {
        fprintf(stderr, "Means:  a check that this program does not know.\n");
        return;
    }
    fprintf(stderr, "Means:  %s.\nPlace:  %s\nOften:  %s.\nTo do:  %s\n", refusal->meaning,
            refusal->place, refusal->cause, refusal->remedy);
}

/* Writes the recipe's package into the buffer; says why if it is refused. */
static bool write_package(const struct recipe *recipe, uint8_t *package, size_t *length)
{
    /* The signature has 1000 and 1004 alone, which station_write puts there. */
    struct list signature = {0}, header = {0};
    list_header(&header, recipe);
    uint64_t answer = station_write((const uint8_t *)recipe->title, strlen(recipe->title),
                                    signature.entries, signature.entries_length,
                                    signature.data, signature.data_length,
                                    header.entries, header.entries_length,
                                    header.data, header.data_length,
                                    package, STATION_PACKAGE_ROOM);
    *length = STATION_PLACE(answer);
    if (STATION_NUMBER(answer) == 0)
        return true;
    print_refused("writing", STATION_NUMBER(answer), STATION_PLACE(answer));
    return false;
}

static uint32_t number_at(const uint8_t *at)
{
    return (uint32_t)at[0] << 24 | (uint32_t)at[1] << 16 | (uint32_t)at[2] << 8 | at[3];
}

/* Whether so many doses, as station_read wrote them, are the recipe's. */
static bool same_doses(const struct recipe *recipe, const uint8_t *doses, uint32_t count)
{
    if (count != recipe->count)
        return false;
    for (uint32_t i = 0; i < count; i++, doses += STATION_DOSE_BYTES)
        if (number_at(doses) != recipe->doses[i].oxide ||
            number_at(doses + 4) != recipe->doses[i].milligrams ||
            number_at(doses + 8) != recipe->doses[i].lot)
            return false;
    return true;
}

/* Reads the package as the station will; says why if it is not the recipe's. */
static bool read_again(const struct recipe *recipe, const uint8_t *package, size_t length)
{
    uint8_t doses[STATION_DOSES_ROOM];
    uint64_t answer = station_read(EDITION, package, length, doses, sizeof doses);
    if (STATION_NUMBER(answer) != 0) {
        print_refused("reading it again", STATION_NUMBER(answer), STATION_PLACE(answer));
        return false;
    }
    if (same_doses(recipe, doses, STATION_PLACE(answer)))
        return true;
    fprintf(stderr, "make_book: reading it again: the doses are not those of the lines\n");
    return false;
}

/* ---- The file ---- */

/* Whether a file may be made under this name; says why not. */
static bool may_make(const char *name, bool replace)
{
    struct stat found;
    if (lstat(name, &found) != 0)
        return true;
    if (!S_ISREG(found.st_mode))
        fprintf(stderr, "make_book: %s: is there already and is no ordinary file\n", name);
    else if (!replace)
        fprintf(stderr, "make_book: %s: is there already; -f replaces it\n", name);
    else
        return true;
    return false;
}

static bool write_bytes(int file, const uint8_t *bytes, size_t length)
{
    while (length > 0) {
        ssize_t done = write(file, bytes, length);
        if (done < 0 && errno != EINTR)
            return false;
        if (done > 0) {
            bytes += done;
            length -= (size_t)done;
        }
    }
    return true;
}

/* Fills a new file and has it stored; a file that is not whole is taken away. */
static bool fill_file(const char *name, const uint8_t *bytes, size_t length)
{
    int file = open(name, O_WRONLY | O_CREAT | O_EXCL, 0666);
    if (file < 0)
        return false;
    bool whole = write_bytes(file, bytes, length) && fsync(file) == 0;
    int fault = errno;
    if (close(file) != 0 && whole) {
        whole = false;
        fault = errno;
    }
    if (!whole)
        (void)unlink(name);
    errno = fault;
    return whole;
}

/* Gives a file its name. Without replace, a file of that name stays as it is. */
static bool name_file(const char *from, const char *to, bool replace)
{
    struct stat found;
    if (replace)
        return rename(from, to) == 0;
    if (link(from, to) == 0) {
        (void)unlink(from);
        return true;
    }
    if (errno == EEXIST)
        return false;
    if (lstat(to, &found) == 0) { /* a file system without links */
        errno = EEXIST;
        return false;
    }
    return rename(from, to) == 0;
}

/* Has the name of a file stored, where the file system can. */
static void store_name(const char *name)
{
    const char *slash = strrchr(name, '/');
    char *folder = slash == NULL ? strdup(".") : strdup(name);
    if (folder == NULL)
        return;
    if (slash != NULL)
        folder[slash == name ? 1 : slash - name] = 0;
    int opened = open(folder, O_RDONLY);
    free(folder);
    if (opened < 0)
        return;
    (void)fsync(opened);
    (void)close(opened);
}

/* Writes a file under another name beside it, and then gives it its own. */
static bool put_file(const char *name, const uint8_t *bytes, size_t length, bool replace)
{
    size_t room = strlen(name) + 32;
    char *other = malloc(room);
    if (other == NULL)
        return false;
    (void)snprintf(other, room, "%s.%ld", name, (long)getpid());
    bool right = fill_file(other, bytes, length);
    if (right && !name_file(other, name, replace)) {
        int fault = errno;
        (void)unlink(other);
        errno = fault;
        right = false;
    }
    free(other);
    return right;
}

/* The same; no signal stops it halfway. Says why if it could not. */
static bool make_file(const char *name, const uint8_t *bytes, size_t length, bool replace)
{
    sigset_t held, before;
    (void)sigemptyset(&held);
    (void)sigaddset(&held, SIGHUP);
    (void)sigaddset(&held, SIGINT);
    (void)sigaddset(&held, SIGQUIT);
    (void)sigaddset(&held, SIGTERM);
    (void)sigprocmask(SIG_BLOCK, &held, &before);
    (void)signal(SIGXFSZ, SIG_IGN); /* a file too large is a fault of write */
    bool right = put_file(name, bytes, length, replace);
    if (right)
        store_name(name);
    else
        fprintf(stderr, "make_book: %s: %s\n", name, strerror(errno));
    (void)sigprocmask(SIG_SETMASK, &before, NULL);
    return right;
}

/* ---- The program ---- */

#define SMALL "abcdefghijklmnopqrstuvwxyz"
#define CAPITAL "ABCDEFGHIJKLMNOPQRSTUVWXYZ"
#define LETTERS_AND_DIGITS SMALL CAPITAL "0123456789"

/* Whether a text is a letter or digit and then more of them, or of ._+ and -. */
static bool is_plain(const char *text)
{
    return strspn(text, LETTERS_AND_DIGITS) > 0 &&
           text[strspn(text, LETTERS_AND_DIGITS "._+-")] == 0;
}

/* Puts the recipe's title together; says why if name and version will not do. */
static bool put_title(struct recipe *recipe)
{
    int size = snprintf(recipe->title, sizeof recipe->title, "%s-%s-" RELEASE,
                        recipe->name, recipe->version);
    if (!is_plain(recipe->name))
        fprintf(stderr, "make_book: the name is not letters, digits and . _ + - behind "
                        "a letter or digit\n");
    else if (!is_plain(recipe->version) || strchr(recipe->version, '-') != NULL)
        fprintf(stderr, "make_book: the version is not letters, digits and . _ + behind "
                        "a letter or digit\n");
    else if (size < 0 || size > MOST_NAME)
        fprintf(stderr, "make_book: NAME-VERSION-" RELEASE " has over %d bytes\n",
                MOST_NAME);
    else
        return true;
    return false;
}

/* Says what was made. */
static int print_made(const struct recipe *recipe, const char *name)
{
    printf("made %s: %" PRIu32 " dose%s, ", name, recipe->count,
           recipe->count == 1 ? "" : "s");
    if (lots(recipe) > 0)
        printf("%" PRIu32 " with a lot, ", lots(recipe));
    printf("%" PRIu32 " mg\n", batch_weight(recipe));
    if (fflush(stdout) == 0 && !ferror(stdout))
        return MADE;
    fprintf(stderr, "make_book: %s is made; that could not be written\n", name);
    return TROUBLE;
}

/* Makes the file of a recipe whose doses are yet to be read from lines. */
static int make_package(struct recipe *recipe, const char *lines, const char *name,
                        bool replace)
{
    static uint8_t package[STATION_PACKAGE_ROOM];
    size_t length;
    if (!may_make(name, replace))
        return TROUBLE;
    int end = take_file(lines, recipe);
    if (end != MADE)
        return end;
    if (!write_package(recipe, package, &length) || !read_again(recipe, package, length))
        return REFUSED;
    if (!may_make(name, replace) || !make_file(name, package, length, replace))
        return TROUBLE;
    return MADE;
}

/* The same, and says what became of it. */
static int make_book(struct recipe *recipe, const char *lines, const char *name,
                     bool replace)
{
    int end = make_package(recipe, lines, name, replace);
    if (end == MADE)
        return print_made(recipe, name);
    fprintf(stderr, "make_book: no package was made\n");
    return end;
}

static int usage(void)
{
    fprintf(stderr, "usage: make_book [-f] [-o FILE] NAME VERSION [LINES]\n"
                    "       LINES, or standard input: OXIDE MILLIGRAMS [LOT] on each line\n"
                    "       FILE: by default NAME-VERSION.rpm; -f replaces it\n");
    return TROUBLE;
}

int main(int count, char **words)
{
    static struct recipe recipe;
    char usual[2 * MOST_NAME + sizeof FILE_END];
    const char *name = usual;
    bool replace = false;
    int option;
    while ((option = getopt(count, words, "fo:")) != -1) {
        if (option == 'f')
            replace = true;
        else if (option == 'o' && optarg[0] != 0)
            name = optarg;
        else
            return usage();
    }
    if (count - optind != 2 && count - optind != 3)
        return usage();
    const char *lines = count - optind == 3 ? words[optind + 2] : "-";
    recipe.name = words[optind];
    recipe.version = words[optind + 1];
    if (!put_title(&recipe))
        return REFUSED;
    (void)snprintf(usual, sizeof usual, "%s-%s" FILE_END, recipe.name, recipe.version);
    return make_book(&recipe, lines, name, replace);
}
