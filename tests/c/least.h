/*
 * The entries of the least package that is accepted: one file, one provide, one
 * require, nothing optional. Its book states one dose.
 */
struct entry {
    uint32_t tag, type, count;
    const void *data;
    size_t size;
};

#define STRING(tag, text) {tag, 6, 1, text, sizeof text}
#define TRANSLATED(tag, text) {tag, 9, 1, text, sizeof text}
#define STRINGS(tag, count, texts) {tag, 8, count, texts, sizeof texts}
#define ZEROS(tag, type, count, size) {tag, type, count, zeros, (size) * (count)}
#define WORD(tag, bytes) {tag, 4, 1, bytes, 4}
#define BIN(tag, bytes, count) {tag, 7, count, bytes, count}

static const uint8_t zeros[5000];

static const struct entry least_signature[] = {WORD(1000, zeros), BIN(1004, zeros, 16)};
static const struct entry least_header[] = {
    STRINGS(100, 1, "C"),       STRING(1000, "book"),       STRING(1001, "1"),
    STRING(1002, "1"),          TRANSLATED(1004, "A book"), TRANSLATED(1005, ""),
    WORD(1009, zeros),          STRING(1014, "none"),       TRANSLATED(1016, "Books"),
    STRING(1021, "linux"),      STRING(1022, "noarch"),     ZEROS(1028, 4, 1, 4),
    ZEROS(1030, 3, 1, 2),       ZEROS(1033, 3, 1, 2),       ZEROS(1034, 4, 1, 4),
    STRINGS(1035, 1, ""),       STRINGS(1036, 1, ""),       ZEROS(1037, 4, 1, 4),
    STRINGS(1039, 1, "root"),   STRINGS(1040, 1, "root"),   STRINGS(1047, 1, "book"),
    ZEROS(1048, 4, 1, 4),       STRINGS(1049, 1, "glass"),  STRINGS(1050, 1, ""),
    ZEROS(1095, 4, 1, 4),       ZEROS(1096, 4, 1, 4),       STRINGS(1097, 1, ""),
    ZEROS(1112, 4, 1, 4),       STRINGS(1113, 1, "1-1"),    ZEROS(1116, 4, 1, 4),
    STRINGS(1117, 1, "book"),   STRINGS(1118, 1, "/srv/"),  STRING(1124, "cpio"),
    STRING(1125, "gzip"),       STRING(1126, "9"),
    BIN(20001, "\x02\x00\x07\x86\x00\x1B\x00\x00\x04\xE2", 10),
    WORD(20002, "\x00\x00\x04\xE2"),
};
