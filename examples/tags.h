/*
 * The catalogue's tags: name, type, count and whether a package must have them, and
 * the tags that stand together. For messages, and for the types of entries to be written;
 * the library does the checking.
 */
#ifndef TAGS_H
#define TAGS_H

#include <stddef.h>
#include <stdint.h>

enum { SIGNATURE, HEADER };

/* Types of entries. */
enum {
    CHAR = 1,
    INT8 = 2,
    INT16 = 3,
    INT32 = 4,
    STRING = 6,
    BIN = 7,
    STRING_ARRAY = 8,
    I18NSTRING = 9
};

static const char *const type_names[] = {
    [CHAR] = "char",
    [INT8] = "int8",
    [INT16] = "int16",
    [INT32] = "int32",
    [STRING] = "string",
    [BIN] = "bin",
    [STRING_ARRAY] = "string array",
    [I18NSTRING] = "translated string",
};

enum { ANY = 0 }; /* a count that is not fixed */
enum { OPTIONAL, REQUIRED };

/* House tags: the book, and from edition 2 on the batch weight in milligrams. */
enum { BOOK = 20001, BATCH_WEIGHT = 20002 };

/* A line of the catalogue. */
struct line {
    uint32_t tag, type, count;
    int status;
    const char *name;
};

static const struct line signature_lines[] = {
    {62, BIN, 16, OPTIONAL, "RPMTAG_HEADERSIGNATURES"},
    {63, BIN, 16, OPTIONAL, "RPMTAG_HEADERIMMUTABLE"},
    {100, STRING_ARRAY, ANY, OPTIONAL, "RPMTAG_HEADERI18NTABLE"},
    {1000, INT32, 1, REQUIRED, "SIGTAG_SIGSIZE"},
    {1002, BIN, ANY, OPTIONAL, "SIGTAG_PGP"},
    {1004, BIN, 16, REQUIRED, "SIGTAG_MD5"},
    {1005, BIN, ANY, OPTIONAL, "SIGTAG_GPG"},
    {1007, INT32, 1, OPTIONAL, "SIGTAG_PAYLOADSIZE"},
    {1010, STRING, 1, OPTIONAL, "SIGTAG_SHA1HEADER"},
    {1011, BIN, ANY, OPTIONAL, "SIGTAG_DSAHEADER"},
    {1012, BIN, ANY, OPTIONAL, "SIGTAG_RSAHEADER"},
};

static const struct line header_lines[] = {
    {62, BIN, 16, OPTIONAL, "RPMTAG_HEADERSIGNATURES"},
    {63, BIN, 16, OPTIONAL, "RPMTAG_HEADERIMMUTABLE"},
    {100, STRING_ARRAY, ANY, REQUIRED, "RPMTAG_HEADERI18NTABLE"},
    {1000, STRING, 1, REQUIRED, "RPMTAG_NAME"},
    {1001, STRING, 1, REQUIRED, "RPMTAG_VERSION"},
    {1002, STRING, 1, REQUIRED, "RPMTAG_RELEASE"},
    {1004, I18NSTRING, ANY, REQUIRED, "RPMTAG_SUMMARY"},
    {1005, I18NSTRING, ANY, REQUIRED, "RPMTAG_DESCRIPTION"},
    {1006, INT32, 1, OPTIONAL, "RPMTAG_BUILDTIME"},
    {1007, STRING, 1, OPTIONAL, "RPMTAG_BUILDHOST"},
    {1009, INT32, 1, REQUIRED, "RPMTAG_SIZE"},
    {1010, STRING, 1, OPTIONAL, "RPMTAG_DISTRIBUTION"},
    {1011, STRING, 1, OPTIONAL, "RPMTAG_VENDOR"},
    {1014, STRING, 1, REQUIRED, "RPMTAG_LICENSE"},
    {1016, I18NSTRING, ANY, REQUIRED, "RPMTAG_GROUP"},
    {1020, STRING, 1, OPTIONAL, "RPMTAG_URL"},
    {1021, STRING, 1, REQUIRED, "RPMTAG_OS"},
    {1022, STRING, 1, REQUIRED, "RPMTAG_ARCH"},
    {1023, STRING, 1, OPTIONAL, "RPMTAG_PREIN"},
    {1024, STRING, 1, OPTIONAL, "RPMTAG_POSTIN"},
    {1025, STRING, 1, OPTIONAL, "RPMTAG_PREUN"},
    {1026, STRING, 1, OPTIONAL, "RPMTAG_POSTUN"},
    {1027, STRING_ARRAY, ANY, OPTIONAL, "RPMTAG_OLDFILENAMES"},
    {1028, INT32, ANY, REQUIRED, "RPMTAG_FILESIZES"},
    {1030, INT16, ANY, REQUIRED, "RPMTAG_FILEMODES"},
    {1033, INT16, ANY, REQUIRED, "RPMTAG_FILERDEVS"},
    {1034, INT32, ANY, REQUIRED, "RPMTAG_FILEMTIMES"},
    {1035, STRING_ARRAY, ANY, REQUIRED, "RPMTAG_FILEMD5S"},
    {1036, STRING_ARRAY, ANY, REQUIRED, "RPMTAG_FILELINKTOS"},
    {1037, INT32, ANY, REQUIRED, "RPMTAG_FILEFLAGS"},
    {1039, STRING_ARRAY, ANY, REQUIRED, "RPMTAG_FILEUSERNAME"},
    {1040, STRING_ARRAY, ANY, REQUIRED, "RPMTAG_FILEGROUPNAME"},
    {1044, STRING, 1, OPTIONAL, "RPMTAG_SOURCERPM"},
    {1045, INT32, ANY, OPTIONAL, "RPMTAG_FILEVERIFYFLAGS"},
    {1046, INT32, 1, OPTIONAL, "RPMTAG_ARCHIVESIZE"},
    {1047, STRING_ARRAY, ANY, REQUIRED, "RPMTAG_PROVIDENAME"},
    {1048, INT32, ANY, REQUIRED, "RPMTAG_REQUIREFLAGS"},
    {1049, STRING_ARRAY, ANY, REQUIRED, "RPMTAG_REQUIRENAME"},
    {1050, STRING_ARRAY, ANY, REQUIRED, "RPMTAG_REQUIREVERSION"},
    {1053, INT32, ANY, OPTIONAL, "RPMTAG_CONFLICTFLAGS"},
    {1054, STRING_ARRAY, ANY, OPTIONAL, "RPMTAG_CONFLICTNAME"},
    {1055, STRING_ARRAY, ANY, OPTIONAL, "RPMTAG_CONFLICTVERSION"},
    {1064, STRING, 1, OPTIONAL, "RPMTAG_RPMVERSION"},
    {1080, INT32, ANY, OPTIONAL, "RPMTAG_CHANGELOGTIME"},
    {1081, STRING_ARRAY, ANY, OPTIONAL, "RPMTAG_CHANGELOGNAME"},
    {1082, STRING_ARRAY, ANY, OPTIONAL, "RPMTAG_CHANGELOGTEXT"},
    {1085, STRING, 1, OPTIONAL, "RPMTAG_PREINPROG"},
    {1086, STRING, 1, OPTIONAL, "RPMTAG_POSTINPROG"},
    {1087, STRING, 1, OPTIONAL, "RPMTAG_PREUNPROG"},
    {1088, STRING, 1, OPTIONAL, "RPMTAG_POSTUNPROG"},
    {1090, STRING_ARRAY, ANY, OPTIONAL, "RPMTAG_OBSOLETENAME"},
    {1094, STRING, 1, OPTIONAL, "RPMTAG_COOKIE"},
    {1095, INT32, ANY, REQUIRED, "RPMTAG_FILEDEVICES"},
    {1096, INT32, ANY, REQUIRED, "RPMTAG_FILEINODES"},
    {1097, STRING_ARRAY, ANY, REQUIRED, "RPMTAG_FILELANGS"},
    {1112, INT32, ANY, REQUIRED, "RPMTAG_PROVIDEFLAGS"},
    {1113, STRING_ARRAY, ANY, REQUIRED, "RPMTAG_PROVIDEVERSION"},
    {1114, INT32, ANY, OPTIONAL, "RPMTAG_OBSOLETEFLAGS"},
    {1115, STRING_ARRAY, ANY, OPTIONAL, "RPMTAG_OBSOLETEVERSION"},
    {1116, INT32, ANY, OPTIONAL, "RPMTAG_DIRINDEXES"},
    {1117, STRING_ARRAY, ANY, OPTIONAL, "RPMTAG_BASENAMES"},
    {1118, STRING_ARRAY, ANY, OPTIONAL, "RPMTAG_DIRNAMES"},
    {1122, STRING, 1, OPTIONAL, "RPMTAG_OPTFLAGS"},
    {1123, STRING, 1, OPTIONAL, "RPMTAG_DISTURL"},
    {1124, STRING, 1, REQUIRED, "RPMTAG_PAYLOADFORMAT"},
    {1125, STRING, 1, REQUIRED, "RPMTAG_PAYLOADCOMPRESSOR"},
    {1126, STRING, 1, REQUIRED, "RPMTAG_PAYLOADFLAGS"},
    {1131, STRING, 1, OPTIONAL, "RPMTAG_RHNPLATFORM"},
    {1132, STRING, 1, OPTIONAL, "RPMTAG_PLATFORM"},
    {BOOK, BIN, ANY, REQUIRED, "the book"},
    {BATCH_WEIGHT, INT32, 1, REQUIRED, "the batch weight"},
};

/* Tags that check 17 holds together: of a tag, the one beside it and the rule. */
struct group {
    uint32_t first, last; /* the tags, from the first to the last */
    int structure;
    uint32_t beside;
    const char *rule;
};

#define FILES "it has one element to each file, as 1028 has"
#define TOGETHER "these tags are all absent, or all present with one count: "

static const struct group groups[] = {
    {1005, 1005, SIGNATURE, 1011, "1011 needs it"},
    {1002, 1002, SIGNATURE, 1012, "1012 needs it"},
    {1085, 1085, HEADER, 1023, "1023 needs it"},
    {1086, 1086, HEADER, 1024, "1024 needs it"},
    {1087, 1087, HEADER, 1025, "1025 needs it"},
    {1088, 1088, HEADER, 1026, "1026 needs it"},
    {1030, 1040, HEADER, 1028, FILES},
    {1045, 1045, HEADER, 1028, FILES},
    {1095, 1097, HEADER, 1028, FILES},
    {1027, 1027, HEADER, 1028, FILES "; beside it no 1116 to 1118"},
    {1116, 1118, HEADER, 1028,
     "without 1027 all of 1116 to 1118 are present; 1116 and 1117 have one element to "
     "each file, as 1028 has"},
    {1048, 1050, HEADER, 1049, TOGETHER "1048, 1049, 1050"},
    {1047, 1047, HEADER, 1112, TOGETHER "1047, 1112, 1113"},
    {1112, 1113, HEADER, 1047, TOGETHER "1047, 1112, 1113"},
    {1053, 1055, HEADER, 1054, TOGETHER "1053, 1054, 1055"},
    {1090, 1090, HEADER, 1114, TOGETHER "1090, 1114, 1115"},
    {1114, 1115, HEADER, 1090, TOGETHER "1090, 1114, 1115"},
    {1080, 1082, HEADER, 1081, TOGETHER "1080, 1081, 1082"},
};

#undef FILES
#undef TOGETHER

/* The last group: every translated string of the header, whatever its tag. */
static const struct group locales = {
    0, UINT32_MAX, HEADER, 100,
    "it has no more translations than the package lists locales (100)"};

/* The catalogue's line for a tag, or NULL. */
static inline const struct line *line_of(int structure, uint32_t tag)
{
    const struct line *lines = header_lines;
    size_t count = sizeof header_lines / sizeof header_lines[0];
    if (structure == SIGNATURE) {
        lines = signature_lines;
        count = sizeof signature_lines / sizeof signature_lines[0];
    }
    for (size_t i = 0; i < count; i++)
        if (lines[i].tag == tag)
            return &lines[i];
    return NULL;
}

/* The group but the last whose fault a tag may be the place of, or NULL. */
static inline const struct group *group_of(uint32_t tag)
{
    for (size_t i = 0; i < sizeof groups / sizeof groups[0]; i++)
        if (groups[i].first <= tag && tag <= groups[i].last)
            return &groups[i];
    return NULL;
}

#endif
