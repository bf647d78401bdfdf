/*
 * What the tests in C share: a package in the making, memory right before a page
 * that faults, and answers held against what they must be. Define PROGRAM first.
 */
#define _DEFAULT_SOURCE
#include <stdio.h>
#include <stdlib.h>
#include <string.h>
#include <sys/mman.h>

#include "station.h"

#define ROOM ((size_t)1 << 17)
#define PAGE 4096

static uint8_t package[ROOM];
static size_t length;
static int asked;

/* The page that faults, behind ROOM bytes. */
static uint8_t *build_fence(void)
{
    uint8_t *all = mmap(NULL, ROOM + PAGE, PROT_READ | PROT_WRITE,
                        MAP_PRIVATE | MAP_ANONYMOUS, -1, 0);
    if (all == MAP_FAILED || mprotect(all + ROOM, PAGE, PROT_NONE) != 0) {
        perror("fence");
        exit(1);
    }
    return all + ROOM;
}

static void expect(const char *what, uint64_t answer, uint32_t number, uint32_t place)
{
    asked++;
    if (STATION_NUMBER(answer) == number && STATION_PLACE(answer) == place)
        return;
    fprintf(stderr, PROGRAM ": %s: %u at %u, expected %u at %u\n", what,
            STATION_NUMBER(answer), STATION_PLACE(answer), number, place);
    exit(1);
}

/* The package's copy at a fence. */
static const uint8_t *lend(void)
{
    static uint8_t *fence;
    if (fence == NULL)
        fence = build_fence();
    return memcpy(fence - length, package, length);
}

static void put(size_t at, uint32_t number)
{
    for (int i = 0; i < 4; i++)
        package[at + i] = (uint8_t)(number >> (24 - 8 * i));
}

/* Not every test makes packages or reads files. */
#define UNUSED __attribute__((unused))

/* A right lead, alone. */
UNUSED static void put_lead(void)
{
    memset(package, 0, sizeof package);
    put(0, 0xEDABEEDB);
    package[4] = 3;
    memcpy(package + 10, "book", 4);
    package[77] = 1;
    package[79] = 5;
    length = 96;
}

/* Writes a structure at the package's end. */
UNUSED static void put_structure(const uint32_t (*records)[4], size_t count,
                                 const void *store, size_t size)
{
    put(length, 0x8EADE801);
    put(length + 4, 0);
    put(length + 8, (uint32_t)count);
    put(length + 12, (uint32_t)size);
    length += 16;
    for (size_t i = 0; i < count; i++)
        for (size_t j = 0; j < 4; j++, length += 4)
            put(length, records[i][j]);
    memcpy(package + length, store, size);
    length += size;
}

UNUSED static void read_package(const char *folder, const char *name)
{
    char path[4096];
    snprintf(path, sizeof path, "%s/%s", folder, name);
    FILE *file = fopen(path, "rb");
    if (file == NULL) {
        perror(path);
        exit(1);
    }
    length = fread(package, 1, ROOM, file);
    fclose(file);
}
