/*
 * station_digest, for tests/digest.sh.
 *
 *   digests of FILE..          a line for each file, as md5sum writes it
 *   digests zeros COUNT        the digest of so many zero bytes
 *   digests room               tries every length of a digest buffer up to 64
 *   digests bytes SEED COUNT   writes bytes, the same for the same seed
 *
 * What is lent is read-only and ends right before a page that faults, and so does the
 * digest buffer.
 */
#define _DEFAULT_SOURCE

#include <inttypes.h>
#include <stdio.h>
#include <stdlib.h>
#include <string.h>
#include <sys/mman.h>

#include "station.h"

enum { PAGE = 4096, BEFORE = 32, MOST_ROOM = 64, FILLED = 0xA5 };

static void fail(const char *what)
{
    fprintf(stderr, "digests: %s\n", what);
    exit(1);
}

/* So many zero bytes that end before a page that faults. */
static uint8_t *guarded(size_t size)
{
    size_t whole = (size + PAGE - 1) / PAGE * PAGE;
    uint8_t *start = mmap(NULL, whole + PAGE, PROT_READ | PROT_WRITE,
                          MAP_PRIVATE | MAP_ANONYMOUS | MAP_NORESERVE, -1, 0);
    if (start == MAP_FAILED || mprotect(start + whole, PAGE, PROT_NONE) != 0)
        fail("no memory");
    return start + whole - size;
}

static void read_only(uint8_t *bytes, size_t size)
{
    size_t whole = (size + PAGE - 1) / PAGE * PAGE;
    if (mprotect(bytes + size - whole, whole, PROT_READ) != 0)
        fail("memory cannot be made read-only");
}

static void release(uint8_t *bytes, size_t size)
{
    size_t whole = (size + PAGE - 1) / PAGE * PAGE;
    (void)munmap(bytes + size - whole, whole + PAGE);
}

/* The digest of guarded bytes, as md5sum writes it. */
static void print_digest(uint8_t *bytes, size_t size)
{
    uint8_t *digest = guarded(STATION_DIGEST_BYTES);
    read_only(bytes, size);
    if (station_digest(bytes, size, digest, STATION_DIGEST_BYTES) != STATION_DIGEST_BYTES)
        fail("not 0 with 16");
    for (int i = 0; i < STATION_DIGEST_BYTES; i++)
        printf("%02x", digest[i]);
    release(digest, STATION_DIGEST_BYTES);
}

static void print_file(const char *name)
{
    FILE *file = fopen(name, "rb");
    if (file == NULL || fseek(file, 0, SEEK_END) != 0)
        fail(name);
    size_t size = (size_t)ftell(file);
    rewind(file);
    uint8_t *bytes = guarded(size);
    if (fread(bytes, 1, size, file) != size || fclose(file) != 0)
        fail(name);
    print_digest(bytes, size);
    printf("  %s\n", name);
    release(bytes, size);
}

/* One length of the buffer: the answer, the digest, and every other byte. */
static void try_room(const uint8_t *bytes, size_t size, size_t room)
{
    uint8_t wanted[STATION_DIGEST_BYTES];
    uint8_t *all = guarded(BEFORE + room), *digest = all + BEFORE;
    memset(all, FILLED, BEFORE + room);
    if (station_digest(bytes, size, wanted, sizeof wanted) != sizeof wanted)
        fail("not 0 with 16");
    uint64_t answer = station_digest(bytes, size, digest, room);
    size_t written = room < sizeof wanted ? 0 : sizeof wanted;
    if (STATION_NUMBER(answer) != (written == 0 ? 34u : 0u) || STATION_PLACE(answer) != 16)
        fail("a wrong answer");
    if (memcmp(digest, wanted, written) != 0)
        fail("a wrong digest");
    for (size_t i = 0; i < BEFORE + room; i++)
        if ((i < BEFORE || i >= BEFORE + written) && all[i] != FILLED)
            fail("a byte beside the digest is changed");
    release(all, BEFORE + room);
}

static void try_rooms(void)
{
    static const size_t sizes[] = {0, 1, 3, 55, 56, 63, 64, 65, 119, 120, 128, 300, 5000};
    unsigned long tried = 0;
    for (size_t i = 0; i < sizeof sizes / sizeof sizes[0]; i++) {
        uint8_t *bytes = guarded(sizes[i]);
        for (size_t j = 0; j < sizes[i]; j++)
            bytes[j] = (uint8_t)(j * j + 7 * i);
        read_only(bytes, sizes[i]);
        for (size_t room = 0; room <= MOST_ROOM; room++, tried++)
            try_room(bytes, sizes[i], room);
        release(bytes, sizes[i]);
    }
    printf("%lu\n", tried);
}

/* xorshift64* */
static void write_bytes(uint64_t seed, uint64_t count)
{
    uint64_t state = seed * 0x9E3779B97F4A7C15u + 1;
    for (; count > 0; count--) {
        state ^= state >> 12;
        state ^= state << 25;
        state ^= state >> 27;
        putchar((int)(state * 0x2545F4914F6CDD1Du >> 56));
    }
}

int main(int count, char **words)
{
    const char *what = count > 1 ? words[1] : "";
    if (strcmp(what, "of") == 0) {
        for (int i = 2; i < count; i++)
            print_file(words[i]);
    } else if (strcmp(what, "zeros") == 0 && count == 3) {
        size_t size = strtoull(words[2], NULL, 10);
        print_digest(guarded(size), size);
        putchar('\n');
    } else if (strcmp(what, "room") == 0) {
        try_rooms();
    } else if (strcmp(what, "bytes") == 0 && count == 4) {
        write_bytes(strtoull(words[2], NULL, 10), strtoull(words[3], NULL, 10));
    } else {
        fail("usage: digests of FILE.. | zeros COUNT | room | bytes SEED COUNT");
    }
    return fflush(stdout) == 0 && !ferror(stdout) ? 0 : 1;
}
