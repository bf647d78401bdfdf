/*
 * The digest as a host program in C asks for it, with exact answers and bytes.
 *
 *   digest_test
 *
 * Message and digest buffer each end right before a page that faults.
 */
#define PROGRAM "digest_test"
#include "package.h"

/* The message is `package`. */
static void set_message(const void *bytes, size_t count)
{
    memcpy(package, bytes, count);
    length = count;
}

/* What a buffer of so many bytes must hold afterwards: the digest, in hex, at its front. */
static void digest(const char *what, const char *hex, size_t room)
{
    static uint8_t after[256];
    static uint8_t *fence;
    if (fence == NULL)
        fence = build_fence();
    uint8_t *buffer = fence - room;
    for (size_t i = 0; i < room; i++)
        buffer[i] = after[i] = (uint8_t)(asked + 3 * i + 1);
    expect(what, station_digest(lend(), length, buffer, room), room < 16 ? 34 : 0, 16);
    for (size_t i = 0; room >= 16 && i < 16; i++) {
        unsigned byte;
        sscanf(hex + 2 * i, "%2x", &byte);
        after[i] = (uint8_t)byte;
    }
    if (memcmp(buffer, after, room) != 0) {
        fprintf(stderr, PROGRAM ": %s: other bytes in the buffer\n", what);
        exit(1);
    }
}

static void every_room(const char *what, const char *hex)
{
    for (size_t room = 0; room <= 40; room++)
        digest(what, hex, room);
    digest(what, hex, 256);
}

/* RFC 1321, A.5 */
static void suite(void)
{
    static const char *const messages[][2] = {
        {"", "d41d8cd98f00b204e9800998ecf8427e"},
        {"a", "0cc175b9c0f1b6a831c399e269772661"},
        {"abc", "900150983cd24fb0d6963f7d28e17f72"},
        {"message digest", "f96b697d7cb7938d525a2f31aaf161d0"},
        {"abcdefghijklmnopqrstuvwxyz", "c3fcd3d76192e4007dfb496cca67e13b"},
        {"ABCDEFGHIJKLMNOPQRSTUVWXYZabcdefghijklmnopqrstuvwxyz0123456789",
         "d174ab98d277d9f5a5611c2c9f419d9f"},
        {"1234567890123456789012345678901234567890"
         "1234567890123456789012345678901234567890",
         "57edf4a22be3c955ac49da2e2107b67a"},
    };
    for (size_t i = 0; i < sizeof messages / sizeof messages[0]; i++) {
        set_message(messages[i][0], strlen(messages[i][0]));
        every_room(messages[i][0], messages[i][1]);
    }
}

/* Zero bytes around the ends of blocks, and many; the digests are md5sum's. */
static void zero_bytes(void)
{
    static const struct {
        size_t count;
        const char *digest;
    } messages[] = {
        {1, "93b885adfe0da089cdf634904fd59f71"},
        {55, "c9ea3314b91c9fd4e38f9432064fd1f2"},
        {56, "e3c4dd21a9171fd39d208efa09bf7883"},
        {57, "ab9d8ef2ffa9145d6c325cefa41d5d4e"},
        {63, "65cecfb980d72fde57d175d6ec1c3f64"},
        {64, "3b5d3c7d207e37dceeedd301e35e2e58"},
        {65, "1ef5e829303a139ce967440e0cdca10c"},
        {119, "8271cb2e6a546123b43096a2efce39d2"},
        {120, "222f7d881ded1871724a1b9a1cb94247"},
        {127, "e457fbae1dd166a0c89d244ac03f4e93"},
        {128, "f09f35a5637839458e462e6350ecbce4"},
        {4096, "620f0b67a91f7f74151bc5be745b7110"},
        {65536, "fcd6bcb56c1689fcef28b57c22475bad"},
        {131072, "0dfbe8aa4c20b52e1b8bf3cb6cbdf193"},
    };
    memset(package, 0, sizeof package);
    for (size_t i = 0; i < sizeof messages / sizeof messages[0]; i++) {
        length = messages[i].count;
        every_room("zero bytes", messages[i].digest);
    }
}

int main(void)
{
    suite();
    zero_bytes();
    printf(PROGRAM ": %d answers right\n", asked);
    return 0;
}
