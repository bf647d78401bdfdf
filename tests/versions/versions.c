/*
 * Compares pairs of version texts with station_compare.
 *
 *   versions < PAIRS
 *
 * A line has two texts in hex, each behind a colon, with a blank between: ":312E30 :32".
 * The answers older, same or newer are written, a line for each.
 */
#include <stdio.h>
#include <stdlib.h>
#include <string.h>

#include "station.h"

enum { LINE = 1 << 20 };

static void fail(const char *what)
{
    fprintf(stderr, "versions: %s\n", what);
    exit(1);
}

/* The bytes of a word ":HEX", and how many they are. */
static size_t bytes_of(const char *word, uint8_t *bytes)
{
    size_t count = 0;
    if (word == NULL || *word++ != ':')
        fail("no text");
    for (unsigned byte; *word != 0; word += 2) {
        if (sscanf(word, "%2x", &byte) != 1 || word[1] == 0)
            fail("no hex");
        bytes[count++] = (uint8_t)byte;
    }
    return count;
}

int main(void)
{
    static const char *const words[] = {"older", "same", "newer"};
    static char line[LINE];
    static uint8_t left[LINE], right[LINE];
    while (fgets(line, sizeof line, stdin) != NULL) {
        size_t left_len = bytes_of(strtok(line, " \n"), left);
        size_t right_len = bytes_of(strtok(NULL, " \n"), right);
        uint32_t answer = station_compare(left, left_len, right, right_len);
        if (answer > STATION_NEWER)
            fail("an answer above 2");
        puts(words[answer]);
    }
    return 0;
}
