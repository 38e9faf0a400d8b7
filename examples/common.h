/*
 * What the example programs share: the rule file read, and what they end with.
 *
 * They end with 0; with 1 where the library refuses, after a line `no NUMBER PLACE` on standard error; with 2
 * where the command line, the file or a line of the input cannot be read. PROGRAM is the program's name.
 */
#ifndef EXAMPLES_COMMON_H
#define EXAMPLES_COMMON_H

#include "alderskein.h"

#include <errno.h>
#include <stdio.h>
#include <stdlib.h>
#include <string.h>

enum { REFUSED = 1, UNREADABLE = 2 };

#define MOST_BYTES 65536

static uint8_t file[MOST_BYTES + 1];
static uint16_t edges[ALDERSKEIN_EDGE_TABLE];

/* What a refusal is about: who can mend it, or what two rules or several are refused for. */
static const char *cause_of(uint8_t number)
{
    if (number <= 8)
        return "the rule file";
    if (number >= 30 && number <= 33)
        return "the events or D";
    switch (number) {
    case 35:
        return "unequal counts of symbols";
    case 36:
        return "not answered: more than 1,000,000 joint states";
    case 37:
        return "the site rule allows more, by words of more than 4,096 events";
    case 38:
        return "M or H";
    case 40:
        return "more than 16 rules";
    case 43:
        return "not counted: more than 1,000,000 words";
    default:
        return "the room of this program";
    }
}

/* Says what it is about, and ends. */
static void refuse(const char *name, uint8_t number, size_t place)
{
    fprintf(stderr, PROGRAM ": %s: no %u %zu (%s; alderskein.h has the numbers)\n", name, number, place,
            cause_of(number));
    exit(REFUSED);
}

/* The whole file, and its length. */
static size_t load(const char *name)
{
    FILE *from = fopen(name, "rb");
    if (from == NULL) {
        fprintf(stderr, PROGRAM ": %s: %s\n", name, strerror(errno));
        exit(UNREADABLE);
    }
    size_t length = fread(file, 1, sizeof file, from);
    if (ferror(from)) {
        fprintf(stderr, PROGRAM ": %s cannot be read\n", name);
        exit(UNREADABLE);
    }
    fclose(from);
    if (length > MOST_BYTES) {
        fprintf(stderr, PROGRAM ": %s is too long: a rule file has at most %d bytes\n", name,
                ALDERSKEIN_LONGEST_FILE);
        exit(UNREADABLE);
    }
    return length;
}

/* The head record of the rule in a file; its edges go to `edges`. */
static alderskein_head read_rule(const char *name)
{
    alderskein_reading reading = alderskein_read_rule(file, load(name), edges, ALDERSKEIN_EDGE_TABLE);
    if (reading.number != 0)
        refuse(name, reading.number, reading.place);
    return reading.head;
}

/* What the program ends with once all is read and printed. */
static int status(void)
{
    if (ferror(stdin) || fflush(stdout) != 0 || ferror(stdout)) {
        fprintf(stderr, PROGRAM ": input or output failed\n");
        return UNREADABLE;
    }
    return 0;
}

#endif
