/*
 * For the programs that take a word: RULE-FILE [D] on the command line, and events from standard input, one a
 * line: SYMBOL STAMP. Blank lines, and lines that start with #, are skipped.
 */
#ifndef EXAMPLES_EVENTS_H
#define EXAMPLES_EVENTS_H

#include "common.h"
#include "numbers.h"

#define LINE 128

/* Whether only blanks are left. */
static bool ended(const char *text)
{
    while (isspace((unsigned char)*text))
        ++text;
    return *text == '\0';
}

/* D from the command line, 2 if it is not given. */
static uint32_t take_grain(int count, char **words)
{
    uint32_t grain = 2;
    if (count == 3) {
        char *text = words[2];
        if (!take_number(&text, UINT32_MAX, &grain) || !ended(text))
            count = 0;
    }
    if (count != 2 && count != 3) {
        fprintf(stderr, "usage: " PROGRAM " RULE-FILE [D] < EVENTS\n");
        exit(UNREADABLE);
    }
    return grain;
}

/* The next line, without what is not part of an event; false at the end. */
static bool next_line(char line[LINE], unsigned long *number)
{
    while (fgets(line, LINE, stdin) != NULL) {
        ++*number;
        if (strchr(line, '\n') == NULL && !feof(stdin)) {
            fprintf(stderr, PROGRAM ": line %lu is too long for an event\n", *number);
            exit(UNREADABLE);
        }
        if (*line != '#' && !ended(line))
            return true;
    }
    return false;
}

/* The next event; false at the end. */
static bool next_event(uint16_t *symbol, uint32_t *stamp)
{
    static unsigned long number = 0;
    char line[LINE];
    if (!next_line(line, &number))
        return false;
    char *text = line;
    uint32_t value;
    if (!take_number(&text, UINT16_MAX, &value) || !take_number(&text, UINT32_MAX, stamp) || !ended(text)) {
        fprintf(stderr, PROGRAM ": line %lu is not SYMBOL STAMP\n", number);
        exit(UNREADABLE);
    }
    *symbol = (uint16_t)value;
    return true;
}

#endif
