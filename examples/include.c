/*
 * include SITE-RULE FACTORY-RULE [EVENT-NAME..]: says whether a site rule allows only what the factory rule allows.
 *
 * Reads both rule files, builds their tables, says on standard error how many rows they have, and asks whether the
 * factory rule shows 0 after every word after which the site rule does. If so, prints that. If not, prints a word of
 * the fewest events possible after which the site rule shows 0 and the factory rule is blank, an event a line: the
 * time in seconds, and the event's name, or its symbol where no names are given. Half a second stands for any time
 * between two whole seconds. There is a name for each symbol, in their order, or none.
 *
 * Ends with 0 if the site rule allows only what the factory rule allows, with 1 if it allows more; else as common.h
 * says, with 1 at a refusal too.
 */
#define PROGRAM "include"
#include "table.h"

enum { ALLOWS_MORE = 1 };

/* Room for a time as text. */
#define TIME 16

static built_table site, factory;
static uint32_t scratch[ALDERSKEIN_JOINT_STATES];
static uint16_t symbols[ALDERSKEIN_EVENTS];
static uint32_t stamps[ALDERSKEIN_EVENTS];

/* Ends unless there are as many names as symbols, or none. */
static void check_names(size_t count)
{
    if (count == 0 || count == site.built.symbols)
        return;
    fprintf(stderr, PROGRAM ": %zu event names for %u symbols\n", count, (unsigned)site.built.symbols);
    exit(UNREADABLE);
}

/* Writes the time of a stamp, and returns its length. */
static int write_time(char text[TIME], uint32_t stamp)
{
    const char *half = stamp % ALDERSKEIN_LIST_GRAIN == 0 ? "" : ".5";
    return snprintf(text, TIME, "%u%s s", (unsigned)(stamp / ALDERSKEIN_LIST_GRAIN), half);
}

/* The word shown, an event a line; `names` ends with NULL. */
static void print_word(size_t events, char **names)
{
    char text[TIME];
    int width = 0;
    if (events == 0)
        puts("at the start, before any event");
    for (size_t event = 0; event < events; ++event) {
        int length = write_time(text, stamps[event]);
        width = width < length ? length : width;
    }
    for (size_t event = 0; event < events; ++event) {
        write_time(text, stamps[event]);
        printf("%-*s  ", width, text);
        if (*names == NULL)
            printf("symbol %u\n", (unsigned)symbols[event]);
        else
            puts(names[symbols[event]]);
    }
}

int main(int count, char **words)
{
    if (count < 3) {
        fprintf(stderr, "usage: " PROGRAM " SITE-RULE FACTORY-RULE [EVENT-NAME..]\n");
        return UNREADABLE;
    }
    char **names = words + 3;
    build(words[1], &site);
    build(words[2], &factory);
    alderskein_inclusion inclusion = alderskein_check_inclusion(
        site.built, site.cells, CELLS, site.rows, ALDERSKEIN_ROW_TABLE, site.pool, POOL,
        factory.built, factory.cells, CELLS, factory.rows, ALDERSKEIN_ROW_TABLE, factory.pool, POOL,
        scratch, ALDERSKEIN_JOINT_STATES, symbols, ALDERSKEIN_EVENTS, stamps, ALDERSKEIN_EVENTS);
    if (inclusion.number != 0)
        refuse("the two rules", inclusion.number, inclusion.place);
    check_names((size_t)count - 3);
    if (inclusion.included) {
        printf("%s allows only what %s allows\n", words[1], words[2]);
        return status();
    }
    printf("%s allows more than %s:\n", words[1], words[2]);
    print_word(inclusion.events, names);
    puts("here the site rule shows 0, and the factory rule is blank");
    return status() == 0 ? ALLOWS_MORE : UNREADABLE;
}
