/*
 * branch RULE-FILE [D]: says for a rule's author how a rule accepts a word, or what held it back.
 *
 * Reads the rule file and a word of at most 12 events from standard input, one a line: SYMBOL STAMP. Stamps
 * are in D-ths of a second (2 if D is not given). Prints the least accepting run, its start location and its
 * edges; or that no run accepts, and which member of a guard held the rule back at the first event, if one did: an
 * atom, or a whole group. Locations, edges and members are numbered from 0. Input is as events.h says, exit status as
 * common.h says.
 */
#define PROGRAM "branch"
#include "events.h"

/* One event more than can be run: the library refuses it. */
#define EVENTS (ALDERSKEIN_BRANCH_EVENTS + 1)

static uint16_t symbols[EVENTS];
static uint32_t stamps[EVENTS];

/* The word, and its count of events. */
static size_t read_word(void)
{
    size_t length = 0;
    while (length < EVENTS && next_event(&symbols[length], &stamps[length]))
        ++length;
    return length;
}

static void print_run(uint16_t start, const uint16_t *taken, size_t length)
{
    printf("run from location %u by %s", (unsigned)start, length == 0 ? "no edge" : "edges");
    for (size_t event = 0; event < length; ++event)
        printf(" %u", (unsigned)taken[event]);
    puts("");
}

int main(int count, char **words)
{
    uint32_t grain = take_grain(count, words);
    alderskein_head head = read_rule(words[1]);
    size_t length = read_word();
    uint16_t taken[ALDERSKEIN_BRANCH_EVENTS];
    alderskein_branch branch = alderskein_run_branches(head, edges, ALDERSKEIN_EDGE_TABLE, grain, symbols,
                                                       length, stamps, length, taken);
    if (branch.number != 0)
        refuse("word", branch.number, branch.place);
    if (branch.found)
        print_run(branch.start, taken, length);
    else if (branch.held)
        printf("no run; member %zu of the lowest edge from an initial location on symbol %u"
               " does not hold at the first event\n",
               branch.position, (unsigned)symbols[0]);
    else
        puts("no run; nothing held it back at the first event");
    return status();
}
