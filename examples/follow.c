/*
 * follow RULE-FILE [D]: follows events over a rule's table, as a head does.
 *
 * Reads the rule file, builds its table, says on standard error how many rows it has, and takes events from
 * standard input, one a line: SYMBOL STAMP. Stamps are in D-ths of a second (2 if D is not given). After each
 * event it prints the field: 0 where the rule says yes, `blank` where it says no. Input is as events.h says,
 * exit status as common.h says.
 */
#define PROGRAM "follow"
#include "events.h"
#include "table.h"

static built_table table;

static void follow(alderskein_follower follower)
{
    uint16_t symbol;
    alderskein_stamp stamp;
    while (next_event(&symbol, &stamp.at)) {
        alderskein_moved moved = alderskein_follow_in_place(
            &follower, table.built, table.cells, CELLS, table.rows, ALDERSKEIN_ROW_TABLE, table.pool, POOL,
            symbol, stamp);
        if (moved.number != 0)
            refuse("event", moved.number, moved.place);
        puts(moved.yes ? "0" : "blank");
        fflush(stdout);
    }
}

int main(int count, char **words)
{
    uint32_t grain = take_grain(count, words);
    build(words[1], &table);
    alderskein_started started = alderskein_start_follower(grain);
    if (started.number != 0)
        refuse("D", started.number, started.place);
    follow(started.follower);
    return status();
}
