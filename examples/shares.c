/*
 * shares M H RULE-FILE..: says for sales how much of all words up to a size each rule allows, and which allows most.
 *
 * Reads the rule files, 1 to 16 of them, builds their tables, says on standard error how many rows they have, and
 * counts for each rule the words of at most M events (0 to 6) with stamps up to H whole seconds (0 to 30) after which
 * the field shows 0. Prints for each rule, by the number of events and in all, how many these are, out of how many
 * words, and that share in lowest terms. Of several rules it then prints which has the greatest share in all, the
 * first of these, and which others have the same. A rule's words are over its own symbols. Exit status is as common.h
 * says.
 */
#define PROGRAM "shares"
#include "size.h"
#include "table.h"

/* Room for the tables of a batch, one after another. */
#define EACH_OF_BATCH(room) ((size_t)ALDERSKEIN_TABLES * (room))

static built_table table;
static alderskein_batch batch;
static uint32_t cells[EACH_OF_BATCH(CELLS)], rows[EACH_OF_BATCH(ALDERSKEIN_ROW_TABLE)], pool[EACH_OF_BATCH(POOL)];
static size_t cells_length, rows_length, pool_length;

/* Appends numbers to a part of the batch. */
static void append(uint32_t *part, size_t *length, const uint32_t *numbers, size_t count)
{
    memcpy(part + *length, numbers, count * sizeof *numbers);
    *length += count;
}

/* Builds a rule's table, and lays it behind those before it. */
static void add(const char *name)
{
    build(name, &table);
    alderskein_built built = table.built;
    size_t width = 2 * (size_t)built.top + 2;
    append(cells, &cells_length, table.cells, built.rows * built.symbols * width);
    append(rows, &rows_length, table.rows, ALDERSKEIN_ROW_NUMBERS * (size_t)built.rows);
    append(pool, &pool_length, table.pool, built.total);
    batch.tables[batch.count++] = built;
}

/* Refuses: a rule where the place names its table, else the count of rules or the size. */
static void refuse_batch(uint8_t number, size_t place, char **names)
{
    refuse(place > 0 ? names[place - 1] : number == 40 ? "the rules" : "size", number, place);
}

/* The words accepted, out of how many, and the share in lowest terms. */
static void print_share(const uint32_t *share)
{
    printf("%8u of %7u  %u/%u\n", (unsigned)share[0], (unsigned)share[1], (unsigned)share[2], (unsigned)share[3]);
}

static void print_line(const char *name, const uint32_t *line, uint32_t events)
{
    puts(name);
    for (uint32_t length = 0; length <= events; ++length) {
        printf("%u event%s", (unsigned)length, length == 1 ? " " : "s");
        print_share(line + ALDERSKEIN_SHARE_NUMBERS * length);
    }
    printf("in all  ");
    print_share(line + ALDERSKEIN_LINE_IN_ALL);
}

/* The share in all of a table, from 1: its numerator and denominator. */
static const uint32_t *in_all(const alderskein_shares *shares, uint32_t number)
{
    return shares->lines + ALDERSKEIN_LINE_NUMBERS * (number - 1) + ALDERSKEIN_LINE_IN_ALL + 2;
}

/* Which rule allows most, and which as much. */
static void print_greatest(const alderskein_shares *shares, char **names)
{
    const uint32_t *greatest = in_all(shares, shares->greatest);
    printf("%s allows most\n", names[shares->greatest - 1]);
    for (uint32_t other = shares->greatest + 1; other <= batch.count; ++other) {
        const uint32_t *share = in_all(shares, other);
        if (share[0] == greatest[0] && share[1] == greatest[1])
            printf("%s allows as much\n", names[other - 1]);
    }
}

int main(int count, char **words)
{
    uint32_t events, seconds;
    if (count < 4 || !take_plain(words[1], &events) || !take_plain(words[2], &seconds)) {
        fprintf(stderr, "usage: " PROGRAM " M H RULE-FILE..\n");
        return UNREADABLE;
    }
    char **names = words + 3;
    int rules = count - 3;
    for (int rule = 0; rule < rules && rule < ALDERSKEIN_TABLES; ++rule)
        add(names[rule]);
    batch.count = (uint32_t)rules;
    alderskein_shares shares = alderskein_count_shares(
        batch, cells, cells_length, rows, rows_length, pool, pool_length, events, seconds);
    if (shares.number != 0)
        refuse_batch(shares.number, shares.place, names);
    for (uint32_t rule = 0; rule < batch.count; ++rule)
        print_line(names[rule], shares.lines + ALDERSKEIN_LINE_NUMBERS * rule, events);
    if (batch.count > 1)
        print_greatest(&shares, names);
    return status();
}
