/*
 * The records' sizes and places as the library has them; bindings/rust/tests/layout.rs has them too. Linked and run,
 * a few calls with records by value, and with lent tables: says which ones fail, and then ends with 1.
 */
#include "alderskein.h"

#include <stdio.h>
#include <string.h>

#define SIZE(record, size) _Static_assert(sizeof(record) == (size), #record)
#define PLACE(record, field, place) _Static_assert(offsetof(record, field) == (place), #record " " #field)

SIZE(alderskein_stamp, 4);
SIZE(alderskein_head, 24);
SIZE(alderskein_built, 28);
SIZE(alderskein_follower, 20);
SIZE(alderskein_answer, 24);
SIZE(alderskein_reading, 40);
SIZE(alderskein_building, 48);
SIZE(alderskein_branch, 32);
SIZE(alderskein_started, 40);
SIZE(alderskein_followed, 40);
SIZE(alderskein_moved, 24);
SIZE(alderskein_size, 12);
SIZE(alderskein_listed, 40);
SIZE(alderskein_next, 64);
SIZE(alderskein_inclusion, 32);
SIZE(alderskein_batch, 452);
SIZE(alderskein_shares, 2072);
PLACE(alderskein_head, ends, 16);
PLACE(alderskein_head, count, 20);
PLACE(alderskein_answer, place, 8);
PLACE(alderskein_answer, value, 16);
PLACE(alderskein_reading, head, 16);
PLACE(alderskein_building, built, 16);
PLACE(alderskein_branch, found, 16);
PLACE(alderskein_branch, start, 18);
PLACE(alderskein_branch, held, 20);
PLACE(alderskein_branch, position, 24);
PLACE(alderskein_started, follower, 16);
PLACE(alderskein_followed, yes, 16);
PLACE(alderskein_followed, follower, 20);
PLACE(alderskein_moved, yes, 16);
PLACE(alderskein_follower, reset, 8);
PLACE(alderskein_follower, count, 16);
PLACE(alderskein_size, symbols, 0);
PLACE(alderskein_size, events, 4);
PLACE(alderskein_size, seconds, 8);
PLACE(alderskein_listed, count, 0);
PLACE(alderskein_listed, symbols, 4);
PLACE(alderskein_listed, stamps, 16);
PLACE(alderskein_next, number, 0);
PLACE(alderskein_next, place, 8);
PLACE(alderskein_next, last, 16);
PLACE(alderskein_next, word, 20);
PLACE(alderskein_inclusion, number, 0);
PLACE(alderskein_inclusion, place, 8);
PLACE(alderskein_inclusion, included, 16);
PLACE(alderskein_inclusion, events, 24);
PLACE(alderskein_batch, count, 0);
PLACE(alderskein_batch, tables, 4);
PLACE(alderskein_shares, number, 0);
PLACE(alderskein_shares, place, 8);
PLACE(alderskein_shares, greatest, 16);
PLACE(alderskein_shares, lines, 20);
_Static_assert(ALDERSKEIN_EDGE_TABLE == ALDERSKEIN_EDGE_NUMBERS * ALDERSKEIN_EDGES, "edge table");
_Static_assert(ALDERSKEIN_ROW_TABLE == ALDERSKEIN_ROW_NUMBERS * ALDERSKEIN_ROWS, "row table");
_Static_assert(32 * ALDERSKEIN_BUILD_SCRATCH == 65536, "build scratch");
_Static_assert(ALDERSKEIN_LINE_IN_ALL == ALDERSKEIN_SHARE_NUMBERS * (ALDERSKEIN_LISTED_EVENTS + 1), "lengths");
_Static_assert(ALDERSKEIN_LINE_NUMBERS == ALDERSKEIN_LINE_IN_ALL + ALDERSKEIN_SHARE_NUMBERS, "line");

/* A call of alderskein_next_word, and the number, `last` and word of its answer. */
typedef struct {
    alderskein_size size;
    alderskein_listed word;
    uint8_t number;
    bool last;
    alderskein_listed answer;
} call;

#define EMPTY {0, {0}, {0}}
#define LAST {6, {15, 15, 15, 15, 15, 15}, {60, 60, 60, 60, 60, 60}}
#define FALLING {2, {0, 1}, {2, 1}}
#define UNUSED_SYMBOL {1, {0, 0, 0, 0, 0, 9}, {0}}
#define UNUSED_STAMP {1, {0}, {0, 8}}
#define TOO_LONG {7, {1, 2, 3, 4, 5, 6}, {1, 2, 3, 4, 5, 6}}

static const call calls[] = {
    {{1, 0, 0}, EMPTY, 0, true, EMPTY},
    {{2, 2, 1}, EMPTY, 0, false, {1, {0}, {0}}},
    {{2, 2, 1}, {1, {0}, {0}}, 0, false, {1, {1}, {0}}},
    {{2, 2, 1}, {1, {1}, {0}}, 0, false, {1, {0}, {1}}},
    {{2, 2, 1}, {1, {1}, {2}}, 0, false, {2, {0}, {0}}},
    {{2, 2, 1}, {2, {0, 1}, {1, 2}}, 0, false, {2, {1, 0}, {1, 1}}},
    {{2, 2, 1}, {2, {1, 1}, {2, 2}}, 0, true, {2, {1, 1}, {2, 2}}},
    {{16, 6, 30}, {6, {1, 2, 3, 4, 5, 6}, {11, 12, 13, 14, 15, 16}}, 0, false,
     {6, {1, 2, 3, 4, 5, 7}, {11, 12, 13, 14, 15, 16}}},
    {{16, 6, 30}, LAST, 0, true, LAST},
    {{0, 6, 30}, EMPTY, 38, false, EMPTY},
    {{17, 6, 30}, EMPTY, 38, false, EMPTY},
    {{16, 7, 30}, LAST, 38, false, LAST},
    {{16, 6, 31}, TOO_LONG, 38, false, TOO_LONG},
    {{16, 6, 30}, TOO_LONG, 39, false, TOO_LONG},
    {{16, 5, 30}, LAST, 39, false, LAST},
    {{15, 6, 30}, LAST, 39, false, LAST},
    {{16, 6, 29}, LAST, 39, false, LAST},
    {{16, 6, 30}, FALLING, 39, false, FALLING},
    {{16, 6, 30}, UNUSED_SYMBOL, 39, false, UNUSED_SYMBOL},
    {{16, 6, 30}, UNUSED_STAMP, 39, false, UNUSED_STAMP},
};

/* The calls of alderskein_next_word; 1 if one fails. */
static int next_words(void)
{
    int status = 0;
    for (size_t i = 0; i < sizeof calls / sizeof *calls; ++i) {
        alderskein_next next = alderskein_next_word(calls[i].size, calls[i].word);
        if (next.number != calls[i].number || next.place != 0 || next.last != calls[i].last ||
            memcmp(&next.word, &calls[i].answer, sizeof next.word) != 0) {
            printf("call %zu of alderskein_next_word: number %u, place %zu, last %d, word of %u events\n", i,
                   next.number, next.place, next.last, next.word.count);
            status = 1;
        }
    }
    return status;
}

/* Tables of three rows and four intervals, with one row table and one pool. */
typedef struct {
    alderskein_built built;
    uint32_t cells[24];
} table;

#define BACK_FROM_1 2, 2, 5, 2, 2, 2, 2, 2, 2, 2, 2, 2, 2, 2, 2, 2, 2, 2, 2, 2, 2, 2, 0, 0
#define BACK_PAST_1 2, 2, 5, 2, 2, 2, 2, 2, 2, 2, 2, 2, 2, 2, 2, 2, 2, 2, 2, 2, 2, 2, 2, 0

/* The worked case; a stricter one, not back at 1 s; one over one symbol; and one with no rows, out of shape. */
static const table worked = {{2, 2, 1, 1, 1, 3, 2}, {BACK_FROM_1}};
static const table stricter = {{2, 2, 1, 1, 1, 3, 2}, {BACK_PAST_1}};
static const table one_symbol = {{2, 1, 1, 1, 1, 3, 2}, {BACK_FROM_1}};
static const table no_rows = {{2, 2, 1, 1, 1, 0, 2}, {BACK_FROM_1}};
static const uint32_t rows[9] = {0, 1, 1, 1, 0, 0, 1, 1, 0};
static const uint32_t pool[2] = {0, 3};

/* What the worked table accepts and the stricter one does not, in half seconds; no other word is as short. */
static const uint16_t word_symbols[2] = {0, 1};
static const uint32_t word_stamps[2] = {2, 4};

/* The joint states of two of these tables. */
#define JOINT (3 * 4 * 3 * 4)

/* Lent rooms, each for more than a call is told of. */
typedef struct {
    uint32_t scratch[JOINT + 9];
    uint32_t stamps[9];
    uint16_t symbols[9];
} lent;

/* A call of alderskein_check_inclusion with scratch, symbols and stamps of these lengths, and its answer. */
typedef struct {
    const table *first, *second;
    size_t scratch, symbols, stamps;
    uint8_t number;
    bool included;
    size_t events;
} question;

static const question questions[] = {
    {&worked, &worked, JOINT, 2, 2, 0, true, 0},
    {&stricter, &worked, JOINT, 2, 2, 0, true, 0},
    {&stricter, &worked, JOINT + 2, 0, 0, 0, true, 0},
    {&worked, &stricter, JOINT, 2, 2, 0, false, 2},
    {&worked, &stricter, JOINT + 2, 4, 3, 0, false, 2},
    {&worked, &stricter, JOINT, 2, 9, 0, false, 2},
    {&worked, &stricter, JOINT, 9, 2, 0, false, 2},
    {&worked, &stricter, JOINT, 9, 1, 37, false, 0},
    {&worked, &stricter, JOINT, 1, 9, 37, false, 0},
    {&worked, &stricter, JOINT, 0, 0, 37, false, 0},
    {&worked, &stricter, JOINT - 1, 0, 0, 36, false, 0},
    {&stricter, &worked, JOINT - 1, 2, 2, 36, false, 0},
    {&stricter, &worked, 0, 2, 2, 36, false, 0},
    {&worked, &one_symbol, JOINT, 2, 2, 35, false, 0},
    {&one_symbol, &worked, 0, 2, 2, 35, false, 0},
    {&one_symbol, &one_symbol, JOINT, 2, 2, 0, true, 0},
    {&no_rows, &worked, JOINT, 2, 2, 25, false, 0},
    {&worked, &no_rows, JOINT, 2, 2, 25, false, 0},
    {&one_symbol, &no_rows, 0, 0, 0, 25, false, 0},
};

/* What the rooms hold after a call: where the tables are searched, zeros and the word at the front. */
static void leave(const question *asked, lent *rooms)
{
    if (asked->number != 0 && asked->number != 37)
        return;
    memset(rooms->scratch, 0, asked->scratch * sizeof *rooms->scratch);
    memset(rooms->symbols, 0, asked->symbols * sizeof *rooms->symbols);
    memset(rooms->stamps, 0, asked->stamps * sizeof *rooms->stamps);
    memcpy(rooms->symbols, word_symbols, asked->events * sizeof *word_symbols);
    memcpy(rooms->stamps, word_stamps, asked->events * sizeof *word_stamps);
}

/* The calls of alderskein_check_inclusion; 1 if one fails. */
static int inclusions(void)
{
    int status = 0;
    for (size_t i = 0; i < sizeof questions / sizeof *questions; ++i) {
        const question *asked = &questions[i];
        const table *first = asked->first, *second = asked->second;
        lent rooms, expected;
        memset(&rooms, 7, sizeof rooms);
        memset(&expected, 7, sizeof expected);
        leave(asked, &expected);
        alderskein_inclusion inclusion = alderskein_check_inclusion(
            first->built, first->cells, 24, rows, 9, pool, 2, second->built, second->cells, 24, rows, 9, pool, 2,
            rooms.scratch, asked->scratch, rooms.symbols, asked->symbols, rooms.stamps, asked->stamps);
        if (inclusion.number != asked->number || inclusion.place != 0 || inclusion.included != asked->included ||
            inclusion.events != asked->events || memcmp(&rooms, &expected, sizeof rooms) != 0) {
            printf("call %zu of alderskein_check_inclusion: number %u, place %zu, included %d, events %zu\n", i,
                   inclusion.number, inclusion.place, inclusion.included, inclusion.events);
            status = 1;
        }
    }
    return status;
}

/* The lines of the first three tables, for words of at most 2 events up to 4 s. */
typedef uint32_t line[ALDERSKEIN_LINE_NUMBERS];
static const line worked_line = {
    1, 1, 1, 1, 0, 18, 0, 1, 5, 180, 1, 36, [ALDERSKEIN_LINE_IN_ALL] = 6, 199, 6, 199,
};
static const line stricter_line = {
    1, 1, 1, 1, 0, 18, 0, 1, 4, 180, 1, 45, [ALDERSKEIN_LINE_IN_ALL] = 5, 199, 5, 199,
};
static const line one_symbol_line = {
    1, 1, 1, 1, 0, 9, 0, 1, 0, 45, 0, 1, [ALDERSKEIN_LINE_IN_ALL] = 1, 55, 1, 55,
};

/* Tables one after another, with room for some numbers more. */
typedef struct {
    size_t cells_length, rows_length, pool_length;
    uint32_t cells[24 * ALDERSKEIN_TABLES + 9], rows[9 * ALDERSKEIN_TABLES + 9], pool[2 * ALDERSKEIN_TABLES + 9];
} parts;

/*
 * A call of alderskein_count_shares, and its answer. The batch is spelled by letters, w for worked, s for stricter,
 * o for one symbol, n for no rows; so many numbers more than it needs are lent in each table, or fewer.
 */
typedef struct {
    const char *tables;
    int more;
    uint32_t events, seconds;
    uint8_t number;
    size_t place;
    uint32_t greatest;
} share;

#define SIXTEEN "ssssssssoooowwww"

static const share shares[] = {
    {"w", 0, 2, 4, 0, 0, 1},      {"ws", 0, 2, 4, 0, 0, 1},      {"sw", 0, 2, 4, 0, 0, 2},
    {"oso", 9, 2, 4, 0, 0, 2},    {"oo", 9, 2, 4, 0, 0, 1},      {"osww", 1, 2, 4, 0, 0, 3},
    {SIXTEEN, 0, 2, 4, 0, 0, 13}, {SIXTEEN, -1, 2, 4, 25, 16, 0}, {SIXTEEN "w", 9, 2, 4, 40, 0, 0},
    {"", 9, 2, 4, 40, 0, 0},      {"", 9, 7, 31, 40, 0, 0},      {"n", 9, 7, 4, 38, 0, 0},
    {"w", 9, 2, 31, 38, 0, 0},    {"w", -1, 2, 4, 25, 1, 0},     {"wn", 9, 2, 4, 25, 2, 0},
    {"now", 9, 6, 6, 25, 1, 0},   {"own", 9, 6, 6, 43, 2, 0},    {"wn", 0, 6, 6, 43, 1, 0},
    {"onw", 0, 6, 6, 25, 2, 0},
};

/* The table that a letter spells. */
static const table *table_of(char letter)
{
    return letter == 'w' ? &worked : letter == 's' ? &stricter : letter == 'o' ? &one_symbol : &no_rows;
}

/* Appends numbers to a part. */
static void append(uint32_t *part, size_t *length, const uint32_t *numbers, size_t count)
{
    memcpy(part + *length, numbers, count * sizeof *numbers);
    *length += count;
}

/* Lays out the tables, at most 16 of them, and lends some numbers more or fewer. */
static alderskein_batch lay(const share *asked, parts *lent)
{
    alderskein_batch batch = {(uint32_t)strlen(asked->tables), {{0}}};
    memset(lent, 7, sizeof *lent);
    lent->cells_length = lent->rows_length = lent->pool_length = 0;
    for (size_t i = 0; i < batch.count && i < ALDERSKEIN_TABLES; ++i) {
        const table *next = table_of(asked->tables[i]);
        batch.tables[i] = next->built;
        append(lent->cells, &lent->cells_length, next->cells, 12 * next->built.symbols);
        append(lent->rows, &lent->rows_length, rows, 9);
        append(lent->pool, &lent->pool_length, pool, 2);
    }
    lent->cells_length += (size_t)asked->more;
    lent->rows_length += (size_t)asked->more;
    lent->pool_length += (size_t)asked->more;
    return batch;
}

/* Whether the lines are those of the tables, or all zero on a refusal. */
static bool lined(const share *asked, const uint32_t *lines)
{
    static const line zero;
    size_t count = asked->number == 0 ? strlen(asked->tables) : 0;
    for (size_t i = 0; i < ALDERSKEIN_TABLES; ++i) {
        char letter = i < count ? asked->tables[i] : '\0';
        const uint32_t *expected = letter == 'w'   ? worked_line
                                   : letter == 's' ? stricter_line
                                   : letter == 'o' ? one_symbol_line
                                                   : zero;
        if (memcmp(lines + i * ALDERSKEIN_LINE_NUMBERS, expected, sizeof zero) != 0)
            return false;
    }
    return true;
}

/* The calls of alderskein_count_shares; 1 if one fails. */
static int counted_shares(void)
{
    int status = 0;
    for (size_t i = 0; i < sizeof shares / sizeof *shares; ++i) {
        const share *asked = &shares[i];
        parts lent, before;
        alderskein_batch batch = lay(asked, &lent);
        memcpy(&before, &lent, sizeof before);
        alderskein_shares answer = alderskein_count_shares(
            batch, lent.cells, lent.cells_length, lent.rows, lent.rows_length, lent.pool, lent.pool_length,
            asked->events, asked->seconds);
        if (answer.number != asked->number || answer.place != asked->place || answer.greatest != asked->greatest ||
            !lined(asked, answer.lines) || memcmp(&lent, &before, sizeof lent) != 0) {
            printf("call %zu of alderskein_count_shares: number %u, place %zu, greatest %u\n", i, answer.number,
                   answer.place, (unsigned)answer.greatest);
            status = 1;
        }
    }
    return status;
}

/* Nothing is final; on symbol 0 location 0 stays if x >= 0, any(x = 1, all(x != 2, x < 4)). */
static const uint8_t grouped_file[] = {
    6, 0, 1, 0, 1, 0, 1, 0, 1, 0, 2, 0, 2, 0, 0, 0, 48, 0, 6, 0, 0, 0, 0, 0, 0, 0, 0, 0, 3, 0, 0, 0, 3, 0, 0, 0,
    2, 0, 3, 0, 0, 0, 2, 0, 1, 0, 1, 0, 3, 0, 0, 0, 5, 0, 2, 0, 3, 0, 0, 0, 0, 0, 4, 0, 4, 0, 4, 0,
};
/* Its edge in the edge table: kind, source, target, symbol, mask, count of numbers, the text. */
static const uint16_t grouped_edge[ALDERSKEIN_EDGE_NUMBERS] = {
    6, 0, 0, 0, 0, 20, 3, 0, 3, 0, 2, 3, 0, 2, 1, 1, 3, 0, 5, 2, 3, 0, 0, 4, 4, 4,
};

/* Whether the edge table has this edge alone, and the rule written is the file. */
static bool kept(alderskein_head head, const uint16_t *edges)
{
    static const uint16_t unused[ALDERSKEIN_EDGE_TABLE - ALDERSKEIN_EDGE_NUMBERS];
    uint8_t out[sizeof grouped_file];
    alderskein_answer written = alderskein_write_rule(head, edges, ALDERSKEIN_EDGE_TABLE, out, sizeof out);
    return memcmp(edges, grouped_edge, sizeof grouped_edge) == 0 &&
           memcmp(edges + ALDERSKEIN_EDGE_NUMBERS, unused, sizeof unused) == 0 && written.number == 0 &&
           written.value == sizeof out && memcmp(out, grouped_file, sizeof out) == 0;
}

/* Whether a word of symbol 0 at so many seconds is held back at this position, or by nothing. */
static bool held_at(alderskein_head head, const uint16_t *edges, uint32_t seconds, bool held, size_t position)
{
    uint16_t symbol = 0, taken[ALDERSKEIN_BRANCH_EVENTS];
    alderskein_branch branch =
        alderskein_run_branches(head, edges, ALDERSKEIN_EDGE_TABLE, 1, &symbol, 1, &seconds, 1, taken);
    return branch.number == 0 && !branch.found && branch.held == held && branch.position == position;
}

/* The calls over an edge of kind 6; 1 if one fails. */
static int groups(void)
{
    static uint16_t edges[ALDERSKEIN_EDGE_TABLE];
    memset(edges, 7, sizeof edges);
    alderskein_reading reading =
        alderskein_read_rule(grouped_file, sizeof grouped_file, edges, ALDERSKEIN_EDGE_TABLE - 1);
    bool fits = reading.number == 20 && edges[0] == 0x0707;
    reading = alderskein_read_rule(grouped_file, sizeof grouped_file, edges, ALDERSKEIN_EDGE_TABLE);
    if (fits && reading.number == 0 && reading.head.count == 1 && kept(reading.head, edges) &&
        held_at(reading.head, edges, 1, false, 0) && held_at(reading.head, edges, 2, true, 1) &&
        held_at(reading.head, edges, 3, false, 0) && held_at(reading.head, edges, 4, true, 1))
        return 0;
    printf("an edge of kind 6: number %u, place %zu, edges %u\n", reading.number, reading.place,
           (unsigned)reading.head.count);
    return 1;
}

int main(void)
{
    int failed = next_words();
    failed |= inclusions();
    failed |= counted_shares();
    return groups() | failed;
}
