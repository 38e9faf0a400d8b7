/*
 * alderskein.h: rule files and one-timer tables for open path heads.
 *
 * Link with libhead_library.a. Every call ends, either with a result or with a numbered refusal and its
 * place. A lent table is a pointer and a count of numbers; it may have any length, 0 included, and may hold
 * anything. All that is asked of the caller is what C cannot test: a pointer is not NULL, also at length 0,
 * is aligned for its type and valid for its length; a table that is lent to be written, or a follower kept in
 * place, overlaps no other lent table; and nobody else writes any of them during the call. The library keeps
 * nothing between calls, allocates nothing and reads no clock.
 *
 * In every answer `number` is 0 for none, else the number of the refusal, and `place` its place (0 where
 * `number` is 0). For each call the refusals stand in the order in which they are checked.
 *
 *   THE RULE'S AUTHOR; place: first byte of the record. Per record in this order, then 8 at the end.
 *    1  fewer than 4 bytes left, or the body passes the end
 *    2  unknown kind, or a body length its kind does not have; kind 6 has 8 to 168 bytes, an even number
 *    3  sizes missing or repeated, a kind that falls, second ceiling, locations not rising;
 *       an empty file is 3 at place 0
 *    4  edge 257, of either kind
 *    5  L, S or K outside its range
 *    6  location, symbol, clock, mask bit, relation, constant or ceiling outside its range; text of kind 6 that
 *       breaks the group rules
 *    7  resets that are not pinned
 *    8  N over 65,536; place: the file's length
 *
 *   THE CALLER; place 0, save for 26, and for 25 and 43 of a batch: the table, from 1.
 *   20  edge table shorter than 22,016 numbers
 *   21  head record and edge table are not what reading some accepted file leaves
 *   22  build scratch shorter than N / 32 numbers, rounded up
 *   23  the first row, by number, that does not fit: its number is not below the least of 4,096, a third of
 *       the row table and the cell table over S * W, both rounded down
 *   24  or, with a number below that, the pool is too short for it
 *   25  built record or its tables out of shape: a size out of range, N over 65,536, R outside 1 to 4,096,
 *       tables shorter than R and P need, a row that does not start where the one before it ends (row 0
 *       at 0), lengths that do not add up to P, a code not below N, a cell's row not below R, a timer reset
 *       at an odd interval number, a stored verdict that differs from what the row's codes say
 *   26  more configurations than room after event i; place: i, 0 before the first event
 *   27  output shorter than the file to be written
 *   34  follower with row not below R, reset stamp above last stamp or no multiple of D, or count over 4,096
 *   35  two tables with unequal S
 *   36  more joint states, R * W of one table times R * W of the other, than 1,000,000 or than the scratch has
 *       numbers
 *   37  the shortest word to be shown has more than 4,096 events or than the word room, the lesser of its two
 *       lengths
 *   38  size of a list of words with S outside 1 to 16, m over 6 or H over 30
 *   39  word that is not in the list: more than m events, a symbol not below S, a stamp above 2H or below the
 *       one before, an unused place that is not zero
 *   40  batch of no table, or of more than 16
 *   43  list of more than 1,000,000 words for a table of a batch
 *
 *   THE SENDER OF THE WORD; place: event from 1, 0 for 30 and 31. The earliest bad event is named.
 *   30  D outside 1 to 1,000
 *   31  symbol and stamp counts differ, or too many events
 *   32  symbol not below S
 *   33  stamp below the one before (an event has 32 tested before 33)
 *
 * Here L, S, K are the counts of locations, symbols and clocks; cm is the largest constant in any atom, 0 if
 * there is none; N = L * (cm + 2)^K; W = 2 * cm + 2; R and P count the rows and their codes. A ceiling record
 * (kind 4) is read, checked and dropped.
 *
 * An atom is a clock, a relation and a constant 0 to 30. Relations: 0 less, 1 at most, 2 equal, 3 at least,
 * 4 greater, 5 not equal. An edge of kind 5 has 0 to 8 atoms, all of which must hold. An edge of kind 6 has a
 * text of marks: 1 opens an all-of group, 2 opens an any-of group, 3 is an atom with its three numbers, 4 closes.
 * The outermost level is an all-of that no mark opens.
 *
 * The group rules: the outermost level and an all-of group hold atoms and any-of groups, an any-of group holds
 * atoms and all-of groups; every group is closed, and every mark 4 closes one; at most 4 levels, the outermost
 * included, 8 groups and 16 atoms. An empty all-of holds, an empty any-of does not. Edges of kind 5 come before
 * those of kind 6 (3 in a file, 21 in a table).
 *
 * An edge's resets are pinned if it has an equality (2), or an at-least (3) and an at-most (1) on one clock with
 * one constant, in any order and anywhere among its atoms; of kind 6, among the atoms of the outermost level.
 */
#ifndef ALDERSKEIN_H
#define ALDERSKEIN_H

#include <stdbool.h>
#include <stddef.h>
#include <stdint.h>

#ifdef __cplusplus
extern "C" {
#endif

/* The most edges of a rule, the numbers of one in the edge table, and the least length of an edge table. */
#define ALDERSKEIN_EDGES 256
#define ALDERSKEIN_EDGE_NUMBERS 86
#define ALDERSKEIN_EDGE_TABLE 22016
/* The longest legal file, in bytes, 6 of them for a ceiling record; a file that is written has none. */
#define ALDERSKEIN_LONGEST_FILE 44432
/* The most events of a word, and of a word run by branch. */
#define ALDERSKEIN_EVENTS 4096
#define ALDERSKEIN_BRANCH_EVENTS 12
/* The most events of a word of a list, and the D of its stamps and of a word shown: half seconds. */
#define ALDERSKEIN_LISTED_EVENTS 6
#define ALDERSKEIN_LIST_GRAIN 2
/* The most joint states of two tables that may be searched, and so the numbers of scratch that are enough. */
#define ALDERSKEIN_JOINT_STATES 1000000
/* The most tables of a batch, and the most words of the list of each. */
#define ALDERSKEIN_TABLES 16
#define ALDERSKEIN_LISTED_WORDS 1000000
/* The numbers of a share; those of a line, a share for each of 0 to 6 events and one in all; where that begins. */
#define ALDERSKEIN_SHARE_NUMBERS 4
#define ALDERSKEIN_LINE_NUMBERS 32
#define ALDERSKEIN_LINE_IN_ALL 28
/* The most rows of a table. */
#define ALDERSKEIN_ROWS 4096
/* The numbers of a row in the row table: start, length, verdict; and the row numbers of the most rows. */
#define ALDERSKEIN_ROW_NUMBERS 3
#define ALDERSKEIN_ROW_TABLE 12288
/* The numbers of build scratch that are enough for every rule: one bit for each of at most 65,536 codes. */
#define ALDERSKEIN_BUILD_SCRATCH 2048

/* A time since the start of the word, in D-ths of a second. */
typedef struct {
    uint32_t at;
} alderskein_stamp;

/* The head record of a rule. Sets have a bit for each location, bit 0 for location 0. */
typedef struct {
    uint32_t locations; /* L, 1 to 32 */
    uint32_t symbols;   /* S, 1 to 16 */
    uint32_t clocks;    /* K, 1 to 4 */
    uint32_t starts;    /* initial locations */
    uint32_t ends;      /* final locations */
    uint32_t count;     /* edges, at most 256 */
} alderskein_head;

/* The built record of a table. */
typedef struct {
    uint32_t locations; /* L */
    uint32_t symbols;   /* S */
    uint32_t clocks;    /* K */
    uint32_t top;       /* cm */
    uint32_t ends;      /* final locations */
    uint32_t rows;      /* R */
    uint32_t total;     /* P */
} alderskein_built;

/* The follower: one timer over a table. */
typedef struct {
    uint32_t grain;         /* D */
    uint32_t row;           /* the present row */
    alderskein_stamp reset; /* stamp of the last timer reset */
    alderskein_stamp last;  /* last stamp */
    uint32_t count;         /* events so far */
} alderskein_follower;

/* The value is the count of bytes written, or 1 for yes and 0 for no; 0 on a refusal and from the checks. */
typedef struct {
    uint8_t number;
    size_t place;
    size_t value;
} alderskein_answer;

typedef struct {
    uint8_t number;
    size_t place;
    alderskein_head head; /* all zero on a refusal */
} alderskein_reading;

typedef struct {
    uint8_t number;
    size_t place;
    alderskein_built built; /* all zero on a refusal */
} alderskein_building;

/* With `taken`: an accepting run, or what held the rule back. All zero on a refusal. */
typedef struct {
    uint8_t number;
    size_t place;
    bool found;      /* some run accepts */
    uint16_t start;  /* its start location; 0 where none accepts */
    bool held;       /* none accepts, and a guard held the rule back at the first event */
    size_t position; /* of that guard's first member that does not hold, from 0; 0 where `held` is false */
} alderskein_branch;

typedef struct {
    uint8_t number;
    size_t place;
    alderskein_follower follower;
} alderskein_started;

typedef struct {
    uint8_t number;
    size_t place;
    bool yes; /* the verdict of the row after the event; false on a refusal */
    alderskein_follower follower;
} alderskein_followed;

typedef struct {
    uint8_t number;
    size_t place;
    bool yes;
} alderskein_moved;

/* The size of a list of words. */
typedef struct {
    uint32_t symbols; /* S, 1 to 16 */
    uint32_t events;  /* m, the most events of a word, 0 to 6 */
    uint32_t seconds; /* H, the whole seconds up to which stamps go, 0 to 30 */
} alderskein_size;

/* A word of a list, by value. Unused places are zero. */
typedef struct {
    uint32_t count; /* events */
    uint16_t symbols[ALDERSKEIN_LISTED_EVENTS];
    uint32_t stamps[ALDERSKEIN_LISTED_EVENTS]; /* half seconds */
} alderskein_listed;

typedef struct {
    uint8_t number;
    size_t place;
    bool last;              /* the word given was the last; false on a refusal */
    alderskein_listed word; /* the next word; the word given where that was the last, and on a refusal */
} alderskein_next;

/* Does the first table allow only what the second allows? */
typedef struct {
    uint8_t number;
    size_t place;
    bool included; /* yes; false on a refusal */
    size_t events; /* of the word shown; 0 on yes and on a refusal */
} alderskein_inclusion;

/* The built records of up to 16 tables. It goes in by value, 452 bytes. */
typedef struct {
    uint32_t count; /* tables, 1 to 16 */
    alderskein_built tables[ALDERSKEIN_TABLES];
} alderskein_batch;

/*
 * How much of the list each table of a batch allows. It comes back by value, 2,072 bytes; on a refusal `greatest`
 * and all lines are zero.
 */
typedef struct {
    uint8_t number;
    size_t place;
    uint32_t greatest; /* the table with the greatest share in all, from 1; the earliest on a tie */
    uint32_t lines[ALDERSKEIN_TABLES * ALDERSKEIN_LINE_NUMBERS]; /* one after another, by table */
} alderskein_shares;

/*
 * Checks that a head record and an edge table are what reading some accepted file leaves.
 * Refuses: 20, 21. Changes nothing.
 */
alderskein_answer alderskein_check_rule(alderskein_head head, const uint16_t *edges, size_t edges_length);

/*
 * Reads a rule file. The edge table has 86 numbers per edge:
 *
 *   0  kind, 5 or 6          3  symbol
 *   1  source                4  mask of clocks to reset, bit 0 for clock 0
 *   2  target                5  count: of atoms (kind 5), of numbers of text (kind 6)
 *   6 to 85  kind 5: the atoms, clock, relation, constant each; kind 6: the text
 *
 * Unused places, also those past 22,016, are zero.
 * Refuses: 20, then 1 to 8. After 20 the edge table is untouched, after 1 to 8 it is all zero.
 */
alderskein_reading alderskein_read_rule(const uint8_t *file, size_t file_length,
                                        uint16_t *edges, size_t edges_length);

/*
 * Writes the rule as a file, the same bytes that it was read from, less a ceiling record; the value is the
 * length of what is written, at most 44,426.
 * Refuses: 20, 21, 27, and then `out` is untouched. The bytes past the file are not touched.
 */
alderskein_answer alderskein_write_rule(alderskein_head head, const uint16_t *edges, size_t edges_length,
                                        uint8_t *out, size_t out_length);

/*
 * Checks a word of at most `most` events over `symbol_count` symbols with `grain` as D. The limit is the
 * caller's; the runners have 4,096 and 12.
 * Refuses: 30, 31, 32, 33. Changes nothing.
 */
alderskein_answer alderskein_check_word(uint32_t symbol_count, uint32_t grain, uint32_t most,
                                        const uint16_t *symbols, size_t symbols_length,
                                        const uint32_t *stamps, size_t stamps_length);

/*
 * Builds the table of a rule. Cells: next row * 2, plus 1 if the timer is reset, at
 * (row * S + symbol) * W + interval, where interval 2c is [c], 2c + 1 is (c, c + 1) and 2 * cm + 1 is
 * everything above cm. Rows: start and length in the pool and the verdict, three numbers each; the verdict is
 * 1 if one of the row's codes has a final location, else 0. Pool: the rows' codes, each row ascending, the
 * rows one after another by number from place 0 without gaps. The scratch takes one bit for each code below
 * N, 32 to a number.
 * Refuses: 20, 21, 22, which leave all four lent tables untouched; then 23 and 24, which leave them all zero.
 * On success unused places of the three tables are zero, and so is the whole scratch.
 */
alderskein_building alderskein_build_table(alderskein_head head, const uint16_t *edges, size_t edges_length,
                                           uint32_t *scratch, size_t scratch_length,
                                           uint32_t *cells, size_t cells_length,
                                           uint32_t *rows, size_t rows_length,
                                           uint32_t *pool, size_t pool_length);

/* Checks the shape of a built record and its tables, from any source. Refuses: 25. Changes nothing. */
alderskein_answer alderskein_check_table(alderskein_built built, const uint32_t *cells, size_t cells_length,
                                         const uint32_t *rows, size_t rows_length,
                                         const uint32_t *pool, size_t pool_length);

/*
 * Runs a word of at most 4,096 events over a table; the value is the stored verdict of the last row, 1 for
 * yes, 0 for no.
 * Refuses: 25, 30, 31, 32, 33. Changes nothing.
 */
alderskein_answer alderskein_run_table(alderskein_built built, const uint32_t *cells, size_t cells_length,
                                       const uint32_t *rows, size_t rows_length,
                                       const uint32_t *pool, size_t pool_length, uint32_t grain,
                                       const uint16_t *symbols, size_t symbols_length,
                                       const uint32_t *stamps, size_t stamps_length);

/*
 * Runs a word of at most 4,096 events over the rule itself, all distinct configurations kept in the scratch,
 * which has room for scratch_length / (2 * (K + 1)) of them, rounded down; the value is 1 for yes, 0 for no.
 * Refuses: 20, 21, 30, 31, 32, 33, which leave the scratch untouched; then 26. After 26 and on success the
 * whole scratch is zero.
 */
alderskein_answer alderskein_run_exact(alderskein_head head, const uint16_t *edges, size_t edges_length,
                                       uint32_t grain, const uint16_t *symbols, size_t symbols_length,
                                       const uint32_t *stamps, size_t stamps_length,
                                       uint32_t *scratch, size_t scratch_length);

/*
 * Looks for the accepting run of a word of at most 12 events that is least by start, then edge by edge. Edges
 * are numbered from 0 in file order; places of `taken` past the word's events are zero.
 *
 * With at least one event and no accepting run, `held` and `position` name the first failing member of the
 * lowest edge, by number, leaving an initial location on the first symbol, by the first event's ages; none if
 * there is no such edge or its guard holds, and in every other case. Members are those of the outermost level,
 * from 0: an atom is one, and so is a whole any-of group, whatever it holds. Of kind 5 they are the atoms.
 * Refuses: 20, 21, 30, 31, 32, 33. Where it refuses, and where no run accepts, all of `taken` is zero.
 *
 * It follows every branch and keeps no scratch, so that it can take edges to the power of events: a legal file
 * of 256 equal edges takes about 30 s at 4 events (0.1 s at 3). For rules of strangers call
 * alderskein_run_exact.
 */
alderskein_branch alderskein_run_branches(alderskein_head head, const uint16_t *edges, size_t edges_length,
                                          uint32_t grain, const uint16_t *symbols, size_t symbols_length,
                                          const uint32_t *stamps, size_t stamps_length,
                                          uint16_t taken[ALDERSKEIN_BRANCH_EVENTS]);

/* A follower with this D and all else zero. Refuses: 30, and then D is zero too. */
alderskein_started alderskein_start_follower(uint32_t grain);

/*
 * Takes one event, number count + 1, and returns the follower after it and its row's stored verdict.
 * Refuses: 25, 30, 34, 31 (count is 4,096), 32, 33. A refused event leaves the follower unchanged.
 */
alderskein_followed alderskein_follow_event(alderskein_follower follower, alderskein_built built,
                                            const uint32_t *cells, size_t cells_length,
                                            const uint32_t *rows, size_t rows_length,
                                            const uint32_t *pool, size_t pool_length,
                                            uint16_t symbol, alderskein_stamp stamp);

/*
 * The same, the follower brought forward where it is kept.
 * Refuses: 25, 30, 34, 31, 32, 33. A refused event leaves the follower unchanged.
 */
alderskein_moved alderskein_follow_in_place(alderskein_follower *follower, alderskein_built built,
                                            const uint32_t *cells, size_t cells_length,
                                            const uint32_t *rows, size_t rows_length,
                                            const uint32_t *pool, size_t pool_length,
                                            uint16_t symbol, alderskein_stamp stamp);

/*
 * The reader, the builder and the table runner in a row: the value is 1 exactly if the rule in the file
 * accepts the word, and 0 if it does not. The first refusal met ends it: 20, 1 to 8, 22, 23, 24, 30 to 33.
 *
 *   refused by       edges           scratch     cells, rows, pool
 *   reader, 20       untouched       untouched   untouched
 *   reader, 1 to 8   zero            untouched   untouched
 *   builder, 22      hold the rule   untouched   untouched
 *   builder, 23, 24  hold the rule   zero        zero
 *   runner, 30 to 33 hold the rule   zero        as built
 *   none             hold the rule   zero        as built
 */
alderskein_answer alderskein_decide(const uint8_t *file, size_t file_length,
                                    uint16_t *edges, size_t edges_length,
                                    uint32_t *scratch, size_t scratch_length,
                                    uint32_t *cells, size_t cells_length,
                                    uint32_t *rows, size_t rows_length,
                                    uint32_t *pool, size_t pool_length, uint32_t grain,
                                    const uint16_t *symbols, size_t symbols_length,
                                    const uint32_t *stamps, size_t stamps_length);

/*
 * The word after another in the list of all words up to a size: D = 2, at most m events, symbols below S,
 * stamps from 0 to 2H that never fall; shorter words first, among equal lengths by event, stamp before symbol.
 * The first is the empty word, all zero. If the word is the last, `last` is true and the same word comes back.
 * Refuses: 38, 39; then `last` is false and the word comes back as it was given.
 */
alderskein_next alderskein_next_word(alderskein_size size, alderskein_listed word);

/*
 * Does the first table allow only what the second allows? Yes exactly if every word, of any number of events and
 * any D, that the first accepts the second accepts. Else a word that only the first accepts stands at the front
 * of symbols and stamps, D = 2, of the fewest events possible; which one of several is not fixed.
 * The scratch needs R * (2 * cm + 2) of the first times R * (2 * cm + 2) of the second numbers.
 * Refuses: 25 (first table, then second), 35, 36, then 37. At 25, 35 and 36 scratch and word room are untouched.
 * Else the scratch ends as zero, and so does the word room past the word, all of it on yes and at 37.
 */
alderskein_inclusion alderskein_check_inclusion(alderskein_built first, const uint32_t *cells, size_t cells_length,
                                                const uint32_t *rows, size_t rows_length,
                                                const uint32_t *pool, size_t pool_length,
                                                alderskein_built second,
                                                const uint32_t *cells2, size_t cells2_length,
                                                const uint32_t *rows2, size_t rows2_length,
                                                const uint32_t *pool2, size_t pool2_length,
                                                uint32_t *scratch, size_t scratch_length,
                                                uint16_t *symbols, size_t symbols_length,
                                                uint32_t *stamps, size_t stamps_length);

/*
 * How much of the list each table of a batch allows: of the words of at most m `events` with stamps up to H whole
 * `seconds`, D = 2, over the table's own symbols, how many it accepts, by length and in all. The tables' cells,
 * rows and pools stand one after another without gaps in the three lent ones: R * S * W cells, 3 * R row numbers
 * and P codes a table, each as built, with its rows and their starts counted from 0. What stands behind the last
 * is not read.
 *
 * A table has a line of 32 numbers, four for each of n = 0 to 6 events, then four for all lengths together:
 *
 *   4n      words of n events that are accepted   4n + 2  this share in lowest terms: the numerator
 *   4n + 1  words of n events in the list         4n + 3  the denominator; 0 is 0/1
 *   28, 29, 30, 31  the same in all
 *
 * Lengths above m and lines past the batch are zero. Shares are compared exactly.
 * Refuses: 40, 38 for m or H, then table by table, in the order of the batch, 25 and 43. Changes nothing.
 * The batch goes in and the answer comes back by value, 452 and 2,072 bytes; the call takes 7,840 bytes of stack.
 */
alderskein_shares alderskein_count_shares(alderskein_batch batch, const uint32_t *cells, size_t cells_length,
                                          const uint32_t *rows, size_t rows_length,
                                          const uint32_t *pool, size_t pool_length,
                                          uint32_t events, uint32_t seconds);

#ifdef __cplusplus
}
#endif

#endif
