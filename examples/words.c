/*
 * words RULE-FILE M H: shows for test staff the field after every word up to a size.
 *
 * Reads the rule file, builds its table, says on standard error how many rows it has, and goes through the
 * list of all words of at most M events (0 to 6) with stamps up to H whole seconds (0 to 30), from the empty
 * word to the last. Stamps are in half seconds. Prints a line a word: the field, 0 where the rule says yes,
 * `blank` where it says no, and the events, SYMBOL STAMP each. Then a line: how many words there are, and
 * after how many the field shows 0. Exit status is as common.h says.
 *
 * With S symbols the list has S^n times the binomial of 2H + n over n words of n events.
 */
#define PROGRAM "words"
#include "size.h"
#include "table.h"

static built_table table;

/* Whether the field shows 0 after the word. */
static bool shows_0(const alderskein_listed *word)
{
    alderskein_answer answer = alderskein_run_table(
        table.built, table.cells, CELLS, table.rows, ALDERSKEIN_ROW_TABLE, table.pool, POOL,
        ALDERSKEIN_LIST_GRAIN, word->symbols, word->count, word->stamps, word->count);
    if (answer.number != 0)
        refuse("word", answer.number, answer.place);
    return answer.value == 1;
}

static void print_word(bool zero, const alderskein_listed *word)
{
    printf("%s", zero ? "0" : "blank");
    for (uint32_t event = 0; event < word->count; ++event) {
        const char *before = event > 0 ? ", " : zero ? "      " : "  ";
        printf("%s%u %u", before, (unsigned)word->symbols[event], (unsigned)word->stamps[event]);
    }
    puts("");
}

/* All words. The next one is asked for before a word is printed: a size that is refused prints none. */
static void list(alderskein_size size)
{
    alderskein_listed word = {0, {0}, {0}};
    unsigned long long count = 0, zeros = 0;
    bool last = false;
    while (!last) {
        alderskein_next next = alderskein_next_word(size, word);
        if (next.number != 0)
            refuse("size", next.number, next.place);
        bool zero = shows_0(&word);
        print_word(zero, &word);
        ++count;
        zeros += zero;
        word = next.word;
        last = next.last;
    }
    printf("words in all: %llu; the field shows 0 after %llu\n", count, zeros);
}

int main(int count, char **words)
{
    alderskein_size size;
    if (count != 4 || !take_plain(words[2], &size.events) || !take_plain(words[3], &size.seconds)) {
        fprintf(stderr, "usage: " PROGRAM " RULE-FILE M H\n");
        return UNREADABLE;
    }
    build(words[1], &table);
    size.symbols = table.built.symbols;
    list(size);
    return status();
}
