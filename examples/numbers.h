/*
 * For the programs that read numbers.
 */
#ifndef EXAMPLES_NUMBERS_H
#define EXAMPLES_NUMBERS_H

#include <ctype.h>
#include <stdbool.h>
#include <stdint.h>

/* A decimal number up to `most` at the front of the text, which is moved past it. */
static bool take_number(char **text, uint32_t most, uint32_t *number)
{
    uint64_t value = 0;
    while (isblank((unsigned char)**text))
        ++*text;
    if (!isdigit((unsigned char)**text))
        return false;
    for (; isdigit((unsigned char)**text) && value <= most; ++*text)
        value = 10 * value + (uint64_t)(**text - '0');
    *number = (uint32_t)value;
    return value <= most;
}

#endif
