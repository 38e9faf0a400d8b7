/*
 * For the programs that take the size of a list of words: M and H from the command line.
 */
#ifndef EXAMPLES_SIZE_H
#define EXAMPLES_SIZE_H

#include "numbers.h"

/* A number of the command line, of decimal digits alone. */
static bool take_plain(char *text, uint32_t *number)
{
    return isdigit((unsigned char)*text) && take_number(&text, UINT32_MAX, number) && *text == '\0';
}

#endif
