/* What the programs here share. */
#ifndef COMMON_H
#define COMMON_H

#include <stdbool.h>
#include <stddef.h>
#include <stdint.h>
#include <stdio.h>
#include <stdlib.h>
#include <string.h>

/* Ends the program if something is not as it should be. */
static inline void expect(bool holds, const char *what)
{
    if (!holds) {
        fprintf(stderr, "failed: %s\n", what);
        exit(EXIT_FAILURE);
    }
}

/* Ends the program if it is given arguments: 0 for --help, else 2. */
static inline void take_no_arguments(int count, char **arguments,
                                     const char *does)
{
    if (count < 2) {
        return;
    }
    if (strcmp(arguments[1], "--help") == 0) {
        printf("usage: %s\n%s; takes no arguments\n", arguments[0], does);
        exit(EXIT_SUCCESS);
    }
    fprintf(stderr, "%s: unexpected argument '%s'; --help tells more\n",
            arguments[0], arguments[1]);
    exit(2);
}

/* Little-endian numbers. */
static inline void put_number(uint8_t *to, size_t length, uint64_t number)
{
    for (size_t i = 0; i < length; i++) {
        to[i] = (uint8_t)(number >> (8 * i));
    }
}

static inline uint64_t get_number(const uint8_t *from, size_t length)
{
    uint64_t number = 0;
    for (size_t i = 0; i < length; i++) {
        number |= (uint64_t)from[i] << (8 * i);
    }
    return number;
}

#endif
