/*
 * What stream.c draws from, and what it takes in: numbers from a seed, and a
 * digest of all that the library answers. C leaves open which of two arguments
 * is evaluated first, so no expression draws twice: a seed means the same
 * stream on every processor.
 */
#ifndef DRAW_H
#define DRAW_H

#include <stdbool.h>
#include <stddef.h>
#include <stdint.h>

static uint64_t drawn;

/* The next number of the seed: splitmix64. */
static inline uint64_t draw(void)
{
    drawn += UINT64_C(0x9e3779b97f4a7c15);
    uint64_t number = drawn;
    number = (number ^ (number >> 30)) * UINT64_C(0xbf58476d1ce4e5b9);
    number = (number ^ (number >> 27)) * UINT64_C(0x94d049bb133111eb);
    return number ^ (number >> 31);
}

static inline uint64_t below(uint64_t bound) { return draw() % bound; }

static inline bool once_in(uint64_t times) { return below(times) == 0; }

static inline void draw_bytes(uint8_t *to, size_t length)
{
    for (size_t i = 0; i < length; i++) {
        to[i] = (uint8_t)draw();
    }
}

/* Changes a byte, or the length that it returns, which stays within the room.
 */
static inline size_t change(uint8_t *bytes, size_t length, size_t room)
{
    if (length != 0 && !once_in(4)) {
        size_t at = below(length);
        bytes[at] ^= (uint8_t)(1u << below(8));
        return length;
    }
    size_t other = once_in(2) ? below(length + 1) : length + below(20);
    return other < room ? other : room;
}

/* The same once in eight times. */
static inline size_t spoil(uint8_t *bytes, size_t length, size_t room)
{
    return once_in(8) ? change(bytes, length, room) : length;
}

static uint64_t digest = UINT64_C(0x6b616a75726e6174);

static inline void take_number(uint64_t number)
{
    digest = (digest ^ number) * UINT64_C(0x9fb21c651e98df25);
    digest ^= digest >> 29;
}

/* Eight bytes at once: whole cards are taken after every call. */
static inline void take_bytes(const uint8_t *bytes, size_t length)
{
    size_t i = 0;

    for (; i + 8 <= length; i += 8) {
        const uint8_t *b = bytes + i;
        take_number((uint64_t)b[0] | (uint64_t)b[1] << 8 |
                    (uint64_t)b[2] << 16 | (uint64_t)b[3] << 24 |
                    (uint64_t)b[4] << 32 | (uint64_t)b[5] << 40 |
                    (uint64_t)b[6] << 48 | (uint64_t)b[7] << 56);
    }
    for (; i < length; i++) {
        take_number(bytes[i]);
    }
    take_number(length);
}

#endif
