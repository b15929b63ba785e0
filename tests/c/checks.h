/*
 * Checks, memory to lend, and damage. What comes from malloc has exactly the length lent, so that a memory checker sees any access outside.
 */
#ifndef CHECKS_H
#define CHECKS_H

#include <stdbool.h>
#include <stdint.h>
#include <stdio.h>
#include <stdlib.h>
#include <string.h>

static unsigned checks;

static inline void check(bool holds, const char *what, int line)
{
    if (!holds) {
        fprintf(stderr, "%s:%d: not so: %s\n", __BASE_FILE__, line, what);
        exit(1);
    }
    checks++;
}

#define CHECK(condition) check((condition), #condition, __LINE__)

static inline void *lend(size_t length, size_t size)
{
    /* no pointer is null, not even with length 0 */
    void *start = malloc(length == 0 ? 1 : length * size);
    if (start == NULL) {
        fputs("malloc gave nothing\n", stderr);
        exit(1);
    }
    memset(start, 0, length * size);
    return start;
}

/* A number below a limit, the same ones in each run. */
static inline uint32_t draw(uint32_t limit)
{
    static uint32_t drawn = 0x7720;
    drawn = drawn * 1664525u + 1013904223u;
    return (drawn >> 8) % limit;
}

/* Changes up to two characters of a text. */
static inline void damage(uint8_t *text, size_t length)
{
    for (unsigned changes = draw(3); changes > 0 && length > 0; changes--) {
        text[draw((uint32_t)length)] = draw(2) == 0 ? (uint8_t)draw(256) : (uint8_t) "0F\n\r:"[draw(5)];
    }
}

#endif
