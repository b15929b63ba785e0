/* Files in memory of exactly their length, for the programs that tests/intel_hex runs. What fails ends the program with status 2. */
#ifndef FILES_H
#define FILES_H

#include <stdint.h>
#include <stdio.h>
#include <stdlib.h>
#include <string.h>

static inline void fail(const char *what, const char *name)
{
    fprintf(stderr, "%s: %s\n", name, what);
    exit(2);
}

static inline void *memory(size_t length)
{
    /* a pointer is never null, not even with length 0 */
    void *start = malloc(length == 0 ? 1 : length);
    if (start == NULL) {
        fail("gave nothing", "malloc");
    }
    return start;
}

struct file {
    uint8_t *bytes;
    size_t length;
};

static inline struct file read_file(const char *name)
{
    struct file read;
    long length;
    FILE *file = fopen(name, "rb");
    if (file == NULL || fseek(file, 0, SEEK_END) != 0 || (length = ftell(file)) < 0 || fseek(file, 0, SEEK_SET) != 0) {
        fail("cannot be read", name);
    }
    read.length = (size_t)length;
    read.bytes = (uint8_t *)memory(read.length);
    if (fread(read.bytes, 1, read.length, file) != read.length) {
        fail("cannot be read", name);
    }
    fclose(file);
    return read;
}

#endif
