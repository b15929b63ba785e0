/*
 * load program|data|preset FILE ..: loads each file as Intel HEX and prints a line for it: the number, the line that decided, and the cells
 * in hexadecimal. Before each call word n of a program holds 5A5A0000H + n, and a cell n 5A00H + n, so that an image that was not touched is
 * seen. Text and image come from malloc with exactly the length lent.
 */
#include "bemulatsho.h"

#include "files.h"

static void print_reply(struct bemulatsho_loading reply)
{
    printf("%u %zu", (unsigned)reply.number, reply.line);
}

static void load_program(struct file text)
{
    uint32_t *image = (uint32_t *)memory(BEMULATSHO_WORDS * sizeof *image);
    for (uint32_t n = 0; n < BEMULATSHO_WORDS; n++) {
        image[n] = 0x5A5A0000u + n;
    }
    print_reply(bemulatsho_load_program(text.bytes, text.length, image, BEMULATSHO_WORDS));
    for (uint32_t n = 0; n < BEMULATSHO_WORDS; n++) {
        printf(" %08lX", (unsigned long)image[n]);
    }
    free(image);
}

typedef struct bemulatsho_loading load_cells(const uint8_t *text, size_t text_length, uint16_t *image, size_t image_length);

static void load_into(load_cells *load, size_t cells, struct file text)
{
    uint16_t *image = (uint16_t *)memory(cells * sizeof *image);
    for (size_t n = 0; n < cells; n++) {
        image[n] = (uint16_t)(0x5A00u + n);
    }
    print_reply(load(text.bytes, text.length, image, cells));
    for (size_t n = 0; n < cells; n++) {
        printf(" %04X", (unsigned)image[n]);
    }
    free(image);
}

static void load_as(const char *kind, struct file text)
{
    if (strcmp(kind, "program") == 0) {
        load_program(text);
    } else if (strcmp(kind, "data") == 0) {
        load_into(bemulatsho_load_data, BEMULATSHO_CELLS, text);
    } else if (strcmp(kind, "preset") == 0) {
        load_into(bemulatsho_load_preset, BEMULATSHO_RAM, text);
    } else {
        fail("is no program, data or preset", kind);
    }
}

int main(int count, char **arguments)
{
    if (count < 2) {
        fputs("usage: load program|data|preset FILE ..\n", stderr);
        return 2;
    }
    for (int n = 2; n < count; n++) {
        struct file text = read_file(arguments[n]);
        load_as(arguments[1], text);
        putchar('\n');
        free(text.bytes);
    }
    return 0;
}
