/*
 * write RAW TEXT: writes RAW, 128 RAM cells of two bytes each, low byte first, to TEXT as a preset. RAM and text come from malloc with exactly
 * the length lent.
 */
#include "bemulatsho.h"

#include "files.h"

int main(int count, char **arguments)
{
    if (count != 3) {
        fputs("usage: write RAW TEXT\n", stderr);
        return 2;
    }
    struct file raw = read_file(arguments[1]);
    if (raw.length != 2 * BEMULATSHO_RAM) {
        fail("has not 256 bytes", arguments[1]);
    }
    uint16_t *ram = (uint16_t *)memory(BEMULATSHO_RAM * sizeof *ram);
    for (size_t n = 0; n < BEMULATSHO_RAM; n++) {
        ram[n] = (uint16_t)(raw.bytes[2 * n] | raw.bytes[2 * n + 1] << 8);
    }
    uint8_t *text = (uint8_t *)memory(BEMULATSHO_PRESET_TEXT);
    struct bemulatsho_writing writing = bemulatsho_write_preset(ram, BEMULATSHO_RAM, text, BEMULATSHO_PRESET_TEXT);
    if (writing.number != BEMULATSHO_DONE) {
        fail("is refused", arguments[1]);
    }
    FILE *file = fopen(arguments[2], "wb");
    if (file == NULL || fwrite(text, 1, writing.length, file) != writing.length || fclose(file) != 0) {
        fail("cannot be written", arguments[2]);
    }
    free(text);
    free(ram);
    free(raw.bytes);
    return 0;
}
