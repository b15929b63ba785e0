/*
 * The functions of presets, called from C11 and, by the same text, from C++17: a text worked out by hand, there and back, half a preset,
 * buffers and RAMs of other lengths, and damaged texts. The first check that fails ends the program with status 1.
 */
#include "bemulatsho.h"

#include "checks.h"

/* Characters of a line of data, of sixteen of them, and of the end record. */
enum { LINE = 44, LINES = 16 * LINE, END_LINE = 12 };

static const char *const END = ":00000001FF\n";

/* What a buffer holds before: no character of a text. */
enum { FILLER = 0xA5 };

/* ---- RAMs and texts, each in memory of exactly its length */

static uint16_t *ram_of(uint16_t cell)
{
    uint16_t *ram = (uint16_t *)lend(BEMULATSHO_RAM, sizeof *ram);
    for (unsigned n = 0; n < BEMULATSHO_RAM; n++) {
        ram[n] = cell;
    }
    return ram;
}

static uint16_t *any_ram(void)
{
    uint16_t *ram = ram_of(0);
    for (unsigned n = 0; n < BEMULATSHO_RAM; n++) {
        ram[n] = (uint16_t)draw(65536);
    }
    return ram;
}

static bool same_cells(const uint16_t *ram, const uint16_t *other)
{
    return memcmp(ram, other, BEMULATSHO_RAM * sizeof *ram) == 0;
}

static uint8_t *buffer_of(size_t length)
{
    uint8_t *buffer = (uint8_t *)lend(length, 1);
    memset(buffer, FILLER, length);
    return buffer;
}

static bool as_lent(const uint8_t *buffer, size_t from, size_t length)
{
    for (size_t n = from; n < length; n++) {
        if (buffer[n] != FILLER) {
            return false;
        }
    }
    return true;
}

static bool stands_at(const uint8_t *text, size_t place, const char *characters)
{
    return memcmp(text + place, characters, strlen(characters)) == 0;
}

/* The text of a RAM. */
static uint8_t *text_of(const uint16_t *ram)
{
    uint8_t *text = buffer_of(BEMULATSHO_PRESET_TEXT);
    struct bemulatsho_writing writing = bemulatsho_write_preset(ram, BEMULATSHO_RAM, text, BEMULATSHO_PRESET_TEXT);
    CHECK(writing.number == BEMULATSHO_DONE && writing.length == BEMULATSHO_PRESET_TEXT);
    return text;
}

/* ---- writing */

/*
 * The cells are 1234H, FFFFH, 0, 8001H, 00F0H, 0A0BH, 7FFFH and 1, and then 0. The first record has sixteen bytes (10) at address 0000, is
 * data (00), and has each cell low byte first:
 *
 *     34 12  FF FF  00 00  01 80  F0 00  0B 0A  FF 7F  01 00
 *
 * 10 and these add up to 559H, and 59H and A7H make 100H: the check byte is A7. The second has its address, 10, and zeros: 10 and 10 are
 * 20H, and the check byte is E0. The last has address F0, 10 and F0 are 100H, and the check byte is 00.
 */
static void by_hand(void)
{
    static const uint16_t cells[] = {0x1234, 0xFFFF, 0, 0x8001, 0x00F0, 0x0A0B, 0x7FFF, 1};
    uint16_t *ram = ram_of(0);
    memcpy(ram, cells, sizeof cells);
    uint8_t *text = text_of(ram);
    CHECK(BEMULATSHO_PRESET_TEXT == LINES + END_LINE);
    CHECK(stands_at(text, 0, ":100000003412FFFF00000180F0000B0AFF7F0100A7\n"));
    CHECK(stands_at(text, LINE, ":1000100000000000000000000000000000000000E0\n"));
    CHECK(stands_at(text, 15 * LINE, ":1000F0000000000000000000000000000000000000\n"));
    CHECK(stands_at(text, LINES, END));
    /* the RAM is only looked at */
    CHECK(memcmp(ram, cells, sizeof cells) == 0 && ram[8] == 0 && ram[BEMULATSHO_RAM - 1] == 0);
    free(text);
    free(ram);
}

/* Sixteen records of sixteen bytes at their addresses, in capitals, and each line feed at its place. */
static void form(void)
{
    static const char *const digits = "0123456789ABCDEF";
    uint16_t *ram = any_ram();
    uint8_t *text = text_of(ram);
    for (unsigned line = 0; line < 16; line++) {
        const uint8_t *at = text + line * LINE;
        CHECK(stands_at(at, 0, ":1000") && at[5] == (uint8_t)digits[line] && stands_at(at, 6, "000") && at[LINE - 1] == '\n');
        for (unsigned n = 9; n < LINE - 1; n++) {
            CHECK(at[n] != 0 && strchr(digits, at[n]) != NULL);
        }
        struct bemulatsho_record record = bemulatsho_read_record(at, LINE);
        CHECK(record.number == 0 && record.kind == 0 && record.address == 16 * line && record.bytes == 16);
    }
    free(text);
    free(ram);
}

static void buffers(void)
{
    static const size_t lengths[] = {716, 717, 1000};
    static const size_t short_ones[] = {0, 1, 44, 704, 715};
    uint16_t *ram = any_ram();
    uint8_t *expected = text_of(ram);
    for (unsigned n = 0; n < sizeof lengths / sizeof *lengths; n++) {
        uint8_t *buffer = buffer_of(lengths[n]);
        struct bemulatsho_writing writing = bemulatsho_write_preset(ram, BEMULATSHO_RAM, buffer, lengths[n]);
        CHECK(writing.number == BEMULATSHO_DONE && writing.length == 716);
        CHECK(memcmp(buffer, expected, 716) == 0 && as_lent(buffer, 716, lengths[n]));
        free(buffer);
    }
    for (unsigned n = 0; n < sizeof short_ones / sizeof *short_ones; n++) {
        uint8_t *buffer = buffer_of(short_ones[n]);
        struct bemulatsho_writing writing = bemulatsho_write_preset(ram, BEMULATSHO_RAM, buffer, short_ones[n]);
        CHECK(writing.number == BEMULATSHO_REFUSED_LENGTH && writing.length == 0 && as_lent(buffer, 0, short_ones[n]));
        free(buffer);
    }
    free(expected);
    free(ram);
}

static void other_rams(void)
{
    static const size_t lengths[] = {0, 1, 127, 129, 512};
    uint16_t *whole = any_ram();
    uint8_t *text = text_of(whole);
    for (unsigned n = 0; n < sizeof lengths / sizeof *lengths; n++) {
        uint16_t *ram = (uint16_t *)lend(lengths[n], sizeof *ram);
        uint8_t *buffer = buffer_of(1000);
        struct bemulatsho_writing writing = bemulatsho_write_preset(ram, lengths[n], buffer, 1000);
        CHECK(writing.number == BEMULATSHO_REFUSED_LENGTH && writing.length == 0 && as_lent(buffer, 0, 1000));
        struct bemulatsho_loading loading = bemulatsho_load_preset(text, BEMULATSHO_PRESET_TEXT, ram, lengths[n]);
        CHECK(loading.number == BEMULATSHO_REFUSED_LENGTH && loading.line == 0);
        for (size_t cell = 0; cell < lengths[n]; cell++) {
            CHECK(ram[cell] == 0);
        }
        free(buffer);
        free(ram);
    }
    free(text);
    free(whole);
}

/* ---- there and back */

/* Whatever the RAM held before, it is the one that was written, and it is written as the same text. */
static void there_and_back(const uint16_t *ram)
{
    uint8_t *text = text_of(ram);
    static const uint16_t before[] = {0, 0x5A5A, 0xFFFF};
    for (unsigned n = 0; n < sizeof before / sizeof *before; n++) {
        uint16_t *back = ram_of(before[n]);
        struct bemulatsho_loading loading = bemulatsho_load_preset(text, BEMULATSHO_PRESET_TEXT, back, BEMULATSHO_RAM);
        CHECK(loading.number == BEMULATSHO_DONE && loading.line == 17);
        CHECK(same_cells(back, ram));
        uint8_t *again = text_of(back);
        CHECK(memcmp(again, text, BEMULATSHO_PRESET_TEXT) == 0);
        free(again);
        free(back);
    }
    free(text);
}

static void all_there_and_back(unsigned any)
{
    static const uint16_t corners[] = {0, 0xFFFF, 0x00FF, 0xFF00, 1, 0x8000};
    for (unsigned n = 0; n < sizeof corners / sizeof *corners; n++) {
        uint16_t *ram = ram_of(corners[n]);
        there_and_back(ram);
        free(ram);
    }
    uint16_t *numbers = ram_of(0);
    for (unsigned n = 0; n < BEMULATSHO_RAM; n++) {
        numbers[n] = (uint16_t)n;
    }
    there_and_back(numbers);
    free(numbers);
    for (unsigned n = 0; n < any; n++) {
        uint16_t *ram = any_ram();
        there_and_back(ram);
        free(ram);
    }
}

/* Small letters and carriage returns are taken; written back, the text has the writer's form. */
static void other_forms(void)
{
    uint16_t *ram = any_ram(), *back = ram_of(7);
    uint8_t *text = text_of(ram), *other = buffer_of(BEMULATSHO_PRESET_TEXT + 17);
    size_t length = 0;
    for (size_t n = 0; n < BEMULATSHO_PRESET_TEXT; n++) {
        if (text[n] == '\n') {
            other[length++] = '\r';
        }
        other[length++] = text[n] >= 'A' && text[n] <= 'F' ? (uint8_t)(text[n] + ('a' - 'A')) : text[n];
    }
    CHECK(length == BEMULATSHO_PRESET_TEXT + 17);
    struct bemulatsho_loading loading = bemulatsho_load_preset(other, length, back, BEMULATSHO_RAM);
    CHECK(loading.number == BEMULATSHO_DONE && loading.line == 17 && same_cells(back, ram));
    uint8_t *again = text_of(back);
    CHECK(memcmp(again, text, BEMULATSHO_PRESET_TEXT) == 0);
    free(again);
    free(other);
    free(text);
    free(back);
    free(ram);
}

/* ---- refused */

/* A text of so many lines of a preset and something behind them. The RAM keeps every cell. */
static void refused(const uint8_t *text, unsigned lines, const char *behind, unsigned number, size_t line)
{
    size_t start = (size_t)lines * LINE, length = start + strlen(behind);
    uint8_t *lent = buffer_of(length);
    memcpy(lent, text, start);
    memcpy(lent + start, behind, strlen(behind));
    uint16_t *ram = any_ram(), *before = ram_of(0);
    memcpy(before, ram, BEMULATSHO_RAM * sizeof *ram);
    struct bemulatsho_loading loading = bemulatsho_load_preset(lent, length, ram, BEMULATSHO_RAM);
    CHECK(loading.number == number && loading.line == line);
    CHECK(same_cells(ram, before));
    free(before);
    free(ram);
    free(lent);
}

static void refused_presets(void)
{
    uint16_t *ram = any_ram();
    uint8_t *text = text_of(ram);
    /* half a preset, one without its last record, nothing but the end, nothing */
    refused(text, 8, END, BEMULATSHO_REFUSED_ADDRESS, 9);
    refused(text, 15, END, BEMULATSHO_REFUSED_ADDRESS, 16);
    refused(text, 0, END, BEMULATSHO_REFUSED_ADDRESS, 1);
    refused(text, 0, "", BEMULATSHO_REFUSED_ADDRESS, 0);
    /* cut behind a line: first what is missing */
    refused(text, 8, "", BEMULATSHO_REFUSED_ADDRESS, 8);
    refused(text, 16, "", BEMULATSHO_REFUSED_END, 16);
    /* address 100H, and address 0 once more */
    refused(text, 16, ":0101000000FE\n:00000001FF\n", BEMULATSHO_REFUSED_ADDRESS, 17);
    refused(text, 16, ":0100000000FF\n:00000001FF\n", BEMULATSHO_REFUSED_ADDRESS, 17);
    /* an extended address, a wrong check byte, an end without its ending, a line behind it */
    refused(text, 0, ":020000040000FA\n", BEMULATSHO_REFUSED_TYPE, 1);
    refused(text, 16, ":00000001FE\n", BEMULATSHO_REFUSED_CHECK, 17);
    refused(text, 16, ":00000001FF", BEMULATSHO_REFUSED_LINE, 17);
    refused(text, 16, ":00000001FF\n\n", BEMULATSHO_REFUSED_END, 18);
    free(text);
    free(ram);
}

/* Damaged presets, each in memory of exactly its length: a memory checker sees any access outside. */
static void damaged_presets(unsigned texts)
{
    unsigned taken = 0;
    for (unsigned n = 0; n < texts; n++) {
        uint16_t *ram = any_ram(), *back = ram_of(7), *sevens = ram_of(7);
        uint8_t *whole = text_of(ram);
        size_t length = draw(4) == 0 ? draw(BEMULATSHO_PRESET_TEXT) : BEMULATSHO_PRESET_TEXT;
        uint8_t *text = buffer_of(length);
        memcpy(text, whole, length);
        damage(text, length);
        struct bemulatsho_loading loading = bemulatsho_load_preset(text, length, back, BEMULATSHO_RAM);
        CHECK(loading.number == 0 || (loading.number >= 12 && loading.number <= 16));
        CHECK(loading.number == 0 || same_cells(back, sevens));
        taken += loading.number == 0;
        free(text);
        free(whole);
        free(sevens);
        free(back);
        free(ram);
    }
    CHECK(taken > 0 && taken < texts - texts / 4);
}

int main(void)
{
    by_hand();
    form();
    buffers();
    other_rams();
    all_there_and_back(200);
    other_forms();
    refused_presets();
    damaged_presets(2000);
    printf("%u checks\n", checks);
    return 0;
}
