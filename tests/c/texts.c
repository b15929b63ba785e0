/*
 * The functions of texts, called from C11 and, by the same text, from C++17: a program and a data ROM, each refusal with its line, records,
 * and damaged texts. The first check that fails ends the program with status 1.
 */
#include "bemulatsho.h"

#include "checks.h"

/* ---- texts */

struct text {
    uint8_t *bytes;
    size_t length;
};

static void append(struct text *text, const char *characters, size_t length)
{
    uint8_t *longer = (uint8_t *)realloc(text->bytes, text->length + length + 1);
    if (longer == NULL) {
        fputs("realloc gave nothing\n", stderr);
        exit(1);
    }
    memcpy(longer + text->length, characters, length);
    text->bytes = longer;
    text->length += length;
}

static void append_line(struct text *text, const char *line)
{
    append(text, line, strlen(line));
    append(text, "\n", 1);
}

/* The line of a record, with its check byte and so much more. */
static void append_record(struct text *text, unsigned kind, unsigned address, const uint8_t *data, unsigned count, unsigned more)
{
    char line[600];
    unsigned sum = count + (address >> 8) + address + kind;
    int at = snprintf(line, sizeof line, ":%02X%04X%02X", count, address, kind);
    for (unsigned n = 0; n < count; n++) {
        at += snprintf(line + at, sizeof line - (size_t)at, "%02X", (unsigned)data[n]);
        sum += data[n];
    }
    snprintf(line + at, sizeof line - (size_t)at, "%02X", (more - sum) & 0xFFu);
    append_line(text, line);
}

/* Byte n of the images: no two neighbours are alike, and every fourth is 0, so that the words of a program fit the chip. */
static uint8_t byte_of(unsigned n)
{
    return n % 4 == 3 ? 0 : n % 4 == 2 ? (uint8_t)(n / 4 % 128) : (uint8_t)(n * 37 + n / 256);
}

/* The data records of an image of so many bytes, sixteen bytes each, from a record on. */
static void append_data(struct text *text, unsigned first, unsigned size)
{
    for (unsigned at = 16 * first; at < size; at += 16) {
        uint8_t data[16];
        for (unsigned n = 0; n < 16; n++) {
            data[n] = byte_of(at + n);
        }
        append_record(text, 0, at, data, 16, 0);
    }
}

static const char *const END = ":00000001FF";

static struct text whole_text(unsigned size)
{
    struct text text = {NULL, 0};
    append_data(&text, 0, size);
    append_line(&text, END);
    return text;
}

/* ---- loading */

static uint32_t word_of(unsigned n)
{
    return byte_of(4 * n) + 256u * byte_of(4 * n + 1) + 65536u * byte_of(4 * n + 2) + 16777216u * byte_of(4 * n + 3);
}

static uint16_t cell_of(unsigned n)
{
    return (uint16_t)(byte_of(2 * n) + 256u * byte_of(2 * n + 1));
}

/* Gives a text in memory of exactly its length to a program that holds 7s, and looks at the answer and at every word. */
static void check_program(struct text text, unsigned number, size_t line, int at)
{
    uint8_t *lent = (uint8_t *)lend(text.length, 1);
    uint32_t *image = (uint32_t *)lend(BEMULATSHO_WORDS, sizeof *image);
    if (text.length != 0) {
        memcpy(lent, text.bytes, text.length);
    }
    for (unsigned n = 0; n < BEMULATSHO_WORDS; n++) {
        image[n] = 7;
    }
    struct bemulatsho_loading loading = bemulatsho_load_program(lent, text.length, image, BEMULATSHO_WORDS);
    if (loading.number != number || loading.line != line) {
        fprintf(stderr, "texts.c:%d: the answer is %u, line %zu; expected %u, line %zu\n", at, (unsigned)loading.number, loading.line, number,
                line);
        exit(1);
    }
    for (unsigned n = 0; n < BEMULATSHO_WORDS; n++) {
        CHECK(image[n] == (number == BEMULATSHO_DONE ? word_of(n) : 7));
    }
    free(image);
    free(lent);
}

#define PROGRAM(text, number, line) check_program((text), (number), (line), __LINE__)

static void programs(void)
{
    struct text text = whole_text(2048);
    PROGRAM(text, BEMULATSHO_DONE, 129);
    /* the last line without its ending */
    text.length -= 1;
    PROGRAM(text, BEMULATSHO_REFUSED_LINE, 129);
    free(text.bytes);
}

static void data_roms(void)
{
    struct text text = whole_text(1024);
    uint16_t *image = (uint16_t *)lend(BEMULATSHO_CELLS, sizeof *image);
    struct bemulatsho_loading loading = bemulatsho_load_data(text.bytes, text.length, image, BEMULATSHO_CELLS);
    CHECK(loading.number == BEMULATSHO_DONE && loading.line == 65);
    for (unsigned n = 0; n < BEMULATSHO_CELLS; n++) {
        CHECK(image[n] == cell_of(n));
        image[n] = 7;
    }
    /* a program's text is too long for a data ROM */
    struct text program = whole_text(2048);
    loading = bemulatsho_load_data(program.bytes, program.length, image, BEMULATSHO_CELLS);
    CHECK(loading.number == BEMULATSHO_REFUSED_ADDRESS && loading.line == 65);
    for (unsigned n = 0; n < BEMULATSHO_CELLS; n++) {
        CHECK(image[n] == 7);
    }
    free(program.bytes);
    free(image);
    free(text.bytes);
}

static void wrong_lengths(void)
{
    struct text text = whole_text(2048);
    static const size_t lengths[] = {0, 1, 511, 513, 1024};
    for (unsigned n = 0; n < sizeof lengths / sizeof *lengths; n++) {
        uint32_t *words = (uint32_t *)lend(lengths[n], sizeof *words);
        uint16_t *cells = (uint16_t *)lend(lengths[n], sizeof *cells);
        struct bemulatsho_loading program = bemulatsho_load_program(text.bytes, text.length, words, lengths[n]);
        struct bemulatsho_loading data = bemulatsho_load_data(text.bytes, 0, cells, lengths[n]);
        CHECK(program.number == BEMULATSHO_REFUSED_LENGTH && program.line == 0);
        CHECK(data.number == BEMULATSHO_REFUSED_LENGTH && data.line == 0);
        free(cells);
        free(words);
    }
    free(text.bytes);
}

/* A program's text whose first record is another line or lines. */
static void with_first(const char *line, unsigned number, size_t decided, int at)
{
    struct text text = {NULL, 0};
    append_line(&text, line);
    append_data(&text, 1, 2048);
    append_line(&text, END);
    check_program(text, number, decided, at);
    free(text.bytes);
}

#define FIRST(line, number, decided) with_first((line), (number), (decided), __LINE__)

/* A program's text with something behind its data records. */
static void with_last(const char *characters, unsigned number, size_t decided, int at)
{
    struct text text = {NULL, 0};
    append_data(&text, 0, 2048);
    append(&text, characters, strlen(characters));
    check_program(text, number, decided, at);
    free(text.bytes);
}

#define LAST(characters, number, decided) with_last((characters), (number), (decided), __LINE__)

static void refused_texts(void)
{
    /* an empty line, a colon alone, a character that is no digit, too few and too many for the length, an end record with data */
    FIRST("", 12, 1);
    FIRST(":", 12, 1);
    FIRST(":0100000G00FF", 12, 1);
    FIRST(":0200000000FE", 12, 1);
    FIRST(":010000000000FF", 12, 1);
    FIRST(":0100000100FE", 12, 1);
    FIRST(" :00000001FF", 12, 1);
    /* a check byte one too high; types 02 to 05; beyond FFFFH; outside; the second record once more */
    FIRST(":010000000000", 13, 1);
    FIRST(":020000020000FC", 14, 1);
    FIRST(":020000040000FA", 14, 1);
    FIRST(":02FFFF00000000", 15, 1);
    FIRST(":0108000000F7", 15, 1);
    FIRST(":0100100000EF", 15, 2);
    /* the first fifteen bytes are missing: said at the end record */
    FIRST(":0100000000FF", 15, 129);
    /* the end record comes first, and what is behind it is not read: missing before text after it */
    FIRST(":00000001FF", 15, 1);
    /* an end record whose address is not looked at, and data records without data */
    LAST(":00123401B9\n", 0, 129);
    LAST(":00FFFF0002\n:0000000000\n:00000001FF\r\n", 0, 131);
    /* no end record; something behind it */
    LAST("", 16, 128);
    LAST(":00000001FF\n\n", 16, 130);
    LAST(":00000001FF\n\x1a", 16, 130);
    LAST(":00000001FF\n:00000001FF\n", 16, 130);
    /* its check byte, its ending */
    LAST(":00000001FE\n", 13, 129);
    LAST(":00000001FF", 12, 129);
    LAST(":00000001FF\r", 12, 129);

    struct text nothing = {NULL, 0};
    PROGRAM(nothing, 15, 0);
}

/* A word and a cell that are too wide are loaded, and refused when they are used. */
static void too_wide(void)
{
    struct text text = {NULL, 0};
    uint8_t ones[255];
    memset(ones, 0xFF, sizeof ones);
    for (unsigned at = 0; at < 2048; at += 128) {
        append_record(&text, 0, at, ones, 128, 0);
    }
    append_line(&text, END);
    uint32_t *program = (uint32_t *)lend(512, sizeof *program);
    uint16_t *rom = (uint16_t *)lend(512, sizeof *rom);
    uint16_t *ram = (uint16_t *)lend(128, sizeof *ram);
    struct bemulatsho_registers registers = bemulatsho_fresh_registers();
    struct bemulatsho_event run;
    run.kind = BEMULATSHO_EVENT_RUN;
    run.value = 1;
    CHECK(bemulatsho_load_program(text.bytes, text.length, program, 512).number == BEMULATSHO_DONE && program[0] == 0xFFFFFFFF);
    CHECK(bemulatsho_event_in_place(&registers, program, 512, rom, 512, ram, 128, run).number == BEMULATSHO_REFUSED_WORD);

    free(text.bytes);
    text.bytes = NULL;
    text.length = 0;
    for (unsigned at = 0; at < 1024; at += 128) {
        append_record(&text, 0, at, ones, 128, 0);
    }
    append_line(&text, END);
    CHECK(bemulatsho_load_data(text.bytes, text.length, rom, 512).number == BEMULATSHO_DONE && rom[511] == 0xFFFF);
    /* MOV @A,RO */
    program[0] = 0x61;
    CHECK(bemulatsho_event_in_place(&registers, program, 512, rom, 512, ram, 128, run).number == BEMULATSHO_REFUSED_CELL);
    CHECK(registers.pc == 0 && registers.a == 0);
    free(ram);
    free(rom);
    free(program);
    free(text.bytes);
}

/* ---- records */

static struct bemulatsho_record read_line(const char *line)
{
    size_t length = strlen(line);
    uint8_t *lent = (uint8_t *)lend(length, 1);
    memcpy(lent, line, length);
    struct bemulatsho_record record = bemulatsho_read_record(lent, length);
    CHECK(record.offset + record.length <= length);
    free(lent);
    return record;
}

static void refused_line(const char *line, unsigned number)
{
    struct bemulatsho_record record = read_line(line);
    CHECK(record.number == number);
    CHECK(record.kind == 0 && record.address == 0 && record.bytes == 0 && record.offset == 0 && record.length == 0);
}

static void records(void)
{
    struct bemulatsho_record record = read_line(":0300300002337a1E\r\n");
    CHECK(record.number == 0 && record.kind == 0 && record.address == 0x30 && record.bytes == 3);
    CHECK(record.offset == 9 && record.length == 6);
    record = read_line(":00ABCD0187\n");
    CHECK(record.number == 0 && record.kind == 1 && record.address == 0xABCD && record.bytes == 0);
    CHECK(record.offset == 9 && record.length == 0);

    refused_line("", 12);
    refused_line("\n", 12);
    refused_line(":00000001FF", 12);
    refused_line(":00000001FF\n\n", 12);
    refused_line(":0300300002337a1F\n", 13);
    refused_line(":020000040000FA\n", 14);
}

/* ---- damage */

/* Damaged texts, each in memory of exactly its length: a memory checker sees any access outside. */
static void damaged_texts(unsigned texts)
{
    struct text whole = whole_text(1024);
    uint16_t *image = (uint16_t *)lend(BEMULATSHO_CELLS, sizeof *image);
    unsigned refused = 0;
    for (unsigned n = 0; n < texts; n++) {
        size_t length = draw(4) == 0 ? draw((uint32_t)whole.length) : whole.length;
        uint8_t *text = (uint8_t *)lend(length, 1);
        memcpy(text, whole.bytes, length);
        damage(text, length);
        for (unsigned cell = 0; cell < BEMULATSHO_CELLS; cell++) {
            image[cell] = 7;
        }
        struct bemulatsho_loading loading = bemulatsho_load_data(text, length, image, BEMULATSHO_CELLS);
        CHECK(loading.number == 0 || (loading.number >= 12 && loading.number <= 16));
        for (unsigned cell = 0; loading.number != 0 && cell < BEMULATSHO_CELLS; cell++) {
            CHECK(image[cell] == 7);
        }
        refused += loading.number != 0;
        size_t from = length == 0 ? 0 : draw((uint32_t)length);
        struct bemulatsho_record record = bemulatsho_read_record(text + from, length - from);
        CHECK(record.offset + record.length <= length - from);
        free(text);
    }
    CHECK(refused > texts / 4 && refused < texts);
    free(image);
    free(whole.bytes);
}

int main(void)
{
    programs();
    data_roms();
    wrong_lengths();
    refused_texts();
    too_wide();
    records();
    damaged_texts(2000);
    printf("%u checks\n", checks);
    return 0;
}
