/*
 * Every function of the uPD77C25, called from C11 and, by the same text, from C++17; the numbers are
 * those of the rules (01, and 02's E10). The first check that fails ends the program with status 1.
 */
#include "bemulatsho.h"

#include "answers.h"
#include "checks.h"
#include "limits.h"
#include "machine.h"

/* ---- what is lent */

/* A data ROM and a RAM whose cells hold their own numbers and 8000H more. */
static struct machine lend_lengths(size_t program_length, size_t rom_length, size_t ram_length)
{
    struct machine m = lend_77c25(program_length, rom_length, ram_length);
    for (size_t cell = 0; cell < rom_length; cell++)
        m.rom[cell] = (uint16_t)(0x8000u + cell);
    for (size_t cell = 0; cell < ram_length; cell++)
        m.ram[cell] = (uint16_t)(0x8000u + cell);
    return m;
}

static struct machine lend_machine(void)
{
    return lend_lengths(BEMULATSHO_77C25_WORDS, BEMULATSHO_77C25_CELLS, BEMULATSHO_77C25_RAM);
}

/* One word from PC, which must be done. */
static void check_done(struct machine m, uint32_t word, int line)
{
    m.program[m.registers->pc] = word;
    check_reply(call(m, BEMULATSHO_EVENT_RUN, 1), 0, 1, 0, line);
}

#define DONE(m, word) check_done((m), (word), __LINE__)

/* A word that is refused when it runs, and yet is taken apart and built. */
static void check_not_run(struct machine m, uint32_t word, unsigned number, int line)
{
    m.program[m.registers->pc] = word;
    check_refused(m, BEMULATSHO_EVENT_RUN, 1, number, line);
    struct bemulatsho_built built = bemulatsho_77c25_build(bemulatsho_77c25_take_apart(word).rows);
    check(built.refusal == 0 && built.bits == word, "built again it is the same word", line);
}

#define NOT_RUN(m, word, number) check_not_run((m), (word), (number), __LINE__)

/* ---- fresh registers */

static void fresh_registers(void)
{
    struct bemulatsho_77c25_registers zero, fresh = bemulatsho_77c25_fresh_registers();
    memset(&zero, 0, sizeof zero);
    CHECK(memcmp(&fresh, &zero, sizeof zero) == 0);
}

/* ---- words taken apart and built */

static bool jp_is_0(struct bemulatsho_code_fields f)
{
    return f.code == 0 && f.na == 0 && f.spare == 0;
}

/* A word of each row. */
static void take_apart(void)
{
    /* every bit of an OP and of an RT word, each field at its widest */
    struct bemulatsho_77c25_taken_rows x = bemulatsho_77c25_take_apart(0x3FFFFF);
    CHECK(x.refusal == 0 && x.rows.row == BEMULATSHO_ROW_OP);
    CHECK(x.rows.op.psel == 3 && x.rows.op.alu == 15 && x.rows.op.asl == 1 && x.rows.op.dpl == 3);
    CHECK(x.rows.op.dphm == 15 && x.rows.op.rpdcr == 1 && x.rows.op.src == 15 && x.rows.op.dst == 15);
    CHECK(jp_is_0(x.rows.jp) && ldi_is_0(x.rows.ldi));
    x = bemulatsho_77c25_take_apart(0x403000);
    CHECK(x.refusal == 0 && x.rows.row == BEMULATSHO_ROW_RT && x.rows.op.dpl == 1 && x.rows.op.dphm == 8);

    /* A00400H jumps to 100H */
    x = bemulatsho_77c25_take_apart(0xA00400);
    CHECK(x.refusal == 0 && x.rows.row == BEMULATSHO_ROW_JP);
    CHECK(x.rows.jp.code == 0x100 && x.rows.jp.na == 0x100 && x.rows.jp.spare == 0);
    CHECK(op_is_0(x.rows.op) && ldi_is_0(x.rows.ldi));
    x = bemulatsho_77c25_take_apart(0xBFFFFF);
    CHECK(x.rows.jp.code == 511 && x.rows.jp.na == 2047 && x.rows.jp.spare == 3);

    /* C48D01H loads A with 1234H */
    x = bemulatsho_77c25_take_apart(0xC48D01);
    CHECK(x.refusal == 0 && x.rows.row == BEMULATSHO_ROW_LDI);
    CHECK(x.rows.ldi.id == 0x1234 && x.rows.ldi.spare == 0 && x.rows.ldi.dst == 1);
    CHECK(op_is_0(x.rows.op) && jp_is_0(x.rows.jp));

    /* 2^24 is no word: an OP word's fields, all 0 */
    x = bemulatsho_77c25_take_apart(BEMULATSHO_77C25_WORD_LIMIT);
    CHECK(x.refusal == BEMULATSHO_REFUSED_WORD && x.rows.row == BEMULATSHO_ROW_OP);
    CHECK(op_is_0(x.rows.op) && jp_is_0(x.rows.jp) && ldi_is_0(x.rows.ldi));
    CHECK(bemulatsho_77c25_take_apart(0xFFFFFF).refusal == 0);
    CHECK(bemulatsho_77c25_take_apart(0xFFFFFFFF).refusal == 4);
}

static void build(void)
{
    static const uint32_t words[] = {0, 0x3FFFFF, 0x7FFFFF, 0xA00400, 0xBFFFFF, 0xC48D01, 0xFFFFFF, 0x555555, 0xAAAAAA};
    for (size_t i = 0; i < sizeof words / sizeof *words; i++) {
        struct bemulatsho_built built = bemulatsho_77c25_build(bemulatsho_77c25_take_apart(words[i]).rows);
        CHECK(built.refusal == 0 && built.bits == words[i]);
    }

    /* fields of the other rows are not looked at */
    struct bemulatsho_77c25_rows rows = bemulatsho_77c25_take_apart(0xC48D01).rows;
    rows.jp.code = rows.jp.na = 0xFFFF;
    rows.op.alu = 0xFF;
    CHECK(bemulatsho_77c25_build(rows).bits == 0xC48D01);

    /* one more than the widest of each field that has another width here, and a row 4 */
    struct bemulatsho_77c25_rows op = bemulatsho_77c25_take_apart(0).rows, jp = bemulatsho_77c25_take_apart(0xA00400).rows;
    struct bemulatsho_77c25_rows wide[] = {rows, jp, jp, jp, op, op};
    wide[0].ldi.spare = 4;
    wide[1].jp.code = 512;
    wide[2].jp.na = 2048;
    wide[3].jp.spare = 4;
    wide[4].op.dphm = 16;
    wide[5].row = 4;
    for (size_t i = 0; i < sizeof wide / sizeof *wide; i++) {
        struct bemulatsho_built built = bemulatsho_77c25_build(wide[i]);
        CHECK(built.refusal == BEMULATSHO_REFUSED_FIELD && built.bits == 0);
    }
}

/* ---- words run */

static void run(void)
{
    /* LDI A 1234H, a call of 7FFH, a return from there: three words, and the fourth is the one called from */
    struct machine m = lend_machine();
    m.program[0] = 0xC48D01;
    m.program[1] = 0xA81FFC;
    m.program[0x7FF] = 0x400000;
    REPLY(call(m, BEMULATSHO_EVENT_RUN, 2), 0, 2, 0);
    CHECK(m.registers->a == 0x1234 && m.registers->pc == 0x7FF && m.registers->stack0 == 2 && m.registers->depth == 1);
    REPLY(call(m, BEMULATSHO_EVENT_RUN, 2), 0, 2, 0);
    CHECK(m.registers->pc == 3 && m.registers->depth == 0);

    /* PC goes round from 2047, RP from 0 to 1023 */
    m.registers->pc = 0x7FF;
    DONE(m, 0x000100);
    CHECK(m.registers->pc == 0 && m.registers->rp == 1023);

    /* nothing goes round at the smaller chip's ends */
    m.registers->pc = 511;
    m.registers->rp = 512;
    DONE(m, 0x000100);
    CHECK(m.registers->pc == 512 && m.registers->rp == 511);

    /* DP and RP take the low 8 and 10 bits */
    DONE(m, 0xFFFFC4);
    DONE(m, 0xFFFFC5);
    CHECK(m.registers->dp == 0xFF && m.registers->rp == 0x3FF);

    /* DP 0FH, up, DPH-M 8: 80H */
    m.registers->dp = 0x0F;
    DONE(m, 0x003000);
    CHECK(m.registers->dp == 0x80);
    give_back(m);
}

/* TRB: loaded by LDI, moved to A and from B; a reset leaves it, and it may hold anything. */
static void trb(void)
{
    struct machine m = lend_machine();
    DONE(m, 0xC48D0E);
    CHECK(m.record->trb == 0x1234 && m.registers->a == 0);
    DONE(m, 0x000001);
    CHECK(m.registers->a == 0x1234 && m.record->trb == 0x1234);
    m.registers->b = 0xFFFF;
    DONE(m, 0x00002E);
    CHECK(m.record->trb == 0xFFFF);

    /* added to A by the bus */
    DONE(m, 0x150000);
    CHECK(m.registers->a == 0x1233);
    REPLY(call(m, BEMULATSHO_EVENT_RESET, 0), 0, 0, 0);
    CHECK(m.record->trb == 0xFFFF && m.registers->a == 0x1233 && m.registers->pc == 0);
    give_back(m);
}

static void ram_and_rom(void)
{
    struct machine m = lend_machine();
    m.registers->dp = 0x85;
    m.registers->rp = 0x3FF;

    /* RO to A: the cell as it is */
    DONE(m, 0x000061);
    CHECK(m.registers->a == 0x83FF);

    /* KLR from MEM: K is the RAM cell at DP, L the data ROM cell */
    DONE(m, 0x0000FB);
    CHECK(m.registers->k == 0x8085 && m.registers->l == 0x83FF);

    /* KLM from MEM: L is the RAM cell at DP, K the one at C5H: bit 6 set and bit 7 kept */
    DONE(m, 0x0000FC);
    CHECK(m.registers->l == 0x8085 && m.registers->k == 0x80C5);
    give_back(m);
}

/* JDPL0, JDPLN0, JDPLF and JDPLNF to 100H. */
static void low_dp(void)
{
    static const struct {
        uint32_t word;
        uint16_t dp;
        uint16_t pc;
    } jumps[] = {
        {0x960400, 0x30, 0x100}, {0x960400, 0x31, 1}, {0x962400, 0x30, 1}, {0x962400, 0x31, 0x100},
        {0x964400, 0x3F, 0x100}, {0x964400, 0x30, 1}, {0x966400, 0x3F, 1}, {0x966400, 0x30, 0x100},
    };
    for (size_t i = 0; i < sizeof jumps / sizeof *jumps; i++) {
        struct machine m = lend_machine();
        m.registers->dp = jumps[i].dp;
        DONE(m, jumps[i].word);
        CHECK(m.registers->pc == jumps[i].pc);
        give_back(m);
    }
}

/* ---- refused calls */

static void lengths(void)
{
    static const size_t wrong[][3] = {
        {2047, 1024, 256}, {2049, 1024, 256}, {0, 1024, 256}, {2048, 1023, 256}, {2048, 1025, 256}, {2048, 0, 256},
        {2048, 1024, 255}, {2048, 1024, 257}, {2048, 1024, 0}, {512, 512, 128},  {0, 0, 0},
    };
    for (size_t i = 0; i < sizeof wrong / sizeof *wrong; i++) {
        struct machine m = lend_lengths(wrong[i][0], wrong[i][1], wrong[i][2]);
        check_wrong_length(m, __LINE__);
        give_back(m);
    }
}

static void registers_that_do_not_fit(void)
{
    struct machine m = lend_machine();
    check_registers(m, 2048, 1024, 256, __LINE__);
    give_back(m);
}

static void words_refused(void)
{
    struct machine m = lend_machine();

    /* 4: 2^24 */
    m.program[0] = BEMULATSHO_77C25_WORD_LIMIT;
    REFUSED(m, BEMULATSHO_EVENT_RUN, 1, BEMULATSHO_REFUSED_WORD);

    /* 5: a jump and a call with a bit of a condition set, JNCA turned round, BRCH 000; before 18 */
    NOT_RUN(m, 0xA02000, BEMULATSHO_REFUSED_BRANCH);
    NOT_RUN(m, 0xA82000, 5);
    NOT_RUN(m, 0x902000, 5);
    NOT_RUN(m, 0x800000, 5);
    NOT_RUN(m, 0xA02003, 5);

    /* 18: spare bits of a jump, a call, a jump on a condition, and LDI */
    NOT_RUN(m, 0xA00401, BEMULATSHO_REFUSED_UNUSED);
    NOT_RUN(m, 0xA80402, 18);
    NOT_RUN(m, 0x962403, 18);
    NOT_RUN(m, 0xC48D11, 18);
    NOT_RUN(m, 0xC48D21, 18);

    /* what 6 and 7 refuse on the smaller chip is done */
    DONE(m, 0x000001);
    DONE(m, 0x150000);
    DONE(m, 0x000061);
    DONE(m, 0x00001B);
    DONE(m, 0xC0000B);
    give_back(m);
}

int main(void)
{
    fresh_registers();
    take_apart();
    build();
    run();
    trb();
    ram_and_rom();
    low_dp();
    lengths();
    registers_that_do_not_fit();
    words_refused();
    printf("%u checks\n", checks);
    return 0;
}
