/*
 * Every function of the machine and of words, called from C11 and, by the same text, from C++17; the
 * numbers are those of the rules (01 and 02). The first check that fails ends the program with status 1.
 */
#include "bemulatsho.h"

#include "answers.h"
#include "checks.h"
#include "limits.h"
#include "machine.h"

/* ---- what is lent */

static struct machine lend_machine(void)
{
    return lend_77p20(512, 512, 128);
}

/* Every register at a value of its own, so that a change of any shows. */
static void fill_registers(struct bemulatsho_registers *r)
{
    struct bemulatsho_flags set;
    set.s1 = set.s0 = set.c = set.z = set.ov1 = set.ov0 = true;
    r->pc = 0x1FF;
    r->stack0 = 0x101;
    r->stack1 = 0x102;
    r->stack2 = 0x103;
    r->stack3 = 0x104;
    r->flags.a = set;
    r->flags.b = set;
    r->si = 0x5151;
    r->siack = true;
    r->depth = 2;
    r->a = 0x0A0A;
    r->b = 0x0B0B;
    r->k = 0x2222;
    r->l = 0x3333;
    r->tr = 0x4444;
    r->dr = 0x1234;
    r->so = 0x5050;
    r->dp = 0x7F;
    r->rp = 0x1FE;
    r->sr = BEMULATSHO_SR_USF1 | BEMULATSHO_SR_P0;
    r->soack = true;
    r->sorq = true;
}

static void fill_ram(struct machine m)
{
    for (size_t i = 0; i < m.ram_length; i++)
        m.ram[i] = (uint16_t)(0x7700 + i);
}

/* ---- version, fresh registers */

static void version(void)
{
    CHECK(bemulatsho_version() == 3);
    CHECK(bemulatsho_version() == BEMULATSHO_VERSION);
}

static void fresh_registers(void)
{
    struct bemulatsho_registers zero, fresh = bemulatsho_fresh_registers();
    memset(&zero, 0, sizeof zero);
    CHECK(same_registers(&fresh, &zero));
}

/* ---- words taken apart and built */

static bool jp_is_0(struct bemulatsho_jp_fields f)
{
    return f.brch == 0 && f.cnd == 0 && f.na == 0 && f.spare == 0;
}

static void take_apart(void)
{
    /* case 2: 501000H jumps to 100H */
    struct bemulatsho_taken_rows x = bemulatsho_take_apart(0x501000);
    CHECK(x.refusal == 0);
    CHECK(x.rows.row == BEMULATSHO_ROW_JP);
    CHECK(x.rows.jp.brch == 4 && x.rows.jp.cnd == 0 && x.rows.jp.na == 0x100 && x.rows.jp.spare == 0);
    CHECK(op_is_0(x.rows.op) && ldi_is_0(x.rows.ldi));

    /* case 2: 624681H loads A with 1234H */
    x = bemulatsho_take_apart(0x624681);
    CHECK(x.refusal == 0);
    CHECK(x.rows.row == BEMULATSHO_ROW_LDI);
    CHECK(x.rows.ldi.id == 0x1234 && x.rows.ldi.spare == 0 && x.rows.ldi.dst == 1);
    CHECK(op_is_0(x.rows.op) && jp_is_0(x.rows.jp));

    /* case 10: ADD (5), P-select M (2), A */
    x = bemulatsho_take_apart(0x128000);
    CHECK(x.refusal == 0);
    CHECK(x.rows.row == BEMULATSHO_ROW_OP);
    CHECK(x.rows.op.psel == 2 && x.rows.op.alu == 5 && x.rows.op.asl == 0 && x.rows.op.src == 0 && x.rows.op.dst == 0);

    /* every bit of an RT word, each field at its widest */
    x = bemulatsho_take_apart(0x3FFFFF);
    CHECK(x.rows.row == BEMULATSHO_ROW_RT);
    CHECK(x.rows.op.psel == 3 && x.rows.op.alu == 15 && x.rows.op.asl == 1 && x.rows.op.dpl == 3);
    CHECK(x.rows.op.dphm == 7 && x.rows.op.rpdcr == 1 && x.rows.op.src == 15 && x.rows.op.dst == 15);
    CHECK(jp_is_0(x.rows.jp) && ldi_is_0(x.rows.ldi));

    /* 2^23 is no word: an OP word's fields, all 0 */
    x = bemulatsho_take_apart(BEMULATSHO_WORD_LIMIT);
    CHECK(x.refusal == BEMULATSHO_REFUSED_WORD);
    CHECK(x.rows.row == BEMULATSHO_ROW_OP);
    CHECK(op_is_0(x.rows.op) && jp_is_0(x.rows.jp) && ldi_is_0(x.rows.ldi));
    CHECK(bemulatsho_take_apart(0x7FFFFF).refusal == 0);
    CHECK(bemulatsho_take_apart(0xFFFFFFFF).refusal == 4);
}

static void check_built_again(uint32_t word, int line)
{
    struct bemulatsho_built built = bemulatsho_build(bemulatsho_take_apart(word).rows);
    check(built.refusal == 0, "a word's own fields are not too wide", line);
    check(built.bits == word, "built again it is the same word", line);
}

static void build(void)
{
    static const uint32_t words[] = {0, 0x501000, 0x624681, 0x128000, 0x1FFFFF, 0x3FFFFF, 0x5FFFFF, 0x7FFFFF, 0x2AAAAA};
    for (size_t i = 0; i < sizeof words / sizeof *words; i++)
        check_built_again(words[i], __LINE__);

    /* from fields written down */
    struct bemulatsho_rows rows;
    memset(&rows, 0, sizeof rows);
    rows.row = BEMULATSHO_ROW_LDI;
    rows.ldi.id = 0x1234;
    rows.ldi.dst = 1;
    CHECK(bemulatsho_build(rows).refusal == 0);
    CHECK(bemulatsho_build(rows).bits == 0x624681);

    /* fields of the other rows are not looked at */
    rows.jp.na = 0xFFFF;
    rows.op.alu = 0xFF;
    CHECK(bemulatsho_build(rows).bits == 0x624681);

    /* too wide: refusal 11 with word 0 */
    rows.ldi.dst = 16;
    CHECK(bemulatsho_build(rows).refusal == BEMULATSHO_REFUSED_FIELD);
    CHECK(bemulatsho_build(rows).bits == 0);
    rows = bemulatsho_take_apart(0x501000).rows;
    rows.jp.na = 512;
    CHECK(bemulatsho_build(rows).refusal == 11);
    CHECK(bemulatsho_build(rows).bits == 0);
    rows = bemulatsho_take_apart(0x128000).rows;
    rows.op.asl = 2;
    CHECK(bemulatsho_build(rows).refusal == 11);
    CHECK(bemulatsho_build(rows).bits == 0);

    /* there is no row 4 */
    rows = bemulatsho_take_apart(0x128000).rows;
    rows.row = 4;
    CHECK(bemulatsho_build(rows).refusal == 11);
    CHECK(bemulatsho_build(rows).bits == 0);
}

/* ---- words run */

static void word_0(void)
{
    /* case 1: of RAM and registers, word 0 changes PC only */
    struct machine m = lend_machine();
    fill_registers(m.registers);
    fill_ram(m);
    struct state expected = state_of(m);
    expected.registers.pc = 0; /* "511 to 0" */
    REPLY(call(m, BEMULATSHO_EVENT_RUN, 1), BEMULATSHO_DONE, 1, 0);
    CHECK(same_state(m, &expected));
    expected.registers.pc = 3;
    REPLY(call(m, BEMULATSHO_EVENT_RUN, 3), 0, 3, 0);
    CHECK(same_state(m, &expected));

    /* no word at all, and as many as there can be: 65535 = 127 * 512 + 511 */
    REPLY(call(m, BEMULATSHO_EVENT_RUN, 0), 0, 0, 0);
    CHECK(same_state(m, &expected));
    REPLY(call(m, BEMULATSHO_EVENT_RUN, 65535), 0, 65535, 0);
    expected.registers.pc = 2;
    CHECK(same_state(m, &expected));
    free(expected.ram);
    give_back(m);
}

static void run_of_0_words(void)
{
    /* no word is looked at, not even one that would be refused; lengths and record are tested all the same */
    struct machine m = lend_machine();
    fill_registers(m.registers);
    fill_ram(m);
    m.program[m.registers->pc] = BEMULATSHO_WORD_LIMIT;
    struct state expected = state_of(m);
    REPLY(call(m, BEMULATSHO_EVENT_RUN, 0), BEMULATSHO_DONE, 0, 0);
    CHECK(same_state(m, &expected));
    REFUSED(m, BEMULATSHO_EVENT_RUN, 1, BEMULATSHO_REFUSED_WORD);
    m.registers->pc = 512;
    REFUSED(m, BEMULATSHO_EVENT_RUN, 0, BEMULATSHO_REFUSED_REGISTERS);
    free(expected.ram);
    give_back(m);
}

static void jump_and_load(void)
{
    /* case 2 */
    struct machine m = lend_machine();
    m.program[0] = 0x501000;
    m.program[0x100] = 0x624681;
    struct state expected = state_of(m);
    REPLY(call(m, BEMULATSHO_EVENT_RUN, 1), 0, 1, 0);
    expected.registers.pc = 0x100;
    CHECK(same_state(m, &expected));
    REPLY(call(m, BEMULATSHO_EVENT_RUN, 1), 0, 1, 0);
    expected.registers.pc = 0x101;
    expected.registers.a = 0x1234;
    CHECK(same_state(m, &expected));
    free(expected.ram);
    give_back(m);
}

static void three_adds(void)
{
    /* case 10: OV1 0, A = 0, three adds with K = FFFFH, L = 1: A = FFFDH */
    struct machine m = lend_machine();
    m.program[0] = m.program[1] = m.program[2] = 0x128000;
    m.registers->k = 0xFFFF;
    m.registers->l = 1;
    struct state expected = state_of(m);
    REPLY(call(m, BEMULATSHO_EVENT_RUN, 3), 0, 3, 0);
    expected.registers.pc = 3;
    expected.registers.a = 0xFFFD;
    expected.registers.flags.a.s1 = true;
    expected.registers.flags.a.s0 = true;
    expected.registers.flags.a.c = true;
    CHECK(same_state(m, &expected));
    free(expected.ram);
    give_back(m);
}

static void sum_out_of_range(void)
{
    /* case 4, the operand on the bus from TR: ADD, P-select bus, SRC TR */
    struct machine m = lend_machine();
    m.program[0] = m.program[1] = 0x0A8030;
    m.registers->a = 0x7FFF;
    m.registers->tr = 0x7FFF;
    REPLY(call(m, BEMULATSHO_EVENT_RUN, 1), 0, 1, 0);
    CHECK(m.registers->a == 0xFFFE && !m.registers->flags.a.c);
    CHECK(m.registers->flags.a.ov1 && m.registers->flags.a.s1);
    m.registers->tr = 0x8000;
    REPLY(call(m, BEMULATSHO_EVENT_RUN, 1), 0, 1, 0);
    CHECK(m.registers->a == 0x7FFE && m.registers->flags.a.c);
    CHECK(!m.registers->flags.a.ov1 && m.registers->flags.a.s1);
    give_back(m);
}

static void ram_and_rom(void)
{
    /* the last data ROM cell to the last RAM cell: SRC RO (6), DST MEM (15); "RO is the cell times 8" */
    struct machine m = lend_machine();
    m.program[511] = 0x00006F;
    m.rom[511] = 8191;
    m.registers->pc = 511;
    m.registers->rp = 511;
    m.registers->dp = 127;
    REPLY(call(m, BEMULATSHO_EVENT_RUN, 1), 0, 1, 0);
    CHECK(m.ram[127] == 0xFFF8);
    CHECK(m.ram[126] == 0);
    CHECK(m.registers->pc == 0);
    give_back(m);
}

/* ---- the host */

static void host_reads(void)
{
    /* case 9: DR 1234H, DRC 0, DRS 0: the host reads 34H, then 12H */
    struct machine m = lend_machine();
    m.registers->dr = 0x1234;
    m.registers->sr = BEMULATSHO_SR_RQM;
    struct state expected = state_of(m);
    REPLY(call(m, BEMULATSHO_EVENT_HOST_READ, 0), 0, 0, 0x34);
    expected.registers.sr = BEMULATSHO_SR_RQM | BEMULATSHO_SR_DRS;
    CHECK(same_state(m, &expected));
    REPLY(call(m, BEMULATSHO_EVENT_HOST_READ, 0), 0, 0, 0x12);
    expected.registers.sr = 0;
    CHECK(same_state(m, &expected));

    /* with DRC 1 the low byte only, and RQM cleared, while DRS stays */
    m.registers->sr = BEMULATSHO_SR_RQM | BEMULATSHO_SR_DRS | BEMULATSHO_SR_DRC;
    REPLY(call(m, BEMULATSHO_EVENT_HOST_READ, 0), 0, 0, 0x34);
    expected.registers.sr = BEMULATSHO_SR_DRS | BEMULATSHO_SR_DRC;
    CHECK(same_state(m, &expected));
    free(expected.ram);
    give_back(m);
}

static void host_writes(void)
{
    struct machine m = lend_machine();
    m.registers->dr = 0xAAAA;
    m.registers->sr = BEMULATSHO_SR_RQM;
    struct state expected = state_of(m);
    REPLY(call(m, BEMULATSHO_EVENT_HOST_WRITE, 0x34), 0, 0, 0);
    expected.registers.dr = 0xAA34;
    expected.registers.sr = BEMULATSHO_SR_RQM | BEMULATSHO_SR_DRS;
    CHECK(same_state(m, &expected));
    REPLY(call(m, BEMULATSHO_EVENT_HOST_WRITE, 0x12), 0, 0, 0);
    expected.registers.dr = 0x1234;
    expected.registers.sr = 0;
    CHECK(same_state(m, &expected));
    free(expected.ram);
    give_back(m);
}

static void host_reads_status(void)
{
    struct machine m = lend_machine();
    m.registers->sr = 0xFF83;
    struct state expected = state_of(m);
    REPLY(call(m, BEMULATSHO_EVENT_HOST_STATUS, 0), 0, 0, 0xFF);
    m.registers->sr = expected.registers.sr = BEMULATSHO_SR_RQM | BEMULATSHO_SR_DRS | BEMULATSHO_SR_DRC | BEMULATSHO_SR_EI;
    REPLY(call(m, BEMULATSHO_EVENT_HOST_STATUS, 0), 0, 0, 0x94);
    CHECK(same_state(m, &expected));
    free(expected.ram);
    give_back(m);
}

/* ---- serial words, interrupt, reset */

static void serial_in(void)
{
    struct machine m = lend_machine();
    struct state expected = state_of(m);
    REPLY(call(m, BEMULATSHO_EVENT_SERIAL_IN, 0xFFFE), 0, 0, 0);
    expected.registers.si = 0xFFFE;
    expected.registers.siack = true;
    CHECK(same_state(m, &expected));
    free(expected.ram);
    give_back(m);
}

static void signed_samples(void)
{
    /* (uint16_t) on the way in, (int16_t) on the way out; in between SRC SIM (11), DST SOM (9) */
    static const int16_t samples[] = {-32768, -2, -1, 0, 1, 32767};
    static const uint16_t words[] = {0x8000, 0xFFFE, 0xFFFF, 0, 1, 0x7FFF};
    struct machine m = lend_machine();
    for (size_t i = 0; i < BEMULATSHO_WORDS; i++)
        m.program[i] = 0x0000B9;
    for (size_t i = 0; i < sizeof samples / sizeof *samples; i++) {
        int16_t sample = samples[i];
        REPLY(call(m, BEMULATSHO_EVENT_SERIAL_IN, (uint16_t)sample), 0, 0, 0);
        CHECK(m.registers->si == words[i] && m.registers->siack);
        REPLY(call(m, BEMULATSHO_EVENT_RUN, 1), 0, 1, 0);
        struct bemulatsho_reply reply = call(m, BEMULATSHO_EVENT_SERIAL_OUT, 0);
        REPLY(reply, 0, 0, words[i]);
        CHECK((int16_t)reply.value == sample);

        /* widened without the cast: a negative one is FFFF8000H or more */
        if (sample < 0)
            REFUSED(m, BEMULATSHO_EVENT_SERIAL_IN, (uint32_t)sample, BEMULATSHO_REFUSED_EVENT);
    }
    give_back(m);
}

static void serial_out(void)
{
    /* nothing to send, then a word from A: SRC A (1), DST SOM (9) */
    struct machine m = lend_machine();
    REFUSED(m, BEMULATSHO_EVENT_SERIAL_OUT, 0, BEMULATSHO_REFUSED_SERIAL);
    m.program[0] = 0x000019;
    m.registers->a = 0x9ABC;
    m.registers->soack = true;
    struct state expected = state_of(m);
    REPLY(call(m, BEMULATSHO_EVENT_RUN, 1), 0, 1, 0);
    expected.registers.pc = 1;
    expected.registers.so = 0x9ABC;
    expected.registers.sorq = true;
    expected.registers.soack = false;
    CHECK(same_state(m, &expected));
    REPLY(call(m, BEMULATSHO_EVENT_SERIAL_OUT, 0), 0, 0, 0x9ABC);
    expected.registers.sorq = false;
    expected.registers.soack = true;
    CHECK(same_state(m, &expected));
    REFUSED(m, BEMULATSHO_EVENT_SERIAL_OUT, 0, 10);
    free(expected.ram);
    give_back(m);
}

static void interrupt(void)
{
    struct machine m = lend_machine();
    fill_registers(m.registers);
    struct state expected = state_of(m);

    /* EI 0: nothing, and no words */
    REPLY(call(m, BEMULATSHO_EVENT_INTERRUPT, 0), 0, 0, 0);
    CHECK(same_state(m, &expected));

    /* EI 1: push PC, go to 100H, clear EI; the depth was 2; two words */
    m.registers->sr |= BEMULATSHO_SR_EI;
    REPLY(call(m, BEMULATSHO_EVENT_INTERRUPT, 0), 0, 2, 0);
    expected.registers.stack2 = 0x1FF;
    expected.registers.depth = 3;
    expected.registers.pc = 0x100;
    CHECK(same_state(m, &expected));

    /* a second edge is ignored, and a run counts only the words that it fetches */
    REPLY(call(m, BEMULATSHO_EVENT_INTERRUPT, 0), 0, 0, 0);
    REPLY(call(m, BEMULATSHO_EVENT_RUN, 0), 0, 0, 0);
    CHECK(same_state(m, &expected));
    REPLY(call(m, BEMULATSHO_EVENT_RUN, 3), 0, 3, 0);
    CHECK(m.registers->pc == 0x103);

    /* EI 1 at depth 4: refused, without words */
    m.registers->sr |= BEMULATSHO_SR_EI;
    m.registers->depth = BEMULATSHO_STACK;
    REFUSED(m, BEMULATSHO_EVENT_INTERRUPT, 0, BEMULATSHO_REFUSED_PUSH);
    free(expected.ram);
    give_back(m);
}

static void reset(void)
{
    /* PC, depth, flags, SR, SORQ, SIACK, SOACK to 0 */
    struct machine m = lend_machine();
    fill_registers(m.registers);
    fill_ram(m);
    struct state expected = state_of(m);
    expected.registers.pc = 0;
    expected.registers.depth = 0;
    memset(&expected.registers.flags, 0, sizeof expected.registers.flags);
    expected.registers.sr = 0;
    expected.registers.sorq = false;
    expected.registers.siack = false;
    expected.registers.soack = false;
    REPLY(call(m, BEMULATSHO_EVENT_RESET, 0), 0, 0, 0);
    CHECK(same_state(m, &expected));
    free(expected.ram);
    give_back(m);
}

/* ---- refused calls */

static void lengths(void)
{
    static const size_t wrong[][3] = {
        {511, 512, 128}, {513, 512, 128}, {0, 512, 128}, {512, 511, 128}, {512, 513, 128}, {512, 0, 128},
        {512, 512, 127}, {512, 512, 129}, {512, 512, 0}, {0, 0, 0},
    };
    for (size_t i = 0; i < sizeof wrong / sizeof *wrong; i++) {
        struct machine m = lend_77p20(wrong[i][0], wrong[i][1], wrong[i][2]);
        fill_registers(m.registers);
        fill_ram(m);
        check_wrong_length(m, __LINE__);
        give_back(m);
    }
}

static void registers_that_do_not_fit(void)
{
    struct machine m = lend_machine();
    check_registers(m, 512, 512, 128, __LINE__);
    give_back(m);
}

static void events_not_allowed(void)
{
    struct machine m = lend_machine();
    fill_registers(m.registers);
    fill_ram(m);
    REFUSED(m, 8, 0, BEMULATSHO_REFUSED_EVENT);
    REFUSED(m, 0xFFFFFFFF, 0, 3);
    REFUSED(m, BEMULATSHO_EVENT_RUN, 65536, 3);
    REFUSED(m, BEMULATSHO_EVENT_HOST_READ, 1, 3);
    REFUSED(m, BEMULATSHO_EVENT_HOST_WRITE, 256, 3);
    REFUSED(m, BEMULATSHO_EVENT_HOST_STATUS, 1, 3);
    REFUSED(m, BEMULATSHO_EVENT_SERIAL_IN, 65536, 3);
    REFUSED(m, BEMULATSHO_EVENT_SERIAL_OUT, 1, 3);
    REFUSED(m, BEMULATSHO_EVENT_INTERRUPT, 1, 3);
    REFUSED(m, BEMULATSHO_EVENT_RESET, 1, 3);
    give_back(m);
}

static void words_refused(void)
{
    struct machine m = lend_machine();

    /* 4: 2^23 */
    m.program[0] = BEMULATSHO_WORD_LIMIT;
    REFUSED(m, BEMULATSHO_EVENT_RUN, 1, BEMULATSHO_REFUSED_WORD);

    /* 5: a JP word with BRCH 000 */
    m.program[0] = 0x400000;
    REFUSED(m, BEMULATSHO_EVENT_RUN, 1, BEMULATSHO_REFUSED_BRANCH);

    /* 6: from no source to A; and ADD of the bus without a source */
    m.program[0] = 0x000001;
    REFUSED(m, BEMULATSHO_EVENT_RUN, 1, BEMULATSHO_REFUSED_SOURCE);
    m.program[0] = 0x0A8000;
    REFUSED(m, BEMULATSHO_EVENT_RUN, 1, 6);

    /* 7: SRC RO, DST KLR, and LDI to KLR, at a cell of 8192 */
    m.rom[0] = BEMULATSHO_CELL_LIMIT;
    m.program[0] = 0x000061;
    REFUSED(m, BEMULATSHO_EVENT_RUN, 1, BEMULATSHO_REFUSED_CELL);
    m.program[0] = 0x00001B;
    REFUSED(m, BEMULATSHO_EVENT_RUN, 1, 7);
    m.program[0] = 0x60000B;
    REFUSED(m, BEMULATSHO_EVENT_RUN, 1, 7);

    /* 8: RT at depth 0; 6 comes before 8 */
    m.program[0] = 0x200000;
    REFUSED(m, BEMULATSHO_EVENT_RUN, 1, BEMULATSHO_REFUSED_RETURN);
    m.program[0] = 0x200001;
    REFUSED(m, BEMULATSHO_EVENT_RUN, 1, 6);

    /* 9: a call at depth 4; the four calls before it are done */
    m.program[0] = 0x540000;
    REPLY(call(m, BEMULATSHO_EVENT_RUN, 5), 9, 4, 0);
    CHECK(m.registers->depth == 4 && m.registers->pc == 0);
    CHECK(m.registers->stack0 == 1 && m.registers->stack3 == 1);
    REFUSED(m, BEMULATSHO_EVENT_RUN, 1, BEMULATSHO_REFUSED_PUSH);
    give_back(m);
}

/* 18: unused bits set. Run, each is refused and changes nothing; taken apart and built it is the same word. */
static void unused_bits(void)
{
    static const uint32_t words[] = {
        0x501001, 0x501008, 0x502000, 0x520000, 0x53F00F, /* a jump: spare bits, CND, both */
        0x540001, 0x548000,                               /* a call */
        0x480002, 0x4BF004,                               /* a jump on CND: the spare bits alone */
        0x624691, 0x7FFFFF,                               /* LDI: D4 */
    };
    struct machine m = lend_machine();
    fill_registers(m.registers);
    fill_ram(m);
    for (size_t i = 0; i < sizeof words / sizeof *words; i++) {
        m.program[m.registers->pc] = words[i];
        REFUSED(m, BEMULATSHO_EVENT_RUN, 1, BEMULATSHO_REFUSED_UNUSED);
        REFUSED(m, BEMULATSHO_EVENT_RUN, 65535, 18);
        check_built_again(words[i], __LINE__);
    }

    /* after 4 and 5 */
    m.program[m.registers->pc] = 0xD01001;
    REFUSED(m, BEMULATSHO_EVENT_RUN, 1, 4);
    m.program[m.registers->pc] = 0x402001;
    REFUSED(m, BEMULATSHO_EVENT_RUN, 1, 5);

    /* before 7: LDI to KLR at a cell of 8192; before 9: a call at depth 4 */
    m.rom[m.registers->rp] = BEMULATSHO_CELL_LIMIT;
    m.program[m.registers->pc] = 0x60001B;
    REFUSED(m, BEMULATSHO_EVENT_RUN, 1, 18);
    m.registers->depth = 4;
    m.program[m.registers->pc] = 0x542000;
    REFUSED(m, BEMULATSHO_EVENT_RUN, 1, 18);

    /* the same words without them run, or meet what stands behind 18 */
    m.program[m.registers->pc] = 0x540000;
    REFUSED(m, BEMULATSHO_EVENT_RUN, 1, 9);
    m.program[m.registers->pc] = 0x60000B;
    REFUSED(m, BEMULATSHO_EVENT_RUN, 1, 7);
    m.program[m.registers->pc] = 0x501000;
    REPLY(call(m, BEMULATSHO_EVENT_RUN, 1), 0, 1, 0);
    CHECK(m.registers->pc == 0x100);
    give_back(m);
}

static void run_stopped(void)
{
    /* LDI A 1234H, LDI MEM 5678H, then a word without a source: two words are done and stay done */
    struct machine m = lend_machine();
    fill_registers(m.registers);
    fill_ram(m);
    m.registers->pc = 0;
    m.program[0] = 0x624681;
    m.program[1] = 0x6ACF0F;
    m.program[2] = 0x000001;
    struct state expected = state_of(m);
    REPLY(call(m, BEMULATSHO_EVENT_RUN, 100), BEMULATSHO_REFUSED_SOURCE, 2, 0);
    expected.registers.pc = 2;
    expected.registers.a = 0x1234;
    expected.ram[0x7F] = 0x5678;
    CHECK(same_state(m, &expected));

    /* and again: none is done, nothing moves */
    REFUSED(m, BEMULATSHO_EVENT_RUN, 100, 6);
    CHECK(same_state(m, &expected));
    free(expected.ram);
    give_back(m);
}

int main(void)
{
    version();
    fresh_registers();
    take_apart();
    build();
    word_0();
    run_of_0_words();
    jump_and_load();
    three_adds();
    sum_out_of_range();
    ram_and_rom();
    host_reads();
    host_writes();
    host_reads_status();
    serial_in();
    signed_samples();
    serial_out();
    interrupt();
    reset();
    lengths();
    registers_that_do_not_fit();
    events_not_allowed();
    words_refused();
    unused_bits();
    run_stopped();
    printf("%u checks\n", checks);
    return 0;
}
