/*
 * bemulatsho.h: a software copy of NEC's uPD7720A / uPD77P20 signal processor, and of its
 * larger sister, the uPD77C25.
 *
 * Link with libbemulatsho.a: x86-64, System V calling convention, C11 or C++17.
 *
 * The caller owns the machine: a record of registers, a RAM, a program and a data ROM.
 * Each call lends them to the library for one event: so many words to run, a byte that
 * the host reads or writes, a serial word, an interrupt, a reset.
 *
 *     static uint32_t program[BEMULATSHO_WORDS]; // from a text: bemulatsho_load_program
 *     static uint16_t rom[BEMULATSHO_CELLS];     // from a text: bemulatsho_load_data
 *     static uint16_t ram[BEMULATSHO_RAM];       // a preset: bemulatsho_load_preset
 *     static struct bemulatsho_registers registers;
 *
 *     static struct bemulatsho_reply give(uint32_t kind, uint32_t value)
 *     {
 *         struct bemulatsho_event event;
 *         event.kind = kind;
 *         event.value = value;
 *         return bemulatsho_event_in_place(&registers, program, BEMULATSHO_WORDS, rom,
 *                                          BEMULATSHO_CELLS, ram, BEMULATSHO_RAM, event);
 *     }
 *
 *     registers = bemulatsho_fresh_registers();
 *     int16_t sample = -8192;
 *     struct bemulatsho_reply reply = give(BEMULATSHO_EVENT_SERIAL_IN, (uint16_t)sample);
 *     if (reply.number != BEMULATSHO_DONE) {
 *         ...                                    // and so after every event
 *     }
 *     reply = give(BEMULATSHO_EVENT_RUN, 5);     // as many words as the program needs
 *     reply = give(BEMULATSHO_EVENT_SERIAL_OUT, 0);
 *     int16_t sent = (int16_t)reply.value;
 *
 * A sample is signed, the value of an event is not. A negative int16_t that is widened to
 * uint32_t without the cast is FFFF8000H or more, no longer 0 to 65535: refusal 3. On the
 * way out the cast gives the sign back; gcc and clang keep the 16 bits.
 *
 * Take the registers from bemulatsho_fresh_registers, and name the fields of a record, as
 * above: a later version may add fields.
 *
 * Every call is answered if the caller keeps the duties that stand at
 * bemulatsho_event_in_place and, for texts, at bemulatsho_load_program; what cannot be
 * done is refused by a number. "Refusal 2" is the number 2 of enum bemulatsho_number.
 * Numbers that end in H are hexadecimal. Bits count from 0, the lowest. A mark or flag is
 * 1 when its bool is true.
 *
 * All this is of the 77P20. The 77C25 has calls of its own, whose names begin with
 * bemulatsho_77c25; they take the same events and give the same numbers. What differs
 * there is said after its name, and where those calls stand.
 */
#ifndef BEMULATSHO_H
#define BEMULATSHO_H

#include <stdbool.h>
#include <stddef.h>
#include <stdint.h>

#ifdef __cplusplus
extern "C" {
#endif

/* ---- version */

/* The version that this header describes. It goes up when a caller has to change.
   2: an accepted interrupt has words 2 in its reply; in version 1 it had 0.
   3: a word with unused bits set is refused with 18 when it runs; before, it ran.
   What is only added does not raise it: the calls of the 77C25 came within 3. */
#define BEMULATSHO_VERSION 3u

/* The version of the library. Compare it with BEMULATSHO_VERSION once, at the start. */
uint32_t bemulatsho_version(void);

/* ---- sizes of the chip, unsigned (those of the 77C25 stand with its calls) */

#define BEMULATSHO_WORDS 512u           /* instruction words of a program */
#define BEMULATSHO_WORD_LIMIT 0x800000u /* a word has 23 bits: it is below this, 2^23 */
#define BEMULATSHO_CELLS 512u           /* data ROM cells; a masked part offers 510 */
#define BEMULATSHO_CELL_LIMIT 8192u     /* a cell has 13 bits: it is below this, 2^13 */
#define BEMULATSHO_CELL_UNIT 8u         /* a cell goes on the bus times this */
#define BEMULATSHO_RAM 128u             /* RAM cells, of 16 bits each */
#define BEMULATSHO_STACK 4u             /* stack cells */

/*
 * A program is an array of uint32_t, word n at place n, the word in the low 23 bits. A
 * data ROM is an array of uint16_t, the cell in the low 13 bits. A larger number may
 * stand in either; it is refused when it is used (refusals 4 and 7), and not before. So
 * is a word in which bits are set that its row does not use (refusal 18).
 *
 * A RAM is an array of uint16_t, cell n at place n. What it holds at the start is the
 * caller's choice, all 0 or a preset: the manual does not say what the chip's holds at
 * power-up. Only words with DST MEM change it; no event clears it, not even a reset.
 */

/* ---- registers */

/*
 * The flags of one accumulator, a bit each. A sum is one of SUB, ADD, SBB, ADC, DEC, INC.
 * ALU operation 0, and one whose accumulator is also the destination, leaves all six.
 */
struct bemulatsho_flags {
    bool s1;  /* S1: S0 after a sum, but as it was if OV1 was 1; S0 after the others */
    bool s0;  /* S0: the result's top bit */
    bool c;   /* C: carry or borrow of a sum; bit shifted out by SHR1, SHL1; else 0 */
    bool z;   /* Z: the result is 0 */
    bool ov1; /* OV1: after a sum OV0; but if it was 1 it stays 1, unless OV0 is 1 and S0
                 differs from S1: then 0. After the others 0. 1: a chain of sums is out
                 of range */
    bool ov0; /* OV0: the sum left -32768 to 32767; 0 after the others */
};

struct bemulatsho_both_flags {
    struct bemulatsho_flags a; /* the flags of A */
    struct bemulatsho_flags b; /* the flags of B */
};

/*
 * The machine record; that of the 77C25 has it within. The caller may read and set every
 * field between calls; a record that the chip could not hold is refused at the next call,
 * as said at each field. PC and the stack cells count words, DP points at RAM, RP at data
 * ROM.
 *
 * Take a record from bemulatsho_fresh_registers and set its fields by name; in C,
 * designated initialisers do as well, since what they do not name is 0. Never fill a
 * record by position: a later version may add fields or put them in another order. The
 * record has no padding: two may be compared by memcmp.
 */
struct bemulatsho_registers {
    uint16_t pc;     /* PC, 9 bits (77C25: 11): the word to run next. 512 or more (77C25:
                        2048 or more): refusal 2 */
    uint16_t stack0; /* stack cell 0, 9 bits (77C25: 11): where to return. 512 or more
                        (77C25: 2048 or more): refusal 2 */
    uint16_t stack1; /* stack cell 1, as wide. 512 (77C25: 2048) or more: refusal 2 */
    uint16_t stack2; /* stack cell 2, as wide. 512 (77C25: 2048) or more: refusal 2 */
    uint16_t stack3; /* stack cell 3, as wide. 512 (77C25: 2048) or more: refusal 2 */
    struct bemulatsho_both_flags flags; /* S1 S0 C Z OV1 OV0 for A and again for B */
    uint16_t si;     /* SI, 16 bits: the last serial word in */
    bool siack;      /* SIACK, 1 bit: a serial word is in and SIM, SIL have not read it */
    uint8_t depth;   /* stack depth, 0 to 4. A push writes the cell of this number and
                        raises it; a pop lowers it, takes the cell so numbered and leaves
                        it as it is. 5 or more: refusal 2 */
    uint16_t a;      /* A, 16 bits: accumulator */
    uint16_t b;      /* B, 16 bits: accumulator */
    uint16_t k;      /* K, 16 bits: multiplier input, signed */
    uint16_t l;      /* L, 16 bits: multiplier input, signed */
    uint16_t tr;     /* TR, 16 bits: temporary register */
    uint16_t dr;     /* DR, 16 bits: data register, between program and host */
    uint16_t so;     /* SO, 16 bits: the serial word out */
    uint16_t dp;     /* DP, 7 bits (77C25: 8): a RAM cell. 128 or more (77C25: 256 or
                        more): refusal 2 */
    uint16_t rp;     /* RP, 9 bits (77C25: 10): a data ROM cell. 512 or more (77C25: 1024
                        or more): refusal 2 */
    uint16_t sr;     /* SR, 16 bits: status. Bits 6 to 2 not 0: refusal 2 */
    bool soack;      /* SOACK, 1 bit: the serial word out was taken (the manual has the
                        opposite sense); cleared when a word stores SO */
    bool sorq;       /* SORQ, 1 bit: SO was stored and has not been taken */
};

/* The bits of SR. The host sees 15 to 8; a word that stores SR leaves 15, 12, 6 to 2. */
#define BEMULATSHO_SR_RQM 0x8000u    /* 15: a word read or stored DR, the host's turn */
#define BEMULATSHO_SR_USF1 0x4000u   /* 14: user flag, from program to host */
#define BEMULATSHO_SR_USF0 0x2000u   /* 13: user flag, from program to host */
#define BEMULATSHO_SR_DRS 0x1000u    /* 12: DR's low byte has gone, the high is next */
#define BEMULATSHO_SR_DMA 0x0800u    /* 11: stored, not acted on */
#define BEMULATSHO_SR_DRC 0x0400u    /* 10: the host moves DR's low byte only */
#define BEMULATSHO_SR_SOC 0x0200u    /* 9: stored, not acted on */
#define BEMULATSHO_SR_SIC 0x0100u    /* 8: stored, not acted on */
#define BEMULATSHO_SR_EI 0x0080u     /* 7: interrupts are taken */
#define BEMULATSHO_SR_P1 0x0002u     /* 1: output pin P1 */
#define BEMULATSHO_SR_P0 0x0001u     /* 0: output pin P0 */
#define BEMULATSHO_SR_UNUSED 0x007Cu /* 6 to 2: always 0. Not 0: refusal 2 */

/* A machine that has run nothing: every register, flag and mark 0. */
struct bemulatsho_registers bemulatsho_fresh_registers(void);

/* ---- events */

/* The kinds of an event. Any other kind, or a value not allowed here: refusal 3. */
enum bemulatsho_kind {
    /* value 0 to 65535: run value words from PC on, or those before the first that is
       refused. The reply's words says how many were finished. A run of 0 words looks at
       no word, changes nothing and is answered 0 with words 0. Lengths and record are
       tested as for every event (refusals 1 and 2): so a caller can ask whether a record
       is acceptable. */
    BEMULATSHO_EVENT_RUN = 0,
    /* value 0: host reads data. The reply's value is a byte of DR. With DRC 0 the low
       byte goes first (DRS 0) and sets DRS; the high byte (DRS 1) clears DRS and RQM.
       With DRC 1 the low byte only, and RQM cleared, while DRS stays. */
    BEMULATSHO_EVENT_HOST_READ = 1,
    /* value 0 to 255: host writes value into a byte of DR: which one, and what becomes of
       DRS and RQM, as when it reads. The other byte of DR stays. */
    BEMULATSHO_EVENT_HOST_WRITE = 2,
    /* value 0: host reads status: the high byte of SR is the reply's value. */
    BEMULATSHO_EVENT_HOST_STATUS = 3,
    /* value 0 to 65535: serial word in: SI takes the value, SIACK set. A word that was
       not read is lost. Give a signed sample as (uint16_t)sample. */
    BEMULATSHO_EVENT_SERIAL_IN = 4,
    /* value 0: serial word out: hands SO, clears SORQ, sets SOACK. SO is the reply's
       value; a signed sample is (int16_t) of it. SORQ 0: refusal 10. */
    BEMULATSHO_EVENT_SERIAL_OUT = 5,
    /* value 0: interrupt edge: if EI is 1, push PC, go to 100H, clear EI; if 0, nothing.
       An accepted interrupt makes the reply's words 2, for the NOP and the jump to 100H
       that the chip puts in; an ignored one (EI 0) has words 0. EI 1 at depth 4: refusal
       9, with words 0. */
    BEMULATSHO_EVENT_INTERRUPT = 6,
    /* value 0: reset: PC, depth, flags, SR, SORQ, SIACK, SOACK to 0. It leaves A, B, K,
       L, TR, DR, SI, SO, DP, RP, the four stack cells and RAM, and TRB of the 77C25. */
    BEMULATSHO_EVENT_RESET = 7
};

struct bemulatsho_event {
    uint32_t kind;  /* enum bemulatsho_kind */
    uint32_t value; /* what the kind allows */
};

/* ---- replies */

/*
 * The number of an answer: 0 done, else the refusal. It is one numbering with two names:
 * number in bemulatsho_reply, bemulatsho_loading, bemulatsho_record and
 * bemulatsho_writing, refusal in bemulatsho_taken_rows and bemulatsho_built. Each is
 * given exactly when its line says; where several apply, the first of 1, 2, 3, 4, 5, 18,
 * 6, 7, 8, 9, 10; of a text, that of the first faulty record. An event call gives 0 to 10
 * or 18 (77C25: neither 6 nor 7), bemulatsho_take_apart 0 or 4, bemulatsho_build 0 or 11,
 * a load 0, 1 or 12 to 16, bemulatsho_read_record 0 or 12 to 14, bemulatsho_write_preset
 * 0 or 1.
 */
enum bemulatsho_number {
    /* done */
    BEMULATSHO_DONE = 0,
    /* a lent image or RAM is not 512, 512, 128 long (77C25: 2048, 1024, 256). In the
       order of the call: program, data ROM, RAM. Of a load: a lent image of the wrong
       length, before the rest. Of a preset that is written: also a buffer shorter than
       the text. */
    BEMULATSHO_REFUSED_LENGTH = 1,
    /* PC, a stack cell, DP or RP too wide, depth over 4, or SR bits 6 to 2 not 0. All
       four stack cells count, at any depth. Every kind is refused, also a reset. */
    BEMULATSHO_REFUSED_REGISTERS = 2,
    /* event kind over 7, or value not allowed. A negative sample that was widened without
       (uint16_t) is not allowed. */
    BEMULATSHO_REFUSED_EVENT = 3,
    /* fetched word 2^23 or more (also when one is taken apart). 77C25: 2^24 or more */
    BEMULATSHO_REFUSED_WORD = 4,
    /* BRCH none of 010, 100, 101. 77C25: a jump code that the data book does not list */
    BEMULATSHO_REFUSED_BRANCH = 5,
    /* SRC none in an OP or RT word, and either DST is not 0 or 14, or the ALU operation
       is 1 to 7 with P-select bus. 77C25: never, since source 0 is TRB */
    BEMULATSHO_REFUSED_SOURCE = 6,
    /* SRC is RO, or DST is KLR (LDI too), and the data ROM cell at RP is 8192 or more.
       77C25: never, since a cell has 16 bits */
    BEMULATSHO_REFUSED_CELL = 7,
    /* RT at depth 0 */
    BEMULATSHO_REFUSED_RETURN = 8,
    /* call, or interrupt taken, at depth 4 */
    BEMULATSHO_REFUSED_PUSH = 9,
    /* serial out with SORQ 0 */
    BEMULATSHO_REFUSED_SERIAL = 10,
    /* a field too wide for the builder. A row over 3 is one. */
    BEMULATSHO_REFUSED_FIELD = 11,
    /* bad character or length in a line of a text. An empty line, a line without its
       ending and an end record with data are each a bad length; so is a line with more or
       fewer characters than its length byte says. */
    BEMULATSHO_REFUSED_LINE = 12,
    /* bad check byte: the record's bytes do not add up to 0 modulo 256 */
    BEMULATSHO_REFUSED_CHECK = 13,
    /* record type: neither 00 nor 01 */
    BEMULATSHO_REFUSED_TYPE = 14,
    /* address outside the image, given twice or missing. Missing is said after the last
       record. */
    BEMULATSHO_REFUSED_ADDRESS = 15,
    /* no end record or text after it, if only a line feed. Said after the last record, if
       no address is missing. */
    BEMULATSHO_REFUSED_END = 16,
    /* unused bits set in a fetched word. Words taken from an image for running must have
       spare bits 0, and CND 0 under an unconditional jump or a call. 77C25: spare bits 0,
       and no more, since jump and condition are one code there. They are taken apart and
       built all the same. */
    BEMULATSHO_REFUSED_UNUSED = 18
};

struct bemulatsho_reply {
    uint8_t number; /* enum bemulatsho_number: 0 done, else the refusal. The numbering is
                       that of refusal in bemulatsho_taken_rows and bemulatsho_built */
    uint16_t words; /* words done: those that a run finished, also one that is refused; 2
                       for an accepted interrupt; else 0. Added up over all replies
                       they keep step with the chip's instruction cycles */
    uint16_t value; /* what kinds 1, 3 and 5 hand; 0 for the others and when refused */
};

/* ---- the call */

/*
 * One event. Changes the record and the RAM in place; reads the program and the data ROM.
 *
 * When refused, the value is 0, and registers and RAM are as before the refused word or
 * event. Words that a run finished before the refused one stay done and are counted in
 * words; PC is at the refused word, and a second run would be refused there again.
 *
 * A length counts elements, not bytes; the call touches none beyond it. A length that is
 * not the chip's is refusal 1.
 *
 * Everything is lent until the call returns. The library keeps no pointer and no state
 * between calls and allocates nothing. A call takes less than 1 KiB of stack; that was
 * read from the compiled code of this version and is no part of the proof.
 *
 * The caller's duties, which the call cannot check:
 * - As many elements are there as each length says.
 * - No pointer is null, not even with length 0, and each is aligned for its type.
 * - The record and the RAM can be written, even if the call is refused.
 * - Each bool of the record is 0 or 1. Mind records that were read from a file.
 * - The record and the RAM overlap neither each other nor the program nor the data ROM.
 * - While the call runs, nobody else touches record or RAM, or writes to the images.
 * Where one of these is not kept, nothing is promised, of this call or of any later one.
 * Of a bool that is neither 0 nor 1 the low bit is read today; do not rely on it.
 *
 * Calls on different records with different RAMs may run at the same time. They may share
 * a program and a data ROM.
 */
struct bemulatsho_reply bemulatsho_event_in_place(
    struct bemulatsho_registers *registers,
    const uint32_t *program, size_t program_length, /* BEMULATSHO_WORDS */
    const uint16_t *rom, size_t rom_length,         /* BEMULATSHO_CELLS */
    uint16_t *ram, size_t ram_length,               /* BEMULATSHO_RAM */
    struct bemulatsho_event event);

/* ---- words */

/* The rows of a word, by its bits D22-21; D22 is the top bit (77C25: D23-22, D23). */
enum bemulatsho_row {
    /* 00: a move, an operation and steps of the pointers; PC goes up by one, 511 to 0
       (77C25: 2047 to 0) */
    BEMULATSHO_ROW_OP = 0,
    /* 01: as OP, but PC is popped */
    BEMULATSHO_ROW_RT = 1,
    /* 10: a jump or a call; PC goes up by one if the jump is not taken */
    BEMULATSHO_ROW_JP = 2,
    /* 11: a constant; PC goes up by one */
    BEMULATSHO_ROW_LDI = 3
};

/*
 * The fields of an OP or RT word. Everything is read from the state before the word; then
 * come the ALU result and its flags, the destination, the pointers, PC.
 *
 * ALU 0 to 15: none, OR, AND, XOR, SUB, ADD, SBB, ADC, DEC, INC, CMP, SHR1, SHL1, SHL2,
 * SHL4, XCHG. It does nothing if its accumulator is also the destination. SBB, ADC and
 * SHL1 take in the other accumulator's C. CMP is the ones' complement, SHR1 keeps the
 * sign, SHL2 and SHL4 bring in ones, XCHG changes the bytes round.
 *
 * SRC 0 to 15: none, A, B, TR, DP, RP, RO, SGN, DR, DRNF, SR, SIM, SIL, K, L, MEM. DP and
 * RP stand in the low 7 and 9 bits of the bus, with zeros above. RO is 8 times the data
 * ROM cell at RP. SGN is 7FFFH if A's S1 is 1, else 8000H. DR sets RQM, DRNF is DR
 * without that. SIM is SI, SIL is SI with all 16 bits reversed; both clear SIACK. MEM is
 * RAM at DP.
 *
 * DST 0 to 15: none, A, B, TR, DP, RP, DR, SR, SOL, SOM, K, KLR, KLM, L, none, MEM. DP
 * and RP take the bus's low bits. DR sets RQM. SOM stores the bus in SO, SOL the bus
 * reversed; both set SORQ and clear SOACK. KLR: K from the bus, L as RO. KLM: L from the
 * bus, K from the RAM cell whose address is DP with bit 6 set to 1, one of 64 to 127. It
 * is the address that has the bit set, not the value and not DP. MEM: RAM at DP.
 */
struct bemulatsho_op_fields {
    uint8_t psel;  /* D20-19, P-select, operand of ALU 1 to 7: 0 RAM at DP, 1 bus, 2 M,
                      3 N. M is K times L divided by 32768, rounded down, kept to 16 bits;
                      N is the product's low 15 bits doubled */
    uint8_t alu;   /* D18-15, ALU: the operation */
    uint8_t asl;   /* D14, ASL: the accumulator, 0 A, 1 B */
    uint8_t dpl;   /* D13-12, DPL: keep 0, up 1, down 2, clear 3 the low four bits of DP,
                      without carry into the row */
    uint8_t dphm;  /* D11-9, DPH-M: exclusive-ored into bits 6 to 4 of DP, the row. DPL
                      and DPH-M are ignored if DST is DP */
    uint8_t rpdcr; /* D8, RPDCR: 1 takes one from RP, 0 to 511; ignored if DST is RP */
    uint8_t src;   /* D7-4, SRC: what goes on the bus */
    uint8_t dst;   /* D3-0, DST: where the bus goes */
};

/*
 * The fields of a JP word. CND 0 to 23 run in pairs, first "is 0" then "is 1", of CA, CB,
 * ZA, ZB, OVA0, OVB0, OVA1, OVB1, SA0, SB0, SA1, SB1. 24: low DP (four bits) is 0. 25:
 * low DP is 15. 26 to 31, again in pairs: SIACK, SOACK, RQM.
 */
struct bemulatsho_jp_fields {
    uint8_t brch;  /* D20-18, BRCH: 2 jump on CND, 4 jump, 5 call (pushes PC plus one, 0
                      from 511) */
    uint8_t cnd;   /* D17-13, CND: the condition of BRCH 2. Not 0 under BRCH 4 or 5:
                      refusal 18 when the word runs */
    uint16_t na;   /* D12-4, NA: the word to go to */
    uint8_t spare; /* D3-0: not 0 under BRCH 2, 4 or 5: refusal 18 when the word runs */
};

/* The fields of an LDI word. */
struct bemulatsho_ldi_fields {
    uint16_t id;   /* D20-5, ID: the constant, sent to DST as the bus */
    uint8_t spare; /* D4: not 0: refusal 18 when the word runs */
    uint8_t dst;   /* D3-0, DST: as in an OP word */
};

/*
 * A word by its fields: op for rows OP and RT, jp for JP, ldi for LDI. The fields of the
 * other rows are 0 when a word is taken apart, and not looked at when one is built.
 */
struct bemulatsho_rows {
    uint8_t row; /* enum bemulatsho_row */
    struct bemulatsho_op_fields op;
    struct bemulatsho_jp_fields jp;
    struct bemulatsho_ldi_fields ldi;
};

struct bemulatsho_taken_rows {
    uint8_t refusal; /* enum bemulatsho_number, as number in a reply: 0 done, else 4 */
    struct bemulatsho_rows rows;
};

struct bemulatsho_built {
    uint8_t refusal; /* enum bemulatsho_number, as number in a reply: 0 done, else 11 */
    uint32_t bits;   /* the word */
};

/*
 * The row and the fields of a word. A word of 2^23 or more: refusal 4, with row 0 and
 * every field 0. A word that would be refused when it runs is taken apart all the same.
 */
struct bemulatsho_taken_rows bemulatsho_take_apart(uint32_t word);

/*
 * The word that the fields of its row make. It undoes bemulatsho_take_apart for every
 * word below 2^23. A field of its row too wide for its bits, or a row over 3: refusal 11,
 * with word 0.
 */
struct bemulatsho_built bemulatsho_build(struct bemulatsho_rows rows);

/* ---- the uPD77C25 */

#define BEMULATSHO_77C25_WORDS 2048u           /* instruction words of a program */
#define BEMULATSHO_77C25_WORD_LIMIT 0x1000000u /* a word has 24 bits: below this, 2^24 */
#define BEMULATSHO_77C25_CELLS 1024u           /* data ROM cells, of 16 bits each */
#define BEMULATSHO_77C25_RAM 256u              /* RAM cells, of 16 bits each */
#define BEMULATSHO_77C25_STACK 4u              /* stack cells */

/*
 * A program is an array of uint32_t as for the 77P20, the word in the low 24 bits. A cell
 * of the data ROM is a full uint16_t: every value may stand there and is used as it is.
 */

/*
 * The machine record of the 77C25: the registers of the 77P20, of which PC, the stack
 * cells, DP and RP are wider, and TRB. It has no padding either.
 */
struct bemulatsho_77c25_registers {
    struct bemulatsho_registers registers; /* all the others */
    uint16_t trb; /* TRB, 16 bits: second temporary register. Any value is accepted, and a
                     reset leaves it */
};

/* A machine that has run nothing: every register, flag and mark 0, and TRB too. */
struct bemulatsho_77c25_registers bemulatsho_77c25_fresh_registers(void);

/*
 * One event on the 77C25: as bemulatsho_event_in_place, with the sizes of this chip. What
 * is said there of refused calls, lengths, lending and duties holds here. Of the refusals
 * of an event 6 and 7 never occur.
 */
struct bemulatsho_reply bemulatsho_77c25_event_in_place(
    struct bemulatsho_77c25_registers *registers,
    const uint32_t *program, size_t program_length, /* BEMULATSHO_77C25_WORDS */
    const uint16_t *rom, size_t rom_length,         /* BEMULATSHO_77C25_CELLS */
    uint16_t *ram, size_t ram_length,               /* BEMULATSHO_77C25_RAM */
    struct bemulatsho_event event);

/*
 * The words of the 77C25 have the same rows. The fields of OP, RT and LDI are the same
 * too, and mean the same but for what is said below; they stand at other places:
 *
 *               77P20     77C25
 *     row       D22-21    D23-22
 *     psel      D20-19    D21-20
 *     alu       D18-15    D19-16
 *     asl       D14       D15
 *     dpl       D13-12    D14-13
 *     dphm      D11-9     D12-9     four bits here
 *     rpdcr     D8        D8
 *     src       D7-4      D7-4
 *     dst       D3-0      D3-0      of LDI too
 *     id        D20-5     D21-6
 *     spare     D4        D5-4      of LDI; two bits here
 *
 * Source 0 is TRB, also where the assembler would write NON, and destination 14 is TRB,
 * of LDI too. DP and RP stand in the low 8 and 10 bits of the bus, and take as many. RO
 * is the data ROM cell at RP as it is, not times 8, and so is L under KLR. KLM: K from the
 * RAM cell whose address is DP with bit 6 set to 1 and bit 7 kept, one of 64 to 127 or
 * 192 to 255. DPH-M is exclusive-ored into bits 7 to 4 of DP. RPDCR takes one from RP, 0
 * to 1023.
 */

/*
 * The fields of a JP word of the 77C25, where jump and condition are one code. The data
 * book (section 2, uPD77C25, table 14) lists 36 of them:
 *
 *     100H           jump
 *     140H           call (pushes PC plus one, 0 from 2047)
 *     80H + 2 CND    jump on CND, 0 to 31 as in bemulatsho_jp_fields: 80H, 82H to 0BEH
 *     0B1H           jump if low DP is not 0
 *     0B3H           jump if low DP is not 15
 */
struct bemulatsho_code_fields {
    uint16_t code; /* D21-13, the code, 9 bits. None of the 36: refusal 5 when the word
                      runs */
    uint16_t na;   /* D12-2, NA: the word to go to, 11 bits */
    uint8_t spare; /* D1-0: not 0 with one of the 36 codes: refusal 18 when the word
                      runs */
};

/* A word of the 77C25 by its fields, as bemulatsho_rows. */
struct bemulatsho_77c25_rows {
    uint8_t row; /* enum bemulatsho_row */
    struct bemulatsho_op_fields op;
    struct bemulatsho_code_fields jp;
    struct bemulatsho_ldi_fields ldi;
};

struct bemulatsho_77c25_taken_rows {
    uint8_t refusal; /* enum bemulatsho_number, as number in a reply: 0 done, else 4 */
    struct bemulatsho_77c25_rows rows;
};

/*
 * The row and the fields of a word of the 77C25. A word of 2^24 or more: refusal 4, with
 * row 0 and every field 0. A word that would be refused when it runs is taken apart all
 * the same.
 */
struct bemulatsho_77c25_taken_rows bemulatsho_77c25_take_apart(uint32_t word);

/*
 * The word that the fields of its row make on the 77C25. It undoes
 * bemulatsho_77c25_take_apart for every word below 2^24. A field of its row too wide for
 * its bits, or a row over 3: refusal 11, with word 0.
 */
struct bemulatsho_built bemulatsho_77c25_build(struct bemulatsho_77c25_rows rows);

/* ---- images and presets from text, and presets as text; of the 77P20 alone */

/*
 * A program, a data ROM or a preset, which is what a RAM holds, is kept as a text of Intel
 * HEX. A text is lines, each ended by a line feed, or by a carriage return and a line
 * feed; the last one too. A line is a record, two hexadecimal characters a byte, in
 * capitals or small letters:
 *
 *     :LLAAAATTdd..CC
 *
 *     LL      how many data bytes there are
 *     AAAA    the address of the first of them, high byte first
 *     TT      the type: 00 data, 01 the end; others are refused
 *     dd..    the data bytes
 *     CC      the check byte: all bytes of the record add up to 0 modulo 256
 *
 * Of a program, word n stands at addresses 4n to 4n+3, of a data ROM and of a RAM, cell n
 * at 2n and 2n+1, low byte first: 2048, 1024 and 256 bytes. The records may come in any
 * order and in any lengths; a data record without data gives nothing, and its address is
 * not looked at. Every address is given exactly once. The end record comes last, has no
 * data, and its address is not looked at:
 *
 *     :04000000001050009C    word 0 is 501000H
 *     ...
 *     :00000001FF            the end
 *
 * What is loaded is not looked at: a word of 2^23 or more, or a cell of 8192 or more, is
 * loaded as it is and refused when it is used (refusals 4 and 7).
 */

/* How a text was read. */
struct bemulatsho_loading {
    uint8_t number; /* enum bemulatsho_number: 0 the image is filled; 1 or 12 to 16, it is
                       as it was */
    size_t line;    /* the line that decided, counted from 1. Of a faulty record (12 to
                       15) its own; of an address that is missing (15), and of 0, the end
                       record's; of text after the end record (16) the line behind it.
                       Without an end record the last line, 0 of an empty text. With 1 it
                       is 0: no line was looked at */
};

/*
 * Fills a program from a text. The image is filled whole or not touched: refused, it is
 * as it was; else every word comes from the text, and nothing is left of what was there.
 *
 *     struct bemulatsho_loading loading =
 *         bemulatsho_load_program(text, text_length, program, BEMULATSHO_WORDS);
 *     if (loading.number != BEMULATSHO_DONE) {
 *         ...                                    // loading.line says where
 *     }
 *
 * A text may hold any bytes and be of any length; it needs no 0 at its end. Its length
 * counts characters, the image's counts words; a length that is not BEMULATSHO_WORDS is
 * refusal 1, whatever the text. The time it takes grows with the text alone.
 *
 * Text and image are lent until the call returns; the library keeps neither. The duties:
 * - As many characters and words are there as each length says.
 * - No pointer is null, not even with length 0, and the image is aligned for its type.
 * - The image can be written, even if the call is refused, and does not overlap the text.
 * - While the call runs, nobody else touches the image or writes to the text.
 * Where one of these is not kept, nothing is promised. A call takes less than 8 KiB of
 * stack; that was read from the compiled code of this version and is no part of the
 * proof.
 */
struct bemulatsho_loading bemulatsho_load_program(
    const uint8_t *text, size_t text_length,
    uint32_t *image, size_t image_length); /* BEMULATSHO_WORDS */

/* Fills a data ROM from a text, in the same way. */
struct bemulatsho_loading bemulatsho_load_data(
    const uint8_t *text, size_t text_length,
    uint16_t *image, size_t image_length); /* BEMULATSHO_CELLS */

/*
 * Fills a RAM from a text, in the same way. Refused, the RAM keeps every cell; else none
 * is left of those before: half a preset is refusal 15. A cell has 16 bits, so that every
 * value fits.
 */
struct bemulatsho_loading bemulatsho_load_preset(
    const uint8_t *text, size_t text_length,
    uint16_t *ram, size_t ram_length); /* BEMULATSHO_RAM */

/* The characters of every preset that is written: 16 lines of 44, and an end of 12. */
#define BEMULATSHO_PRESET_TEXT 716u

/* How a text was written. */
struct bemulatsho_writing {
    uint8_t number; /* enum bemulatsho_number: 0 the text is written; 1, the buffer is as
                       it was */
    size_t length;  /* the text's length, BEMULATSHO_PRESET_TEXT; with 1 it is 0 */
};

/*
 * Writes a RAM as a text to the beginning of a buffer: sixteen records of sixteen bytes
 * and `:00000001FF`, in capitals, each line ended by a line feed; no 0 behind them. What
 * stands behind the text stays. A RAM that is not 128 long, or a buffer shorter than the
 * text, is refusal 1, and no byte is written.
 *
 *     uint8_t text[BEMULATSHO_PRESET_TEXT];
 *     struct bemulatsho_writing writing =
 *         bemulatsho_write_preset(ram, BEMULATSHO_RAM, text, sizeof text);
 *
 * bemulatsho_load_preset reads the same cells back; and a text of this form that was read
 * is written again character for character. The buffer is lent as an image is, with the
 * same duties; the RAM is only read.
 */
struct bemulatsho_writing bemulatsho_write_preset(
    const uint16_t *ram, size_t ram_length, /* BEMULATSHO_RAM */
    uint8_t *text, size_t text_length);

/* What a line says as a record. When refused, all but number is 0. */
struct bemulatsho_record {
    uint8_t number;   /* enum bemulatsho_number: 0 or the refusal, 12 to 14 */
    uint8_t kind;     /* the type, 0 or 1 */
    uint16_t address; /* the address of its first data byte */
    uint8_t bytes;    /* how many data bytes there are; 0 of an end record */
    size_t offset;    /* where its data characters begin in the line: 9; refused, 0 */
    size_t length;    /* how many characters they are: two a byte */
};

/*
 * Reads one line, with its ending, as a record. Its data characters are the part of the
 * caller's own line from offset on, length characters; they are always within the line. A
 * refused record's part is empty, and so is an end record's. Knows no image: whether an
 * address is outside or given twice (15), and where a text has to end (16), is for a load
 * to say.
 *
 * The line is lent until the call returns: as many characters are there as its length
 * says, the pointer is not null, and nobody writes to it meanwhile.
 */
struct bemulatsho_record bemulatsho_read_record(const uint8_t *line, size_t line_length);

/* ---- layout: the bytes that the library expects */

/*
 * Padding, by the offsets below:
 *
 *     flags, both_flags, registers, event, op_fields, ldi_fields    none
 *     77c25_registers                none
 *     reply                          1 byte after number
 *     jp_fields, code_fields         1 byte at the end
 *     rows, 77c25_rows               1 byte before jp, besides that of jp
 *     taken_rows, 77c25_taken_rows   1 byte after refusal, besides those of rows
 *     built                          3 bytes after refusal
 *     loading                        7 bytes after number
 *     writing                        7 bytes after number
 *     record                         3 bytes after bytes
 *
 * Padding means nothing and may hold anything. Records of a kind without padding may be
 * compared by memcmp; the others field by field.
 */

#ifdef __cplusplus
#define BEMULATSHO_HOLDS(what) static_assert(what, #what)
#else
#define BEMULATSHO_HOLDS(what) _Static_assert(what, #what)
#endif
#define BEMULATSHO_SIZE(name, size) \
    BEMULATSHO_HOLDS(sizeof(struct bemulatsho_##name) == (size))
#define BEMULATSHO_OFFSET(name, field, offset) \
    BEMULATSHO_HOLDS(offsetof(struct bemulatsho_##name, field) == (offset))

BEMULATSHO_HOLDS(sizeof(bool) == 1);
BEMULATSHO_HOLDS(sizeof(size_t) == 8);
BEMULATSHO_HOLDS(sizeof(void *) == 8);

BEMULATSHO_SIZE(flags, 6);
BEMULATSHO_OFFSET(flags, s1, 0);
BEMULATSHO_OFFSET(flags, s0, 1);
BEMULATSHO_OFFSET(flags, c, 2);
BEMULATSHO_OFFSET(flags, z, 3);
BEMULATSHO_OFFSET(flags, ov1, 4);
BEMULATSHO_OFFSET(flags, ov0, 5);

BEMULATSHO_SIZE(both_flags, 12);
BEMULATSHO_OFFSET(both_flags, a, 0);
BEMULATSHO_OFFSET(both_flags, b, 6);

BEMULATSHO_SIZE(registers, 48);
BEMULATSHO_OFFSET(registers, pc, 0);
BEMULATSHO_OFFSET(registers, stack0, 2);
BEMULATSHO_OFFSET(registers, stack1, 4);
BEMULATSHO_OFFSET(registers, stack2, 6);
BEMULATSHO_OFFSET(registers, stack3, 8);
BEMULATSHO_OFFSET(registers, flags, 10);
BEMULATSHO_OFFSET(registers, si, 22);
BEMULATSHO_OFFSET(registers, siack, 24);
BEMULATSHO_OFFSET(registers, depth, 25);
BEMULATSHO_OFFSET(registers, a, 26);
BEMULATSHO_OFFSET(registers, b, 28);
BEMULATSHO_OFFSET(registers, k, 30);
BEMULATSHO_OFFSET(registers, l, 32);
BEMULATSHO_OFFSET(registers, tr, 34);
BEMULATSHO_OFFSET(registers, dr, 36);
BEMULATSHO_OFFSET(registers, so, 38);
BEMULATSHO_OFFSET(registers, dp, 40);
BEMULATSHO_OFFSET(registers, rp, 42);
BEMULATSHO_OFFSET(registers, sr, 44);
BEMULATSHO_OFFSET(registers, soack, 46);
BEMULATSHO_OFFSET(registers, sorq, 47);

BEMULATSHO_SIZE(event, 8);
BEMULATSHO_OFFSET(event, kind, 0);
BEMULATSHO_OFFSET(event, value, 4);

BEMULATSHO_SIZE(reply, 6);
BEMULATSHO_OFFSET(reply, number, 0);
BEMULATSHO_OFFSET(reply, words, 2);
BEMULATSHO_OFFSET(reply, value, 4);

BEMULATSHO_SIZE(op_fields, 8);
BEMULATSHO_OFFSET(op_fields, psel, 0);
BEMULATSHO_OFFSET(op_fields, alu, 1);
BEMULATSHO_OFFSET(op_fields, asl, 2);
BEMULATSHO_OFFSET(op_fields, dpl, 3);
BEMULATSHO_OFFSET(op_fields, dphm, 4);
BEMULATSHO_OFFSET(op_fields, rpdcr, 5);
BEMULATSHO_OFFSET(op_fields, src, 6);
BEMULATSHO_OFFSET(op_fields, dst, 7);

BEMULATSHO_SIZE(jp_fields, 6);
BEMULATSHO_OFFSET(jp_fields, brch, 0);
BEMULATSHO_OFFSET(jp_fields, cnd, 1);
BEMULATSHO_OFFSET(jp_fields, na, 2);
BEMULATSHO_OFFSET(jp_fields, spare, 4);

BEMULATSHO_SIZE(ldi_fields, 4);
BEMULATSHO_OFFSET(ldi_fields, id, 0);
BEMULATSHO_OFFSET(ldi_fields, spare, 2);
BEMULATSHO_OFFSET(ldi_fields, dst, 3);

BEMULATSHO_SIZE(rows, 20);
BEMULATSHO_OFFSET(rows, row, 0);
BEMULATSHO_OFFSET(rows, op, 1);
BEMULATSHO_OFFSET(rows, jp, 10);
BEMULATSHO_OFFSET(rows, ldi, 16);

BEMULATSHO_SIZE(taken_rows, 22);
BEMULATSHO_OFFSET(taken_rows, refusal, 0);
BEMULATSHO_OFFSET(taken_rows, rows, 2);

BEMULATSHO_SIZE(built, 8);
BEMULATSHO_OFFSET(built, refusal, 0);
BEMULATSHO_OFFSET(built, bits, 4);

BEMULATSHO_SIZE(77c25_registers, 50);
BEMULATSHO_OFFSET(77c25_registers, registers, 0);
BEMULATSHO_OFFSET(77c25_registers, trb, 48);

BEMULATSHO_SIZE(code_fields, 6);
BEMULATSHO_OFFSET(code_fields, code, 0);
BEMULATSHO_OFFSET(code_fields, na, 2);
BEMULATSHO_OFFSET(code_fields, spare, 4);

BEMULATSHO_SIZE(77c25_rows, 20);
BEMULATSHO_OFFSET(77c25_rows, row, 0);
BEMULATSHO_OFFSET(77c25_rows, op, 1);
BEMULATSHO_OFFSET(77c25_rows, jp, 10);
BEMULATSHO_OFFSET(77c25_rows, ldi, 16);

BEMULATSHO_SIZE(77c25_taken_rows, 22);
BEMULATSHO_OFFSET(77c25_taken_rows, refusal, 0);
BEMULATSHO_OFFSET(77c25_taken_rows, rows, 2);

BEMULATSHO_SIZE(loading, 16);
BEMULATSHO_OFFSET(loading, number, 0);
BEMULATSHO_OFFSET(loading, line, 8);

BEMULATSHO_SIZE(writing, 16);
BEMULATSHO_OFFSET(writing, number, 0);
BEMULATSHO_OFFSET(writing, length, 8);

BEMULATSHO_SIZE(record, 24);
BEMULATSHO_OFFSET(record, number, 0);
BEMULATSHO_OFFSET(record, kind, 1);
BEMULATSHO_OFFSET(record, address, 2);
BEMULATSHO_OFFSET(record, bytes, 4);
BEMULATSHO_OFFSET(record, offset, 8);
BEMULATSHO_OFFSET(record, length, 16);

#undef BEMULATSHO_OFFSET
#undef BEMULATSHO_SIZE
#undef BEMULATSHO_HOLDS

#ifdef __cplusplus
}
#endif

#endif
