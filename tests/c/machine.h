/*
 * A machine of either chip with what it is lent, events for it, and those that are refused.
 */
#ifndef MACHINE_H
#define MACHINE_H

#include "bemulatsho.h"

#include "answers.h"
#include "checks.h"

struct machine {
    struct bemulatsho_77c25_registers *record; /* of a 77C25; NULL for a 77P20 */
    struct bemulatsho_registers *registers;    /* those within the record; a 77P20's own */
    uint32_t *program;
    size_t program_length;
    uint16_t *rom;
    size_t rom_length;
    uint16_t *ram;
    size_t ram_length;
};

static inline struct machine lend_images(size_t program_length, size_t rom_length, size_t ram_length)
{
    struct machine m;
    m.record = NULL;
    m.registers = NULL;
    m.program = (uint32_t *)lend(program_length, sizeof *m.program);
    m.program_length = program_length;
    m.rom = (uint16_t *)lend(rom_length, sizeof *m.rom);
    m.rom_length = rom_length;
    m.ram = (uint16_t *)lend(ram_length, sizeof *m.ram);
    m.ram_length = ram_length;
    return m;
}

static inline void refresh(struct machine m)
{
    if (m.record == NULL)
        *m.registers = bemulatsho_fresh_registers();
    else
        *m.record = bemulatsho_77c25_fresh_registers();
}

/* Fresh registers, and images and RAM of 0. */
static inline struct machine lend_77p20(size_t program_length, size_t rom_length, size_t ram_length)
{
    struct machine m = lend_images(program_length, rom_length, ram_length);
    m.registers = (struct bemulatsho_registers *)lend(1, sizeof *m.registers);
    refresh(m);
    return m;
}

static inline struct machine lend_77c25(size_t program_length, size_t rom_length, size_t ram_length)
{
    struct machine m = lend_images(program_length, rom_length, ram_length);
    m.record = (struct bemulatsho_77c25_registers *)lend(1, sizeof *m.record);
    m.registers = &m.record->registers;
    refresh(m);
    return m;
}

static inline void give_back(struct machine m)
{
    if (m.record == NULL)
        free(m.registers);
    else
        free(m.record);
    free(m.program);
    free(m.rom);
    free(m.ram);
}

static inline struct bemulatsho_reply call(struct machine m, uint32_t kind, uint32_t value)
{
    struct bemulatsho_event event;
    event.kind = kind;
    event.value = value;
    if (m.record == NULL)
        return bemulatsho_event_in_place(m.registers, m.program, m.program_length, m.rom, m.rom_length, m.ram, m.ram_length,
                                         event);
    return bemulatsho_77c25_event_in_place(m.record, m.program, m.program_length, m.rom, m.rom_length, m.ram, m.ram_length,
                                           event);
}

/* The record and the RAM as they are now, to be compared with later. */
struct state {
    struct bemulatsho_77c25_registers record; /* of a 77C25 only */
    struct bemulatsho_registers registers;
    uint16_t *ram;
};

static inline struct state state_of(struct machine m)
{
    struct state s;
    memset(&s, 0, sizeof s);
    if (m.record != NULL)
        s.record = *m.record;
    s.registers = *m.registers;
    s.ram = (uint16_t *)lend(m.ram_length, sizeof *s.ram);
    memcpy(s.ram, m.ram, m.ram_length * sizeof *s.ram);
    return s;
}

static inline bool same_registers(const struct bemulatsho_registers *x, const struct bemulatsho_registers *y)
{
    return memcmp(x, y, sizeof *x) == 0;
}

static inline bool same_record(struct machine m, const struct state *s)
{
    return m.record == NULL || memcmp(m.record, &s->record, sizeof s->record) == 0;
}

static inline bool same_state(struct machine m, const struct state *s)
{
    return same_record(m, s) && same_registers(m.registers, &s->registers) &&
           memcmp(m.ram, s->ram, m.ram_length * sizeof *s->ram) == 0;
}

/* One event that is refused and leaves everything as it was. */
static inline void check_refused(struct machine m, uint32_t kind, uint32_t value, unsigned number, int line)
{
    struct state before = state_of(m);
    check_reply(call(m, kind, value), number, 0, 0, line);
    check(same_state(m, &before), "a refused event changes nothing", line);
    free(before.ram);
}

#define REFUSED(m, kind, value, number) check_refused((m), (kind), (value), (number), __LINE__)

#endif
