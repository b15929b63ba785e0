/*
 * Lengths and registers at a chip's limits. A check that fails names the line of the caller.
 */
#ifndef LIMITS_H
#define LIMITS_H

#include "machine.h"

/* A machine with a wrong length: the lowest number is given, 1 also where 2 and 3 apply. */
static inline void check_wrong_length(struct machine m, int line)
{
    for (uint32_t kind = 0; kind <= 7; kind++)
        check_refused(m, kind, 0, BEMULATSHO_REFUSED_LENGTH, line);
    m.registers->pc = 0xFFFF;
    check_refused(m, 8, 0, 1, line);
}

static inline void check_unfit(struct machine m, const char *what, int line)
{
    struct state before = state_of(m);
    for (uint32_t kind = 0; kind <= 8; kind++) { /* there is no kind 8, and 2 comes before 3 */
        struct bemulatsho_reply reply = call(m, kind, 0);
        check(reply.number == BEMULATSHO_REFUSED_REGISTERS && reply.words == 0 && reply.value == 0, what, line);
        check(same_state(m, &before), what, line);
    }
    free(before.ram);
    refresh(m);
    check_reply(call(m, BEMULATSHO_EVENT_RUN, 1), 0, 1, 0, line);
}

/* Each register at the lowest number that does not fit, then all at the highest that do. */
static inline void check_registers(struct machine m, uint16_t words, uint16_t cells, uint16_t ram_cells, int line)
{
    struct bemulatsho_registers *r = m.registers;
    const struct {
        const char *what;
        uint16_t *at;
        uint16_t value;
    } unfit[] = {
        {"PC is refused", &r->pc, words},
        {"stack cell 0 is refused", &r->stack0, words},
        {"stack cell 1 is refused", &r->stack1, words},
        {"stack cell 2 is refused", &r->stack2, words},
        {"stack cell 3, above the depth, is refused", &r->stack3, words},
        {"the highest stack cell 3 is refused", &r->stack3, 0xFFFF},
        {"DP is refused", &r->dp, ram_cells},
        {"RP is refused", &r->rp, cells},
    };
    for (size_t i = 0; i < sizeof unfit / sizeof *unfit; i++) {
        *unfit[i].at = unfit[i].value;
        check_unfit(m, unfit[i].what, line);
    }
    r->depth = 5;
    check_unfit(m, "a depth of 5 is refused", line);
    for (unsigned bit = 2; bit <= 6; bit++) {
        r->sr = (uint16_t)(1u << bit);
        check((r->sr & BEMULATSHO_SR_UNUSED) != 0, "SR bits 6 to 2 are unused", line);
        check_unfit(m, "an unused bit of SR is refused", line);
    }

    r->pc = r->stack0 = r->stack1 = r->stack2 = r->stack3 = (uint16_t)(words - 1);
    r->rp = (uint16_t)(cells - 1);
    r->dp = (uint16_t)(ram_cells - 1);
    r->depth = 4;
    r->sr = 0xFF83;
    if (m.record != NULL)
        m.record->trb = 0xFFFF;
    check_reply(call(m, BEMULATSHO_EVENT_RUN, 1), 0, 1, 0, line);
}

#endif
