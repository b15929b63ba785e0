/*
 * Answers held against those that are expected: replies, and the fields that rows of both chips have.
 */
#ifndef ANSWERS_H
#define ANSWERS_H

#include "bemulatsho.h"

#include "checks.h"

static inline const char *name_of(uint8_t number)
{
    switch (number) {
    case BEMULATSHO_DONE:
        return "done";
    case BEMULATSHO_REFUSED_LENGTH:
        return "length";
    case BEMULATSHO_REFUSED_REGISTERS:
        return "registers";
    case BEMULATSHO_REFUSED_EVENT:
        return "event";
    case BEMULATSHO_REFUSED_WORD:
        return "word";
    case BEMULATSHO_REFUSED_BRANCH:
        return "branch";
    case BEMULATSHO_REFUSED_SOURCE:
        return "source";
    case BEMULATSHO_REFUSED_CELL:
        return "cell";
    case BEMULATSHO_REFUSED_RETURN:
        return "return";
    case BEMULATSHO_REFUSED_PUSH:
        return "push";
    case BEMULATSHO_REFUSED_SERIAL:
        return "serial";
    case BEMULATSHO_REFUSED_FIELD:
        return "field";
    case BEMULATSHO_REFUSED_UNUSED:
        return "unused bits";
    default:
        return "no number of the list";
    }
}

static inline void check_reply(struct bemulatsho_reply reply, unsigned number, unsigned words, unsigned value, int line)
{
    if (reply.number != number || reply.words != words || reply.value != value) {
        fprintf(stderr, "%s:%d: the reply is %u (%s), %u words, value %04XH; expected %u, %u, %04XH\n", __BASE_FILE__, line,
                (unsigned)reply.number, name_of(reply.number), (unsigned)reply.words, (unsigned)reply.value, number, words,
                value);
        exit(1);
    }
    checks++;
}

#define REPLY(reply, number, words, value) check_reply((reply), (number), (words), (value), __LINE__)

static inline bool op_is_0(struct bemulatsho_op_fields f)
{
    return f.psel == 0 && f.alu == 0 && f.asl == 0 && f.dpl == 0 && f.dphm == 0 && f.rpdcr == 0 && f.src == 0 && f.dst == 0;
}

static inline bool ldi_is_0(struct bemulatsho_ldi_fields f)
{
    return f.id == 0 && f.spare == 0 && f.dst == 0;
}

#endif
