/* The opcodes by their numbers, and a refusal as the answer that tells it. The refusals' numbers are in display.h. */
#ifndef REFUSALS_H
#define REFUSALS_H

#include "display.h"

/* The calls of a script; an opcode is taken modulo OPCODES. */
enum opcode {
    OP_CREATE = 0,
    OP_PUSH = 1,
    OP_FLIP = 2,
    OP_FILL = 3,
    OP_TRUNCATE = 4,
    OP_GET = 5,
    OP_RANK = 6,
    OP_SELECT = 7,
    OP_SUCCESSOR = 8,
    OP_PREDECESSOR = 9,
    OP_VERIFY = 10,
    OP_CLEAR = 11,
    OP_FREEZE = 12,
    OP_INSPECT = 13,
    OP_ROW_RANK = 14,
    OP_ROW_SELECT = 15,
    OP_ROW_GET = 16,
    OPCODES = 17
};

/* The answer that tells a refusal, by the scope document: 2^32 plus its number. */
#define REFUSED(refusal) ((UINT64_C(1) << 32) + (refusal))

#endif
