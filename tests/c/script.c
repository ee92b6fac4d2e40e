/* Scripts and single steps from C: the examples of the scope document, a refused opening, answers too short. */
#include "expect.h"
#include "testing.h"

#include <string.h>

static uint64_t words[8];
static uint32_t counters[72];
static uint8_t image[560];
static uint64_t answers[4 + 3 * 32];

#define RECORD words, 8, counters, 72

/* Strip A by 17 adds, then the calls after it. */
static void strip_a(void)
{
    static const char bits[] = "01101101010101110";
    /* a last opcode above 17, and the rest of a call, which is not read */
    static const uint64_t calls[] = {OP_RANK,   1, 8,  0, OP_SELECT,           1, 7, 0, OP_RANK,              1, 18, 0,
                                     OP_FLIP,   3, 0,  0, OP_VERIFY + OPCODES, 0, 0, 0, OP_FREEZE,            3, 0,  0,
                                     OP_INSPECT + OPCODES, 0, 0};
    uint64_t script[4 * 17 + sizeof calls / sizeof calls[0]] = {0};
    for (size_t i = 0; i < 17; i++) {
        script[4 * i] = OP_PUSH;
        script[4 * i + 1] = (uint64_t)(bits[i] - '0');
    }
    memcpy(script + 4 * 17, calls, sizeof calls);
    expect("calls", strip_execute(script, sizeof script / 8, 512, 0, RECORD, image, 560, answers, 4 + 3 * 32), 23);
    expect("opening", answers[0], 0);
    expect("capacity", answers[1], 512);
    expect("length", answers[2], 17);
    expect("total", answers[3], 11);
    const uint64_t *a = answers + 4 + 3 * 17;
    expect("count(1, 8)", a[1], 5);
    expect("find(1, 7)", a[4], 13);
    expect("count(1, 18)", a[6], STRIP_POSITION);
    expect("turn 3: the bit", a[10], 1);
    expect("turn 3: counters changed", a[11], 15);
    expect("check", a[13], 11);
    expect("freeze: its unit", a[16], 1);
    expect("word", words[0], 0xEABE);
}

/* One call on the record that the script left. */
static void steps(void)
{
    uint64_t out[6] = {0};
    strip_step(OP_INSPECT, 0, 0, 0, 512, 17, 11, RECORD, image, 560, out, 6);
    expect("inspect", out[1], 1);
    strip_step(OP_TRUNCATE, 5, 0, 0, 512, 17, 11, RECORD, image, 560, out, 6);
    expect("cut(5)", out[0], 0);
    expect("the handle's length", out[4], 5);
    expect("its total", out[5], 4);
    strip_step(OP_VERIFY, 0, 0, 0, 512, 5, 3, RECORD, image, 560, out, 6);
    expect("check of a wrong total", out[0], STRIP_UNFIT);
    expect("the total as it was", out[5], 3);
    counters[70] = 9;
    strip_step(OP_VERIFY, 0, 0, 0, 512, 5, 4, RECORD, image, 560, out, 6);
    expect("check of a record that does not fit", out[0], STRIP_UNFIT);
    strip_step(OP_CREATE, 512, 0, 0, 512, 5, 4, RECORD, image, 560, out, 5);
    expect("too short an out", out[0], STRIP_UNFIT);
}

int main(void)
{
    strip_a();
    steps();
    expect("answers too short", strip_execute(NULL, 0, 512, 0, RECORD, image, 560, answers, 3), UINT64_MAX);
    answers[1] = 7;
    expect("lay refused", strip_execute(NULL, 0, 513, 0, RECORD, image, 560, answers, 4), 0);
    expect("its number", answers[0], STRIP_BAD_HANDLE);
    expect("no other answer", answers[1], 7);
    expect("clear refused first", strip_execute(NULL, 0, 513, 1, RECORD, image, 15, answers, 4), 0);
    expect("its number", answers[0], STRIP_NO_ROOM);
    return failed;
}
