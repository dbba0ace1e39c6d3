// The calls of model/monitor.c as functions, with no text, to compare the library with.

#define main frame_program
#include "../model/monitor.c"
#undef main

#include "plain.h"

void plain_begin(void)
{
    begin();
}

unsigned plain_set_up(const uint8_t *frame)
{
    switch (frame[0]) {
    case 0x11:
        return window_frame(frame);
    case 0x10:
        return ledger_frame(frame);
    default:
        return owner_frame(frame);
    }
}

// n where x0 is -n, in as many bits as the identifier has a negative answer take.
static uint64_t refusal(uint64_t identifier, uint64_t x0)
{
    int64_t answer = identifier >> 30 & 1 ? (int64_t)x0 : (int32_t)x0;
    return answer < 0 ? (uint64_t)-answer : 0;
}

unsigned plain_call(uint64_t number, const uint64_t x[8], uint64_t told[7])
{
    if (pages == 0)
        return OUT_OF_PLACE;
    if (number >= cores)
        return OUT_OF_RANGE;
    const struct core *core = &core_table[number];
    if (core->power != ON)
        return CLASH;
    const enum world caller = core->running;
    calls_begun = true;
    memcpy(saved[number][caller], x, ARGUMENTS * sizeof *x);
    call((unsigned)number);
    const bool on = core->power == ON;
    const uint64_t *shown = saved[number][core->running];
    told[0] = on ? core->running : NO_WORLD;
    for (int i = 0; i < 4; i++)  // a memcpy reads two at once, and waits where the call has just written one of them
        told[1 + i] = shown[i];
    told[5] = caller;
    told[6] = on && core->running == caller ? refusal(x[0], shown[0]) : 0;
    return ACCEPTED;
}
