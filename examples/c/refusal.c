/* See refusal.h. */
#include "refusal.h"

#include "order_line.h"

static const char *words_of(uint8_t refusal)
{
    switch (refusal) {
    case ORDER_LINE_REFUSED_BLOCK:
        return "a block has 240, 480, 960 or 3840 data bits";
    case ORDER_LINE_REFUSED_SPEED:
        return "the line's speed is 200, 600, 1200, 2400, 3600 or 4800 bit/s";
    case ORDER_LINE_REFUSED_LOOP:
        return "the loop time is too long for this block and speed";
    case ORDER_LINE_REFUSED_EMPTY:
        return "the order is empty";
    case ORDER_LINE_REFUSED_LONG:
        return "the order is too long";
    case ORDER_LINE_REFUSED_SHORT:
        return "a slice is too short";
    case ORDER_LINE_REFUSED_SPOILED:
        return "the state is spoiled, or service bits are above 15";
    case ORDER_LINE_REFUSED_REST:
        return "the sender is finished or gave up";
    case ORDER_LINE_REFUSED_CODE_SIZE:
        return "the code size is 5, 6, 7 or 8";
    case ORDER_LINE_REFUSED_FORMAT:
        return "the bytes are no tint order, or there are no doses to write";
    case ORDER_LINE_REFUSED_ENTRY:
        return "a dose has canister 1 to 12, 1 to 4,800 steps and a canister above the one before";
    case ORDER_LINE_REFUSED_STEPS:
        return "a tint order has 20,000 steps or fewer in all";
    case ORDER_LINE_REFUSED_GENERATOR:
        return "the first word of a noise generator is any number but 0";
    default:
        return "the library is of another version";
    }
}

void print_refusal(FILE *to, const char *who, uint8_t refusal)
{
    fprintf(to, "%srefused %u: %s\n", who, (unsigned)refusal, words_of(refusal));
}
