/*
 * What include/order_line.h computes, in C from C89 to C2x and in C++ from C++98 to C++20 (examples/run-all).
 * While this is compiled: the states' sizes, the store's room, a tint order's bytes, and that the named answers are in
 * their ranges. When it is run: the macros that take an answer, on every number from 0 to beyond the largest answer, in
 * each integer type as far as the type holds it; and that they evaluate their argument once. What is wrong is printed;
 * the exit status is 0 only if nothing is.
 */
#include "../include/order_line.h"

#include <stdio.h>

#define HOLDS(condition, why) extern char holds[(condition) ? 1 : -1] /* static_assert, in every standard */

/* Whole items that hold the longest order, of which one fewer would not. */
#define HOLDS_LONGEST(items, k)                                                                                        \
    ((items) * (k) >= ORDER_LINE_LONGEST_ORDER && ((items) - 1) * (k) < ORDER_LINE_LONGEST_ORDER)
#define STORES_LONGEST(k)                                                                                              \
    (ORDER_LINE_STORE_BYTES(k) % ORDER_LINE_PAYLOAD_BYTES(k) == 0 &&                                                   \
     HOLDS_LONGEST(ORDER_LINE_STORE_BYTES(k) / ORDER_LINE_PAYLOAD_BYTES(k), k))

HOLDS(STORES_LONGEST(240) && STORES_LONGEST(480), "the store's room in short blocks");
HOLDS(STORES_LONGEST(960) && STORES_LONGEST(3840), "and in long ones");
HOLDS(HOLDS_LONGEST(ORDER_LINE_MOST_ITEMS, 240), "the most items");
HOLDS(ORDER_LINE_LONGEST_ORDER / ORDER_LINE_MOST_ITEMS > 0, "brackets around the macro");
#if ORDER_LINE_MOST_ITEMS * 240 < ORDER_LINE_LONGEST_ORDER
#error "the preprocessor computes the most items too"
#endif

HOLDS(ORDER_LINE_SENDER_BYTES == 16 + 2, "a head and the marks");
HOLDS(ORDER_LINE_RECEIVER_BYTES == 16 + ORDER_LINE_BLOCK_BYTES(3840) + 2, "a head, a block and the marks");

HOLDS(ORDER_LINE_TINT_BYTES(1) == 6, "a head and one dose");
HOLDS(ORDER_LINE_TINT_BYTES(ORDER_LINE_MOST_DOSES) == 39, "a head and twelve doses");
HOLDS(2 * ORDER_LINE_TINT_BYTES(1 + 1) == 18, "brackets around the macro and around what it is given");

#define REFUSED(answer) (ORDER_LINE_IS_REFUSED(answer) && !ORDER_LINE_IS_EVENT(answer))
#define EVENT(answer) (ORDER_LINE_IS_EVENT(answer) && !ORDER_LINE_IS_REFUSED(answer))
#define NEITHER(answer) (!ORDER_LINE_IS_REFUSED(answer) && !ORDER_LINE_IS_EVENT(answer))

/* The word of the longest order's second end block, without the flags that tell more of it. */
#define LAST_SENT (ORDER_LINE_SENT | ORDER_LINE_SENT_ITEM | (ORDER_LINE_MOST_ITEMS + 1u) << 16)

HOLDS(NEITHER(0), "done");
HOLDS(REFUSED(ORDER_LINE_REFUSED_BLOCK) && REFUSED(ORDER_LINE_REFUSED_GENERATOR), "refusals");
HOLDS(EVENT(ORDER_LINE_EVENT_NONE) && EVENT(ORDER_LINE_EVENT_WAIT), "events");
HOLDS(NEITHER(ORDER_LINE_GOING_ON) && NEITHER(ORDER_LINE_FINISHED) && NEITHER(ORDER_LINE_GAVE_UP), "rest");
HOLDS(NEITHER(ORDER_LINE_RETURN_0) && NEITHER(ORDER_LINE_RETURN_1), "return bit");
HOLDS(NEITHER(ORDER_LINE_PASSED) && NEITHER(ORDER_LINE_PASSED + 15) && NEITHER(ORDER_LINE_FAILED), "read");
HOLDS(NEITHER(ORDER_LINE_SENT) && NEITHER(ORDER_LINE_SENT | LAST_SENT), "sent");
HOLDS(NEITHER(ORDER_LINE_NOISE) && NEITHER(ORDER_LINE_NOISE | ORDER_LINE_NOISE_TURNED), "noise without a span");
HOLDS(NEITHER(ORDER_LINE_NOISE | 1u << 16) && NEITHER(ORDER_LINE_NOISE | 16u << 16), "noise with a span");

HOLDS(ORDER_LINE_RETURN_BIT(ORDER_LINE_RETURN_0) == 0, "return bit 0");
HOLDS(ORDER_LINE_RETURN_BIT(ORDER_LINE_RETURN_1) == 1, "return bit 1");
HOLDS(ORDER_LINE_RETURN_BIT(ORDER_LINE_REFUSED_SPOILED) == 1, "a spoiled state asks for a repeat");

HOLDS(ORDER_LINE_SENT_NUMBER(LAST_SENT) == ORDER_LINE_MOST_ITEMS + 1, "an item's number");
HOLDS(ORDER_LINE_NOISE_INVERTED(ORDER_LINE_NOISE | 16u << 16) == 16, "the bits of a span");
HOLDS(ORDER_LINE_NOISE_INVERTED(ORDER_LINE_NOISE | ORDER_LINE_NOISE_TURNED) == 0, "a turned reading alone");
HOLDS(2 * ORDER_LINE_NOISE_INVERTED(ORDER_LINE_NOISE + 65536u) == 2, "brackets around the macro");

/* Beyond the largest answer, which is that word with all its flags. */
#define BEYOND ((ORDER_LINE_MOST_ITEMS + 2ul) << 16)

/* How many numbers from 0 on a type is tried with: all that it holds, or those before BEYOND. */
#define TRIED(type) (sizeof(type) > 2 ? BEYOND : 1ul << (8 * sizeof(type) - ((type)-1 < (type)1)))

#define RIGHT(answer, number)                                                                                          \
    (ORDER_LINE_IS_REFUSED(answer) == (number >= 1 && number <= 63) &&                                                 \
     ORDER_LINE_IS_EVENT(answer) == (number >= 64 && number <= 79) &&                                                  \
     (unsigned long)ORDER_LINE_RETURN_BIT(answer) == number % 2 &&                                                     \
     (unsigned long)ORDER_LINE_SENT_NUMBER(answer) == number / 65536 &&                                                \
     (unsigned long)ORDER_LINE_NOISE_INVERTED(answer) == number / 65536)

static unsigned types, wrong;

/* Tries a type up to the first number that is wrong. */
#define TRY(type)                                                                                                      \
    do {                                                                                                               \
        unsigned long number;                                                                                          \
        for (number = 0; number < TRIED(type) && RIGHT((type)number, number); number++)                                \
            ;                                                                                                          \
        types++;                                                                                                       \
        if (number < TRIED(type)) {                                                                                    \
            wrong++;                                                                                                   \
            printf("wrong of %lu in the type " #type "\n", number);                                                    \
        }                                                                                                              \
    } while (0)

static void try_types(void)
{
    TRY(char);
    TRY(signed char);
    TRY(unsigned char);
    TRY(short);
    TRY(unsigned short);
    TRY(int);
    TRY(unsigned);
    TRY(long);
    TRY(unsigned long);
#if __STDC_VERSION__ >= 199901L || __cplusplus >= 201103L
    TRY(long long);
    TRY(unsigned long long);
#endif
    TRY(wchar_t);
    TRY(intmax_t);
    TRY(uintmax_t);
}

/* From more than one number: an operand of && or || may be skipped. */
#define TRY_ONCE(macro)                                                                                                \
    do {                                                                                                               \
        int from, answer = 0;                                                                                          \
        for (from = 0; from < 128 && answer == from; from++)                                                           \
            (void)macro(answer++);                                                                                     \
        if (answer != from) {                                                                                          \
            wrong++;                                                                                                   \
            printf("not evaluated once of %d: " #macro "\n", from - 1);                                                \
        }                                                                                                              \
    } while (0)

int main(void)
{
    try_types();
    TRY_ONCE(ORDER_LINE_IS_REFUSED);
    TRY_ONCE(ORDER_LINE_IS_EVENT);
    TRY_ONCE(ORDER_LINE_RETURN_BIT);
    TRY_ONCE(ORDER_LINE_SENT_NUMBER);
    TRY_ONCE(ORDER_LINE_NOISE_INVERTED);
    if (wrong == 0)
        printf("the macros are right in %u integer types\n", types);
    return wrong == 0 ? 0 : 1;
}
