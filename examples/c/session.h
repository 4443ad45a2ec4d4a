/*
 * What the examples share: an office and a machine, with a noisy line between them. These two are what firmware would
 * take over: each has its own memory and meets the other only in the bits of the line and in the return bit. The noise
 * and run_session stand for the modems and the clock.
 */
#ifndef SESSION_H
#define SESSION_H

#include <stdbool.h>
#include <stddef.h>
#include <stdint.h>

#include "order_line.h"

#define BLOCK_BYTES ORDER_LINE_BLOCK_BYTES(3840) /* room for a block of any k */
#define STORE_BYTES ORDER_LINE_STORE_BYTES(3840) /* room for any order at any k */

#define EVENTS (ORDER_LINE_EVENT_WAIT - ORDER_LINE_EVENT_NONE + 1)

/* The sending end. */
struct office {
    uint8_t state[ORDER_LINE_SENDER_BYTES];
    uint8_t block[BLOCK_BYTES]; /* the block going out */
    const uint8_t *order;       /* unchanged until the session ends */
    size_t order_bytes;
    unsigned long synchronising, cancelled, repeats;
    unsigned long items_begun; /* items sent at least once */
};

/* The receiving end. */
struct machine {
    uint8_t state[ORDER_LINE_RECEIVER_BYTES];
    uint8_t store[STORE_BYTES]; /* the order as it arrives; of use only once `ended` is set */
    size_t length;              /* bits of the order, with `ended` */
    bool ended;
    uint8_t alarm;      /* the alarm that stands, or 0 */
    uint8_t refusal;    /* the refusal that stopped the machine, or 0 */
    uint8_t return_bit; /* what the return channel is held at */
    unsigned long events[EVENTS]; /* how often each came, from ORDER_LINE_EVENT_NONE on */
    uint16_t remainder;           /* of the latest bad block */
    unsigned long bad_with_1;     /* bad blocks with remainder 1, as a block shows that was only cancelled */
};

/* The two words that the noise starts from; the same words, the same noise. */
struct words {
    uint32_t first, second;
};

/* Whether library and header are of one version; says so if not. */
bool same_version(void);

/*
 * Opens both ends at k data bits a block, with marks if size is not NULL, and brings office->order over. Prints the words
 * of the noise, then the periods, repeats and events, and why the order did not arrive. Returns 0 if it arrived whole, 1
 * if it did not, 2 if a call was refused.
 */
int run_session(struct office *office, struct machine *machine, size_t k, const size_t *size, struct words words);

#endif
