/* See session.h. */
#include "session.h"

#include <stdio.h>
#include <string.h>

#include "refusal.h"

#define SPEED 1200u /* bit/s */
#define LOOP_MS 100u

/* ---- the office: the sending end ---- */

/* For each order anew; size is the code size, or NULL for a session without marks. */
static uint8_t office_open(struct office *office, size_t k, const size_t *size)
{
    size_t length = 8 * office->order_bytes;

    if (size != NULL)
        return order_line_open_sender_with_marks(k, SPEED, LOOP_MS, length, *size, office->order, office->order_bytes,
                                                 office->state, ORDER_LINE_SENDER_BYTES);
    return order_line_open_sender(k, SPEED, LOOP_MS, length, office->order, office->order_bytes, office->state,
                                  ORDER_LINE_SENDER_BYTES);
}

/*
 * At the start of a block period: the block's bits but the last do not depend on the reading, which is not there yet. So
 * they are taken from a sending call on a copy of the state, and the copy is dropped. Returns 0 or a refusal.
 */
static uint8_t office_begin_block(struct office *office)
{
    uint8_t copy[ORDER_LINE_SENDER_BYTES];
    uint32_t word;

    memcpy(copy, office->state, ORDER_LINE_SENDER_BYTES);
    word = order_line_send(copy, ORDER_LINE_SENDER_BYTES, office->order, office->order_bytes, false, office->block,
                           BLOCK_BYTES);
    return ORDER_LINE_IS_REFUSED(word) ? (uint8_t)word : 0;
}

/*
 * Before the last bit goes out, with the reading taken then: the sending call that counts. It writes the same block, its
 * last bit inverted if the block is cancelled. Returns 0 or a refusal.
 */
static uint8_t office_end_block(struct office *office, bool reading)
{
    uint32_t word = order_line_send(office->state, ORDER_LINE_SENDER_BYTES, office->order, office->order_bytes, reading,
                                    office->block, BLOCK_BYTES);

    if (ORDER_LINE_IS_REFUSED(word))
        return (uint8_t)word;
    if ((word & ORDER_LINE_SENT_ITEM) == 0) {
        office->synchronising++;
        return 0;
    }
    if ((word & ORDER_LINE_SENT_CANCELLED) != 0)
        office->cancelled++;
    if (ORDER_LINE_SENT_NUMBER(word) < office->items_begun)
        office->repeats++;
    else
        office->items_begun = ORDER_LINE_SENT_NUMBER(word) + 1;
    return 0;
}

/* ---- the machine: the receiving end ---- */

static void machine_set_return_bit(struct machine *machine)
{
    machine->return_bit = ORDER_LINE_RETURN_BIT(order_line_return_bit(machine->state, ORDER_LINE_RECEIVER_BYTES));
}

/* For each order anew, with a size if the office has one: the two need not be the same. */
static uint8_t machine_open(struct machine *machine, size_t k, const size_t *size)
{
    uint8_t answer;

    memset(machine, 0, sizeof *machine);
    if (size != NULL)
        answer = order_line_open_receiver_with_marks(k, *size, machine->state, ORDER_LINE_RECEIVER_BYTES);
    else
        answer = order_line_open_receiver(k, machine->state, ORDER_LINE_RECEIVER_BYTES);
    machine_set_return_bit(machine);
    return answer;
}

/* What the machine does on each event. */
static void machine_on_event(struct machine *machine, uint8_t event)
{
    switch (event) {
    case ORDER_LINE_EVENT_NONE: /* more bits are wanted */
        return;
    case ORDER_LINE_EVENT_BAD: /* the return bit asks for a repeat; the remainder is for service staff alone */
        if (machine->remainder == 1)
            machine->bad_with_1++;
        break;
    case ORDER_LINE_EVENT_SYNC:     /* in step with the blocks from here on */
    case ORDER_LINE_EVENT_WAIT:     /* a busy machine asks for a repeat; this one is never busy */
    case ORDER_LINE_EVENT_ACCEPTED: /* one item more in the store; not to be used before the end */
    case ORDER_LINE_EVENT_PREVIOUS: /* a repeat of what is there already */
        break;
    case ORDER_LINE_EVENT_ENDED: /* the whole order is in the store: now it may be used */
        machine->ended = true;
        break;
    case ORDER_LINE_EVENT_SEQUENCE_ALARM: /* drop the order and call someone; only a new session helps */
    case ORDER_LINE_EVENT_LENGTH_ALARM:
        if (machine->alarm != 0)
            return; /* reported again at each call */
        machine->alarm = event;
        break;
    default: /* there is no other event */
        return;
    }
    machine->events[event - ORDER_LINE_EVENT_NONE]++;
    machine_set_return_bit(machine);
}

/*
 * A refused call used no bit: a machine that lent the same bits again would do so for ever. It stops. It takes no more
 * bits, holds the return channel at 1, so that an office that reads it gives up, and is opened anew before the next order.
 * The refusal may be SPOILED (7), if something else wrote over the state; or SHORT (6), if more items come than the store
 * holds: a machine that was not opened anew may take the items of a second order behind those of the first.
 */
static void machine_stop(struct machine *machine, uint8_t refusal)
{
    machine->refusal = refusal;
    machine->return_bit = 1;
}

/*
 * The serial line's interrupt: up to eight bits, the earliest in the top bit. A block may end within them; a call stops
 * there, and the bits it left are lent again. This machine is always ready.
 */
static void machine_on_bits(struct machine *machine, uint8_t byte, size_t bits)
{
    while (bits > 0 && machine->refusal == 0) {
        size_t used = 0;
        uint8_t answer = order_line_receive(machine->state, ORDER_LINE_RECEIVER_BYTES, &byte, 1, bits, true,
                                            machine->store, STORE_BYTES, &used, &machine->length,
                                            &machine->remainder);

        if (ORDER_LINE_IS_REFUSED(answer))
            machine_stop(machine, answer);
        else
            machine_on_event(machine, answer);
        byte = (uint8_t)(byte << used);
        bits -= used;
    }
}

/* ---- the noise: the library's noise load, for a bench; no office and no machine has it ---- */

struct noise {
    struct words words;          /* the generator's */
    uint8_t damage[BLOCK_BYTES]; /* ones where this period's block is inverted */
    bool turned;                 /* this period's reading is turned over */
    bool turned_next;            /* the next period's is */
    unsigned long periods, damaged; /* blocks sent, and those of them with inverted bits */
    unsigned long inverted;         /* bits inverted in all */
    unsigned long readings;         /* readings turned over */
};

/*
 * At the start of a block period, once in each: draws its noise. The load is meant for a block as it was sent, but here
 * the first bits are taken before the last one is decided. What is inverted does not depend on the block's bits, so the
 * load is laid over zeros, and the ones that it leaves are the inverted places. Returns 0 or a refusal.
 */
static uint8_t noise_begin_block(struct noise *noise, size_t k)
{
    uint32_t word;

    memset(noise->damage, 0, BLOCK_BYTES);
    word = order_line_noise(k, &noise->words.first, &noise->words.second, noise->damage, BLOCK_BYTES);
    if (ORDER_LINE_IS_REFUSED(word))
        return (uint8_t)word;
    noise->turned = noise->turned_next; /* what was drawn in the period before */
    noise->turned_next = (word & ORDER_LINE_NOISE_TURNED) != 0;
    noise->periods++;
    if (ORDER_LINE_NOISE_INVERTED(word) != 0)
        noise->damaged++;
    noise->inverted += ORDER_LINE_NOISE_INVERTED(word);
    return 0;
}

/* The block's byte at this place as it arrives. */
static uint8_t noise_on_byte(const struct noise *noise, size_t place, uint8_t byte)
{
    return (uint8_t)(byte ^ noise->damage[place]);
}

/* The return bit as it is read at the sending call that counts. */
static bool noise_on_reading(struct noise *noise, bool return_bit)
{
    if (noise->turned)
        noise->readings++;
    return return_bit != noise->turned;
}

/* ---- one session ---- */

/*
 * One block period: the block goes out byte by byte and is taken as it comes. Returns 0, or the refusal of the office or
 * of the noise.
 */
static uint8_t run_period(struct office *office, struct machine *machine, struct noise *noise, size_t k)
{
    size_t last = ORDER_LINE_BLOCK_BYTES(k) - 1; /* the byte with the block's last four bits */
    size_t i;
    uint8_t refusal = office_begin_block(office);

    if (refusal == 0)
        refusal = noise_begin_block(noise, k);
    if (refusal != 0)
        return refusal;
    for (i = 0; i < last; i++)
        machine_on_bits(machine, noise_on_byte(noise, i, office->block[i]), 8);
    refusal = office_end_block(office, noise_on_reading(noise, machine->return_bit != 0));
    if (refusal != 0)
        return refusal;
    machine_on_bits(machine, noise_on_byte(noise, last, office->block[last]), 4);
    return 0;
}

static unsigned long event_count(const struct machine *machine, uint8_t event)
{
    return machine->events[event - ORDER_LINE_EVENT_NONE];
}

static void print_summary(const struct office *office, const struct machine *machine, const struct noise *noise,
                          size_t k)
{
    printf("%lu bytes, blocks of %lu data bits: %lu periods, %lu synchronising, %lu cancelled, %lu repeats\n",
           (unsigned long)office->order_bytes, (unsigned long)k, noise->periods, office->synchronising,
           office->cancelled, office->repeats);
    printf("events: %lu sync, %lu bad (%lu with remainder 1), %lu accepted, %lu previous, %lu ended, %lu alarms\n",
           event_count(machine, ORDER_LINE_EVENT_SYNC), event_count(machine, ORDER_LINE_EVENT_BAD), machine->bad_with_1,
           event_count(machine, ORDER_LINE_EVENT_ACCEPTED), event_count(machine, ORDER_LINE_EVENT_PREVIOUS),
           event_count(machine, ORDER_LINE_EVENT_ENDED),
           event_count(machine, ORDER_LINE_EVENT_SEQUENCE_ALARM) + event_count(machine, ORDER_LINE_EVENT_LENGTH_ALARM));
    printf("noise: %lu blocks damaged (%lu bits), %lu readings turned over\n", noise->damaged, noise->inverted,
           noise->readings);
}

/* Whether the order arrived; prints why not. */
static bool arrived_whole(const struct office *office, const struct machine *machine, uint8_t rest)
{
    bool same = machine->length == 8 * office->order_bytes &&
                memcmp(machine->store, office->order, office->order_bytes) == 0;

    if (rest == ORDER_LINE_GAVE_UP)
        puts("the office gave up");
    if (machine->alarm == ORDER_LINE_EVENT_SEQUENCE_ALARM)
        puts("sequence alarm");
    if (machine->alarm == ORDER_LINE_EVENT_LENGTH_ALARM)
        puts("length alarm");
    if (machine->refusal != 0)
        print_refusal(stdout, "the machine ", machine->refusal);
    if (!machine->ended)
        puts("the machine reported no end");
    else if (!same)
        puts("the machine reported the end of another order");
    return rest == ORDER_LINE_FINISHED && machine->ended && same;
}

int run_session(struct office *office, struct machine *machine, size_t k, const size_t *size, struct words words)
{
    struct noise noise;
    uint8_t rest = ORDER_LINE_GOING_ON;
    uint8_t refusal = office_open(office, k, size);

    if (refusal == 0)
        refusal = machine_open(machine, k, size);
    if (refusal == 0)
        printf("noise from the words %lu and %lu\n", (unsigned long)words.first, (unsigned long)words.second);
    memset(&noise, 0, sizeof noise);
    noise.words = words;
    while (refusal == 0 && rest == ORDER_LINE_GOING_ON) {
        refusal = run_period(office, machine, &noise, k);
        rest = order_line_sender_rest(office->state, ORDER_LINE_SENDER_BYTES);
        if (refusal == 0 && ORDER_LINE_IS_REFUSED(rest))
            refusal = rest;
    }
    if (refusal != 0) {
        print_refusal(stderr, "", refusal);
        return 2;
    }
    print_summary(office, machine, &noise, k);
    return arrived_whole(office, machine, rest) ? 0 : 1;
}

bool same_version(void)
{
    if (order_line_version() == ORDER_LINE_VERSION)
        return true;
    fputs("the library is of another version than the header\n", stderr);
    return false;
}
