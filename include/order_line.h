/*
 * The order line: Recommendation V.41 between a shop's office (the sending end) and its mixing machine (the receiving
 * end). C99; also good for C++. Link with libline_c.a.
 *
 * Every call is proved to answer and write what crates/line_c/specs says, on every input, and to end without a fault.
 * What the proofs suppose of a caller in C:
 *   - a pointer is not null and points to at least the given number of bytes, also where that number is 0; doses points
 *     to the given number of 16-bit numbers, and used, length, remainder, bytes, count, first and second to one number
 *     each, aligned as their types are;
 *   - what a call may write overlaps nothing else that is lent to the same call;
 *   - nobody else touches what is lent while the call runs: no other thread, no interrupt handler, no DMA;
 *   - a bool argument is 0 or 1;
 *   - there is stack enough. No proof bounds it: tests/stack.c found 1,472 bytes for order_line_send, 1,024 for
 *     order_line_receive and less than 350 for every other call (docs/SPEED.md). Allow 1,600.
 * Nothing else is asked: any bytes, any numbers. What a call only writes may be uninitialised before it: a state before
 * its opening; the block, the data, the tint order or the doses that it makes; the store; every number but *first and
 * *second. A refused call leaves it so. The library keeps nothing between calls and allocates nothing. Of the C library
 * it needs memcpy and memset.
 *
 * A number of bytes is the size of what the pointer points to. Of an array that was passed on as a pointer, sizeof gives
 * the pointer's own size: write ORDER_LINE_RECEIVER_BYTES, ORDER_LINE_STORE_BYTES(k) and so on instead, or hand the size
 * on beside the pointer. doses_numbers counts 16-bit numbers, not bytes.
 *
 * libline_c.a is for x86-64 processors of the level x86-64-v2 or above and the System V calling convention.
 * Its calls use vector registers, and may use the 128 bytes below the stack pointer (the red zone). So an interrupt
 * handler that makes a call must save the vector registers before it and restore them after it, and no call may run on a
 * stack on which an interrupt, or anything else, may overwrite those 128 bytes.
 *
 * Bits are packed into bytes, the earliest in the top bit. k is the number of data bits of a block: 240, 480, 960 or
 * 3840; a block has n = k + 20 bits.
 */
#ifndef ORDER_LINE_H
#define ORDER_LINE_H

#include <stdbool.h>
#include <stddef.h>
#include <stdint.h>

#ifdef __cplusplus
extern "C" {
#endif

/* ---- the version ---- */

/*
 * Version 5.1.1: major * 65536 + minor * 256 + patch. A later version with the same major number keeps the layouts, the
 * numbers, the signatures and the promises of this one (docs/VERSION.md). order_line_version returns the version of the
 * library; the two differ where a header and a library of different versions were brought together.
 */
#define ORDER_LINE_VERSION 0x050101u

uint32_t order_line_version(void);

/* ---- what a call returns ---- */

/*
 * In every version: 0, done; 1 to 63, refused; 64 to 79, an event; 80 to 95, whether a sender sends on; 96 and 97, a
 * return bit; from 0x100 on, what was sent, read or done to a block.
 *
 * A refused call writes no byte and no number, and leaves the state's bytes as they were. ORDER_LINE_IS_REFUSED says
 * whether a call was refused, whichever call it was.
 *
 * An answer may be held in any integer type that can hold it, but not in a bool. In each, ORDER_LINE_IS_REFUSED and the
 * other macros that take an answer or a word are right, and they evaluate it once. (They add and divide, because whether
 * 0 - 1u is less than 63 depends on the type of the 0.)
 */
#define ORDER_LINE_IS_REFUSED(answer) (((answer) + 62) / 63 == 1)

/* The refusals: the numbers of docs/PROTOCOL.md, "What the ends turn away". */
#define ORDER_LINE_REFUSED_BLOCK 1     /* k is not one of the four */
#define ORDER_LINE_REFUSED_SPEED 2     /* not one of 200, 600, 1200, 2400, 3600, 4800 bit/s */
#define ORDER_LINE_REFUSED_LOOP 3      /* a loop above the table's entry, or no entry */
#define ORDER_LINE_REFUSED_EMPTY 4     /* an order of 0 bits */
#define ORDER_LINE_REFUSED_LONG 5      /* an order above ORDER_LINE_LONGEST_ORDER bits */
#define ORDER_LINE_REFUSED_SHORT 6     /* lent bytes cannot hold what the call reads or writes */
#define ORDER_LINE_REFUSED_SPOILED 7   /* bytes that hold no state, a field outside its range, service bits above 15 */
#define ORDER_LINE_REFUSED_REST 8      /* a sender that is finished or gave up */
#define ORDER_LINE_REFUSED_CODE_SIZE 9 /* a code size other than 5 to 8 */
#define ORDER_LINE_REFUSED_FORMAT 10   /* no tint order: its version or its length; or no doses to write */
#define ORDER_LINE_REFUSED_ENTRY 11    /* a dose out of range or order, or more than ORDER_LINE_MOST_DOSES to write */
#define ORDER_LINE_REFUSED_STEPS 12    /* a tint order of more than 20,000 pump steps in all */
#define ORDER_LINE_REFUSED_GENERATOR 13 /* a noise generator's first word is 0 */

/* ---- sizes ---- */

#define ORDER_LINE_LONGEST_ORDER 262144 /* bits */
#define ORDER_LINE_MOST_DOSES 12        /* doses of a tint order */

#define ORDER_LINE_MOST_ITEMS ((ORDER_LINE_LONGEST_ORDER + 239) / 240) /* data items of an order: at k 240 */

#define ORDER_LINE_PAYLOAD_BYTES(k) ((k) / 8)   /* the data of one block: 30, 60, 120 or 480 */
#define ORDER_LINE_BLOCK_BYTES(k) ((k) / 8 + 3) /* a packed block: 33, 63, 123 or 483 */

#define ORDER_LINE_TINT_BYTES(count) (3 + 3 * (count)) /* a tint order of so many doses: 6 to 39 */

/* A store with room for any order at this k: the bytes of the longest, its last item filled. */
#define ORDER_LINE_STORE_BYTES(k) ((ORDER_LINE_LONGEST_ORDER + (k) - 1) / (k) * ORDER_LINE_PAYLOAD_BYTES(k))

/*
 * The states stand in bytes of the caller's, at any alignment. More bytes than these may be lent; the further ones stay
 * as they are. Fewer are refused SHORT (6) by an opening, since they are what it writes, and SPOILED (7) by the other
 * calls, since they hold no state. A version with another major number may put new fields at the end, and these sizes
 * then grow.
 *
 * A sender, numbers little-endian, each with its range; N is length / k rounded up, the number of data items:
 *   k, 4 bytes; the order's length in bits, 4 (1 to ORDER_LINE_LONGEST_ORDER); the newer item, 4 (1 to N + 1); the run
 *   of cancels, 1 (0 to 63; 64 if it gave up); opening, 1 (0 or 1); what goes out next, 1 (0 a synchronising block, 1
 *   the older item, 2 the newer); finished, 1 (0 or 1); marks in use, 1 (0 or 1); the code size, 1 (with marks 5 to 8).
 * A receiver:
 *   k, 4 bytes; held bits, 4 (below n; in search at most 15); items taken, 4 (0 to ORDER_LINE_MOST_ITEMS); bad blocks in
 *   a row, 1 (0 to 7); the return bit, 1 (0 or 1); the end was taken, 1 (0 or 1); the phase, 1 (0 search, 1 in step,
 *   2 sequence alarm, 3 length alarm); then the held bits, 483; marks in use, 1 (0 or 1); the code size, 1 (with marks 5
 *   to 8).
 * A field outside its range is SPOILED. No combination of fields in range is: a sender that is finished with a run of 64
 * counts as finished. The code size without marks and the bits behind the held ones are not judged and change no answer:
 * two states that are equal to every call may differ there. So compare fields, not all bytes by memcmp.
 */
#define ORDER_LINE_SENDER_BYTES 18
#define ORDER_LINE_RECEIVER_BYTES 501

/* ---- loop times ---- */

/*
 * The loop-time test. At one of the four k and six speeds (bit/s): 0 if a loop of loop_ms milliseconds and 90 ms
 * together last no longer than a block, that is, if (loop_ms + 90) * speed is at most 1000 * (k + 20); otherwise LOOP.
 * Round a measured loop up. The longest loops are in docs/PROTOCOL.md, "Loop time"; five of them are 1 ms below the
 * Recommendation's own table, which rounds to the nearest.
 * Refused: BLOCK, SPEED, LOOP, in this order.
 */
uint8_t order_line_loop_time(size_t k, uint32_t speed, uint32_t loop_ms);

/* ---- one block ---- */

/*
 * Builds a block of 4 service bits (0 to 15), the first k bits of payload and 16 check bits over the first
 * ORDER_LINE_BLOCK_BYTES(k) bytes of block; its last four bits are spare and written 0. Returns 0.
 * Refused: BLOCK, SPOILED (service above 15), SHORT.
 */
uint8_t order_line_build_block(size_t k, uint8_t service, const uint8_t *payload, size_t payload_bytes, uint8_t *block,
                               size_t block_bytes);

/*
 * Reads a block. If its check passes, returns ORDER_LINE_PASSED + its service bits and writes its k data bits over the
 * first ORDER_LINE_PAYLOAD_BYTES(k) bytes of payload, and *remainder stays as it is. If not, returns ORDER_LINE_FAILED;
 * *remainder becomes the remainder of the block's n bits, which is never 0, and no data are written.
 * Refused: BLOCK, SHORT (block or payload, both judged first).
 */
uint16_t order_line_read_block(size_t k, const uint8_t *block, size_t block_bytes, uint8_t *payload,
                               size_t payload_bytes, uint16_t *remainder);

#define ORDER_LINE_PASSED 0x100
#define ORDER_LINE_FAILED 0x200

/* ---- start-of-message marks ---- */

/*
 * Label texts come in five-, six-, seven- or eight-unit code. A session may be opened with the code size given, 5 to 8,
 * by order_line_open_sender_with_marks and order_line_open_receiver_with_marks. The service bits of item 0 are then the
 * mark of the sender's code size: 0001, 1010, 1011 or 0010 for 5 to 8, in this order. Items 1, 2, 3 carry the letters A,
 * B, C and so on; without marks the letters begin with item 0. Nothing else in the blocks changes, and every other call
 * is the same.
 *
 * OPEN BOTH ENDS ALIKE: with the same k, and both with marks or both without. Their code sizes may differ: the receiver
 * takes any of the four marks, and order_line_receive does not tell which one came. Otherwise nothing is guaranteed. The
 * order did not arrive in what was run, on undisturbed lines (docs/INTEGRATION.md, "Before a session: both ends alike"):
 *   - Marks at the sender alone: item 0 is BAD, the receiver is back in search, and the sender gives up. But if a repeat
 *     request is lost, or a search finds the synchronising sequence in the order itself, item 1 may be stored in the
 *     place of item 0; the end, if it comes, then brings LENGTH_ALARM.
 *   - Marks at the receiver alone: item 0 brings SEQUENCE_ALARM, and the sender gives up.
 *   - Different k: as a rule nothing is accepted and no alarm comes. THE SENDER MAY BE FINISHED all the same.
 */

/* ---- the sending end ---- */

/*
 * Opens a sender without marks for an order of length bits, 1 to ORDER_LINE_LONGEST_ORDER, on a line with this speed and
 * loop time, and writes it over the first ORDER_LINE_SENDER_BYTES bytes of state. Returns 0.
 *
 * A NEW ORDER NEEDS BOTH ENDS OPENED ANEW, the machine's receiver too. Nothing in the blocks tells one order from the
 * next: A MACHINE THAT IS NOT OPENED ANEW MAY JOIN THE NEW ORDER'S ITEMS TO THE OLD ONES AND REPORT THE END (see
 * order_line_open_receiver). AN OFFICE THAT STARTS, OR THAT STOPPED FOR ANY REASON, DOES NOT KNOW WHERE THE MACHINE
 * STANDS: before its first block it has the machine opened, by its line signal or by 4n idle bits (docs/INTEGRATION.md,
 * "Sessions").
 *
 * Refused: BLOCK, SPEED, LOOP, EMPTY, LONG, SHORT (order has fewer than length bits; state is too short), in this order.
 */
uint8_t order_line_open_sender(size_t k, uint32_t speed, uint32_t loop_ms, size_t length, const uint8_t *order,
                               size_t order_bytes, uint8_t *state, size_t state_bytes);

/*
 * The same with marks; size is the code size.
 * Refused: BLOCK, SPEED, LOOP, EMPTY, LONG, CODE_SIZE, SHORT, in this order.
 */
uint8_t order_line_open_sender_with_marks(size_t k, uint32_t speed, uint32_t loop_ms, size_t length, size_t size,
                                          const uint8_t *order, size_t order_bytes, uint8_t *state,
                                          size_t state_bytes);

/*
 * Sends one block: writes it over the first ORDER_LINE_BLOCK_BYTES(k) bytes of block, and the sender's next state over
 * state. The order is lent whole, the same and unchanged at each call of a session.
 *
 * reading is the return channel as it is JUST BEFORE THIS BLOCK'S LAST BIT GOES OUT: true if it asked for a repeat (1)
 * at any time in the 45 to 50 ms before that bit. The machine's verdict on the block before comes back while this block
 * goes out. A READING TAKEN WHEN THE BLOCK BEGINS IS ONE BLOCK OLD: the request for a damaged item is lost, and an
 * alarm follows. The reading decides about the block's last bit, and about what is sent next. So an office calls twice
 * in each block period:
 *   - when the block begins, on a copy of the state with reading false; the copy is dropped, and the block's bits but
 *     the last may go out;
 *   - just before the last bit, on the state itself with the reading: the block is the same, its last bit inverted if it
 *     is cancelled.
 *
 * Returns ORDER_LINE_SENT with the flags below. ORDER_LINE_SENT_NUMBER of it is the item's number: 0 to N - 1 of data, N
 * and N + 1 of the two end blocks, N being length / k rounded up. Of a synchronising block it is 0.
 * Refused: SPOILED (also a state that is too short), REST, SHORT (order or block), in this order.
 */
uint32_t order_line_send(uint8_t *state, size_t state_bytes, const uint8_t *order, size_t order_bytes, bool reading,
                         uint8_t *block, size_t block_bytes);

#define ORDER_LINE_SENT 0x100u           /* a block was sent; set in every word that is no refusal */
#define ORDER_LINE_SENT_ITEM 0x200u      /* an item; without this flag, a synchronising block */
#define ORDER_LINE_SENT_END 0x400u       /* the item is an end block */
#define ORDER_LINE_SENT_USED 0x800u      /* its reading was used */
#define ORDER_LINE_SENT_CANCELLED 0x1000u /* it was cancelled: its last bit is inverted */

#define ORDER_LINE_SENT_NUMBER(word) ((word) >> 16) /* the item's number */

/*
 * Whether a sender sends on: ORDER_LINE_GOING_ON, ORDER_LINE_FINISHED (all items are confirmed) or ORDER_LINE_GAVE_UP
 * (64 cancels in a row). FINISHED ALONE IS NO DELIVERY: a lost request, or ends that were not opened alike, bring it
 * too. What counts is ORDER_LINE_EVENT_ENDED at the machine. Refused: SPOILED (also a state that is too short).
 */
uint8_t order_line_sender_rest(const uint8_t *state, size_t state_bytes);

#define ORDER_LINE_GOING_ON 80
#define ORDER_LINE_FINISHED 81
#define ORDER_LINE_GAVE_UP 82

/* ---- the receiving end ---- */

/*
 * Opens a receiver without marks, in search with return bit 1, over the first ORDER_LINE_RECEIVER_BYTES bytes of state.
 * k is the sender's. Returns 0.
 *
 * A NEW ORDER NEEDS BOTH ENDS OPENED ANEW, the office's sender too, also after a session that broke off. Nothing in the
 * blocks tells one order from the next. A MACHINE THAT IS NOT OPENED ANEW MAY JOIN THE NEW ORDER'S ITEMS TO THE OLD ONES
 * AND REPORT THE END: after item 0 of two, a new order of the same length is answered sync, previous, accepted, ended,
 * and the store holds the old item 0 and the new item 1.
 *
 * Refused: BLOCK, SHORT (state is too short).
 */
uint8_t order_line_open_receiver(size_t k, uint8_t *state, size_t state_bytes);

/*
 * The same with marks; size is the code size.
 * Refused: BLOCK, CODE_SIZE, SHORT, in this order.
 */
uint8_t order_line_open_receiver_with_marks(size_t k, size_t size, uint8_t *state, size_t state_bytes);

/*
 * Takes bits from the line, the first `bits` bits of line, up to the next event or to the last, and returns the event.
 * *used becomes the number of bits taken; the rest is to be lent again. A call with bits above 0 that is not refused
 * takes at least one, so that a loop over the rest ends. Under a standing alarm it takes all of them, returns the alarm
 * again, and the return bit is 1. With bits 0 nothing changes but *used, which becomes 0, and a standing alarm is
 * returned. (How many are taken is proved: UsedTold, crates/line_c/specs/UsedTold.antt.)
 *
 * An accepted block's k bits go to the store at bit k times the items taken before; *length becomes the order's length
 * in bits with ORDER_LINE_EVENT_ENDED, and stays as it is otherwise. The store is the same at each call; for an order of
 * L bits it wants L bits rounded up to a multiple of k, at most ORDER_LINE_STORE_BYTES(k) bytes.
 *
 * ready says whether the machine can take a block now: false while it is busy. The call that brings a block's last bit
 * decides, whatever the calls before it said. If ready is false there, a block that would be accepted, or the end that
 * would be reported, is ORDER_LINE_EVENT_WAIT instead: nothing is stored, nothing is taken, the return bit is 1, and the
 * store is not judged. Every other event is the same whether ready is true or false. The sender repeats a block that
 * waits, unless it reads the request as 0; if the machine stays busy, it gives up after 64 cancels.
 *
 * With ORDER_LINE_EVENT_BAD, *remainder becomes the remainder of the n bits that were read as a block, divided by V.41's
 * polynomial; it stays as it is otherwise. It is for service staff, who may count bad blocks by it:
 *   - 1: a block that the office cancelled, and that is otherwise unharmed and read in step, shows 1, at every k. But 1
 *     is no proof of a cancel: damage on the line can leave 1 as well.
 *   - 0: the check passes, but the block fits nowhere; never otherwise.
 *   - any other number: the block was damaged on the line, cancelled or not, or the machine is out of step.
 * DECIDE NOTHING ABOUT THE ORDER BY IT: the events alone say what is in the store. docs/INTEGRATION.md, "Counting
 * cancelled blocks", says what such a count does not tell.
 *
 * Refused: SPOILED (also a state that is too short), SHORT (line has fewer than `bits` bits; or ready is true, a block
 * would be accepted and the store cannot hold it).
 *
 * A REFUSED CALL USES NO BIT: A LOOP THAT LENDS THE SAME BITS AGAIN DOES NOT END. Where the store was shorter than
 * ORDER_LINE_STORE_BYTES(k), the call may be made again with a longer one that begins with the same bytes. Where it was
 * not, more items came than an order has, since up to ORDER_LINE_MOST_ITEMS are accepted at every k: the machine was not
 * opened anew, or read what was not sent. Then lend no further bit of this session, hold the return channel at 1
 * (order_line_return_bit may still say 0), and open the receiver anew before the next one; nothing in the store is an
 * order.
 */
uint8_t order_line_receive(uint8_t *state, size_t state_bytes, const uint8_t *line, size_t line_bytes, size_t bits,
                           bool ready, uint8_t *store, size_t store_bytes, size_t *used, size_t *length,
                           uint16_t *remainder);

/* The events; their numbers are this library's own. */
#define ORDER_LINE_EVENT_NONE 64           /* all bits were used without an event */
#define ORDER_LINE_EVENT_SYNC 65           /* a synchronising block; in search, its sequence of 16 bits anywhere */
#define ORDER_LINE_EVENT_BAD 66            /* the check failed, or the block fits nowhere; the remainder is reported */
#define ORDER_LINE_EVENT_ACCEPTED 67       /* the next data item: its data are in the store */
#define ORDER_LINE_EVENT_PREVIOUS 68       /* the item before, or the end again: nothing stored */
#define ORDER_LINE_EVENT_SEQUENCE_ALARM 69 /* an item was missed, or comes after the end; stands until a new opening */
#define ORDER_LINE_EVENT_LENGTH_ALARM 70   /* an end block with another length; stands likewise */
#define ORDER_LINE_EVENT_ENDED 71          /* the end, with its length: the whole order, if both ends were opened anew */
#define ORDER_LINE_EVENT_WAIT 72           /* the machine is not ready for the next item or the end: nothing taken */

#define ORDER_LINE_IS_EVENT(answer) ((answer) / 16 == 4) /* what order_line_receive returned is an event, no refusal */

/*
 * The return bit that the machine now sends back: ORDER_LINE_RETURN_0, or ORDER_LINE_RETURN_1 to ask for a repeat.
 * Refused: SPOILED (also a state that is too short).
 */
uint8_t order_line_return_bit(const uint8_t *state, size_t state_bytes);

#define ORDER_LINE_RETURN_0 96
#define ORDER_LINE_RETURN_1 97

#define ORDER_LINE_RETURN_BIT(answer) ((answer) & 1) /* 0 or 1; of the refusal SPOILED, which is 7, it is 1 too */

/* ---- tint orders ---- */

/*
 * What the machine is to pump, as the bytes of an order: a version byte 1; the number of bytes that follow, 16 bits;
 * then three bytes for each dose, the canister, 1 to 12, and its pump steps, 1 to 4,800, 16 bits. Both 16-bit numbers
 * begin with their high byte. There is at least one dose, each canister is above the one before it, and all steps
 * together are 20,000 or fewer. Each of the two calls undoes the other.
 *
 * In doses, canister and pump steps stand in turn, two 16-bit numbers for each dose. A canister is judged as it is: 261
 * is refused ENTRY, not cut to 5.
 *
 * The office writes the order, and opens its sender with it and with length 8 * *bytes. The machine reads it once
 * order_line_receive has returned ORDER_LINE_EVENT_ENDED: it is the first *length / 8 bytes of the store. A *length that
 * is no multiple of 8 is no tint order's.
 *   - LEND *length / 8 AS order_bytes, NOT THE STORE'S SIZE: with bytes after the order it is refused FORMAT.
 *   - TEST THE ANSWER BEFORE YOU PUMP: a refused call leaves doses as it was, perhaps with the doses of an earlier
 *     order.
 */

/*
 * Writes the tint order of the first count doses over the first ORDER_LINE_TINT_BYTES(count) bytes of order, and over
 * no other byte; *bytes becomes that number. Returns 0. The numbers after the first 2 * count are not looked at.
 * Refused: FORMAT (count is 0), ENTRY (count is above ORDER_LINE_MOST_DOSES; a dose is out of range or order), STEPS
 * (more than 20,000 in all), SHORT (doses has fewer than 2 * count numbers; order is too short), in this order. Where
 * doses is too short, the doses that are there whole are judged before that, and a missing one is not.
 */
uint8_t order_line_write_tint(const uint16_t *doses, size_t doses_numbers, size_t count, uint8_t *order,
                              size_t order_bytes, size_t *bytes);

/*
 * Reads a tint order: order is the whole of it and nothing else. Writes its doses over the first 2 * (number of doses)
 * numbers of doses, and over no others; *count becomes the number of doses. Returns 0. 2 * ORDER_LINE_MOST_DOSES
 * numbers are always enough.
 * Refused: FORMAT (fewer than 3 bytes; another version; a length that is 0, no multiple of 3, or not the number of
 * bytes that follow it), ENTRY (a dose is out of range or order), STEPS (more than 20,000 in all), SHORT (doses cannot
 * hold the doses), in this order.
 */
uint8_t order_line_read_tint(const uint8_t *order, size_t order_bytes, uint16_t *doses, size_t doses_numbers,
                             size_t *count);

/* ---- the noise load ---- */

/*
 * For a bench: the same rough line on every visit. IT DAMAGES BLOCKS: no office and no machine in a shop makes this
 * call.
 *
 * The generator is two words, which the caller keeps. A draw changes both. The first becomes x xor (x shifted left by
 * 13); that, x xor (x shifted right by 17); and that, x xor (x shifted left by 5); kept to 32 bits each time. The second
 * grows by 362,437, the carry above 32 bits dropped. The number drawn is the sum of both, the carry dropped. The same
 * two words give the same noise, call for call: write down those that a session starts from. The first is any number but
 * 0, and is then never 0 again; the second is any number.
 */

/*
 * The noise of one block period: call it once for each block that is sent, on the block as it was sent, and not for the
 * sending call on a copy of the state. One number is drawn. Its low two bits choose: 0 or 1, nothing; 2, one damaged
 * span; 3, a turned-over reading. For a span a second number is drawn. Its low 16 bits are a pattern, which is laid
 * over the block, the top bit first, from bit (the number divided by 65,536, rounded down) modulo (n - 15) on; each of
 * its ones inverts a bit. So what is inverted lies within 16 adjacent bits of the n. The spare bits and all other bytes
 * stay. Which bits are inverted does not depend on the block's: of zero bytes it leaves just those.
 *
 * *first and *second become the words after the draws; the second number is used up even if its pattern is 0. Returns
 * ORDER_LINE_NOISE with the flag below and the number of bits inverted, 0 to 16. A turned-over reading is that of the
 * next order_line_send on the state itself that is not refused; a call on a copy keeps reading false.
 *
 * SESSIONS UNDER THE LOAD MAY GO WRONG, as on a rough line, and nothing is guaranteed of them: a turned-over reading may
 * lose a repeat request, and damage to a cancelled block may make it pass the check, whole or with other data. THE
 * MACHINE MAY THEN STORE AND REPORT A WRONG ORDER WITHOUT AN ALARM: compare what arrived with what was sent, and never
 * pump it (docs/INTEGRATION.md, "A rough line on the bench").
 *
 * Refused: BLOCK, GENERATOR (*first is 0), SHORT (block cannot hold a block, whatever would be drawn), in this order.
 */
uint32_t order_line_noise(size_t k, uint32_t *first, uint32_t *second, uint8_t *block, size_t block_bytes);

#define ORDER_LINE_NOISE 0x100u        /* the period's noise was drawn; set in every word that is no refusal */
#define ORDER_LINE_NOISE_TURNED 0x200u /* turn over the reading of the next block period */

#define ORDER_LINE_NOISE_INVERTED(word) ((word) >> 16) /* the number of bits inverted in this block */

#ifdef __cplusplus
}
#endif

#endif
