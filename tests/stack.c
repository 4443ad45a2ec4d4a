/*
 * The deepest stack of each call: each runs on a stack of its own that was painted, and the bytes that lost their paint
 * are counted, those of an empty function taken off. So the return address and arguments on the stack are counted.
 */
#include "../include/order_line.h"

#include <stdio.h>
#include <string.h>
#include <ucontext.h>

#define ITEMS 3

static size_t k;
static uint8_t order[ITEMS * 480], store[ITEMS * 480], block[483], payload[480], line[483];
static uint8_t sender[ORDER_LINE_SENDER_BYTES], receiver[ORDER_LINE_RECEIVER_BYTES];
static uint16_t doses[2 * ORDER_LINE_MOST_DOSES];
static uint8_t tint[ORDER_LINE_TINT_BYTES(ORDER_LINE_MOST_DOSES)];
static size_t bits, used, length, tint_bytes, count;
static uint16_t remainder;
static uint32_t first_word, second_word;
static uint32_t answer;

static void nothing(void) {}
static void loop_time(void) { answer = order_line_loop_time(k, 200, 0); }
static void build(void) { answer = order_line_build_block(k, 3, order, sizeof order, block, sizeof block); }
static void read(void)
{
    answer = order_line_read_block(k, block, sizeof block, payload, sizeof payload, &remainder);
}
static void read_failing(void)
{
    block[0] ^= 0x80;
    read();
    block[0] ^= 0x80;
}
static void open_sender(void)
{
    answer = order_line_open_sender(k, 200, 0, ITEMS * k, order, sizeof order, sender, sizeof sender);
}
static void open_marked_sender(void)
{
    answer = order_line_open_sender_with_marks(k, 200, 0, ITEMS * k, 5, order, sizeof order, sender, sizeof sender);
}
static void send(void)
{
    answer = order_line_send(sender, sizeof sender, order, sizeof order, false, block, sizeof block);
}
static void rest(void) { answer = order_line_sender_rest(sender, sizeof sender); }
static void open_receiver(void) { answer = order_line_open_receiver(k, receiver, sizeof receiver); }
static void open_marked_receiver(void)
{
    answer = order_line_open_receiver_with_marks(k, 8, receiver, sizeof receiver);
}
static void receive(void)
{
    answer = order_line_receive(receiver, sizeof receiver, line, sizeof line, bits, true, store, sizeof store, &used,
                                &length, &remainder);
}
static void return_bit(void) { answer = order_line_return_bit(receiver, sizeof receiver); }
static void write_tint(void)
{
    answer = order_line_write_tint(doses, 2 * ORDER_LINE_MOST_DOSES, ORDER_LINE_MOST_DOSES, tint, sizeof tint,
                                   &tint_bytes);
}
static void read_tint(void)
{
    answer = order_line_read_tint(tint, sizeof tint, doses, 2 * ORDER_LINE_MOST_DOSES, &count);
}
static void noise(void) { answer = order_line_noise(k, &first_word, &second_word, block, sizeof block); }
static void version(void) { answer = order_line_version(); }

static uint8_t stack[1 << 16];

/* Two paints, since a call may write one of them. */
static size_t painted(void (*call)(void), uint8_t paint)
{
    static ucontext_t here, there;
    memset(stack, paint, sizeof stack);
    getcontext(&there);
    there.uc_stack.ss_sp = stack;
    there.uc_stack.ss_size = sizeof stack;
    there.uc_link = &here;
    makecontext(&there, call, 0);
    swapcontext(&here, &there);
    size_t clean = 0;
    while (stack[clean] == paint)
        clean++;
    return sizeof stack - clean;
}

/* The deepest of the two, with the state and the words as they were before each. */
static size_t depth(void (*call)(void))
{
    uint8_t before[sizeof sender + sizeof receiver], *rest_of = before + sizeof sender;
    uint32_t words[2] = {first_word, second_word};
    memcpy(before, sender, sizeof sender);
    memcpy(rest_of, receiver, sizeof receiver);
    size_t first = painted(call, 0xA5);
    memcpy(sender, before, sizeof sender);
    memcpy(receiver, rest_of, sizeof receiver);
    first_word = words[0];
    second_word = words[1];
    size_t second = painted(call, 0x5A), empty = painted(nothing, 0xA5);
    return (first > second ? first : second) - empty;
}

static void deepen(size_t *deepest, void (*call)(void))
{
    size_t now = depth(call);
    if (now > *deepest)
        *deepest = now;
}

/* A receiving call on a copy of the state, with the last of its bits inverted. */
static void receive_inverted(size_t *receiving)
{
    uint8_t before[sizeof receiver];
    memcpy(before, receiver, sizeof receiver);
    line[(bits - 1) / 8] ^= (uint8_t)(0x80 >> (bits - 1) % 8);
    deepen(receiving, receive);
    line[(bits - 1) / 8] ^= (uint8_t)(0x80 >> (bits - 1) % 8);
    memcpy(receiver, before, sizeof receiver);
}

/*
 * A whole order from end to end in calls of at most so many bits, each block's last call also with its last bit inverted,
 * which is bad in step; the deepest of sending and receiving.
 */
static bool session(bool marks, size_t most, size_t *sending, size_t *receiving)
{
    (marks ? open_marked_sender : open_sender)();
    (marks ? open_marked_receiver : open_receiver)();
    length = 0;
    for (int period = 0; period < ITEMS + 4; period++) { /* the first finds the machine in search */
        if (order_line_sender_rest(sender, sizeof sender) != ORDER_LINE_GOING_ON)
            break;
        deepen(sending, send);
        size_t n = k + 20;
        for (size_t at = 0; at < n; at += bits) {
            bits = n - at < most ? n - at : most;
            memset(line, 0, sizeof line);
            for (size_t i = 0; i < bits; i++)
                line[i / 8] |= (uint8_t)((block[(at + i) / 8] >> (7 - (at + i) % 8) & 1) << (7 - i % 8));
            if (at + bits == n) {
                receive_inverted(receiving);
                if (period > 0 && (answer != ORDER_LINE_EVENT_BAD || remainder != 1))
                    return false;
            }
            deepen(receiving, receive);
            if (!ORDER_LINE_IS_EVENT(answer) || used != bits)
                return false;
        }
    }
    return length == ITEMS * k && memcmp(store, order, ITEMS * k / 8) == 0;
}

/* The longest tint order there and back; the deepest of writing and reading. */
static bool tint_order(size_t *writing, size_t *reading)
{
    for (size_t i = 0; i < ORDER_LINE_MOST_DOSES; i++) {
        doses[2 * i] = (uint16_t)(i + 1);
        doses[2 * i + 1] = 1666;
    }
    deepen(writing, write_tint);
    if (answer != 0 || tint_bytes != sizeof tint)
        return false;
    memset(doses, 0, sizeof doses);
    deepen(reading, read_tint);
    return answer == 0 && count == ORDER_LINE_MOST_DOSES && doses[22] == 12 && doses[23] == 1666;
}

/* Some periods of noise, among them each of what a draw can choose; the deepest. */
static bool noises(size_t *deepest)
{
    bool unharmed = false, damaged = false, turned = false;
    first_word = 1968;
    second_word = 41;
    for (int period = 0; period < 32; period++) {
        deepen(deepest, noise);
        if (!(answer & ORDER_LINE_NOISE))
            return false;
        unharmed |= answer == ORDER_LINE_NOISE;
        damaged |= ORDER_LINE_NOISE_INVERTED(answer) > 0;
        turned |= answer == (ORDER_LINE_NOISE | ORDER_LINE_NOISE_TURNED);
    }
    return unharmed && damaged && turned;
}

/* The calls that a session, a tint order or noise does not measure. */
static struct {
    const char *name;
    void (*call)(void);
    size_t deepest;
} others[] = {
    {"loop_time", loop_time, 0},
    {"build_block", build, 0},
    {"read_block", read, 0},
    {"open_sender", open_sender, 0},
    {"open_sender_with_marks", open_marked_sender, 0},
    {"sender_rest", rest, 0},
    {"open_receiver", open_receiver, 0},
    {"open_receiver_with_marks", open_marked_receiver, 0},
    {"return_bit", return_bit, 0},
    {"version", version, 0},
};

#define READ_BLOCK 2
#define OTHERS (sizeof others / sizeof others[0])

int main(void)
{
    static const size_t lengths[] = {240, 480, 960, 3840}, pieces[] = {3860, 64, 1};
    size_t sending = 0, receiving = 0, writing = 0, reading = 0, loading = 0;
    for (size_t i = 0; i < sizeof order; i++)
        order[i] = (uint8_t)(i * 89 + 7);
    for (size_t i = 0; i < 4; i++) {
        k = lengths[i];
        for (size_t j = 0; j < 6; j++)
            if (!session(j >= 3, pieces[j % 3], &sending, &receiving)) {
                printf("the order did not arrive: k %zu, %zu bits a call\n", k, pieces[j % 3]);
                return 1;
            }
        for (size_t j = 0; j < OTHERS; j++)
            deepen(&others[j].deepest, others[j].call);
        deepen(&others[READ_BLOCK].deepest, read_failing);
        if (answer != ORDER_LINE_FAILED) {
            puts("a block with an inverted bit was not read as failed");
            return 1;
        }
        if (!noises(&loading)) {
            puts("the noise load did not do all that a draw can choose");
            return 1;
        }
    }
    if (!tint_order(&writing, &reading)) {
        puts("the tint order was not read as it was written");
        return 1;
    }
    for (size_t j = 0; j < OTHERS; j++)
        printf("%-24s %5zu\n", others[j].name, others[j].deepest);
    printf("%-24s %5zu\n%-24s %5zu\n", "send", sending, "receive", receiving);
    printf("%-24s %5zu\n%-24s %5zu\n", "write_tint", writing, "read_tint", reading);
    printf("%-24s %5zu\n", "noise", loading);
    return 0;
}
