/*
 * An office and a machine in one program: a tint order goes through the order line's library over a noisy line, and the
 * doses that the machine reads are compared with those that the office wrote.
 *
 *     send_tint [--noise FIRST SECOND] [K [CANISTER STEPS]...]
 *
 * FIRST and SECOND are the words that the noise starts from; it is the same from the same words. K is 240 (as without
 * it), 480, 960 or 3840 data bits a block. A dose is a CANISTER, 1 to 12, and its pump STEPS, 1 to 4,800; canisters rise,
 * and all steps together are 20,000 or fewer. Where none is given, four are sent. Numbers are decimal digits alone. Exit
 * status 0 means that the same doses were read, 1 that they were not, 2 that the arguments could not be read, or the
 * doses, the line or the words were refused. The office and the machine are in session.c.
 */
#include <stdio.h>
#include <string.h>

#include "arguments.h"
#include "refusal.h"
#include "session.h"

#define USAGE "send_tint [--noise FIRST SECOND] [K [CANISTER STEPS]...]"

#define DOSE_NUMBERS (2 * ORDER_LINE_MOST_DOSES) /* canister and steps of each dose */
#define TINT_BYTES ORDER_LINE_TINT_BYTES(ORDER_LINE_MOST_DOSES)

struct request {
    uint32_t k;
    size_t count; /* of doses */
    uint16_t doses[DOSE_NUMBERS];
};

/*
 * Reads K and the doses, as far as they are there; returns whether they can be read. What the library refuses is left to
 * it: 65535 stands for a greater number, and doses above the most are counted and not kept.
 */
static bool read_arguments(int argc, char **argv, struct request *request)
{
    int i;

    if (argc > 1 && !read_number(argv[1], &request->k))
        return false;
    for (i = 2; i < argc; i++) {
        uint32_t number;

        if (!read_number(argv[i], &number))
            return false;
        if (i - 2 < DOSE_NUMBERS)
            request->doses[i - 2] = (uint16_t)(number < UINT16_MAX ? number : UINT16_MAX);
    }
    if (argc > 2)
        request->count = (size_t)(argc - 2) / 2;
    return argc <= 2 || argc % 2 == 0;
}

/*
 * The machine, when the end was reported: the order is the first length / 8 bytes of its store, which is longer; a length
 * that is no multiple of 8 is no tint order's. Nothing is pumped before the answer is known to be 0.
 */
static bool machine_reads(const struct machine *machine, const uint16_t *doses, size_t count)
{
    uint16_t read[DOSE_NUMBERS];
    size_t read_count = 0, i;
    uint8_t answer = ORDER_LINE_REFUSED_FORMAT;

    if (machine->length % 8 == 0)
        answer = order_line_read_tint(machine->store, machine->length / 8, read, DOSE_NUMBERS, &read_count);
    if (answer != 0) {
        print_refusal(stdout, "the machine ", answer);
        return false;
    }
    for (i = 0; i < read_count; i++)
        printf("canister %u: %u steps\n", (unsigned)read[2 * i], (unsigned)read[2 * i + 1]);
    return read_count == count && memcmp(read, doses, 2 * count * sizeof *doses) == 0;
}

int main(int argc, char **argv)
{
    static uint8_t order[TINT_BYTES];
    static struct office office;
    static struct machine machine;
    struct request request = {240, 4, {1, 120, 4, 1500, 7, 36, 11, 4800}};
    struct words words;
    bool help = asks_for_help(argc, argv);
    uint8_t refusal;
    int status;

    if (help || !take_noise_option(&argc, &argv, &words) || !read_arguments(argc, argv, &request))
        return print_usage(USAGE, help);
    if (!same_version())
        return 2;
    refusal = order_line_write_tint(request.doses, DOSE_NUMBERS, request.count, order, TINT_BYTES, &office.order_bytes);
    if (refusal != 0) {
        print_refusal(stderr, "", refusal);
        return 2;
    }
    office.order = order; /* its length is 8 times its bytes: see office_open in session.c */
    status = run_session(&office, &machine, request.k, NULL, words);
    if (status == 2)
        return 2;
    if (status == 0 && !machine_reads(&machine, request.doses, request.count))
        status = 1;
    puts(status == 0 ? "arrived whole" : "did not arrive whole");
    return status;
}
