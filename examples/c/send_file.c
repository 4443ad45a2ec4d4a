/*
 * An office and a machine in one program: a file goes through the order line's library over a noisy line, and what
 * arrived is compared with what was sent.
 *
 *     send_file [--noise FIRST SECOND] [FILE [K [SIZE]]]
 *
 * FIRST and SECOND are the words that the noise starts from; it is the same from the same words. FILE has at least one
 * byte and at most ORDER_LINE_LONGEST_ORDER bits; K is 240 (as without it), 480, 960 or 3840 data bits a block. With SIZE,
 * a code size of 5 to 8, both ends use start-of-message marks. Numbers are decimal digits alone. Exit status 0 means that
 * the file arrived whole, 1 that it did not, 2 that the arguments or the file could not be read, or the order, the line or
 * the words were refused. The office and the machine are in session.c.
 */
#include <stdio.h>

#include "arguments.h"
#include "session.h"

#define USAGE "send_file [--noise FIRST SECOND] [FILE [K [SIZE]]]"

#define ORDER_BYTES (ORDER_LINE_LONGEST_ORDER / 8)

struct request {
    const char *path;
    uint32_t k, size;
};

/* Reads FILE, K and SIZE, as far as they are there; returns whether they can be read. What begins with - is no FILE. */
static bool read_arguments(int argc, char **argv, struct request *request)
{
    if (argc > 1)
        request->path = argv[1];
    return argc <= 4 && request->path[0] != '-' && (argc < 3 || read_number(argv[2], &request->k)) &&
           (argc < 4 || read_number(argv[3], &request->size));
}

/* Reads the file over the order, up to one byte more than the longest order has; returns whether it could be read. */
static bool read_order(const char *path, uint8_t *order, size_t *order_bytes)
{
    FILE *file = fopen(path, "rb");

    if (file != NULL) {
        *order_bytes = fread(order, 1, ORDER_BYTES + 1, file);
        if (!ferror(file)) {
            fclose(file);
            return true;
        }
    }
    fprintf(stderr, "cannot read %s\n", path);
    return false; /* the program ends */
}

int main(int argc, char **argv)
{
    static uint8_t order[ORDER_BYTES + 1]; /* one byte more, so that a file too long is seen and refused */
    static struct office office;
    static struct machine machine;
    struct request request = {"README.md", 240, 0};
    struct words words;
    bool help = asks_for_help(argc, argv);
    size_t size;
    int status;

    if (help || !take_noise_option(&argc, &argv, &words) || !read_arguments(argc, argv, &request))
        return print_usage(USAGE, help);
    if (!same_version() || !read_order(request.path, order, &office.order_bytes))
        return 2;
    office.order = order;
    size = request.size;
    status = run_session(&office, &machine, request.k, argc > 3 ? &size : NULL, words);
    if (status != 2)
        puts(status == 0 ? "arrived whole" : "did not arrive whole");
    return status;
}
