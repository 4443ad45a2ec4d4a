/* What both programs are called with: options, numbers and the usage line. */
#ifndef ARGUMENTS_H
#define ARGUMENTS_H

#include <stdbool.h>
#include <stdint.h>

#include "session.h"

/* Whether --help is one of the arguments. */
bool asks_for_help(int argc, char **argv);

/*
 * Prints how the program is called: to the standard output if it was asked, and otherwise, because its arguments cannot
 * be read, to the standard error. Returns the exit status: 0 or 2.
 */
int print_usage(const char *usage, bool asked);

/*
 * Reads the option --noise FIRST SECOND, if it stands before all other arguments, and takes it away from them: the others
 * are then *argv + 1 and on, as without it. Without it the words are 1968 and 41. Returns false if it cannot be read.
 */
bool take_noise_option(int *argc, char ***argv, struct words *words);

/* Reads a 32-bit number, decimal digits alone; returns whether it is one. */
bool read_number(const char *text, uint32_t *number);

#endif
