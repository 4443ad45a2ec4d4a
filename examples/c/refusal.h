/* The library's refusals in words. */
#ifndef REFUSAL_H
#define REFUSAL_H

#include <stdint.h>
#include <stdio.h>

/* Prints a line: who was refused (with a space after it, or ""), the refusal's number, and its words. */
void print_refusal(FILE *to, const char *who, uint8_t refusal);

#endif
