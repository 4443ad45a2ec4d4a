/* See arguments.h. */
#include "arguments.h"

#include <stdio.h>
#include <string.h>

bool asks_for_help(int argc, char **argv)
{
    int i;

    for (i = 1; i < argc; i++)
        if (strcmp(argv[i], "--help") == 0)
            return true;
    return false;
}

int print_usage(const char *usage, bool asked)
{
    fprintf(asked ? stdout : stderr, "usage: %s\n", usage);
    return asked ? 0 : 2;
}

bool take_noise_option(int *argc, char ***argv, struct words *words)
{
    char **texts = *argv;

    words->first = 1968;
    words->second = 41;
    if (*argc < 2 || strcmp(texts[1], "--noise") != 0)
        return true;
    if (*argc < 4 || !read_number(texts[2], &words->first) || !read_number(texts[3], &words->second))
        return false;
    *argc -= 3;
    *argv += 3;
    return true;
}

bool read_number(const char *text, uint32_t *number)
{
    uint64_t value = 0;
    size_t i;

    for (i = 0; text[i] >= '0' && text[i] <= '9' && value <= UINT32_MAX; i++)
        value = 10 * value + (uint64_t)(text[i] - '0');
    *number = (uint32_t)value;
    return i > 0 && text[i] == '\0' && value <= UINT32_MAX;
}
