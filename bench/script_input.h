/* What the plain programs share that perform a script: its lines and bodies from standard input, and the replies. */
#pragma once

#include <stdint.h>
#include <stdio.h>
#include <stdlib.h>
#include <string.h>
#include <unistd.h>

static uint8_t input[5 * 1048576 + 65536];
static size_t from, to;

static int more(void)
{
    if (from > 0) {
        memmove(input, input + from, to - from);
        to -= from;
        from = 0;
    }
    ssize_t n = read(0, input + to, 65536);
    if (n < 0)
        exit(4);
    to += (size_t)n;
    return n > 0;
}

/* The next line, or NULL at the end. */
static char *next_line(void)
{
    size_t looked = 0;

    for (;;) {
        uint8_t *end = memchr(input + from + looked, '\n', to - from - looked);
        if (end != NULL) {
            char *line = (char *)input + from;
            *end = 0;
            from = (size_t)(end + 1 - input);
            return line;
        }
        looked = to - from;
        if (!more())
            return NULL;
    }
}

/* The bytes that follow a line, with a line's end behind them. */
static const uint8_t *next_bytes(size_t len)
{
    while (to - from < len + 1)
        if (!more())
            exit(3);
    if (input[from + len] != '\n')
        exit(3);
    const uint8_t *bytes = input + from;
    from += len + 1;
    return bytes;
}

static void say(const void *b, size_t n)
{
    if (write(1, b, n) != (ssize_t)n)
        exit(5);
}
