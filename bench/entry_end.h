/* What the plain programs share that read an entry file: the metadata block at its end. */
#pragma once

#include "plain.h"
#include <fcntl.h>
#include <sys/stat.h>
#include <unistd.h>

/* The block of an open file, with its length and that of the body before it; NULL where the end does not lead to one. */
static uint8_t *read_end(int file, uint32_t *offset, uint32_t *len)
{
    struct stat found;
    uint8_t last[4];

    if (fstat(file, &found) != 0)
        exit(6);
    if (found.st_size < 4)
        return NULL;
    if (pread(file, last, 4, found.st_size - 4) != 4)
        exit(6);
    *offset = big(last);
    if (*offset == 0xffffffff || *offset > found.st_size - 4 || found.st_size - 4 - *offset > 262144)
        return NULL;
    *len = (uint32_t)(found.st_size - 4 - *offset);
    uint8_t *block = malloc(*len + 1);
    if (block == NULL)
        exit(1);
    if (pread(file, block, *len, *offset) != (ssize_t)*len)
        exit(6);
    return block;
}
