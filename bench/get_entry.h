/* What the plain programs share that read an entry: the metadata of the key's file are read, their hash and the key are checked, and
   so is each chunk of the body, before it is used. */
#pragma once

#include "entry_end.h"

static uint8_t one_chunk[CHUNK];

static uint32_t read_one_chunk(int file, uint32_t offset, uint32_t i)
{
    uint32_t n = offset - i * CHUNK < CHUNK ? offset - i * CHUNK : CHUNK;

    if (pread(file, one_chunk, n, (off_t)i * CHUNK) != (ssize_t)n)
        exit(6);
    return n;
}

/* Whether each chunk of a body has the hash that the block, of so many bytes, says. */
static int check_body(int file, const uint8_t *block, uint32_t len, uint32_t offset)
{
    (void)len;
    for (uint32_t i = 0; i < (uint32_t)(((uint64_t)offset + CHUNK - 1) / CHUNK); i++)
        if ((hash(one_chunk, read_one_chunk(file, offset, i)) & 0xffff) != ((uint32_t)block[4 + 2 * i] << 8 | block[5 + 2 * i]))
            return 0;
    return 1;
}

/* An entry whose body was found whole. The header stands in the block. */
struct found_entry {
    int file;
    uint8_t *block, *header;
    uint32_t chunks, size, elements, offset;
};

/* Opens the entry of the key. Gives why there is none, or NULL. */
static const char *open_entry(const char *dir, const char *key, struct found_entry *e)
{
    char name[4096];
    uint32_t len;

    path_of(name, sizeof name, dir, key);
    e->file = open(name, O_RDONLY);
    if (e->file < 0 || (e->block = read_end(e->file, &e->offset, &len)) == NULL)
        return "absent";
    e->chunks = (uint32_t)(((uint64_t)e->offset + CHUNK - 1) / CHUNK);
    uint32_t head = 4 + 2 * e->chunks;
    e->header = e->block + head;
    e->size = len >= head + 33 ? big(e->header + 24) : 0xffffffff;
    if (len < head + 33 || big(e->header) != 3 || e->size >= len - (head + 32) || e->header[32 + e->size] != 0)
        return "absent";
    if (big(e->block) != hash(e->block + 4, len - 4) || e->size != strlen(key) || memcmp(e->header + 32, key, e->size) != 0)
        return "absent";
    if (!check_body(e->file, e->block, len, e->offset))
        return "damaged";
    e->elements = len - (head + 32 + e->size + 1);
    return NULL;
}

/* Prints the entry of the key, or why there is none. Gives the status of the run. */
static int print_entry(const char *dir, const char *key)
{
    struct found_entry e;
    const char *fault = open_entry(dir, key, &e);

    if (fault != NULL) {
        puts(fault);
        return 7;
    }
    printf("found %" PRIu32 " %" PRIu32 " %" PRIu32 " %" PRIu32 " %" PRIu32 " %" PRIu32 " %" PRIu32 " %" PRIu32 "\n", big(e.header + 4),
           big(e.header + 8), big(e.header + 12), big(e.header + 16), big(e.header + 20), big(e.header + 28), e.elements, e.offset);
    fwrite(e.header + 32 + e.size + 1, 1, e.elements, stdout);
    putchar('\n');
    /* The only chunk of a body is still there. */
    if (e.chunks == 1)
        fwrite(one_chunk, 1, e.offset, stdout);
    for (uint32_t i = 0; e.chunks > 1 && i < e.chunks; i++)
        fwrite(one_chunk, 1, read_one_chunk(e.file, e.offset, i), stdout);
    putchar('\n');
    close(e.file);
    free(e.block);
    return fflush(stdout) == 0 ? 0 : 5;
}
