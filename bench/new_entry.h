/* How the plain programs make an entry: its file is written in the folder `doomed`, synced, and then moved to its name. A body comes in
   chunks: each full one is written with the stop tail behind it, and the rest and the metadata follow by one write. */
#pragma once

#include "index_files.h"

#define BODY_MAX 52428800u

static uint8_t chunk[CHUNK + 70000];
static uint16_t hashes[BODY_MAX / CHUNK + 1];
static uint32_t filled, full;
static char entry[4096], aside[4096];
static int new_file = -1;

/* The entry that stands under the key is removed. */
static void name_entry(const char *dir, const char *key)
{
    path_of(entry, sizeof entry, dir, key);
    if (unlink(entry) == 0)
        has_changed[ENTRIES] = 1;
    filled = full = 0;
}

static void begin_entry(const char *dir, const char *key)
{
    name_entry(dir, key);
    new_file = make(at(aside, dir, "doomed/0"), DOOMED);
}

static void write_chunk(void)
{
    if ((full + 1) * CHUNK > BODY_MAX)
        exit(7);
    hashes[full] = hash(chunk, CHUNK) & 0xffff;
    memset(chunk + CHUNK, 0xff, 4);
    write_at(new_file, chunk, CHUNK + 4, (off_t)full * CHUNK);
    full++;
    filled = 0;
}

/* Puts the block of a body with so many chunks there, and the offset. Gives its end. */
static uint8_t *put_block(uint8_t *block, uint32_t body, uint32_t chunks, uint32_t now, const char *key, const void *elements, size_t len)
{
    uint32_t size = (uint32_t)strlen(key);
    uint8_t *end = block + 4;

    for (uint32_t i = 0; i < chunks; i++, end += 2)
        put_big(end, hashes[i], 2);
    const uint32_t header[8] = {3, 1, now, now, now, 0xffffffff, size, 0};
    for (int i = 0; i < 8; i++, end += 4)
        put_big(end, header[i], 4);
    memcpy(end, key, size + 1);
    end += size + 1;
    memcpy(end, elements, len);
    end += len;
    put_big(block, hash(block + 4, (uint32_t)(end - block) - 4), 4);
    put_big(end, body, 4);
    return end + 4;
}

/* Gives the record of the entry. */
static struct record write_rest(uint32_t now, const char *key)
{
    uint32_t size = (uint32_t)strlen(key), chunks = full, h[5];
    struct record r = {.frecency = now, .on_start = 65535, .on_stop = 65535};

    if (filled > 0)
        hashes[chunks++] = hash(chunk, filled) & 0xffff;
    const uint8_t *end = put_block(chunk + filled, full * CHUNK + filled, chunks, now, key, "", 0);
    write_at(new_file, chunk, (size_t)(end - chunk), (off_t)full * CHUNK);
    name_of_key(r.name, key, size);
    sha1(chunk, 0, h);
    r.origin = (uint64_t)h[0] << 32 | h[1];
    r.flags = 0x80000000u | (uint32_t)((full * CHUNK + (end - chunk) + 1023) / 1024);
    put_record(&r);
    return r;
}

static void publish(const char *dir)
{
    sync_all(dir, new_file);
    move(aside, DOOMED, entry, ENTRIES);
}
