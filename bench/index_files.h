/* What the plain programs on a folder share: the files `index` and `index.log` are read with the checks of the proved program,
   the index is taken into use, and written and closed again, with the same changes and syncs. */
#pragma once

#include "changes.h"
#include "records.h"
#include <sys/stat.h>

#define HEADER 16u

static char path[4096], other[4096];

static const char *at(char *room, const char *dir, const char *name)
{
    snprintf(room, 4096, "%s/%s", dir, name);
    return room;
}

static struct record read_record(const uint8_t *b)
{
    struct record r;

    memcpy(r.name, b, 20);
    r.frecency = big(b + 20);
    r.origin = get_big(b + 24, 8);
    r.on_start = (uint16_t)get_big(b + 32, 2);
    r.on_stop = (uint16_t)get_big(b + 34, 2);
    r.content = b[36];
    r.flags = big(b + 37) & ~DIRTY_AND_FRESH;
    return r;
}

/* The bytes of a file, or NULL. */
static uint8_t *read_file(const char *name, size_t *size)
{
    struct stat found;
    int file = open(name, O_RDONLY);

    if (file < 0)
        return NULL;
    if (fstat(file, &found) != 0)
        exit(6);
    *size = (size_t)found.st_size;
    uint8_t *bytes = malloc(*size + 1);
    if (bytes == NULL)
        exit(1);
    if (pread(file, bytes, *size, 0) != (ssize_t)*size || close(file) != 0)
        exit(6);
    return bytes;
}

/* How many records stand before the hash in the part of a file, if it passes the checks. */
static size_t records_in(const uint8_t *part, size_t size)
{
    if (size < 4 || (size - 4) % RECORD != 0 || big(part + size - 4) != hash(part, (uint32_t)size - 4))
        exit(3);
    return (size - 4) / RECORD;
}

/* Whether a name stands twice in the part. */
static int repeats(const uint8_t *part, size_t n)
{
    uint8_t *names = malloc(20 * n + 1);
    int found = 0;

    for (size_t i = 0; i < n; i++)
        memcpy(names + 20 * i, part + RECORD * i, 20);
    qsort(names, n, 20, by_name);
    for (size_t i = 1; i < n; i++)
        found |= memcmp(names + 20 * (i - 1), names + 20 * i, 20) == 0;
    free(names);
    return found;
}

static void read_index(const char *dir)
{
    size_t size, n;
    uint8_t *file = read_file(at(path, dir, "index"), &size);

    if (file == NULL || size < HEADER + 4 || big(file) != 10 || big(file + 8) != 0)
        exit(3);
    n = records_in(file + HEADER, size - HEADER);
    make_room(n);
    for (size_t i = 0; i < n; i++) {
        struct record r = read_record(file + HEADER + RECORD * i);
        if (put_record(&r))
            exit(3);
    }
    free(file);
}

static void apply_journal(const char *dir)
{
    size_t size, n;
    uint8_t *file = read_file(at(path, dir, "index.log"), &size);

    if (file == NULL || repeats(file, n = records_in(file, size)))
        exit(3);
    for (size_t i = 0; i < n; i++) {
        struct record r = read_record(file + RECORD * i);
        put_record(&r);
    }
    free(file);
}

/* The index is marked as in use or not, and synced. */
static void mark_index(const char *dir, uint8_t is_in_use)
{
    const uint8_t flag[4] = {0, 0, 0, is_in_use};
    int index = open(at(path, dir, "index"), O_RDWR);

    if (index < 0)
        exit(6);
    write_at(index, flag, 4, 8);
    sync_all(dir, index);
}

/* The journal is set aside, the index marked as in use, both synced, and the journal removed. */
static void change(const char *dir)
{
    move(at(path, dir, "index.log"), TOP, at(other, dir, "index.tmp"), TOP);
    mark_index(dir, 1);
    if (unlink(other) != 0)
        exit(6);
    has_changed[TOP] = 1;
}

/* Takes the index of a directory that was closed clean into use. */
static void use_index(const char *dir)
{
    read_index(dir);
    apply_journal(dir);
    change(dir);
}

static void put_bytes(uint8_t *b, const struct record *r)
{
    memcpy(b, r->name, 20);
    put_big(b + 20, r->frecency, 4);
    put_big(b + 24, r->origin, 8);
    put_big(b + 32, r->on_start, 2);
    put_big(b + 34, r->on_stop, 2);
    b[36] = r->content;
    put_big(b + 37, r->flags, 4);
}

/* The records by name, behind a front of so many bytes, with their hash. */
static uint8_t *print_records(const struct record *some, size_t n, size_t front, size_t *size)
{
    *size = front + RECORD * n + 4;
    uint8_t *file = calloc(*size, 1);
    if (file == NULL)
        exit(1);
    for (size_t i = 0; i < n; i++)
        put_bytes(file + front + RECORD * i, &some[i]);
    put_big(file + *size - 4, hash(file + front, (uint32_t)(RECORD * n)), 4);
    return file;
}

static void put_header(uint8_t *bytes, uint32_t now, int is_in_use)
{
    put_big(bytes, 10, 4);
    put_big(bytes + 4, now, 4);
    put_big(bytes + 8, (uint64_t)is_in_use, 4);
}

/* The bytes of an index with these records, in the order of their names. */
static uint8_t *print_index(const struct record *some, size_t n, uint32_t now, int is_in_use, size_t *size)
{
    struct record *sorted = malloc(n * sizeof *sorted + 1);

    if (sorted == NULL)
        exit(1);
    memcpy(sorted, some, n * sizeof *sorted);
    qsort(sorted, n, sizeof *sorted, by_name);
    uint8_t *bytes = print_records(sorted, n, HEADER, size);
    free(sorted);
    put_header(bytes, now, is_in_use);
    return bytes;
}

/* The index is written whole, and takes its name after a sync. */
static void write_index(const char *dir, uint32_t now)
{
    size_t size;
    uint8_t *bytes = print_index(records, count, now, 1, &size);

    int file = make(at(path, dir, "index.tmp"), TOP);
    write_at(file, bytes, size, 0);
    free(bytes);
    sync_all(dir, file);
    move(path, TOP, at(other, dir, "index"), TOP);
}

/* The journal is written and synced, and then the flag of the index is cleared. */
static void close_index(const char *dir, const struct record *changed, size_t n)
{
    size_t size;
    uint8_t *bytes = print_records(changed, n, 0, &size);

    int log = make(at(path, dir, "index.log"), TOP);
    write_at(log, bytes, size, 0);
    free(bytes);
    sync_all(dir, log);
    mark_index(dir, 0);
}
