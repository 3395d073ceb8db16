/* What the plain programs share that read entry files: the folder is listed, the last bytes and the block of each file are read,
   with the checks of the proved program, and a record of each that fits is kept. */
#pragma once

#include "entry_end.h"
#include "records.h"
#include <dirent.h>

static uint8_t *names;
static size_t listed, listed_room;

static int nibble(char c)
{
    return c >= '0' && c <= '9' ? c - '0' : c >= 'A' && c <= 'F' ? c - 'A' + 10 : -1;
}

static int read_name(const char *text, uint8_t *name)
{
    if (strlen(text) != 40)
        return 0;
    for (int i = 0; i < 20; i++) {
        int high = nibble(text[2 * i]), low = nibble(text[2 * i + 1]);
        if (high < 0 || low < 0)
            return 0;
        name[i] = (uint8_t)(16 * high + low);
    }
    return 1;
}

static void list(const char *dir)
{
    char path[4096];
    struct dirent *found;

    snprintf(path, sizeof path, "%s/entries", dir);
    DIR *folder = opendir(path);
    if (folder == NULL)
        exit(6);
    while ((found = readdir(folder)) != NULL) {
        if (listed == listed_room) {
            listed_room = listed_room == 0 ? 64 : 2 * listed_room;
            names = realloc(names, 20 * listed_room);
        }
        if (found->d_type == DT_REG && read_name(found->d_name, names + 20 * listed))
            listed++;
    }
    closedir(folder);
    qsort(names, listed, 20, by_name);
}

/* Whether the key has the grammar, with the hash of its origin. */
static int read_key(const uint8_t *key, size_t size, int *anonymous, uint64_t *origin)
{
    uint8_t *value = malloc(size + 1), before = ',';
    size_t at = 0, of_origin = 0;
    uint32_t h[5];

    for (;;) {
        size_t len = 0;
        uint8_t letter = at < size ? key[at++] : 0;
        if (letter == ':')
            break;
        if (letter <= before)
            goto bad;
        before = letter;
        for (;; at++, len++) {
            if (at == size)
                goto bad;
            if (key[at] == ',') {
                if (at + 1 == size || key[at + 1] != ',')
                    break;
                at++;
            }
            if (letter == 'a' || letter == 'b' || letter == 'p')
                goto bad;
            if (letter == 'O')
                value[len] = key[at];
        }
        at++;
        *anonymous |= letter == 'a';
        if (letter == 'O')
            of_origin = len;
    }
    sha1(value, of_origin, h);
    *origin = (uint64_t)h[0] << 32 | h[1];
    free(value);
    return 1;
bad:
    free(value);
    return 0;
}

/* The value of the first element of this name, or NULL. */
static const char *element(const uint8_t *at, const uint8_t *end, const char *name)
{
    while (at < end) {
        const uint8_t *value = at + strlen((const char *)at) + 1;
        if (strcmp((const char *)at, name) == 0)
            return (const char *)value;
        at = value + strlen((const char *)value) + 1;
    }
    return NULL;
}

/* The number that an element spells, or `most` where it is larger, or `none`. */
static uint32_t number_in(const char *text, uint32_t most, uint32_t none)
{
    uint32_t n = 0;

    if (text == NULL || *text == 0)
        return none;
    for (; *text != 0; text++) {
        if (*text < '0' || *text > '9')
            return none;
        n = 10 * n + (uint32_t)(*text - '0');
        if (n > most)
            n = most;
    }
    return n;
}

/* The record of a block, if it fits the name. */
static int read_block(const uint8_t *name, const uint8_t *block, uint32_t len, uint32_t offset, uint64_t file_size, struct record *r)
{
    uint32_t head = 4 + 2 * (uint32_t)(((uint64_t)offset + CHUNK - 1) / CHUNK), zeros = 0;
    const uint8_t *header = block + head, *key = header + 32;
    uint8_t named[20];
    int anonymous = 0;

    if (len < head + 33)
        return 0;
    uint32_t size = big(header + 24);
    if (big(header) != 3 || size >= len - head - 32 || key[size] != 0 || big(block) != hash(block + 4, len - 4))
        return 0;
    const uint8_t *elements = key + size + 1, *end = block + len;
    for (const uint8_t *b = elements; b < end; b++)
        zeros += *b == 0;
    if (!read_key(key, size, &anonymous, &r->origin) || (elements < end && end[-1] != 0) || zeros % 2 != 0)
        return 0;
    name_of_key(named, key, size);
    if (memcmp(named, name, 20) != 0)
        return 0;
    uint64_t kb = (file_size + 1023) / 1024;
    uint32_t content = number_in(element(elements, end, "ctid"), 256, 0);
    memcpy(r->name, name, 20);
    r->frecency = big(header + 16);
    r->on_start = (uint16_t)number_in(element(elements, end, "net-response-time-onstart"), 65534, 65535);
    r->on_stop = (uint16_t)number_in(element(elements, end, "net-response-time-onstop"), 65534, 65535);
    r->content = content > 255 ? 0 : (uint8_t)content;
    r->flags = 0x80000000u | (anonymous ? 0x40000000u : 0) | (big(header + 28) & 1 ? 0x04000000u : 0);
    r->flags |= (element(elements, end, "alt-data") != NULL ? 0x02000000u : 0) | (uint32_t)(kb > 0xffffff ? 0xffffff : kb);
    return 1;
}

/* The record of the file of this name, if it is that of an entry, and where `check` is given that what it says of the body. */
static int read_entry_file(const char *dir, const uint8_t *name, struct record *r, int (*check)(int file, const uint8_t *block, uint32_t len, uint32_t offset))
{
    char path[4096];
    uint32_t offset, len;

    path_of_name(path, sizeof path, dir, name);
    int file = open(path, O_RDONLY);
    if (file < 0)
        exit(6);
    uint8_t *block = read_end(file, &offset, &len);
    int fits = block != NULL && read_block(name, block, len, offset, (uint64_t)offset + len + 4, r)
               && (check == NULL || check(file, block, len, offset));
    free(block);
    close(file);
    return fits;
}

static void read_entry(const char *dir, const uint8_t *name)
{
    struct record r;

    if (read_entry_file(dir, name, &r, NULL))
        put_record(&r);
}
