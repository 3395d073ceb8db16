/* What the plain programs on the index share: a record, a table of records by name, and the line that tells a record. */
#pragma once

#include "plain.h"
#include <unistd.h>

#define RECORD 41u
#define REMOVED 0x20000000u
#define DIRTY_AND_FRESH 0x18000000u

struct record {
    uint8_t name[20];
    uint32_t frecency;
    uint64_t origin;
    uint16_t on_start, on_stop;
    uint8_t content;
    uint32_t flags;
};

/* The records in the order in which they came, and slots that hold the place of a record, plus one, or 0. */
static struct record *records;
static size_t count, room;
static uint32_t *slots;
static size_t slot_count;

static uint8_t lines[65536];
static size_t held;

static int by_name(const void *a, const void *b)
{
    return memcmp(a, b, 20);
}

/* The slot that holds the record of this name, or the one that is free for it. A name is a SHA-1: its first bytes do. */
static uint32_t *slot_of(const uint8_t *name)
{
    size_t at = big(name) & (slot_count - 1);

    while (slots[at] != 0 && memcmp(records[slots[at] - 1].name, name, 20) != 0)
        at = (at + 1) & (slot_count - 1);
    return &slots[at];
}

/* Room for so many records. */
static void make_room(size_t wanted)
{
    if (wanted <= room)
        return;
    while (room < wanted)
        room = room == 0 ? 64 : 2 * room;
    records = realloc(records, room * sizeof *records);
    free(slots);
    slot_count = 2 * room;
    slots = calloc(slot_count, sizeof *slots);
    if (records == NULL || slots == NULL)
        exit(1);
    for (size_t i = 0; i < count; i++)
        *slot_of(records[i].name) = (uint32_t)i + 1;
}

/* Puts a record, and tells whether one of its name was there. */
static int put_record(const struct record *r)
{
    make_room(count + 1);
    uint32_t *slot = slot_of(r->name);
    if (*slot != 0) {
        records[*slot - 1] = *r;
        return 1;
    }
    records[count++] = *r;
    *slot = (uint32_t)count;
    return 0;
}

static void write_lines(void)
{
    for (size_t at = 0; at < held;) {
        ssize_t n = write(1, lines + at, held - at);
        if (n <= 0)
            exit(5);
        at += (size_t)n;
    }
    held = 0;
}

static void say_byte(uint8_t byte)
{
    lines[held++] = byte;
}

static void say_hex(const uint8_t *b, int bytes)
{
    static const char digits[] = "0123456789ABCDEF";

    for (int i = 0; i < bytes; i++) {
        lines[held++] = (uint8_t)digits[b[i] >> 4];
        lines[held++] = (uint8_t)digits[b[i] & 15];
    }
}

static void say_number(uint32_t n)
{
    uint8_t digits[10];
    int at = 10;

    do {
        digits[--at] = (uint8_t)('0' + n % 10);
        n /= 10;
    } while (n > 0);
    memcpy(lines + held, digits + at, (size_t)(10 - at));
    held += (size_t)(10 - at);
}

static void say_record(const struct record *r)
{
    uint8_t bytes[8];

    if (held > sizeof lines - 128)
        write_lines();
    say_hex(r->name, 20);
    say_byte(' ');
    say_number(r->frecency);
    say_byte(' ');
    put_big(bytes, r->origin, 8);
    say_hex(bytes, 8);
    say_byte(' ');
    say_number(r->on_start);
    say_byte(' ');
    say_number(r->on_stop);
    say_byte(' ');
    say_number(r->content);
    say_byte(' ');
    put_big(bytes, r->flags, 4);
    say_hex(bytes, 4);
    say_byte('\n');
}

/* A line for each record that is not removed, in the order of the names. */
static void say_records(void)
{
    qsort(records, count, sizeof *records, by_name);
    for (size_t i = 0; i < count; i++)
        if (!(records[i].flags & REMOVED))
            say_record(&records[i]);
    write_lines();
}
