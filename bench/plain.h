/* What the plain programs share: numbers, the SHA-1 that names a file, and Bob Jenkins' lookup2, written plainly. */
#pragma once

#include <inttypes.h>
#include <stdint.h>
#include <stdio.h>
#include <stdlib.h>
#include <string.h>

#define CHUNK 262144u

static uint32_t big(const uint8_t *b)
{
    return (uint32_t)b[0] << 24 | (uint32_t)b[1] << 16 | (uint32_t)b[2] << 8 | b[3];
}

static void put_big(uint8_t *b, uint64_t n, int bytes)
{
    for (int i = 0; i < bytes; i++)
        b[i] = (uint8_t)(n >> (8 * (bytes - 1 - i)));
}

static uint64_t get_big(const uint8_t *b, int bytes)
{
    uint64_t n = 0;

    for (int i = 0; i < bytes; i++)
        n = n << 8 | b[i];
    return n;
}

static uint32_t rotate(uint32_t x, int n)
{
    return x << n | x >> (32 - n);
}

static void sha1_block(uint32_t h[5], const uint8_t *block)
{
    uint32_t w[80], a = h[0], b = h[1], c = h[2], d = h[3], e = h[4];

    for (int i = 0; i < 16; i++)
        w[i] = big(block + 4 * i);
    for (int i = 16; i < 80; i++)
        w[i] = rotate(w[i - 3] ^ w[i - 8] ^ w[i - 14] ^ w[i - 16], 1);
    for (int i = 0; i < 80; i++) {
        uint32_t f, k;
        if (i < 20) { f = (b & c) | (~b & d); k = 0x5a827999; }
        else if (i < 40) { f = b ^ c ^ d; k = 0x6ed9eba1; }
        else if (i < 60) { f = (b & c) | (b & d) | (c & d); k = 0x8f1bbcdc; }
        else { f = b ^ c ^ d; k = 0xca62c1d6; }
        uint32_t t = rotate(a, 5) + f + e + k + w[i];
        e = d; d = c; c = rotate(b, 30); b = a; a = t;
    }
    h[0] += a; h[1] += b; h[2] += c; h[3] += d; h[4] += e;
}

static void sha1(const uint8_t *bytes, size_t n, uint32_t h[5])
{
    uint8_t last[128] = {0};
    size_t whole = n / 64 * 64, rest = n - whole, end = rest < 56 ? 64 : 128;

    h[0] = 0x67452301; h[1] = 0xefcdab89; h[2] = 0x98badcfe; h[3] = 0x10325476; h[4] = 0xc3d2e1f0;
    for (size_t i = 0; i < whole; i += 64)
        sha1_block(h, bytes + i);
    memcpy(last, bytes + whole, rest);
    last[rest] = 0x80;
    for (int i = 0; i < 8; i++)
        last[end - 1 - i] = (uint8_t)((uint64_t)n * 8 >> (8 * i));
    for (size_t i = 0; i < end; i += 64)
        sha1_block(h, last + i);
}

/* By `|`, since gcc makes one load of this, and four of the sum that Jenkins wrote: the harder rival. */
static uint32_t word(const uint8_t *k)
{
    return k[0] | (uint32_t)k[1] << 8 | (uint32_t)k[2] << 16 | (uint32_t)k[3] << 24;
}

#define MIX(a, b, c)                  \
    do {                              \
        a -= b; a -= c; a ^= c >> 13; \
        b -= c; b -= a; b ^= a << 8;  \
        c -= a; c -= b; c ^= b >> 13; \
        a -= b; a -= c; a ^= c >> 12; \
        b -= c; b -= a; b ^= a << 16; \
        c -= a; c -= b; c ^= b >> 5;  \
        a -= b; a -= c; a ^= c >> 3;  \
        b -= c; b -= a; b ^= a << 10; \
        c -= a; c -= b; c ^= b >> 15; \
    } while (0)

static uint32_t hash(const uint8_t *k, uint32_t length)
{
    uint32_t a = 0x9e3779b9, b = 0x9e3779b9, c = 0, len = length;
    uint8_t last[12] = {0};

    for (; len >= 12; k += 12, len -= 12) {
        a += word(k); b += word(k + 4); c += word(k + 8);
        MIX(a, b, c);
    }
    memcpy(last, k, len);
    a += word(last); b += word(last + 4); c += length + ((word(last + 8) & 0xffffff) << 8);
    MIX(a, b, c);
    return c;
}

/* The 20 bytes of the name of a key. */
static void name_of_key(uint8_t *name, const void *key, size_t size)
{
    uint32_t h[5];

    sha1(key, size, h);
    for (int i = 0; i < 5; i++)
        put_big(name + 4 * i, h[i], 4);
}

static void path_of_name(char *path, size_t room, const char *dir, const uint8_t *name)
{
    snprintf(path, room, "%s/entries/%08X%08X%08X%08X%08X", dir, big(name), big(name + 4), big(name + 8), big(name + 12),
             big(name + 16));
}

static void path_of(char *path, size_t room, const char *dir, const char *key)
{
    uint8_t name[20];

    name_of_key(name, key, strlen(key));
    path_of_name(path, room, dir, name);
}

/* Bytes by a cheap generator. */
static void fill_bytes(uint8_t *bytes, size_t size)
{
    uint32_t state = 1;

    for (size_t i = 0; i < size; i++) {
        state = state * 1664525u + 1013904223u;
        bytes[i] = (uint8_t)(state >> 24);
    }
}
