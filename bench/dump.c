/* A plain program that does what `cache2 DIR NOW dump` does in a directory that was closed clean, with the same changes and syncs: the
   index is taken into use, the folder is listed, each file is read with its body, with the checks of the proved program, and printed
   as an item in the order of the names, and the index is closed. What bench/all measures the proved program against. */
#include "entry_files.h"
#include "get_entry.h"
#include "index_files.h"

#define BODY_MAX 52428800u
#define KEY_MAX 16384u

static void say(const void *bytes, size_t size)
{
    if (fwrite(bytes, 1, size, stdout) != size)
        exit(5);
}

static void say_part(const void *bytes, uint32_t size)
{
    uint8_t len[4];

    put_big(len, size, 4);
    say(len, 4);
    say(bytes, size);
}

/* Prints the item of an entry that may be dumped, and whose body is whole. Of several chunks each is read again. */
static int say_item(int file, const uint8_t *block, uint32_t len, uint32_t offset)
{
    uint32_t chunks = (uint32_t)(((uint64_t)offset + CHUNK - 1) / CHUNK);
    const uint8_t *header = block + 4 + 2 * chunks, *key = header + 32;
    uint32_t size = big(header + 24);
    uint8_t body[4];

    if (size == 0 || size > KEY_MAX || memchr(key, '\n', size) != NULL || memchr(key, 0, size) != NULL || offset > BODY_MAX)
        return 0;
    if (!check_body(file, block, len, offset))
        return 0;
    say("\1", 1);
    say_part(key, size);
    put_big(body, offset, 4);
    say(body, 4);
    if (chunks == 1)
        say(one_chunk, offset);
    for (uint32_t i = 0; chunks > 1 && i < chunks; i++)
        say(one_chunk, read_one_chunk(file, offset, i));
    say_part(block, len);
    return 1;
}

int main(int argc, char **argv)
{
    struct record r;

    if (argc != 4 || strcmp(argv[3], "dump") != 0)
        return 2;
    setvbuf(stdout, NULL, _IOFBF, 65536);
    use_index(argv[1]);
    list(argv[1]);
    say("C2DUMP01", 8);
    for (size_t i = 0; i < listed; i++)
        read_entry_file(argv[1], names + 20 * i, &r, say_item);
    say("", 1);
    if (fflush(stdout) != 0)
        return 5;
    close_index(argv[1], NULL, 0);
    return 0;
}
