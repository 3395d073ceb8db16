/* A plain program that does what `cache2 DIR NOW load` does in a directory that was closed clean, with the same changes and syncs, for
   blocks of less than 64 KiB: each item of the dump on standard input is checked as the proved program checks it, and its entry is
   written, synced, and moved to its name. What bench/all measures the proved program against. */
#include "entry_files.h"
#include "new_entry.h"

#define KEY_MAX 16384u
#define BLOCK_MAX 65536u
#define CHANGED_MAX 300

static char key[KEY_MAX + 1];
static uint8_t block[BLOCK_MAX], last_name[20];
static size_t loaded;
/* The records that the journal has to tell, while they are few. */
static struct record changed[CHANGED_MAX];

static void take(void *bytes, size_t size)
{
    if (fread(bytes, 1, size, stdin) != size)
        exit(3);
}

static uint32_t take_length(uint32_t most)
{
    uint8_t bytes[4];

    take(bytes, 4);
    if (big(bytes) > most)
        exit(3);
    return big(bytes);
}

/* The key may be written, and its name comes after the last one. */
static void take_key(uint8_t *name)
{
    uint32_t size = take_length(KEY_MAX);
    uint64_t origin;
    int anonymous = 0;

    take(key, size);
    key[size] = 0;
    if (size == 0 || strlen(key) != size || strchr(key, '\n') != NULL || !read_key((uint8_t *)key, size, &anonymous, &origin))
        exit(3);
    name_of_key(name, key, size);
    if (loaded > 0 && memcmp(name, last_name, 20) <= 0)
        exit(3);
    memcpy(last_name, name, 20);
}

static uint32_t take_body(void)
{
    uint32_t size = take_length(BODY_MAX);

    for (uint32_t left = size; left > 0; left -= filled) {
        if (filled == CHUNK)
            write_chunk();
        filled = left < CHUNK ? left : CHUNK;
        take(chunk, filled);
    }
    if (filled == CHUNK)
        write_chunk();
    return size;
}

/* The block fits the key and the chunks. It is written behind the rest of the body. */
static struct record take_block(const uint8_t *name, uint32_t body)
{
    uint32_t len = take_length(BLOCK_MAX), chunks = full;
    struct record r;

    if (filled > 0)
        hashes[chunks++] = hash(chunk, filled) & 0xffff;
    take(block, len);
    if (!read_block(name, block, len, body, (uint64_t)body + len + 4, &r))
        exit(3);
    for (uint32_t i = 0; i < chunks; i++)
        if (get_big(block + 4 + 2 * i, 2) != hashes[i])
            exit(3);
    memcpy(chunk + filled, block, len);
    put_big(chunk + filled + len, body, 4);
    write_at(new_file, chunk, filled + len + 4, (off_t)full * CHUNK);
    return r;
}

static void load_item(const char *dir)
{
    uint8_t name[20];

    take_key(name);
    begin_entry(dir, key);
    uint32_t body = take_body();
    struct record r = take_block(name, body);
    publish(dir);
    put_record(&r);
    if (loaded < CHANGED_MAX)
        changed[loaded] = r;
    loaded++;
}

int main(int argc, char **argv)
{
    uint8_t head[8], next;

    if (argc != 4 || strcmp(argv[3], "load") != 0)
        return 2;
    setvbuf(stdin, NULL, _IOFBF, 65536);
    use_index(argv[1]);
    take(head, 8);
    if (memcmp(head, "C2DUMP01", 8) != 0)
        return 3;
    for (take(&next, 1); next == 1; take(&next, 1))
        load_item(argv[1]);
    if (next != 0 || getchar() != EOF)
        return 3;
    if (loaded >= CHANGED_MAX)
        write_index(argv[1], (uint32_t)strtoul(argv[2], NULL, 10));
    close_index(argv[1], changed, loaded < CHANGED_MAX ? loaded : 0);
    printf("loaded %zu\n", loaded);
    return fflush(stdout) == 0 ? 0 : 5;
}
