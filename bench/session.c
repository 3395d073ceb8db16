/* A plain program that does what `cache2 DIR NOW list`, `verify`, `evict KB`, `clear ORIGIN`, `rebuild`, `get KEY` and `put KEY` do in a directory
   that was closed clean, with the same changes and syncs: the index is taken into use, the command is performed, the journal is written,
   or the index where many records changed, and the flag cleared. What bench/one session, bench/one get and bench/one body measure the
   proved program against. */
#include "entry_files.h"
#include "get_entry.h"
#include "index_files.h"
#include "new_entry.h"

#define PINNED 0x04000000u

/* All entries are read anew, and the index is written whole. */
static void rebuild(const char *dir, uint32_t now)
{
    count = 0;
    memset(slots, 0, slot_count * sizeof *slots);
    list(dir);
    for (size_t i = 0; i < listed; i++)
        read_entry(dir, names + 20 * i);
    write_index(dir, now);
    sync_folders(dir);
    printf("rebuilt %zu\n", count);
}

static int is_same(const struct record *r, const struct record *s)
{
    return r->frecency == s->frecency && r->origin == s->origin && r->on_start == s->on_start && r->on_stop == s->on_stop
           && r->content == s->content && r->flags == s->flags;
}

/* Every file is read with its body, and held against its record. Gives the status of the run. */
static int verify(const char *dir)
{
    size_t findings = 0, both = 0;

    list(dir);
    for (size_t i = 0; i < listed; i++) {
        struct record r;
        int whole = read_entry_file(dir, names + 20 * i, &r, check_body);
        uint32_t slot = *slot_of(names + 20 * i);
        both += slot != 0;
        findings += !whole || slot == 0 || !is_same(&r, &records[slot - 1]);
    }
    findings += count - both;
    printf("findings %zu\n", findings);
    return findings == 0 ? 0 : 7;
}

static uint64_t rank(const struct record *r)
{
    return r->frecency == 0 ? (uint64_t)1 << 32 : r->frecency;
}

static int by_rank(const void *a, const void *b)
{
    uint64_t x = rank(a), y = rank(b);

    return x < y ? -1 : x > y ? 1 : by_name(a, b);
}

/* The records of the entries that go. */
static struct record *gone;
static size_t victims;

/* The records of the least valuable entries are taken out of the others, until these take at most so many KB. */
static void choose_least(uint64_t limit)
{
    uint64_t total = 0;
    size_t left = 0;

    for (size_t i = 0; i < count; i++)
        total += records[i].flags & 0xffffff;
    qsort(records, count, sizeof *records, by_rank);
    for (size_t i = 0; i < count; i++) {
        if (total <= limit || records[i].flags & PINNED) {
            records[left++] = records[i];
        } else {
            total -= records[i].flags & 0xffffff;
            gone[victims++] = records[i];
        }
    }
    count = left;
}

/* The same of the entries of an origin. */
static void choose_origin(uint64_t origin)
{
    size_t left = 0;

    for (size_t i = 0; i < count; i++) {
        if (records[i].origin == origin && !(records[i].flags & PINNED))
            gone[victims++] = records[i];
        else
            records[left++] = records[i];
    }
    count = left;
    qsort(gone, victims, sizeof *gone, by_name);
}

/* The files of the entries that go are removed, where they stand. */
static void remove_files(const char *dir)
{
    char file[4096];

    for (size_t i = 0; i < victims; i++) {
        if (bsearch(gone[i].name, names, listed, 20, by_name) == NULL)
            continue;
        path_of_name(file, sizeof file, dir, gone[i].name);
        if (unlink(file) != 0)
            exit(6);
        has_changed[ENTRIES] = 1;
    }
}

/* The index is written whole where 300 records or more went. Gives the number of those whose removal the journal has to tell, by name. */
static size_t forget(const char *dir, uint32_t now)
{
    if (victims >= 300) {
        write_index(dir, now);
        return 0;
    }
    qsort(gone, victims, sizeof *gone, by_name);
    for (size_t i = 0; i < victims; i++) {
        struct record removed = {.on_start = 65535, .on_stop = 65535, .flags = 0x80000000u | REMOVED};
        memcpy(removed.name, gone[i].name, 20);
        gone[i] = removed;
    }
    return victims;
}

static size_t evict(const char *dir, uint32_t now, uint64_t limit)
{
    choose_least(limit);
    if (victims > 0)
        list(dir);
    remove_files(dir);
    printf("evicted %zu\n", victims);
    fflush(stdout);
    for (size_t i = 0; i < victims; i++) {
        if (held > sizeof lines - 128)
            write_lines();
        say_hex(gone[i].name, 20);
        say_byte('\n');
    }
    write_lines();
    return forget(dir, now);
}

/* The mark of the origin is written in `doomed`, synced, and moved to `clear`, and removed after the files. */
static size_t clear(const char *dir, uint32_t now, const char *suffix)
{
    uint32_t h[5];
    uint8_t mark[12];

    sha1((const uint8_t *)suffix, strlen(suffix), h);
    choose_origin((uint64_t)h[0] << 32 | h[1]);
    list(dir);
    put_big(mark, h[0], 4);
    put_big(mark + 4, h[1], 4);
    put_big(mark + 8, hash(mark, 8), 4);
    int file = make(at(path, dir, "doomed/64"), DOOMED);
    write_at(file, mark, sizeof mark, 0);
    sync_all(dir, file);
    move(path, DOOMED, at(other, dir, "clear"), TOP);
    remove_files(dir);
    if (unlink(other) != 0)
        exit(6);
    has_changed[TOP] = 1;
    sync_folders(dir);
    printf("cleared %zu\n", victims);
    fflush(stdout);
    return forget(dir, now);
}

/* Makes the entry, and gives its record. */
static struct record put(const char *dir, uint32_t now, const char *key)
{
    begin_entry(dir, key);
    for (;;) {
        ssize_t n = read(0, chunk + filled, CHUNK - filled < 65536 ? CHUNK - filled : 65536);
        if (n < 0)
            exit(4);
        if (n == 0)
            break;
        filled += (uint32_t)n;
        if (filled == CHUNK)
            write_chunk();
    }
    struct record r = write_rest(now, key);
    publish(dir);
    return r;
}

int main(int argc, char **argv)
{
    struct record new_one;
    size_t changes = 0;
    int status = 0, is_put = argc > 3 && strcmp(argv[3], "put") == 0;

    if (argc < 4)
        return 2;
    uint32_t now = (uint32_t)strtoul(argv[2], NULL, 10);
    use_index(argv[1]);
    gone = malloc(count * sizeof *gone + 1);
    if (strcmp(argv[3], "list") == 0) {
        printf("records %zu\n", count);
        fflush(stdout);
        say_records();
    } else if (strcmp(argv[3], "verify") == 0) {
        status = verify(argv[1]);
    } else if (strcmp(argv[3], "rebuild") == 0) {
        rebuild(argv[1], now);
    } else if (strcmp(argv[3], "evict") == 0 && argc == 5) {
        changes = evict(argv[1], now, strtoul(argv[4], NULL, 10));
    } else if (strcmp(argv[3], "clear") == 0 && argc == 5) {
        changes = clear(argv[1], now, argv[4]);
    } else if (strcmp(argv[3], "get") == 0 && argc == 5) {
        status = print_entry(argv[1], argv[4]);
    } else if (is_put && argc == 5) {
        new_one = put(argv[1], now, argv[4]);
        changes = 1;
    } else {
        return 2;
    }
    close_index(argv[1], is_put ? &new_one : gone, changes);
    if (is_put)
        puts("ok");
    return fflush(stdout) == 0 ? status : 5;
}
