/* A plain program that does what `cache2 DIR NOW run` does with a script of `create S KEY`, `append S LEN`, `finish S`,
   `putalt S LEN TYPE`, `close S`, `open S KEY`, `read S FROM LEN` and `flush` in a directory that was closed clean, with the same
   changes and syncs. One entry is written at a time, under a key of its own, and one that is whole is read: `open` checks it, and a read
   goes through a cache of the 32 chunks that were used last. Each reply goes out before the next command is read. With the word
   `at-once` behind the others each file is made under its name, and first synced by a flush. What bench/all, bench/one script and
   bench/one reads measure the proved program against. */
#include "get_entry.h"
#include "new_entry.h"
#include "script_input.h"

#define ENTRIES_MAX 100000
#define CHANGED_MAX 300
#define HELD 32

static const char *dir;
static char key[20001];
static uint32_t now;
static int is_at_once, is_finished;
/* The files that a flush is to sync, and the records that the index does not have yet. */
static char *written[ENTRIES_MAX];
static struct record changed[ENTRIES_MAX];
static size_t written_count, changed_count;

/* The entry that is read, and its chunks that are held. */
static struct found_entry opened;
static uint8_t cached[HELD][CHUNK];
static size_t length[HELD];
static long which[HELD];
static uint64_t used[HELD], clock_now;

static void create(const char *of)
{
    strcpy(key, of);
    is_finished = 0;
    if (is_at_once) {
        name_entry(dir, key);
        new_file = make(entry, ENTRIES);
    } else {
        begin_entry(dir, key);
    }
}

static void append(size_t len)
{
    const uint8_t *bytes = next_bytes(len);

    while (len > 0) {
        size_t part = len < CHUNK - filled ? len : CHUNK - filled;
        memcpy(chunk + filled, bytes, part);
        filled += (uint32_t)part;
        bytes += part;
        len -= part;
        if (filled == CHUNK)
            write_chunk();
    }
}

/* The new file waits for the next flush. */
static void leave_unsynced(void)
{
    if (close(new_file) != 0)
        exit(6);
    written[written_count++] = strdup(entry);
}

static void finish(void)
{
    if (is_finished)
        return;
    if (changed_count == ENTRIES_MAX)
        exit(1);
    is_finished = 1;
    changed[changed_count++] = write_rest(now, key);
    if (is_at_once)
        leave_unsynced();
    else
        publish(dir);
}

/* The data, the block and the offset are written by one write after the body, which has whole chunks. */
static void put_alt(char *words)
{
    static uint8_t tail[4 * 1048576 + 70000];
    static char elements[20100];
    struct record *r = &changed[changed_count - 1];
    uint32_t len = (uint32_t)strtoul(words, &words, 10), body = full * CHUNK, chunks = full;
    size_t size = 9 + (size_t)sprintf(elements + 9, "1;%u,%s", body, words + 1) + 1;

    if (filled != 0 || !is_finished)
        exit(3);
    memcpy(elements, "alt-data", 9);
    memcpy(tail, next_bytes(len), len);
    for (uint32_t at = 0; at < len; at += CHUNK)
        hashes[chunks++] = hash(tail + at, len - at < CHUNK ? len - at : CHUNK) & 0xffff;
    const uint8_t *end = put_block(tail + len, body + len, chunks, now, key, elements, size);
    new_file = open(entry, O_RDWR);
    write_at(new_file, tail, (size_t)(end - tail), body);
    leave_unsynced();
    r->flags = 0x82000000u | (uint32_t)((body + (end - tail) + 1023) / 1024);
    put_record(r);
}

/* The place of a chunk in the cache, into which it is read where it is not there. */
static int hold(long number)
{
    int least = 0;

    clock_now++;
    for (int i = 0; i < HELD; i++) {
        if (length[i] > 0 && which[i] == number) {
            used[i] = clock_now;
            return i;
        }
        if (used[i] < used[least])
            least = i;
    }
    uint32_t left = opened.offset - (uint32_t)number * CHUNK;
    ssize_t n = pread(opened.file, cached[least], left < CHUNK ? left : CHUNK, number * (off_t)CHUNK);
    if (n < 0)
        exit(6);
    which[least] = number;
    length[least] = (size_t)n;
    used[least] = clock_now;
    return least;
}

static void read_part(char *words)
{
    static uint8_t reply[CHUNK + 64];
    uint64_t at = strtoull(words, &words, 10), len = strtoull(words, NULL, 10);
    uint64_t size = opened.offset, left = at >= size ? 0 : len < size - at ? len : size - at;
    size_t front = (size_t)sprintf((char *)reply, "data %llu\n", (unsigned long long)left);

    while (left > 0) {
        int i = hold((long)(at / CHUNK));
        size_t in = at % CHUNK, part = length[i] - in < left ? length[i] - in : left;
        if (front + part + 1 > sizeof reply) {
            say(reply, front);
            front = 0;
        }
        memcpy(reply + front, cached[i] + in, part);
        front += part;
        at += part;
        left -= part;
    }
    reply[front++] = '\n';
    say(reply, front);
}

/* What has no sync yet gets one, and where many records changed the index is written anew. */
static void refresh(void)
{
    for (size_t i = 0; i < written_count; i++) {
        int one = open(written[i], O_RDWR);
        if (one < 0 || fsync(one) != 0 || close(one) != 0)
            exit(6);
        free(written[i]);
    }
    written_count = 0;
    if (changed_count >= CHANGED_MAX) {
        write_index(dir, now);
        changed_count = 0;
    }
}

/* What follows the command and its slot in the line, or NULL where that is another. */
static char *words_of(char *line, const char *command)
{
    size_t len = strlen(command);

    if (strncmp(line, command, len) != 0 || line[len] != ' ')
        return NULL;
    strtoul(line + len, &line, 10);
    return *line == ' ' ? line + 1 : line;
}

/* Whether it has replied itself. */
static int perform(char *line)
{
    char *words;

    if ((words = words_of(line, "create")) != NULL) {
        create(words);
    } else if ((words = words_of(line, "append")) != NULL) {
        append(strtoul(words, NULL, 10));
    } else if (words_of(line, "finish") != NULL || words_of(line, "close") != NULL) {
        finish();
    } else if ((words = words_of(line, "putalt")) != NULL) {
        put_alt(words);
    } else if ((words = words_of(line, "open")) != NULL) {
        if (open_entry(dir, words, &opened) != NULL)
            exit(7);
    } else if ((words = words_of(line, "read")) != NULL) {
        read_part(words);
        return 1;
    } else if (strcmp(line, "flush") == 0) {
        refresh();
        sync_folders(dir);
    } else {
        exit(3);
    }
    return 0;
}

int main(int argc, char **argv)
{
    char *line;

    if (argc != 4 && argc != 5)
        return 2;
    dir = argv[1];
    now = (uint32_t)strtoul(argv[2], NULL, 10);
    is_at_once = argc == 5 && strcmp(argv[4], "at-once") == 0;
    use_index(dir);
    while ((line = next_line()) != NULL)
        if (!perform(line))
            say("ok\n", 3);
    refresh();
    qsort(changed, changed_count, sizeof *changed, by_name);
    close_index(dir, changed, changed_count);
    return 0;
}
