/* Opens the files `index` and `index.log` of a directory as the proved program does, with the same checks, changes and syncs,
   and prints a line for each record, in the order of the names: what bench/one open_index measures that program against.
   Without words it does nothing. With the words DIR COUNT sorted (or: shuffled) it makes the two files, with COUNT records. */
#include "index_files.h"

static void write_file(const char *name, const uint8_t *bytes, size_t size)
{
    int file = make(name, TOP);

    write_at(file, bytes, size, 0);
    if (close(file) != 0)
        exit(6);
}

/* An index of so many records by a cheap generator, and an empty journal. */
static int make_index(const char *dir, size_t n, int sorted)
{
    size_t size = HEADER + RECORD * n + 4;
    uint8_t *file = calloc(size, 1), log[4];

    if (file == NULL)
        return 1;
    fill_bytes(file + HEADER, RECORD * n);
    for (size_t i = 0; i < n; i++) {
        file[HEADER + RECORD * i + 37] = 0x80;
        file[HEADER + RECORD * i + 38] = 0;
    }
    if (sorted)
        qsort(file + HEADER, n, RECORD, by_name);
    put_header(file, 1000, 0);
    put_big(file + size - 4, hash(file + HEADER, (uint32_t)(RECORD * n)), 4);
    write_file(at(path, dir, "index"), file, size);
    put_big(log, hash(log, 0), 4);
    write_file(at(path, dir, "index.log"), log, 4);
    return 0;
}

int main(int argc, char **argv)
{
    struct stat found;

    if (argc == 1)
        return 0;
    if (argc == 4)
        return make_index(argv[1], strtoul(argv[2], NULL, 10), strcmp(argv[3], "sorted") == 0);
    if (stat(at(path, argv[1], "index.tmp"), &found) == 0)
        return 3;
    use_index(argv[1]);
    say_records();
    return 0;
}
