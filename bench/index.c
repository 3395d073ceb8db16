/* Parses and prints a file `index` of 100,000 records, plainly: what bench/one index measures the proved program against.
   The program's one word is a count of rounds; with 0 the file is made and no more. */
#include "index_files.h"

#define RECORDS 100000u
#define SIZE (HEADER + RECORD * RECORDS + 4u)

/* The records of a file that passes all checks, without the removed ones, and how many they are. */
static struct record *parse(const uint8_t *file, size_t size, size_t *kept)
{
    if (size < HEADER + 4 || big(file) != 10)
        exit(3);
    size_t n = records_in(file + HEADER, size - HEADER);
    struct record *list = malloc(n * sizeof *list + 1);
    if (list == NULL || repeats(file + HEADER, n))
        exit(5);
    *kept = 0;
    for (size_t i = 0; i < n; i++) {
        struct record r = read_record(file + HEADER + RECORD * i);
        if (!(r.flags & REMOVED))
            list[(*kept)++] = r;
    }
    return list;
}

int main(int argc, char **argv)
{
    uint32_t rounds = argc > 1 ? (uint32_t)strtoul(argv[1], NULL, 10) : 1, all = 0;
    uint8_t *file = malloc(SIZE);

    if (file == NULL)
        return 1;
    fill_bytes(file, SIZE);
    put_big(file, 10, 4);
    for (uint32_t i = 0; i < RECORDS; i++)
        file[HEADER + RECORD * i + 37] = 0x80;
    put_big(file + SIZE - 4, hash(file + HEADER, RECORD * RECORDS), 4);
    for (uint32_t round = 0; round < rounds; round++) {
        size_t kept, size;
        struct record *list = parse(file, SIZE, &kept);
        uint8_t *printed = print_index(list, kept, round, round % 2 == 1, &size);
        all = rotate(all, 1) ^ hash(printed, (uint32_t)size);
        free(list);
        free(printed);
    }
    printf("%08x %u\n", all, file[SIZE - 1]);
    return 0;
}
