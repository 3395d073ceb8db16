/* Lists the entry files of a directory, reads the last bytes and the block of each, checks them as the proved program does, and
   keeps a record of each that fits: what bench/one update measures that program against. Without words it does nothing. With
   the word DIR alone it prints how many records there are and the sum of their KB; with a second word, the records. */
#include "entry_files.h"

int main(int argc, char **argv)
{
    uint64_t kilobytes = 0;

    if (argc == 1)
        return 0;
    list(argv[1]);
    for (size_t i = 0; i < listed; i++)
        read_entry(argv[1], names + 20 * i);
    for (size_t i = 0; i < count; i++)
        kilobytes += records[i].flags & 0xffffff;
    if (argc == 3)
        say_records();
    else
        printf("%zu %" PRIu64 "\n", count, kilobytes);
    return 0;
}
