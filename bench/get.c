/* A plain program that does what `cache2 DIR NOW get KEY` does but for the index, which it does not look at; and, with the word `run`,
   the `get`s that standard input has, a line each. What bench/one body and bench/one get measure the proved program against. */
#include "get_entry.h"

static int run(const char *dir)
{
    static char line[20000];
    int status = 0;

    while (status == 0 && fgets(line, sizeof line, stdin) != NULL) {
        if (strncmp(line, "get ", 4) != 0)
            return 3;
        line[strcspn(line, "\n")] = 0;
        status = print_entry(dir, line + 4);
    }
    return status;
}

int main(int argc, char **argv)
{
    if (argc == 4 && strcmp(argv[3], "run") == 0)
        return run(argv[1]);
    return argc == 5 ? print_entry(argv[1], argv[4]) : 2;
}
