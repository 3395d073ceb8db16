/* Runs a program with its words and prints, to standard error, the peak of its memory in KiB. It is small itself, since a
   peak counts what the process had before it became the program. */
#include <stdio.h>
#include <sys/resource.h>
#include <sys/wait.h>
#include <unistd.h>

int main(int argc, char **argv)
{
    struct rusage used;

    if (argc < 2)
        return 2;
    pid_t child = fork();
    if (child == 0) {
        execv(argv[1], argv + 1);
        _exit(127);
    }
    if (child < 0 || wait4(child, NULL, 0, &used) != child)
        return 1;
    fprintf(stderr, "%ld\n", used.ru_maxrss);
    return 0;
}
