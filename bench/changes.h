/* What the plain programs share that change a directory: a new file is written whole and synced by the descriptor that wrote it, and
   the two folders and the directory stay open from their first sync on, and are synced, in this order, where a name in them has
   changed. */
#pragma once

#include <fcntl.h>
#include <stdint.h>
#include <stdio.h>
#include <stdlib.h>
#include <unistd.h>

enum { ENTRIES, DOOMED, TOP, FOLDERS };

static const char *const folder_names[FOLDERS] = {"/entries", "/doomed", ""};
static int folders[FOLDERS] = {-1, -1, -1}, has_changed[FOLDERS];

static void sync_folders(const char *dir)
{
    char name[4096];

    for (int i = 0; i < FOLDERS; i++) {
        if (!has_changed[i])
            continue;
        snprintf(name, sizeof name, "%s%s", dir, folder_names[i]);
        if (folders[i] < 0)
            folders[i] = open(name, O_RDONLY);
        if (folders[i] < 0 || fsync(folders[i]) != 0)
            exit(6);
        has_changed[i] = 0;
    }
}

/* A new file, open. */
static int make(const char *name, int folder)
{
    int file = open(name, O_RDWR | O_CREAT | O_EXCL, 0600);

    if (file < 0)
        exit(6);
    has_changed[folder] = 1;
    return file;
}

static void write_at(int file, const uint8_t *bytes, size_t size, off_t at)
{
    while (size > 0) {
        ssize_t n = pwrite(file, bytes, size, at);
        if (n <= 0)
            exit(6);
        bytes += n; size -= (size_t)n; at += n;
    }
}

/* What was written to the file, and then the names. */
static void sync_all(const char *dir, int file)
{
    if (fsync(file) != 0)
        exit(6);
    sync_folders(dir);
    if (close(file) != 0)
        exit(6);
}

static void move(const char *from, int from_folder, const char *to, int to_folder)
{
    if (rename(from, to) != 0)
        exit(6);
    has_changed[from_folder] = has_changed[to_folder] = 1;
}
