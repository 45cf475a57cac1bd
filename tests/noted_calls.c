/* Stands before the C library's `fsync`, `fdatasync` and `close`, and writes a line to the output of
 * the program for each: `synced N` for a file of N octets, and `closed` for a file that was synced.
 * Where SYNC_FAILS_WITH is a number that is not 0, each sync fails with it. Used by tests/commands on
 * programs with one thread; it is no part of the library or of the program. */
#define _GNU_SOURCE
#include <errno.h>
#include <stdio.h>
#include <stdlib.h>
#include <sys/stat.h>
#include <sys/syscall.h>
#include <unistd.h>

static int synced = -1;

static int note_sync(int file)
{
    const char *number = getenv("SYNC_FAILS_WITH");
    int failure = number ? atoi(number) : 0;
    struct stat found;
    if (fstat(file, &found) == 0)
        dprintf(STDOUT_FILENO, "synced %lld\n", (long long)found.st_size);
    synced = file;
    if (!failure)
        return 0;
    errno = failure;
    return -1;
}

int fsync(int file)
{
    return note_sync(file);
}

int fdatasync(int file)
{
    return note_sync(file);
}

int close(int file)
{
    if (file == synced) {
        synced = -1;
        dprintf(STDOUT_FILENO, "closed\n");
    }
    return syscall(SYS_close, file);
}
