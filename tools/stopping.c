/* Loaded in front of a program's C library, it stops the program at its N-th call that changes a file (write,
   fdatasync, ftruncate), where the environment has STOP_AT=N, as a stop of the machine does: each file keeps what was
   synced, and at most STOP_BYTES of the bytes after that. At that call a write still writes, a sync does nothing, and a
   cut cuts. The program ends with status 99. Without STOP_AT it only counts them, and prints on standard error, in a
   last line `changes K`, how many there were. */
#define _GNU_SOURCE
#include <dlfcn.h>
#include <stdio.h>
#include <stdlib.h>
#include <sys/stat.h>
#include <unistd.h>

#define FILES 64

static unsigned long changes;
static long synced[FILES]; /* by descriptor: one more than how many bytes are synced, 0 for a file not seen yet */

static long number(const char *name, long otherwise) {
    const char *word = getenv(name);
    return word ? atol(word) : otherwise;
}

static long size_of(int file) {
    struct stat it;
    return fstat(file, &it) == 0 && S_ISREG(it.st_mode) && file > 2 && file < FILES ? (long)it.st_size : -1;
}

/* Notes what stands in a file before its first change, and tells whether this change is the one to stop at. */
static int is_last(int file, long size) {
    if (synced[file] == 0) synced[file] = size + 1;
    return (long)++changes == number("STOP_AT", -1);
}

static void stop(void) {
    int (*cut)(int, off_t) = dlsym(RTLD_NEXT, "ftruncate");
    long more = number("STOP_BYTES", 0);
    for (int file = 3; file < FILES; file++) {
        long keeps = synced[file] - 1 + more;
        if (synced[file] && size_of(file) > keeps && cut(file, keeps) != 0) _exit(3);
    }
    _exit(99);
}

ssize_t write(int file, const void *bytes, size_t count) {
    ssize_t (*next)(int, const void *, size_t) = dlsym(RTLD_NEXT, "write");
    long size = size_of(file);
    int ends = size >= 0 && is_last(file, size);
    ssize_t wrote = next(file, bytes, count);
    if (ends) stop();
    return wrote;
}

int fdatasync(int file) {
    int (*next)(int) = dlsym(RTLD_NEXT, "fdatasync");
    long size = size_of(file);
    if (size >= 0 && is_last(file, size)) stop();
    int done = next(file);
    if (size >= 0 && done == 0) synced[file] = size + 1;
    return done;
}

int ftruncate(int file, off_t length) {
    int (*next)(int, off_t) = dlsym(RTLD_NEXT, "ftruncate");
    long size = size_of(file);
    int ends = size >= 0 && is_last(file, size);
    int done = next(file, length);
    if (size >= 0 && synced[file] > length + 1) synced[file] = length + 1;
    if (ends) stop();
    return done;
}

__attribute__((destructor)) static void tell(void) {
    fprintf(stderr, "changes %lu\n", changes);
}
