/* Loaded in front of a program's C library, it records in the file RECORD what the program does to its files, and what
   it sends. Each record is the letter of a call that succeeded: w for write, s for fdatasync, c for ftruncate, d for
   sendto; the last letter of the file's path, or - for a datagram; a number of four bytes, big-endian; and for w and d
   as many bytes. For c the number is the length to which the file is cut, and for s it is 0. */
#define _GNU_SOURCE
#include <dlfcn.h>
#include <fcntl.h>
#include <stdio.h>
#include <stdlib.h>
#include <sys/socket.h>
#include <sys/stat.h>
#include <unistd.h>

#define LONGEST 4096

typedef ssize_t writes(int, const void *, size_t);

/* The last letter of the path of a regular file that the program has opened; 0 for anything else. */
static char letter(int file) {
    char link[64], path[LONGEST];
    struct stat it;
    if (file < 3 || fstat(file, &it) != 0 || !S_ISREG(it.st_mode)) return 0;
    snprintf(link, sizeof link, "/proc/self/fd/%d", file);
    ssize_t length = readlink(link, path, sizeof path);
    return length > 0 ? path[length - 1] : 0;
}

static void record(char call, char file, unsigned long number, const void *bytes, size_t count) {
    static int log = -1;
    writes *put = (writes *)dlsym(RTLD_NEXT, "write");
    unsigned char head[6] = {call, file, number >> 24, number >> 16, number >> 8, number};
    if (log < 0) log = open(getenv("RECORD"), O_WRONLY | O_CREAT | O_APPEND, 0600);
    if (put(log, head, sizeof head) != sizeof head || put(log, bytes, count) != (ssize_t)count) _exit(3);
}

ssize_t write(int file, const void *bytes, size_t count) {
    char name = letter(file);
    ssize_t wrote = ((writes *)dlsym(RTLD_NEXT, "write"))(file, bytes, count);
    if (name && wrote > 0) record('w', name, wrote, bytes, wrote);
    return wrote;
}

int fdatasync(int file) {
    int (*next)(int) = dlsym(RTLD_NEXT, "fdatasync");
    int done = next(file);
    if (letter(file) && done == 0) record('s', letter(file), 0, "", 0);
    return done;
}

int ftruncate(int file, off_t length) {
    int (*next)(int, off_t) = dlsym(RTLD_NEXT, "ftruncate");
    int done = next(file, length);
    if (letter(file) && done == 0) record('c', letter(file), length, "", 0);
    return done;
}

ssize_t sendto(int from, const void *bytes, size_t count, int flags, const struct sockaddr *to, socklen_t length) {
    ssize_t (*next)(int, const void *, size_t, int, const struct sockaddr *, socklen_t) = dlsym(RTLD_NEXT, "sendto");
    ssize_t sent = next(from, bytes, count, flags, to, length);
    if (sent > 0) record('d', '-', sent, bytes, sent);
    return sent;
}
