/* Loaded in front of a program's C library, it runs the program again and again from its first call of open on, each
   time as a fork of itself: once in each folder that a line of standard input names. What a run prints goes to the
   files `out` and `err` of its folder. Its status goes to standard output, a line each; 128 and its number if a signal
   ended it. The paths that the program opens have to be relative. */
#define _GNU_SOURCE
#include <dlfcn.h>
#include <fcntl.h>
#include <stdarg.h>
#include <stdio.h>
#include <string.h>
#include <sys/wait.h>
#include <unistd.h>

#define LONGEST 4096

typedef int opens(const char *, int, ...);

static opens *next_open(void) {
    return (opens *)dlsym(RTLD_NEXT, "open");
}

static void put(const char *path, int how, int at) {
    int file = next_open()(path, how, 0600);
    if (file < 0 || dup2(file, at) != at) _exit(126);
    if (file != at) close(file);
}

/* Goes to a folder, and lets the streams be those of a run there. */
static void begin_in(const char *folder) {
    if (chdir(folder) != 0) _exit(126);
    put("/dev/null", O_RDONLY, 0);
    put("out", O_WRONLY | O_CREAT | O_TRUNC, 1);
    put("err", O_WRONLY | O_CREAT | O_TRUNC, 2);
}

/* Returns in each fork. The process itself ends with its input. */
static void serve(void) {
    char folder[LONGEST];
    while (fgets(folder, sizeof folder, stdin)) {
        int status = 0;
        folder[strcspn(folder, "\n")] = 0;
        pid_t child = fork();
        if (child == 0) {
            begin_in(folder);
            return;
        }
        if (child < 0 || waitpid(child, &status, 0) != child) _exit(125);
        printf("%d\n", WIFEXITED(status) ? WEXITSTATUS(status) : 128 + WTERMSIG(status));
        fflush(stdout);
    }
    _exit(0);
}

int open(const char *path, int how, ...) {
    static int is_begun;
    va_list more;
    va_start(more, how);
    int mode = va_arg(more, int);
    va_end(more);
    if (!is_begun++) serve();
    return next_open()(path, how, mode);
}
