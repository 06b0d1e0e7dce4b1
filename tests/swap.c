/*
 * Preloaded into a program, puts a link to SWAP_TARGET into the place of the file SWAP_NAME, once, right before the
 * call that SWAP_AT names. With RUN_AT in place of it, the shell's command RUN runs there, once. With END_AT, the
 * program ends before that call by the signal END_BY.
 *
 * Built with RACER defined it is a program, which does the same as soon as there is such a file, again and again:
 *
 * usage: racer NAME TARGET
 */
#define _GNU_SOURCE
#include <dlfcn.h>
#include <signal.h>
#include <stdio.h>
#include <stdlib.h>
#include <string.h>
#include <sys/stat.h>
#include <sys/types.h>
#include <unistd.h>

static int swapped(const char *name, const char *target) {
    return unlink(name) == 0 && symlink(target, name) == 0;
}

#ifdef RACER
int main(int count, char **words) {
    while (count == 3)
        swapped(words[1], words[2]);
    return 2;
}
#else
static void before(const char *call) {
    static int done;
    const char *at = getenv("SWAP_AT");
    const char *end = getenv("END_AT");
    const char *run = getenv("RUN_AT");
    if (run && strcmp(run, call) == 0) {
        /* What runs there is not looked at. */
        unsetenv("RUN_AT");
        unsetenv("LD_PRELOAD");
        if (system(getenv("RUN")) != 0)
            fputs("run: failed\n", stderr);
    }
    if (end && strcmp(end, call) == 0) {
        /* A shell may have started it with the signal ignored, as it does in the background. */
        int number = atoi(getenv("END_BY"));
        signal(number, SIG_DFL);
        raise(number);
    }
    if (at && strcmp(at, call) == 0 && !done) {
        done = 1;
        if (!swapped(getenv("SWAP_NAME"), getenv("SWAP_TARGET")))
            perror("swap");
    }
}

/* The C library's function of this name. */
#define NEXT(type, name, ...) ((type (*)(__VA_ARGS__))dlsym(RTLD_NEXT, name))

int chown(const char *path, uid_t owner, gid_t group) {
    before("chown");
    return NEXT(int, "chown", const char *, uid_t, gid_t)(path, owner, group);
}

int fchown(int file, uid_t owner, gid_t group) {
    before("fchown");
    return NEXT(int, "fchown", int, uid_t, gid_t)(file, owner, group);
}

int chmod(const char *path, mode_t mode) {
    before("chmod");
    return NEXT(int, "chmod", const char *, mode_t)(path, mode);
}

int fchmod(int file, mode_t mode) {
    before("fchmod");
    return NEXT(int, "fchmod", int, mode_t)(file, mode);
}

int fsync(int file) {
    before("fsync");
    return NEXT(int, "fsync", int)(file);
}

int ftruncate(int file, off_t size) {
    before("ftruncate");
    return NEXT(int, "ftruncate", int, off_t)(file, size);
}

int unlink(const char *path) {
    before("unlink");
    return NEXT(int, "unlink", const char *)(path);
}

int rename(const char *from, const char *to) {
    before("rename");
    return NEXT(int, "rename", const char *, const char *)(from, to);
}

ssize_t read(int file, void *bytes, size_t size) {
    before("read");
    return NEXT(ssize_t, "read", int, void *, size_t)(file, bytes, size);
}

ssize_t write(int file, const void *bytes, size_t size) {
    before("write");
    return NEXT(ssize_t, "write", int, const void *, size_t)(file, bytes, size);
}

/* The C library's other name of `read`. */
ssize_t __read(int file, void *bytes, size_t size) {
    return read(file, bytes, size);
}
#endif
