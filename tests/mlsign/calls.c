// Stands before the C library of `mlsign`, proved or in Rust, for tests/mlsign/run: counts the program's calls of the system, and
// refuses or interrupts one. Of the environment:
//
//     STATED_BYTES    32 random bytes are 0, 1, 2 ..
//     CALLS           a file that gets the name of each call, a line each
//     NAMED_CALLS     a file that gets each call that changes or syncs something, with the files that it names
//     REFUSED_CALL    which call is refused, from 1 on
//     REFUSED_ERROR   the error that it gives
//     REFUSED_ON      also every later call that changes a file or a folder is refused
//     REFUSED_SIGNAL  the call raises this signal in place of giving an error, and is made after it
//     RACED           a file that another program makes just before this one gives its name to another
//     NO_LINKS        the file system has no links
#define _GNU_SOURCE
#include <dirent.h>
#include <dlfcn.h>
#include <errno.h>
#include <fcntl.h>
#include <signal.h>
#include <stdarg.h>
#include <stdio.h>
#include <stdlib.h>
#include <string.h>
#include <sys/file.h>
#include <sys/random.h>
#include <sys/stat.h>
#include <sys/syscall.h>
#include <sys/types.h>
#include <unistd.h>

#define REAL(name) ((__typeof__(&name))dlsym(RTLD_NEXT, #name))
// What `syscall` is behind the one below.
#define RAW REAL(syscall)

static long count;

static void noted(const char *name, const char *first, const char *second) {
    const char *calls = getenv("NAMED_CALLS");
    if (!calls)
        return;
    char line[9000];
    int size = snprintf(line, sizeof line, "%s\t%s\t%s\n", name, first, second);
    int fd = RAW(SYS_openat, AT_FDCWD, calls, O_WRONLY | O_CREAT | O_APPEND, 0600);
    RAW(SYS_write, fd, line, size);
    RAW(SYS_close, fd);
}

static int refused(const char *name, int changes) {
    const char *calls = getenv("CALLS"), *which = getenv("REFUSED_CALL"), *number = getenv("REFUSED_SIGNAL");
    ++count;
    if (calls) {
        int fd = RAW(SYS_openat, AT_FDCWD, calls, O_WRONLY | O_CREAT | O_APPEND, 0600);
        RAW(SYS_write, fd, name, strlen(name));
        RAW(SYS_write, fd, "\n", 1);
        RAW(SYS_close, fd);
    }
    if (!which || !(count == atol(which) || (getenv("REFUSED_ON") && count > atol(which) && changes)))
        return 0;
    if (number) {
        signal(atoi(number), SIG_DFL);
        raise(atoi(number));
        return 0;
    }
    errno = atoi(getenv("REFUSED_ERROR"));
    return 1;
}


static int opened(int folder, const char *path, int flags, va_list rest) {
    int mode = flags & O_CREAT ? va_arg(rest, int) : 0;
    if (refused(flags & O_CREAT ? "create" : "open", flags & O_CREAT))
        return -1;
    if (flags & O_CREAT)
        noted("create", path, "");
    return RAW(SYS_openat, folder, path, flags, mode);
}

int open(const char *path, int flags, ...) {
    va_list rest;
    va_start(rest, flags);
    int fd = opened(AT_FDCWD, path, flags, rest);
    va_end(rest);
    return fd;
}

int open64(const char *path, int flags, ...) {
    va_list rest;
    va_start(rest, flags);
    int fd = opened(AT_FDCWD, path, flags, rest);
    va_end(rest);
    return fd;
}

int openat(int folder, const char *path, int flags, ...) {
    va_list rest;
    va_start(rest, flags);
    int fd = opened(folder, path, flags, rest);
    va_end(rest);
    return fd;
}

ssize_t read(int fd, void *room, size_t size) { return refused("read", 0) ? -1 : RAW(SYS_read, fd, room, size); }

// What is written to standard error says how the run ended, so that passes.
ssize_t write(int fd, const void *bytes, size_t size) {
    return fd != 2 && refused("write", 1) ? -1 : RAW(SYS_write, fd, bytes, size);
}

int fsync(int fd) {
    char link[64], path[4096];
    snprintf(link, sizeof link, "/proc/self/fd/%d", fd);
    ssize_t size = RAW(SYS_readlinkat, AT_FDCWD, link, path, sizeof path - 1);
    path[size < 0 ? 0 : size] = 0;
    noted("fsync", path, "");
    return refused("fsync", 1) ? -1 : RAW(SYS_fsync, fd);
}

int flock(int fd, int how) { return refused("flock", 0) ? -1 : RAW(SYS_flock, fd, how); }

static void race(const char *path) {
    const char *raced = getenv("RACED");
    if (raced && !strcmp(raced, path))
        RAW(SYS_close, RAW(SYS_openat, AT_FDCWD, path, O_WRONLY | O_CREAT | O_EXCL, 0600));
}

static int refused_link(const char *from, const char *to) {
    race(to);
    noted("link", from, to);
    if (refused("link", 1))
        return 1;
    errno = EPERM;
    return getenv("NO_LINKS") != NULL;
}

int link(const char *from, const char *to) { return refused_link(from, to) ? -1 : REAL(link)(from, to); }

int linkat(int one, const char *from, int other, const char *to, int flags) {
    return refused_link(from, to) ? -1 : REAL(linkat)(one, from, other, to, flags);
}

int rename(const char *from, const char *to) {
    race(to);
    noted("rename", from, to);
    return refused("rename", 1) ? -1 : REAL(rename)(from, to);
}

int unlink(const char *path) {
    noted("unlink", path, "");
    return refused("unlink", 1) ? -1 : REAL(unlink)(path);
}

char *realpath(const char *path, char *room) { return refused("realpath", 0) ? NULL : REAL(realpath)(path, room); }

ssize_t getdents64(int fd, void *room, size_t size) { return refused("getdents64", 0) ? -1 : RAW(SYS_getdents64, fd, room, size); }

DIR *opendir(const char *path) { return refused("opendir", 0) ? NULL : REAL(opendir)(path); }

struct dirent64 *readdir64(DIR *folder) { return refused("readdir64", 0) ? NULL : REAL(readdir64)(folder); }

int fcntl(int fd, int what, ...) {
    va_list rest;
    va_start(rest, what);
    long word = va_arg(rest, long);
    va_end(rest);
    return what == F_DUPFD_CLOEXEC && refused("dup", 0) ? -1 : RAW(SYS_fcntl, fd, what, word);
}

int statx(int folder, const char *path, int flags, unsigned mask, struct statx *found) {
    return refused("statx", 0) ? -1 : REAL(statx)(folder, path, flags, mask, found);
}

static int drawn(unsigned char *room, size_t size) {
    if (refused("getentropy", 0))
        return -1;
    if (!getenv("STATED_BYTES") || size != 32)
        return REAL(getentropy)(room, size);
    for (size_t place = 0; place < size; ++place)
        room[place] = place;
    return 0;
}

int getentropy(void *room, size_t size) { return drawn(room, size); }

// Rust's crate draws so, 32 bytes of a key or a signature, or 8 of a name; what else draws is none of the program's calls.
ssize_t getrandom(void *room, size_t size, unsigned flags) {
    if (size != 32 && size != 8)
        return RAW(SYS_getrandom, room, size, flags);
    return drawn(room, size) ? -1 : (ssize_t)size;
}

long syscall(long number, ...) {
    va_list rest;
    long word[6];
    va_start(rest, number);
    for (int i = 0; i < 6; ++i)
        word[i] = va_arg(rest, long);
    va_end(rest);
    if (number == SYS_getrandom)
        return getrandom((void *)word[0], word[1], word[2]);
    return RAW(number, word[0], word[1], word[2], word[3], word[4], word[5]);
}
