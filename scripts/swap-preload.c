/* Puts another file under a name while the program runs, for scripts/edges-test, which loads it before the C library. SWAP is
   NUMBER:KIND:PATH:TARGET. Right before the call on a file of that number, from 0 on, what is under PATH is renamed to PATH.aside, and
   put in its place is

   link   a symbolic link to TARGET
   pipe   a named pipe

   SWAP_MET names a file that gets the name of the call that was reached. */
#define _GNU_SOURCE
#include <dlfcn.h>
#include <fcntl.h>
#include <stdarg.h>
#include <stdio.h>
#include <stdlib.h>
#include <string.h>
#include <sys/file.h>
#include <sys/stat.h>
#include <sys/syscall.h>
#include <unistd.h>

/* The system's own call of this name. */
#define REAL(call) __typeof__(call) *real = (__typeof__(call) *)dlsym(RTLD_NEXT, #call)

static long calls;

/* Writes the name of the call that was reached. The calls are the system's own, so that none is counted. */
static void tell(const char *call) {
    const char *path = getenv("SWAP_MET");
    int file = path ? (int)syscall(SYS_openat, AT_FDCWD, path, O_WRONLY | O_CREAT | O_TRUNC | O_CLOEXEC, 0600) : -1;
    if (file < 0 || syscall(SYS_write, file, call, strlen(call)) < 0)
        abort();
    syscall(SYS_close, file);
}

static void swap(const char *call) {
    const char *text = getenv("SWAP");
    char number[32], kind[8], path[2048], target[2048], aside[2100];
    if (!text || sscanf(text, "%31[^:]:%7[^:]:%2047[^:]:%2047[^:]", number, kind, path, target) != 4)
        return;
    if (calls++ != atol(number))
        return;
    tell(call);
    snprintf(aside, sizeof aside, "%s.aside", path);
    syscall(SYS_renameat2, AT_FDCWD, path, AT_FDCWD, aside, 0);
    if (!strcmp(kind, "pipe"))
        syscall(SYS_mknodat, AT_FDCWD, path, S_IFIFO | 0600, 0);
    else
        syscall(SYS_symlinkat, target, AT_FDCWD, path);
}

int open(const char *path, int flags, ...) {
    REAL(open);
    va_list more;
    mode_t mode;
    va_start(more, flags);
    mode = (mode_t)va_arg(more, int);
    va_end(more);
    swap("open");
    return real(path, flags, mode);
}

int open64(const char *path, int flags, ...) {
    REAL(open64);
    va_list more;
    mode_t mode;
    va_start(more, flags);
    mode = (mode_t)va_arg(more, int);
    va_end(more);
    swap("open64");
    return real(path, flags, mode);
}

int statx(int folder, const char *restrict path, int flags, unsigned int mask, struct statx *restrict about) {
    REAL(statx);
    swap("statx");
    return real(folder, path, flags, mask, about);
}

char *realpath(const char *restrict path, char *restrict into) {
    REAL(realpath);
    swap("realpath");
    return real(path, into);
}

int flock(int file, int operation) {
    REAL(flock);
    swap("flock");
    return real(file, operation);
}

int chown(const char *path, uid_t user, gid_t group) {
    REAL(chown);
    swap("chown");
    return real(path, user, group);
}

int fchown(int file, uid_t user, gid_t group) {
    REAL(fchown);
    swap("fchown");
    return real(file, user, group);
}

int chmod(const char *path, mode_t mode) {
    REAL(chmod);
    swap("chmod");
    return real(path, mode);
}

int fchmod(int file, mode_t mode) {
    REAL(fchmod);
    swap("fchmod");
    return real(file, mode);
}

int ftruncate(int file, off_t length) {
    REAL(ftruncate);
    swap("ftruncate");
    return real(file, length);
}

int fsync(int file) {
    REAL(fsync);
    swap("fsync");
    return real(file);
}

int link(const char *from, const char *to) {
    REAL(link);
    swap("link");
    return real(from, to);
}

int rename(const char *from, const char *to) {
    REAL(rename);
    swap("rename");
    return real(from, to);
}

int unlink(const char *path) {
    REAL(unlink);
    swap("unlink");
    return real(path);
}
