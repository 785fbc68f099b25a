/* Fails calls of the operating system, for scripts/fault-test, which loads it before the C library. FAULT is
   KIND:CALL:NUMBER: the call of that name and number, from 0 on, fails once in the stated way. FAULT_MET names a file that is
   made when it was reached. With KILL, `change` is any call that makes, names, writes, syncs or removes a file.

   EIO, ENOSPC, EINTR   the call fails so, and does nothing
   SHORT                it takes or gives one byte, if it was asked for several
   ONES                 it does so, and each call of that name behind it
   ZERO                 it takes or gives no byte, and does not fail
   KILL                 the process is killed before the call
   TEAR                 it takes half of its bytes, and the process is killed
   LOST                 it fails as EIO, and what it was to make durable is lost (fsync, with FAULT_DEVICE)

   With FAULT_DEVICE the archive's file is what Linux has of it in memory, and the file of that name is what its device has. A
   page of 4,096 bytes that is written is dirty: the byte of its number in the file FAULT_DEVICE.dirty is 1. An fsync copies the
   dirty pages to the device and makes them clean. Where it is LOST, it makes them clean and copies none, as Linux does where a
   page can't be written. Where there is a file FAULT_DEVICE.error, one fsync fails and takes that file away, as where writing
   failed between two processes. With FAULT_ONCE a write of bytes that the file has already makes no page dirty, as if the
   program did not write them again.

   With FAULT_SLOW each pwrite takes at least so many microseconds.

   With FAULT_READS a read of standard input gives at most so many bytes, so that a script comes in many reads, and its
   replies go in many writes.

   FAULT_MODES names a file to which each pread adds how the file is open that it reads: r for reading alone, or w.

   FAULT_TRACE names a file to which is added what the archive's file and standard output took: for each pwrite, fsync and
   write of descriptor 1 that did something a record of three numbers of 8 bytes, the first letter of its kind (W, S or A),
   its place and how many bytes, and then the bytes. */
#define _GNU_SOURCE
#include <dlfcn.h>
#include <errno.h>
#include <fcntl.h>
#include <signal.h>
#include <stdarg.h>
#include <stdint.h>
#include <stdio.h>
#include <stdlib.h>
#include <string.h>
#include <sys/stat.h>
#include <sys/types.h>
#include <unistd.h>

enum kind { NONE, FAILS, SHORT, ONES, ZERO, KILL, TEAR, LOST };

enum { PAGE = 4096 };

struct fault {
    enum kind kind;
    int error;
    char call[16];
    long number;
};

static struct fault fault;
static int is_read;
static long calls;
static size_t most_read;
static useconds_t slow;
static int trace = -1;
static int modes = -1;

#define REAL(type, name) type real = (type)dlsym(RTLD_NEXT, name)

typedef ssize_t (*read_type)(int, void *, size_t);
typedef ssize_t (*write_type)(int, const void *, size_t);
typedef ssize_t (*pread_type)(int, void *, size_t, off_t);
typedef ssize_t (*pwrite_type)(int, const void *, size_t, off_t);
typedef int (*fsync_type)(int);

static void read_settings(void) {
    const char *reads = getenv("FAULT_READS"), *path = getenv("FAULT_TRACE"), *wait = getenv("FAULT_SLOW");
    is_read = 1;
    slow = wait ? (useconds_t)atol(wait) : 0;
    most_read = reads ? (size_t)atol(reads) : 0;
    if (path)
        trace = open(path, O_WRONLY | O_CREAT | O_APPEND | O_CLOEXEC, 0600);
    if ((path = getenv("FAULT_MODES")))
        modes = open(path, O_WRONLY | O_CREAT | O_APPEND | O_CLOEXEC, 0600);
}

static int begins(const char *text, const char *word) {
    return !strncmp(text, word, strlen(word));
}

static void read_fault(void) {
    const char *text = getenv("FAULT");
    const char *first, *second;
    read_settings();
    if (!text || !(first = strchr(text, ':')) || !(second = strchr(first + 1, ':')))
        return;
    fault.kind = begins(text, "SHORT:")  ? SHORT
                 : begins(text, "ONES:") ? ONES
                 : begins(text, "ZERO:") ? ZERO
                 : begins(text, "KILL:") ? KILL
                 : begins(text, "TEAR:") ? TEAR
                 : begins(text, "LOST:") ? LOST
                                         : FAILS;
    fault.error = begins(text, "EIO:") ? EIO : begins(text, "EINTR:") ? EINTR : ENOSPC;
    if ((size_t)(second - first - 1) < sizeof fault.call)
        memcpy(fault.call, first + 1, (size_t)(second - first - 1));
    fault.number = atol(second + 1);
}

/* Whether the fault is that of this call, which is counted. */
static int is_met(const char *call) {
    const char *path = getenv("FAULT_MET");
    long number;
    if (!is_read)
        read_fault();
    if (fault.kind == NONE || strcmp(fault.call, call))
        return 0;
    number = calls++;
    if (fault.kind == ONES ? number < fault.number : number != fault.number)
        return 0;
    if (path && number == fault.number)
        close(open(path, O_WRONLY | O_CREAT, 0600));
    if (fault.kind == KILL)
        kill(getpid(), SIGKILL);
    return 1;
}

/* How many of so many bytes the call moves that meets the fault, which is not one that fails. */
static size_t moved(size_t size) {
    if (fault.kind == ZERO)
        return 0;
    if (fault.kind == TEAR)
        return size / 2;
    return size ? 1 : 0;
}

static ssize_t failed(void) {
    errno = fault.error;
    return -1;
}

/* Ends the process where the call that it has made was to be torn. */
static ssize_t torn(ssize_t done) {
    if (fault.kind == TEAR)
        kill(getpid(), SIGKILL);
    return done;
}

/* Adds a call to the trace. */
static void tell(char kind, off_t at, ssize_t size, const void *bytes) {
    REAL(write_type, "write");
    int64_t numbers[3] = {kind, at, size};
    if (trace < 0 || size < 0)
        return;
    if (real(trace, numbers, sizeof numbers) != sizeof numbers || real(trace, bytes, (size_t)size) != size)
        abort();
}

/* Adds how a file is open that is read. */
static void print_mode(int file) {
    REAL(write_type, "write");
    int flags = fcntl(file, F_GETFL);
    if (modes >= 0 && (flags < 0 || real(modes, (flags & O_ACCMODE) == O_RDONLY ? "r" : "w", 1) != 1))
        abort();
}

static int is_regular(int file) {
    struct stat about;
    return !fstat(file, &about) && S_ISREG(about.st_mode);
}

/* A file beside the device's, or the device's own. */
static int open_beside(const char *suffix, int flags) {
    char path[4096];
    if (snprintf(path, sizeof path, "%s%s", getenv("FAULT_DEVICE"), suffix) >= (int)sizeof path)
        abort();
    return open(path, flags | O_CLOEXEC, 0600);
}

/* Copies a page of one file to the other, as far as there is one. */
static void copy_page(int from, int to, off_t page) {
    REAL(pread_type, "pread64");
    char bytes[PAGE];
    ssize_t size = real(from, bytes, PAGE, page * PAGE);
    pwrite_type put = (pwrite_type)dlsym(RTLD_NEXT, "pwrite64");
    if (size < 0 || put(to, bytes, (size_t)size, page * PAGE) != size)
        abort();
}

/* Whether a file has these bytes there. */
static int has(int file, const char *bytes, size_t size, off_t at) {
    REAL(pread_type, "pread64");
    char there[PAGE];
    size_t done = 0;
    while (done < size) {
        size_t count = size - done < PAGE ? size - done : PAGE;
        if (real(file, there, count, at + (off_t)done) != (ssize_t)count || memcmp(there, bytes + done, count))
            return 0;
        done += count;
    }
    return 1;
}

/* Makes the pages dirty that a write has changed. */
static void dirty(off_t at, ssize_t size) {
    REAL(pwrite_type, "pwrite64");
    int pages;
    off_t page;
    if (!getenv("FAULT_DEVICE") || size <= 0)
        return;
    pages = open_beside(".dirty", O_RDWR | O_CREAT);
    for (page = at / PAGE; page <= (at + size - 1) / PAGE; page++)
        if (real(pages, "\1", 1, page) != 1)
            abort();
    close(pages);
}

/* Makes the dirty pages of the archive's file clean, and copies them to the device unless they are lost. */
static void clean(int file, int is_lost) {
    REAL(pread_type, "pread64");
    pwrite_type put = (pwrite_type)dlsym(RTLD_NEXT, "pwrite64");
    struct stat about;
    int device = open_beside("", O_RDWR | O_CREAT), pages = open_beside(".dirty", O_RDWR | O_CREAT);
    off_t page;
    if (fstat(file, &about) || ftruncate(device, about.st_size))
        abort();
    for (page = 0; page * PAGE < about.st_size; page++) {
        char is_dirty = 0;
        real(pages, &is_dirty, 1, page);
        if (!is_dirty)
            continue;
        if (!is_lost)
            copy_page(file, device, page);
        put(pages, "", 1, page);
    }
    close(device);
    close(pages);
}

/* What an fsync of the archive's file does. */
static int sync_pages(int file, int is_lost) {
    int error = open_beside(".error", O_RDONLY);
    char path[4096];
    clean(file, is_lost);
    if (error >= 0) {
        close(error);
        snprintf(path, sizeof path, "%s.error", getenv("FAULT_DEVICE"));
        unlink(path);
        is_lost = 1;
    }
    errno = EIO;
    return is_lost ? -1 : 0;
}

/* Whether a file is one of /proc, which has no length: that of the limits of the process. Its reads are counted by themselves. */
static int is_of_proc(int file) {
    struct stat about;
    return fstat(file, &about) == 0 && S_ISREG(about.st_mode) && about.st_size == 0;
}

ssize_t read(int file, void *into, size_t size) {
    REAL(read_type, "read");
    int met = is_met(is_of_proc(file) ? "limits" : "read");
    if (file == 0 && most_read && size > most_read)
        size = most_read;
    if (!met)
        return real(file, into, size);
    return fault.kind == FAILS ? failed() : real(file, into, moved(size));
}

typedef int (*open_type)(const char *, int, ...);

int open(const char *path, int flags, ...) {
    REAL(open_type, "open");
    mode_t mode = 0;
    if (flags & O_CREAT) {
        va_list more;
        va_start(more, flags);
        mode = va_arg(more, mode_t);
        va_end(more);
        is_met("change");
    }
    return real(path, flags, mode);
}

typedef int (*link_type)(const char *, const char *);

int link(const char *from, const char *to) {
    REAL(link_type, "link");
    is_met("change");
    return real(from, to);
}

typedef int (*unlink_type)(const char *);

int unlink(const char *path) {
    REAL(unlink_type, "unlink");
    is_met("change");
    return real(path);
}

typedef int (*rename_type)(const char *, const char *);

int rename(const char *from, const char *to) {
    REAL(rename_type, "rename");
    int met = is_met("rename") | is_met("change");
    return met ? (int)failed() : real(from, to);
}

typedef int (*mkdir_type)(const char *, mode_t);

int mkdir(const char *path, mode_t mode) {
    REAL(mkdir_type, "mkdir");
    int met = is_met("mkdir") | is_met("change");
    return met ? (int)failed() : real(path, mode);
}

typedef int (*rmdir_type)(const char *);

int rmdir(const char *path) {
    REAL(rmdir_type, "rmdir");
    is_met("change");
    return real(path);
}

ssize_t write(int file, const void *from, size_t size) {
    ssize_t done;
    REAL(write_type, "write");
    int met = is_met("write") | is_met("change");
    if (met && fault.kind == FAILS)
        return failed();
    done = real(file, from, met ? moved(size) : size);
    if (file == 1)
        tell('A', 0, done, from);
    return met ? torn(done) : done;
}

ssize_t pread64(int file, void *into, size_t size, off_t at) {
    REAL(pread_type, "pread64");
    int met = is_met("pread");
    print_mode(file);
    if (!met)
        return real(file, into, size, at);
    return fault.kind == FAILS ? failed() : real(file, into, moved(size), at);
}

ssize_t pread(int file, void *into, size_t size, off_t at) {
    return pread64(file, into, size, at);
}

ssize_t pwrite64(int file, const void *from, size_t size, off_t at) {
    ssize_t done;
    REAL(pwrite_type, "pwrite64");
    int is_same, met = is_met("pwrite") | is_met("change");
    if (slow)
        usleep(slow);
    if (met && fault.kind == FAILS)
        return failed();
    is_same = getenv("FAULT_ONCE") && has(file, from, size, at);
    done = real(file, from, met ? moved(size) : size, at);
    tell('W', at, done, from);
    if (!is_same)
        dirty(at, done);
    return met ? torn(done) : done;
}

ssize_t pwrite(int file, const void *from, size_t size, off_t at) {
    return pwrite64(file, from, size, at);
}

int fsync(int file) {
    int done;
    REAL(fsync_type, "fsync");
    int met = is_met("fsync") | is_met("change");
    if (met && fault.kind == FAILS)
        return (int)failed();
    if (getenv("FAULT_DEVICE") && is_regular(file))
        return sync_pages(file, met && fault.kind == LOST);
    done = real(file);
    tell('S', 0, done, "");
    return done;
}
