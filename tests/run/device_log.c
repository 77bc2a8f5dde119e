/* Logs the calls that the program makes of one file and of its folder (it is loaded before the program, LD_PRELOAD), and stops the
 * process at one of them or fails some.
 *
 *     LOGGED_FILE=PATH    the file; its folder is what comes before the last slash
 *     LOGGED_TO=FD        a file to which each call is added once it is made: a `struct entry`, then the bytes that a write was given
 *     LOGGED_TOLD=FD      a file that is mapped (`struct told`), in which it is told how many calls were made, and asked what to do
 *
 * A change is a write, a sync or a cut of the file, or a sync of its folder: they are counted from 1. To be stopped is to be killed
 * (SIGKILL) before a change, or once a write has written half of its bytes. From a write on that finds no room (ENOSPC) each write
 * fails as long as that is asked for, before it has written anything or after half of its bytes. One change may fail (EIO).
 */

#define _GNU_SOURCE
#include <errno.h>
#include <fcntl.h>
#include <signal.h>
#include <stdarg.h>
#include <stdatomic.h>
#include <stdbool.h>
#include <stdlib.h>
#include <string.h>
#include <sys/mman.h>
#include <sys/syscall.h>
#include <sys/types.h>
#include <sys/uio.h>
#include <unistd.h>

enum { MOST_FILES = 1024 };

enum kind { OPEN, CLOSE, READ, WRITE, SYNC, CUT };

enum what { NOTHING, FILE_ITSELF, FOLDER };

struct entry {
    long kind;
    long what;   /* an `enum what` */
    long at;     /* the place of a read or a write, the length after a cut, the flags of an opening */
    long length; /* how many bytes a read or a write was to take */
    long result; /* what the call gave */
    long done;   /* how many bytes a write has written, also where it failed */
};

struct told {
    atomic_ulong calls;      /* how many entries the log has */
    atomic_ulong changes;    /* how many changes were begun */
    atomic_ulong writes;     /* how many of them are writes */
    atomic_ulong stop_at;    /* asked: the change before which the process is killed, 0 for none */
    atomic_ulong stop_half;  /* asked: 1 where that is to be when a write has written half of its bytes */
    atomic_ulong full_from;  /* asked: the write from which on there is no room, 0 for none */
    atomic_ulong fail_at;    /* asked: the change that fails, 0 for none */
    atomic_ulong fails_half; /* asked: 1 where writes that fail have written half of their bytes */
};

static struct told untold, *told = &untold;
static unsigned char marks[MOST_FILES];
static const char *logged_file;
static size_t folder_length;
static int log_file = -1;

static int number_of(const char *name)
{
    const char *text = getenv(name);
    return text ? (int)strtol(text, NULL, 10) : -1;
}

__attribute__((constructor)) static void begin(void)
{
    logged_file = getenv("LOGGED_FILE");
    if (!logged_file)
        return;
    folder_length = (size_t)(strrchr(logged_file, '/') - logged_file);
    void *mapped = mmap(NULL, sizeof *told, PROT_READ | PROT_WRITE, MAP_SHARED, number_of("LOGGED_TOLD"), 0);
    if (mapped != MAP_FAILED)
        told = mapped;
    log_file = number_of("LOGGED_TO");
}

static enum what what_is(int file)
{
    return file >= 0 && file < MOST_FILES ? marks[file] : NOTHING;
}

static enum what what_is_at(const char *path)
{
    if (!logged_file || log_file < 0)
        return NOTHING;
    if (strcmp(path, logged_file) == 0)
        return FILE_ITSELF;
    return strlen(path) == folder_length && memcmp(path, logged_file, folder_length) == 0 ? FOLDER : NOTHING;
}

/* Adds an entry to the log, and gives the call's result on. */
static long logged_with(struct entry entry, const void *bytes)
{
    int before = errno;
    struct iovec parts[] = {{&entry, sizeof entry}, {(void *)bytes, bytes ? (size_t)entry.length : 0}};
    if (writev(log_file, parts, 2) != (ssize_t)(parts[0].iov_len + parts[1].iov_len))
        abort();
    atomic_fetch_add(&told->calls, 1);
    errno = before;
    return entry.result;
}

static long logged(enum kind kind, enum what what, long at, long length, long result)
{
    return logged_with((struct entry){kind, what, at, length, result, 0}, NULL);
}

static void stop(void)
{
    syscall(SYS_kill, getpid(), SIGKILL);
    for (;;)
        pause();
}

/* Counts a change, before which the process may be killed. Whether it fails, and by which error, is given: 0 where it doesn't. */
static int counted_change(bool is_write)
{
    unsigned long number = atomic_fetch_add(&told->changes, 1) + 1;
    unsigned long write = is_write ? atomic_fetch_add(&told->writes, 1) + 1 : 0;
    if (number == told->stop_at && !(is_write && told->stop_half))
        stop();
    if (number == told->fail_at)
        return EIO;
    return write && told->full_from && write >= told->full_from ? ENOSPC : 0;
}

static long written(int file, const void *bytes, size_t length, off_t at)
{
    int error = counted_change(true);
    bool stops = told->changes == told->stop_at;
    long half = (error && told->fails_half) || stops ? syscall(SYS_pwrite64, file, bytes, length / 2, at) : 0;
    if (stops)
        stop();
    errno = error ? error : errno;
    long result = error ? -1 : syscall(SYS_pwrite64, file, bytes, length, at);
    long done = error ? half : result;
    return logged_with((struct entry){WRITE, FILE_ITSELF, at, (long)length, result, done > 0 ? done : 0}, bytes);
}

static int opened(const char *path, int flags, mode_t mode)
{
    int file = (int)syscall(SYS_openat, AT_FDCWD, path, flags, mode);
    enum what what = what_is_at(path);
    if (what != NOTHING)
        logged(OPEN, what, flags, 0, file);
    if (file >= 0 && file < MOST_FILES)
        marks[file] = (unsigned char)what;
    return file;
}

static mode_t mode_in(int flags, va_list rest)
{
    return flags & (O_CREAT | O_TMPFILE) ? va_arg(rest, mode_t) : 0;
}

int open(const char *path, int flags, ...)
{
    va_list rest;
    va_start(rest, flags);
    mode_t mode = mode_in(flags, rest);
    va_end(rest);
    return opened(path, flags, mode);
}

int open64(const char *path, int flags, ...)
{
    va_list rest;
    va_start(rest, flags);
    mode_t mode = mode_in(flags, rest);
    va_end(rest);
    return opened(path, flags, mode);
}

int close(int file)
{
    enum what what = what_is(file);
    if (what != NOTHING) {
        marks[file] = NOTHING;
        logged(CLOSE, what, 0, 0, 0);
    }
    return (int)syscall(SYS_close, file);
}

ssize_t pread(int file, void *bytes, size_t length, off_t at)
{
    long result = syscall(SYS_pread64, file, bytes, length, at);
    return what_is(file) == FILE_ITSELF ? logged(READ, FILE_ITSELF, at, (long)length, result) : result;
}

ssize_t pwrite(int file, const void *bytes, size_t length, off_t at)
{
    return what_is(file) == FILE_ITSELF ? written(file, bytes, length, at) : syscall(SYS_pwrite64, file, bytes, length, at);
}

/* The program reads and writes its file by places alone. */
ssize_t write(int file, const void *bytes, size_t length)
{
    if (what_is(file) == FILE_ITSELF)
        abort();
    return syscall(SYS_write, file, bytes, length);
}

static int synced(int file, long call)
{
    enum what what = what_is(file);
    if (what == NOTHING)
        return (int)syscall(call, file);
    int error = counted_change(false);
    errno = error ? error : errno;
    return (int)logged(SYNC, what, 0, 0, error ? -1 : syscall(call, file));
}

int fsync(int file)
{
    return synced(file, SYS_fsync);
}

int fdatasync(int file)
{
    return synced(file, SYS_fdatasync);
}

int ftruncate(int file, off_t length)
{
    if (what_is(file) != FILE_ITSELF)
        return (int)syscall(SYS_ftruncate, file, length);
    int error = counted_change(false);
    errno = error ? error : errno;
    long result = error ? -1 : syscall(SYS_ftruncate, file, length);
    return (int)logged(CUT, FILE_ITSELF, length, 0, result);
}

ssize_t __write(int file, const void *bytes, size_t length) __attribute__((alias("write")));
ssize_t pread64(int file, void *bytes, size_t length, off64_t at) __attribute__((alias("pread")));
ssize_t pwrite64(int file, const void *bytes, size_t length, off64_t at) __attribute__((alias("pwrite")));
int ftruncate64(int file, off64_t length) __attribute__((alias("ftruncate")));
