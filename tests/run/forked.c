/* Starts the program that it is loaded before (LD_PRELOAD) once for any number of runs: each run is a fork of it.
 *
 * Where the program opens its file, as the first that it opens, and has read nothing yet, the process waits at a socket. It is
 * told there how many runs are to be made, and says so when they are. What each is to do is a `struct job` in a file in memory,
 * then the bytes that the program's file has, unless it stays as it is, and the lines that are sent. A child goes on with the
 * opening, and ends by itself or, after too many seconds, by SIGALRM. What it writes goes to two more such files, and the bytes
 * that it leaves in the program's file to a third; a `struct told` in a last one says how it ended, and where these end.
 *
 * The numbers of the seconds, of the socket and of these files are FORKED. The process ends when whoever started it has closed
 * the socket. It calls nothing that refusing.c counts, which may be loaded too.
 */

#define _GNU_SOURCE
#include <fcntl.h>
#include <limits.h>
#include <stdarg.h>
#include <stdbool.h>
#include <stdlib.h>
#include <sys/mman.h>
#include <sys/sendfile.h>
#include <sys/socket.h>
#include <sys/syscall.h>
#include <sys/uio.h>
#include <sys/wait.h>
#include <unistd.h>

enum { SECONDS, AT, JOBS, OUT, ERRORS, LEFT, TOLD, NUMBERS };

enum { PIPE_BYTES = 49152 }; /* a pipe has room for 16 pages, whole ones or not */

struct job {
    long bytes; /* of the file, -1 where it stays as it is */
    long sent;  /* bytes of lines */
};

struct told {
    long status; /* as `waitpid` gives it */
    long out, errors, left;
};

static bool is_run;

static void want(bool is_so)
{
    if (!is_so)
        _exit(1);
}

/* Copies bytes from the place of a file to that of another one, up to so many: how many. */
static long copy(int from, int to, long most)
{
    long done = 0, part;
    while (done < most && (part = sendfile(to, from, NULL, (size_t)(most - done))) > 0)
        done += part;
    return done;
}

static long place_in(int file)
{
    return lseek(file, 0, SEEK_CUR);
}

/* A pipe that has the next bytes of a file, and then ends; or a file in memory where a pipe does not hold as many. */
static int source_of(int jobs, long bytes)
{
    int ends[2];
    if (bytes > PIPE_BYTES) {
        int source = memfd_create("lines", 0);
        want(copy(jobs, source, bytes) == bytes && lseek(source, 0, SEEK_SET) == 0);
        return source;
    }
    want(pipe(ends) == 0 && copy(jobs, ends[1], bytes) == bytes && close(ends[1]) == 0);
    return ends[0];
}

/* Makes the runs that it is told of, and returns in each child alone. */
static void make_runs(const int numbers[NUMBERS], int file)
{
    long runs;
    while (recv(numbers[AT], &runs, sizeof runs, MSG_WAITALL) == sizeof runs) {
        for (int number = JOBS; number < NUMBERS; number++)
            lseek(numbers[number], 0, SEEK_SET);
        for (long run = 0; run < runs; run++) {
            struct job job;
            struct told told;
            int status;
            want(readv(numbers[JOBS], &(struct iovec){&job, sizeof job}, 1) == sizeof job);
            lseek(file, 0, SEEK_SET);
            if (job.bytes >= 0)
                want(copy(numbers[JOBS], file, job.bytes) == job.bytes && syscall(SYS_ftruncate, file, job.bytes) == 0);
            int source = source_of(numbers[JOBS], job.sent);
            pid_t child = fork();
            if (child == 0) {
                is_run = true;
                dup2(source, 0);
                dup2(numbers[OUT], 1);
                dup2(numbers[ERRORS], 2);
                for (int number = AT; number < NUMBERS; number++)
                    close(numbers[number]);
                close(source);
                close(file);
                alarm((unsigned)numbers[SECONDS]);
                return;
            }
            want(child > 0 && close(source) == 0 && waitpid(child, &status, 0) == child);
            lseek(file, 0, SEEK_SET);
            copy(file, numbers[LEFT], LONG_MAX);
            told = (struct told){status, place_in(numbers[OUT]), place_in(numbers[ERRORS]), place_in(numbers[LEFT])};
            want(writev(numbers[TOLD], &(struct iovec){&told, sizeof told}, 1) == sizeof told);
        }
        want(send(numbers[AT], &runs, sizeof runs, MSG_NOSIGNAL) == sizeof runs);
    }
    _exit(0);
}

int open(const char *path, int flags, ...)
{
    va_list rest;
    va_start(rest, flags);
    mode_t mode = flags & (O_CREAT | O_TMPFILE) ? va_arg(rest, mode_t) : 0;
    va_end(rest);
    if (!is_run) {
        int numbers[NUMBERS];
        char *text = getenv("FORKED");
        for (int number = 0; number < NUMBERS; number++)
            numbers[number] = (int)strtol(text, &text, 10);
        make_runs(numbers, (int)syscall(SYS_openat, AT_FDCWD, path, O_RDWR, 0));
    }
    return (int)syscall(SYS_openat, AT_FDCWD, path, flags, mode);
}
