/* Refuses one growth, or fails one device call, of the program that it is loaded before (LD_PRELOAD), or lies about its file.
 *
 * A growth is a call that asks the C library for memory; a device call reads, writes, syncs or shortens a regular file. They
 * are counted from 1, in the order in which they are made, from when this library is ready to the end of the process:
 *
 *     REFUSED_GROWTH=N    the growth with this number gets no memory (ENOMEM)
 *     REFUSED_CALL=N      the device call with this number fails (EIO); a read that fails leaves other bytes in its buffer
 *     REFUSED_HALF=1      that call fails after half of it: a write has written the first half of its bytes, a cut is done
 *     LONGEST_CALL=N      no read and no write of a regular file takes more bytes than these
 *     REFUSED_TOLD=FD     a file that is mapped, in which all is told at once (`struct told`)
 *
 * In that file whoever started the process may say at any time what the disk does from then on (`struct asked`): which page it
 * gives falsely, which of its next writes tears, and past how many pages it is full.
 *
 * It takes no memory itself: memory comes from the C library's own names for its calls, and files are reached by the system's
 * calls.
 */

#define _GNU_SOURCE
#include <errno.h>
#include <malloc.h>
#include <stdatomic.h>
#include <stdbool.h>
#include <stddef.h>
#include <stdint.h>
#include <stdlib.h>
#include <string.h>
#include <sys/mman.h>
#include <sys/stat.h>
#include <sys/syscall.h>
#include <sys/types.h>
#include <unistd.h>

extern void *__libc_malloc(size_t size);
extern void *__libc_calloc(size_t count, size_t size);
extern void *__libc_realloc(void *old, size_t size);
extern void *__libc_memalign(size_t alignment, size_t size);
extern void __libc_free(void *memory);

enum { PAGE_BYTES = 4096 };

enum kind { GROWTH, READ, WRITE, SYNC, CUT, KINDS };

enum lie { TRUTH, ZEROS, OTHER_BYTES };

struct asked {
    atomic_ulong lie;        /* an `enum lie`: what a reading of the lying page gives */
    atomic_ulong page;       /* the number of that page */
    atomic_ulong place;      /* of OTHER_BYTES, the place in that page of the byte that is another one */
    atomic_ulong bits;       /* and which of its bits are */
    atomic_ulong torn_write; /* the number, from 1 on, of the write after this is set that writes its first half and fails */
    atomic_ulong room;       /* how many pages the file may have, 0 for any number; a write past them fails as on a full disk */
};

struct told {
    atomic_ulong counts[KINDS]; /* how many calls of each kind were made */
    atomic_ulong refused;       /* 1 more than the kind of the call that was refused, 0 before */
    atomic_ulong has_ended;     /* 1 where the process has come to its end by itself */
    atomic_ulong lies;          /* how many readings were false, and how many writes were torn or had no room */
    atomic_ulong bytes_read;    /* how many bytes reads of regular files asked for */
    atomic_ulong memory;        /* how many bytes of memory are in use */
    atomic_ulong most_memory;   /* and how many were at the most */
    struct asked asked;
};

static struct told untold, *told = &untold;
static bool is_counting;
static unsigned long refused_growth, refused_call, longest_call;
static bool is_half_done;
static atomic_ulong calls; /* of a device, of all kinds */

static unsigned long number_of(const char *name)
{
    const char *text = getenv(name);
    return text ? strtoul(text, NULL, 10) : 0;
}

__attribute__((constructor)) static void begin(void)
{
    refused_growth = number_of("REFUSED_GROWTH");
    refused_call = number_of("REFUSED_CALL");
    longest_call = number_of("LONGEST_CALL");
    is_half_done = number_of("REFUSED_HALF") != 0;
    if (getenv("REFUSED_TOLD")) {
        void *mapped = mmap(NULL, sizeof *told, PROT_READ | PROT_WRITE, MAP_SHARED, (int)number_of("REFUSED_TOLD"), 0);
        if (mapped != MAP_FAILED)
            told = mapped;
    }
    is_counting = true;
}

__attribute__((destructor)) static void end(void)
{
    is_counting = false;
    told->has_ended = 1;
}

/* Growths. */

static bool is_refused_growth(void)
{
    if (!is_counting || atomic_fetch_add(&told->counts[GROWTH], 1) + 1 != refused_growth)
        return false;
    told->refused = GROWTH + 1;
    errno = ENOMEM;
    return true;
}

/* Counts memory that is given, and gives it on. */
static void *counted(void *memory)
{
    unsigned long bytes = memory ? malloc_usable_size(memory) : 0;
    unsigned long now = atomic_fetch_add(&told->memory, bytes) + bytes;
    unsigned long most = told->most_memory;
    while (now > most && !atomic_compare_exchange_weak(&told->most_memory, &most, now))
        ;
    return memory;
}

static void uncount(unsigned long bytes)
{
    atomic_fetch_sub(&told->memory, bytes);
}

void *malloc(size_t size)
{
    return is_refused_growth() ? NULL : counted(__libc_malloc(size));
}

void *calloc(size_t count, size_t size)
{
    return is_refused_growth() ? NULL : counted(__libc_calloc(count, size));
}

void *realloc(void *old, size_t size)
{
    if (is_refused_growth())
        return NULL;
    unsigned long before = old ? malloc_usable_size(old) : 0;
    void *memory = __libc_realloc(old, size);
    if (memory || size == 0)
        uncount(before);
    return counted(memory);
}

void free(void *memory)
{
    if (memory)
        uncount(malloc_usable_size(memory));
    __libc_free(memory);
}

void *reallocarray(void *old, size_t count, size_t size)
{
    size_t bytes;
    if (__builtin_mul_overflow(count, size, &bytes)) {
        errno = ENOMEM;
        return NULL;
    }
    return realloc(old, bytes);
}

void *memalign(size_t alignment, size_t size)
{
    return is_refused_growth() ? NULL : counted(__libc_memalign(alignment, size));
}

void *aligned_alloc(size_t alignment, size_t size)
{
    return memalign(alignment, size);
}

int posix_memalign(void **found, size_t alignment, size_t size)
{
    void *memory = memalign(alignment, size);
    if (!memory)
        return ENOMEM;
    *found = memory;
    return 0;
}

/* Device calls. */

static bool is_regular(int file)
{
    struct stat found;
    int before = errno;
    bool is_so = fstat(file, &found) == 0 && S_ISREG(found.st_mode);
    errno = before;
    return is_so;
}

/* Whether this call of a file is the one that fails. */
static bool is_refused_call(enum kind kind, int file)
{
    if (!is_counting || !is_regular(file))
        return false;
    atomic_fetch_add(&told->counts[kind], 1);
    if (atomic_fetch_add(&calls, 1) + 1 != refused_call)
        return false;
    told->refused = kind + 1;
    return true;
}

static int failed(void)
{
    errno = EIO;
    return -1;
}

static size_t taken(int file, size_t length)
{
    return longest_call && length > longest_call && is_regular(file) ? longest_call : length;
}

static ssize_t failed_read(void *bytes, size_t length)
{
    memset(bytes, 0xa5, length);
    return failed();
}

/* Where the lying page is among the bytes that were read from a place on, gives it falsely. */
static ssize_t with_lie(int file, unsigned char *bytes, ssize_t length, off_t at)
{
    struct asked *asked = &told->asked;
    if (!is_counting || length <= 0 || at < 0 || !is_regular(file))
        return length;
    atomic_fetch_add(&told->bytes_read, (unsigned long)length);
    off_t first = (off_t)(asked->page * PAGE_BYTES), end = first + PAGE_BYTES;
    if (asked->lie == TRUTH || at >= end || at + length <= first)
        return length;
    for (off_t place = at > first ? at : first; place < end && place < at + length; place++) {
        if (asked->lie == ZEROS)
            bytes[place - at] = 0;
        else if (place == first + (off_t)asked->place)
            bytes[place - at] ^= (unsigned char)asked->bits;
    }
    atomic_fetch_add(&told->lies, 1);
    return length;
}

static off_t place_in(int file)
{
    int before = errno;
    off_t place = lseek(file, 0, SEEK_CUR);
    errno = before;
    return place;
}

/* Whether this write of a file tears, counted from when that was asked for. */
static bool is_torn(int file)
{
    if (!is_counting || told->asked.torn_write == 0 || !is_regular(file))
        return false;
    return atomic_fetch_sub(&told->asked.torn_write, 1) == 1;
}

static bool is_past_room(int file, off_t end)
{
    return is_counting && told->asked.room != 0 && end > (off_t)(told->asked.room * PAGE_BYTES) && is_regular(file);
}

static ssize_t full(void)
{
    atomic_fetch_add(&told->lies, 1);
    errno = ENOSPC;
    return -1;
}

ssize_t read(int file, void *bytes, size_t length)
{
    if (is_refused_call(READ, file))
        return failed_read(bytes, length);
    off_t at = place_in(file);
    return with_lie(file, bytes, syscall(SYS_read, file, bytes, taken(file, length)), at);
}

ssize_t pread(int file, void *bytes, size_t length, off_t at)
{
    if (is_refused_call(READ, file))
        return failed_read(bytes, length);
    return with_lie(file, bytes, syscall(SYS_pread64, file, bytes, taken(file, length), at), at);
}

ssize_t write(int file, const void *bytes, size_t length)
{
    bool is_refused = is_refused_call(WRITE, file), tears = is_torn(file);
    if (is_past_room(file, place_in(file) + (off_t)length))
        return full();
    if (tears)
        atomic_fetch_add(&told->lies, 1);
    if (is_refused || tears) {
        if (is_half_done || tears)
            syscall(SYS_write, file, bytes, length / 2);
        return failed();
    }
    return syscall(SYS_write, file, bytes, taken(file, length));
}

ssize_t pwrite(int file, const void *bytes, size_t length, off_t at)
{
    bool is_refused = is_refused_call(WRITE, file), tears = is_torn(file);
    if (is_past_room(file, at + (off_t)length))
        return full();
    if (tears)
        atomic_fetch_add(&told->lies, 1);
    if (is_refused || tears) {
        if (is_half_done || tears)
            syscall(SYS_pwrite64, file, bytes, length / 2, at);
        return failed();
    }
    return syscall(SYS_pwrite64, file, bytes, taken(file, length), at);
}

int fsync(int file)
{
    return is_refused_call(SYNC, file) ? failed() : (int)syscall(SYS_fsync, file);
}

int fdatasync(int file)
{
    return is_refused_call(SYNC, file) ? failed() : (int)syscall(SYS_fdatasync, file);
}

int ftruncate(int file, off_t length)
{
    if (is_refused_call(CUT, file)) {
        if (is_half_done)
            syscall(SYS_ftruncate, file, length);
        return failed();
    }
    return (int)syscall(SYS_ftruncate, file, length);
}

ssize_t __write(int file, const void *bytes, size_t length) __attribute__((alias("write")));
ssize_t pread64(int file, void *bytes, size_t length, off64_t at) __attribute__((alias("pread")));
ssize_t pwrite64(int file, const void *bytes, size_t length, off64_t at) __attribute__((alias("pwrite")));
int ftruncate64(int file, off64_t length) __attribute__((alias("ftruncate")));
