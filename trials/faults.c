/* Makes calls of a program fail: loaded before it by LD_PRELOAD.
 *
 * FAULT_CALL   which calls: alloc, open, doc (reads of files), read (of standard input), out, note (writes)
 * FAULT_NTH    which of them fails, counted from 1
 * FAULT_ON     set: all later ones fail as well
 * FAULT_MARK   a file that is made when a call fails
 * FAULT_PIECE  the most bytes that a read or a write moves
 * FAULT_INTERRUPT  set: each read and write is interrupted once before it is made
 *
 * Calls before main aren't counted. */
#define _GNU_SOURCE
#include <errno.h>
#include <fcntl.h>
#include <stdarg.h>
#include <stdlib.h>
#include <string.h>
#include <sys/syscall.h>
#include <sys/types.h>
#include <unistd.h>

extern void *__libc_malloc(size_t size);
extern void *__libc_calloc(size_t count, size_t size);
extern void *__libc_realloc(void *old, size_t size);

static const char *failing;
static const char *mark;
static unsigned long nth;
static int goes_on;
static unsigned long seen;
static size_t piece = (size_t)-1;
static int interrupts;

__attribute__((constructor)) static void begin(void)
{
    const char *word = getenv("FAULT_PIECE");
    if (word)
        piece = strtoul(word, NULL, 10);
    interrupts = getenv("FAULT_INTERRUPT") != NULL;
    goes_on = getenv("FAULT_ON") != NULL;
    mark = getenv("FAULT_MARK");
    word = getenv("FAULT_NTH");
    nth = word ? strtoul(word, NULL, 10) : 0;
    failing = getenv("FAULT_CALL");
}

/* Counts a call, and says whether it fails. */
static int fails(const char *call)
{
    if (!failing || strcmp(failing, call) != 0)
        return 0;
    seen++;
    if (seen != nth && !(goes_on && seen > nth))
        return 0;
    if (mark) {
        long made = syscall(SYS_openat, AT_FDCWD, mark, O_WRONLY | O_CREAT, 0600);
        if (made >= 0)
            syscall(SYS_close, made);
    }
    return 1;
}

/* Every other call is interrupted. */
static int interrupted(void)
{
    static int turn;
    turn = !turn;
    return interrupts && turn;
}

static long refuse(int why)
{
    errno = why;
    return -1;
}

void *malloc(size_t size)
{
    if (fails("alloc")) {
        errno = ENOMEM;
        return NULL;
    }
    return __libc_malloc(size);
}

void *calloc(size_t count, size_t size)
{
    if (fails("alloc")) {
        errno = ENOMEM;
        return NULL;
    }
    return __libc_calloc(count, size);
}

void *realloc(void *old, size_t size)
{
    if (fails("alloc")) {
        errno = ENOMEM;
        return NULL;
    }
    return __libc_realloc(old, size);
}

ssize_t read(int file, void *room, size_t size)
{
    if (interrupted())
        return refuse(EINTR);
    if (fails(file == 0 ? "read" : "doc"))
        return refuse(EIO);
    return syscall(SYS_read, file, room, size < piece ? size : piece);
}

ssize_t write(int file, const void *bytes, size_t size)
{
    if (interrupted())
        return refuse(EINTR);
    if (fails(file == 2 ? "note" : "out"))
        return refuse(ENOSPC);
    return syscall(SYS_write, file, bytes, size < piece ? size : piece);
}

static int opened(int folder, const char *name, int flags, unsigned mode)
{
    if (fails("open"))
        return refuse(EACCES);
    return syscall(SYS_openat, folder, name, flags, mode);
}

int openat(int folder, const char *name, int flags, ...)
{
    va_list rest;
    va_start(rest, flags);
    unsigned mode = flags & (O_CREAT | O_TMPFILE) ? va_arg(rest, unsigned) : 0;
    va_end(rest);
    return opened(folder, name, flags, mode);
}

int open(const char *name, int flags, ...)
{
    va_list rest;
    va_start(rest, flags);
    unsigned mode = flags & (O_CREAT | O_TMPFILE) ? va_arg(rest, unsigned) : 0;
    va_end(rest);
    return opened(AT_FDCWD, name, flags, mode);
}

ssize_t __read(int file, void *room, size_t size) __attribute__((alias("read")));
ssize_t __write(int file, const void *bytes, size_t size) __attribute__((alias("write")));
int openat64(int folder, const char *name, int flags, ...) __attribute__((alias("openat")));
int open64(const char *name, int flags, ...) __attribute__((alias("open")));
