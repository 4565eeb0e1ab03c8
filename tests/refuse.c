/* Refuses one request for memory of the program that it is loaded into, by LD_PRELOAD.
 *
 * Requests are counted from a line 'begin' on standard output up to a line 'end', and the one whose number stands in the
 * variable REFUSE, from 1 on, is refused. REFUSE_FROM in its place counts all requests of the process from its start, and looks
 * for no lines. A refusal writes the line 'refused' on standard error.
 */
#define _GNU_SOURCE
#include <errno.h>
#include <stdatomic.h>
#include <stddef.h>
#include <stdlib.h>
#include <string.h>
#include <sys/syscall.h>
#include <sys/uio.h>
#include <unistd.h>

extern void *__libc_malloc(size_t);
extern void *__libc_calloc(size_t, size_t);
extern void *__libc_realloc(void *, size_t);
extern void *__libc_memalign(size_t, size_t);

static _Atomic long counted;
static _Atomic int open_window;
static long refused_number = -1;
static int has_lines = 1;

__attribute__((constructor)) static void read_number(void)
{
    const char *word = getenv("REFUSE"), *from = getenv("REFUSE_FROM");
    if (from) {
        refused_number = atol(from);
        has_lines = 0;
        atomic_store(&open_window, 1);
    } else if (word) {
        refused_number = atol(word);
    }
}

/* Whether this request is the one that is refused. */
static int is_refused(void)
{
    if (refused_number < 0 || !atomic_load(&open_window)) return 0;
    if (atomic_fetch_add(&counted, 1) + 1 != refused_number) return 0;
    syscall(SYS_write, 2, "refused\n", 8);
    errno = ENOMEM;
    return 1;
}

static void look_at(int fd, const void *bytes, size_t len)
{
    if (fd != 1 || !has_lines) return;
    if (len >= 5 && !memcmp(bytes, "begin", 5)) {
        atomic_store(&counted, 0);
        atomic_store(&open_window, 1);
    } else if (len >= 3 && !memcmp(bytes, "end", 3)) {
        atomic_store(&open_window, 0);
    }
}

ssize_t write(int fd, const void *bytes, size_t len)
{
    look_at(fd, bytes, len);
    return syscall(SYS_write, fd, bytes, len);
}

ssize_t __write(int fd, const void *bytes, size_t len)
{
    return write(fd, bytes, len);
}

ssize_t writev(int fd, const struct iovec *parts, int count)
{
    if (count > 0) look_at(fd, parts[0].iov_base, parts[0].iov_len);
    return syscall(SYS_writev, fd, parts, count);
}

void *malloc(size_t size)
{
    return is_refused() ? NULL : __libc_malloc(size);
}

void *calloc(size_t count, size_t size)
{
    return is_refused() ? NULL : __libc_calloc(count, size);
}

void *realloc(void *block, size_t size)
{
    return is_refused() ? NULL : __libc_realloc(block, size);
}

void *memalign(size_t align, size_t size)
{
    return is_refused() ? NULL : __libc_memalign(align, size);
}

void *aligned_alloc(size_t align, size_t size)
{
    return is_refused() ? NULL : __libc_memalign(align, size);
}

int posix_memalign(void **block, size_t align, size_t size)
{
    if (is_refused()) return ENOMEM;
    *block = __libc_memalign(align, size);
    return *block ? 0 : ENOMEM;
}
