/* Notes what the program that it is loaded into, by LD_PRELOAD, does to the files of one folder and of the folders in it, so that
 * peers/power.py can make of them what a power cut might leave. A file has the name by which its path goes on from the folder's.
 *
 * POWER_FOLDER is the folder, as realpath gives it, and POWER_LOG the file to which is appended. Each call has a record before it
 * is made, with the bytes that it writes, and one once it has returned: so a write of which the second record is there before the
 * first of a sync is covered by that sync. A process that is killed leaves whole records, but for the last one.
 *
 * With POWER_CALL=N the process kills itself at its Nth call on the file that has the name POWER_NAME, once the first record of
 * that call is written and before it is made.
 */
#undef _FORTIFY_SOURCE
#define _GNU_SOURCE
#include <errno.h>
#include <fcntl.h>
#include <limits.h>
#include <pthread.h>
#include <signal.h>
#include <stdarg.h>
#include <stdint.h>
#include <stdio.h>
#include <stdlib.h>
#include <string.h>
#include <sys/stat.h>
#include <sys/syscall.h>
#include <unistd.h>

/* What a record is of: a call, which has its file's inode number or, where it is on names, these behind the record; or its return. */
enum { WRITE = 'w', LENGTH = 't', SYNC = 's', MADE = 'c', FOLDER = 'f', RENAMED = 'r', UNLINKED = 'u', RETURNED = 'd' };

struct record {
    int64_t kind;
    int64_t serial; /* which call */
    int64_t number; /* the inode number; of RETURNED what the call returned, of MADE and FOLDER the inode number */
    int64_t at;     /* the offset, or the length that a file gets */
    int64_t size;   /* of the bytes that follow */
};

static pthread_mutex_t lock = PTHREAD_MUTEX_INITIALIZER;
static int64_t last_serial;
static int log_fd = -1;
static char folder[PATH_MAX];
static size_t folder_size;
static const char *last_name;
static long calls_left;

__attribute__((constructor)) static void begin(void)
{
    const char *path = getenv("POWER_LOG"), *named = getenv("POWER_FOLDER");
    if (!path || !named || strlen(named) >= sizeof folder) return;
    folder_size = strlen(strcpy(folder, named));
    last_name = getenv("POWER_NAME");
    calls_left = last_name && getenv("POWER_CALL") ? atol(getenv("POWER_CALL")) : 0;
    int fd = syscall(SYS_openat, AT_FDCWD, path, O_WRONLY | O_CREAT | O_APPEND | O_CLOEXEC, 0600);
    /* Away from the numbers that the program's own files get. */
    log_fd = fd < 0 ? -1 : syscall(SYS_fcntl, fd, F_DUPFD_CLOEXEC, 500);
    if (fd >= 0) syscall(SYS_close, fd);
    if (log_fd < 0) dprintf(2, "power.c: %s can't be written\n", path);
}

static void put(const void *bytes, size_t size)
{
    for (size_t done = 0; done < size;) {
        long put = syscall(SYS_write, log_fd, (const char *)bytes + done, size - done);
        if (put <= 0) {
            dprintf(2, "power.c: the log can't be written\n");
            abort();
        }
        done += put;
    }
}

/* Appends a record, one thread at a time. Where it is of a call, `name` is that of its file; returns the number of the call. */
static int64_t note(int kind, int64_t serial, int64_t number, int64_t at, const void *bytes, size_t size, const char *name)
{
    int before = errno;
    pthread_mutex_lock(&lock);
    if (!serial) serial = ++last_serial;
    struct record record = { kind, serial, number, at, size };
    put(&record, sizeof record);
    put(bytes, size);
    if (calls_left > 0 && name && !strcmp(name, last_name) && !--calls_left) kill(getpid(), SIGKILL);
    pthread_mutex_unlock(&lock);
    errno = before;
    return serial;
}

/* Notes what a call returned, and returns it. */
static long returned(int64_t serial, long result)
{
    if (serial) note(RETURNED, serial, result, 0, NULL, 0, NULL);
    return result;
}

/* Notes a call on a descriptor, if it is of the folder itself or of a file in it. Returns the number of the call, or 0. */
static int64_t note_of(int fd, int kind, int64_t at, const void *bytes, size_t size)
{
    char link[64], path[PATH_MAX];
    struct stat found;
    if (log_fd < 0 || fd < 0 || fd == log_fd) return 0;
    snprintf(link, sizeof link, "/proc/self/fd/%d", fd);
    long length = syscall(SYS_readlink, link, path, sizeof path - 1);
    if (length < (long)folder_size || memcmp(path, folder, folder_size)) return 0;
    path[length] = 0;
    if (path[folder_size] && path[folder_size] != '/') return 0;
    return fstat(fd, &found) ? 0 : note(kind, 0, found.st_ino, at, bytes, size, path[folder_size] ? path + folder_size + 1 : "");
}

/* The name that a path has in the folder or in one in it, written into `name`, or NULL where it leads elsewhere. */
static const char *name_in(const char *path, char name[PATH_MAX])
{
    char parent[PATH_MAX], real[PATH_MAX];
    const char *slash = strrchr(path, '/');
    if (log_fd < 0 || !slash || slash == path || (size_t)(slash - path) >= sizeof parent) return NULL;
    memcpy(parent, path, slash - path);
    parent[slash - path] = 0;
    if (!realpath(parent, real) || strncmp(real, folder, folder_size)) return NULL;
    if (!real[folder_size]) return strcpy(name, slash + 1);
    if (real[folder_size] != '/' || snprintf(name, PATH_MAX, "%s/%s", real + folder_size + 1, slash + 1) >= PATH_MAX) return NULL;
    return name;
}

static int opened(const char *path, int flags, mode_t mode)
{
    char held[PATH_MAX];
    const char *name = flags & (O_CREAT | O_TRUNC) ? name_in(path, held) : NULL;
    struct stat found;
    int64_t serial = 0;
    int is_there = name && !stat(path, &found);
    if (is_there && (flags & O_TRUNC)) serial = note(LENGTH, 0, found.st_ino, 0, NULL, 0, name);
    if (name && !is_there && (flags & O_CREAT)) serial = note(MADE, 0, 0, 0, name, strlen(name), name);
    int fd = syscall(SYS_openat, AT_FDCWD, path, flags, mode);
    if (serial) returned(serial, fd < 0 || fstat(fd, &found) ? -1 : is_there ? 0 : (int64_t)found.st_ino);
    return fd;
}

/* Where a write that names no offset begins. */
static int64_t position(int fd)
{
    struct stat found;
    if (!(fcntl(fd, F_GETFL) & O_APPEND)) return lseek(fd, 0, SEEK_CUR);
    return fstat(fd, &found) ? 0 : found.st_size;
}

ssize_t write(int fd, const void *bytes, size_t size)
{
    int64_t serial = note_of(fd, WRITE, position(fd), bytes, size);
    return returned(serial, syscall(SYS_write, fd, bytes, size));
}

ssize_t pwrite(int fd, const void *bytes, size_t size, off_t at)
{
    int64_t serial = note_of(fd, WRITE, at, bytes, size);
    return returned(serial, syscall(SYS_pwrite64, fd, bytes, size, at));
}

ssize_t pwrite64(int fd, const void *bytes, size_t size, off_t at)
{
    return pwrite(fd, bytes, size, at);
}

int ftruncate(int fd, off_t size)
{
    int64_t serial = note_of(fd, LENGTH, size, NULL, 0);
    return returned(serial, syscall(SYS_ftruncate, fd, size));
}

int ftruncate64(int fd, off_t size)
{
    return ftruncate(fd, size);
}

int fsync(int fd)
{
    int64_t serial = note_of(fd, SYNC, 0, NULL, 0);
    return returned(serial, syscall(SYS_fsync, fd));
}

int fdatasync(int fd)
{
    int64_t serial = note_of(fd, SYNC, 0, NULL, 0);
    return returned(serial, syscall(SYS_fdatasync, fd));
}

int rename(const char *from, const char *to)
{
    char first[PATH_MAX], second[PATH_MAX], names[2 * PATH_MAX];
    const char *old = name_in(from, first), *new = name_in(to, second);
    int size = old && new ? snprintf(names, sizeof names, "%s\n%s", old, new) : 0;
    int64_t serial = size > 0 && size < (int)sizeof names ? note(RENAMED, 0, 0, 0, names, size, old) : 0;
    return returned(serial, syscall(SYS_rename, from, to));
}

int unlink(const char *path)
{
    char held[PATH_MAX];
    const char *name = name_in(path, held);
    int64_t serial = name ? note(UNLINKED, 0, 0, 0, name, strlen(name), name) : 0;
    return returned(serial, syscall(SYS_unlink, path));
}

int mkdir(const char *path, mode_t mode)
{
    char held[PATH_MAX];
    const char *name = name_in(path, held);
    struct stat found;
    int64_t serial = name ? note(FOLDER, 0, 0, 0, name, strlen(name), name) : 0;
    int result = syscall(SYS_mkdirat, AT_FDCWD, path, mode);
    if (serial) returned(serial, result || stat(path, &found) ? -1 : (int64_t)found.st_ino);
    return result;
}

int open(const char *path, int flags, ...)
{
    va_list more;
    va_start(more, flags);
    mode_t mode = va_arg(more, mode_t);
    va_end(more);
    return opened(path, flags, mode);
}

int open64(const char *path, int flags, ...)
{
    va_list more;
    va_start(more, flags);
    mode_t mode = va_arg(more, mode_t);
    va_end(more);
    return opened(path, flags, mode);
}

int creat(const char *path, mode_t mode)
{
    return opened(path, O_WRONLY | O_CREAT | O_TRUNC, mode);
}
