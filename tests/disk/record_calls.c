/* Records the calls by which the program that it is loaded into by LD_PRELOAD changes what a disk has: each is one record
 * behind the others in the file that CALLS_RECORD names. A record is a line, `KIND DESCRIPTOR OFFSET LENGTH`, and LENGTH
 * bytes: those that were written, a path, or of a rename both paths with a zero between. OFFSET is where they were written,
 * to which length a file was cut, or who may do what with a file. Where KILL_AFTER gives a number, the program is killed
 * once it has made so many of them. Locks that were taken and reads are recorded too, and aren't counted; an open that cuts
 * a file has two records and counts once. Calls that failed, and bytes that weren't taken, are in no record.
 * Where FAIL_AT gives a number, the call of this number, among all of these functions, isn't made and fails with EIO. */
#define _GNU_SOURCE
#include <dlfcn.h>
#include <errno.h>
#include <fcntl.h>
#include <limits.h>
#include <signal.h>
#include <stdarg.h>
#include <stdio.h>
#include <stdlib.h>
#include <string.h>
#include <sys/stat.h>
#include <sys/syscall.h>
#include <unistd.h>

static int file = -1;
static long left;
static long before_failure;

/* The number that a variable gives, or -1. */
static long number_in(const char *name)
{
    const char *number = getenv(name);
    return number ? strtol(number, NULL, 10) : -1;
}

__attribute__((constructor)) static void begin(void)
{
    const char *path = getenv("CALLS_RECORD");
    left = number_in("KILL_AFTER");
    int made = path ? open(path, O_WRONLY | O_CREAT | O_APPEND, 0600) : -1;
    if (made >= 0) {
        file = fcntl(made, F_DUPFD_CLOEXEC, 500);
        close(made);
    }
    before_failure = number_in("FAIL_AT");
}

/* Whether this call is the one that fails. */
static int fails(void)
{
    if (before_failure <= 0 || --before_failure > 0)
        return 0;
    errno = EIO;
    return 1;
}

/* Adds a record. */
static void add(const char *kind, int descriptor, long offset, const void *bytes, size_t length)
{
    char line[80];
    int size = snprintf(line, sizeof line, "%s %d %ld %zu\n", kind, descriptor, offset, length);
    if (file < 0)
        return;
    if (syscall(SYS_write, file, line, size) != size || syscall(SYS_write, file, bytes, length) != (long)length)
        abort();
}

/* Adds a record of a call that changes what a disk has, and ends the program where it is the last one that it may make. */
static void record(const char *kind, int descriptor, long offset, const void *bytes, size_t length)
{
    add(kind, descriptor, offset, bytes, length);
    if (file >= 0 && left > 0 && --left == 0)
        raise(SIGKILL);
}

/* The library's own function of this name. */
#define NEXT(type, name) static type (*next)(); if (!next) next = (type (*)())dlsym(RTLD_NEXT, name)

static int opened(int descriptor, const char *path, int flags, int mode)
{
    const char *kind = flags & O_CREAT ? "create" : "open";
    if (descriptor >= 0 && flags & O_TRUNC) {
        add(kind, descriptor, mode, path, strlen(path));
        record("cut", descriptor, 0, "", 0);
    } else if (descriptor >= 0) {
        record(kind, descriptor, mode, path, strlen(path));
    }
    return descriptor;
}

int open(const char *path, int flags, ...)
{
    va_list more;
    va_start(more, flags);
    int mode = flags & O_CREAT ? va_arg(more, int) : 0;
    va_end(more);
    NEXT(int, "open");
    if (fails())
        return -1;
    return opened(next(path, flags, mode), path, flags, mode);
}

int openat(int folder, const char *path, int flags, ...)
{
    va_list more;
    va_start(more, flags);
    int mode = flags & O_CREAT ? va_arg(more, int) : 0;
    va_end(more);
    NEXT(int, "openat");
    if (fails())
        return -1;
    return opened(next(folder, path, flags, mode), path, flags, mode);
}

int mkdir(const char *path, mode_t mode)
{
    NEXT(int, "mkdir");
    if (fails())
        return -1;
    int status = next(path, mode);
    if (status == 0)
        record("mkdir", -1, mode, path, strlen(path));
    return status;
}

int rename(const char *old, const char *new)
{
    NEXT(int, "rename");
    if (fails())
        return -1;
    char both[2 * PATH_MAX];
    size_t front = strlen(old) + 1, length = front + strlen(new);
    int status = next(old, new);
    if (status == 0 && length > sizeof both)
        abort();
    if (status == 0) {
        memcpy(both, old, front);
        memcpy(both + front, new, length - front);
        record("rename", -1, 0, both, length);
    }
    return status;
}

int unlink(const char *path)
{
    NEXT(int, "unlink");
    if (fails())
        return -1;
    int status = next(path);
    if (status == 0)
        record("unlink", -1, 0, path, strlen(path));
    return status;
}

int fchmod(int descriptor, mode_t mode)
{
    NEXT(int, "fchmod");
    if (fails())
        return -1;
    int status = next(descriptor, mode);
    if (status == 0)
        record("chmod", descriptor, mode, "", 0);
    return status;
}

ssize_t pwrite(int descriptor, const void *bytes, size_t length, off_t offset)
{
    NEXT(ssize_t, "pwrite");
    if (fails())
        return -1;
    ssize_t done = next(descriptor, bytes, length, offset);
    if (done > 0)
        record("write", descriptor, offset, bytes, done);
    return done;
}

ssize_t write(int descriptor, const void *bytes, size_t length)
{
    NEXT(ssize_t, "write");
    if (fails())
        return -1;
    ssize_t done = next(descriptor, bytes, length);
    if (done > 0)
        record("say", descriptor, 0, bytes, done);
    return done;
}

int ftruncate(int descriptor, off_t length)
{
    NEXT(int, "ftruncate");
    if (fails())
        return -1;
    int status = next(descriptor, length);
    if (status == 0)
        record("cut", descriptor, length, "", 0);
    return status;
}

static int synced(int status, int descriptor, const char *kind)
{
    if (status == 0)
        record(kind, descriptor, 0, "", 0);
    return status;
}

int fsync(int descriptor)
{
    NEXT(int, "fsync");
    if (fails())
        return -1;
    return synced(next(descriptor), descriptor, "sync");
}

int fdatasync(int descriptor)
{
    NEXT(int, "fdatasync");
    if (fails())
        return -1;
    return synced(next(descriptor), descriptor, "datasync");
}

int flock(int descriptor, int operation)
{
    NEXT(int, "flock");
    if (fails())
        return -1;
    int status = next(descriptor, operation);
    if (status == 0)
        add("lock", descriptor, 0, "", 0);
    return status;
}

ssize_t read(int descriptor, void *bytes, size_t length)
{
    NEXT(ssize_t, "read");
    if (fails())
        return -1;
    ssize_t done = next(descriptor, bytes, length);
    if (done >= 0)
        add("read", descriptor, 0, "", 0);
    return done;
}
