/* A disk that fails and rots, loaded into the program by LD_PRELOAD: the first write of more than a byte to a file `journal`
 * fails for want of room. From then on the gate of the journal's fourth line is read as closed, and no file `journal.cut-N`
 * can be made. */
#define _GNU_SOURCE
#include <dlfcn.h>
#include <errno.h>
#include <fcntl.h>
#include <limits.h>
#include <stdarg.h>
#include <stdio.h>
#include <string.h>
#include <unistd.h>

static int failed;

static int is_journal(int descriptor)
{
    char link[64], path[PATH_MAX];
    snprintf(link, sizeof link, "/proc/self/fd/%d", descriptor);
    ssize_t length = readlink(link, path, sizeof path - 1);
    if (length < 8)
        return 0;
    path[length] = 0;
    return strcmp(path + length - 8, "/journal") == 0;
}

/* Whether this write is the one that fails. */
static int fails(int descriptor, size_t length)
{
    if (failed || length < 2 || !is_journal(descriptor))
        return 0;
    failed = 1;
    errno = ENOSPC;
    return 1;
}

#define WRITES(NAME)                                                                                      \
    ssize_t NAME(int descriptor, const void *bytes, size_t length, off_t offset)                          \
    {                                                                                                     \
        ssize_t (*made)(int, const void *, size_t, off_t) = (ssize_t(*)(int, const void *, size_t, off_t)) \
            dlsym(RTLD_NEXT, #NAME);                                                                      \
        return fails(descriptor, length) ? -1 : made(descriptor, bytes, length, offset);                  \
    }
WRITES(pwrite)
WRITES(pwrite64)

ssize_t read(int descriptor, void *bytes, size_t length)
{
    ssize_t (*made)(int, void *, size_t) = (ssize_t(*)(int, void *, size_t)) dlsym(RTLD_NEXT, "read");
    ssize_t count = made(descriptor, bytes, length);
    char *text = bytes;
    if (!failed || count <= 0 || !is_journal(descriptor))
        return count;
    for (ssize_t at = 0, line = 1; at < count; at++) {
        if (line == 4) {
            text[at] = '-';
            break;
        }
        line += text[at] == '\n';
    }
    return count;
}

#define OPENS(NAME)                                                                                           \
    int NAME(int folder, const char *path, int flags, ...)                                                    \
    {                                                                                                         \
        va_list rest;                                                                                         \
        va_start(rest, flags);                                                                                \
        mode_t mode = va_arg(rest, mode_t);                                                                   \
        va_end(rest);                                                                                         \
        if (failed && (flags & O_CREAT) && strstr(path, "journal.cut-")) {                                    \
            errno = ENOSPC;                                                                                   \
            return -1;                                                                                        \
        }                                                                                                     \
        int (*made)(int, const char *, int, ...) = (int (*)(int, const char *, int, ...)) dlsym(RTLD_NEXT, #NAME); \
        return made(folder, path, flags, mode);                                                               \
    }
OPENS(openat)
OPENS(openat64)

#define OPENS_HERE(NAME, AT)                             \
    int NAME(const char *path, int flags, ...)           \
    {                                                    \
        va_list rest;                                    \
        va_start(rest, flags);                           \
        mode_t mode = va_arg(rest, mode_t);              \
        va_end(rest);                                    \
        return AT(AT_FDCWD, path, flags, mode);          \
    }
OPENS_HERE(open, openat)
OPENS_HERE(open64, openat64)
