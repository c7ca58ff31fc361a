/* Refuses one request for memory of the program that it is loaded into by LD_PRELOAD: of all its calls of malloc and
 * realloc, counted from 1, the one whose number FAILED_ALLOCATION in the environment gives. When it does, it makes the file
 * that REFUSAL_MARK names, so that a caller knows whether the program asked so often. The file has the word "threads"
 * where the program had started a thread by then. */
#define _GNU_SOURCE
#include <dlfcn.h>
#include <errno.h>
#include <fcntl.h>
#include <pthread.h>
#include <stdatomic.h>
#include <stdlib.h>
#include <unistd.h>

extern void *__libc_malloc(size_t size);
extern void *__libc_realloc(void *old, size_t size);

static atomic_ulong asked;
static atomic_int has_threads;
static unsigned long refused;

__attribute__((constructor)) static void begin(void)
{
    const char *number = getenv("FAILED_ALLOCATION");
    refused = number ? strtoul(number, NULL, 10) : 0;
    atomic_store(&asked, 0);
}

static void mark(void)
{
    const char *path = getenv("REFUSAL_MARK");
    int file = path ? open(path, O_WRONLY | O_CREAT, 0600) : -1;
    if (file < 0)
        return;
    if (atomic_load(&has_threads) && write(file, "threads\n", 8) != 8)
        abort();
    close(file);
}

static int is_refused(void)
{
    if (refused == 0 || atomic_fetch_add(&asked, 1) + 1 != refused)
        return 0;
    mark();
    errno = ENOMEM;
    return 1;
}

void *malloc(size_t size)
{
    return is_refused() ? NULL : __libc_malloc(size);
}

void *realloc(void *old, size_t size)
{
    return is_refused() ? NULL : __libc_realloc(old, size);
}

/* What a thread has to run. */
struct work {
    void *(*run)(void *);
    void *with;
};

/* Runs a thread's work. The thread has started before it makes a request, though pthread_create may not have returned. */
static void *run(void *given)
{
    struct work work = *(struct work *)given;
    free(given);
    atomic_store(&has_threads, 1);
    return work.run(work.with);
}

/* The C library asks for memory of its own while it starts a thread: a request that is refused there counts as one before
 * the start. */
int pthread_create(pthread_t *thread, const pthread_attr_t *how, void *(*work)(void *), void *with)
{
    int (*start)(pthread_t *, const pthread_attr_t *, void *(*)(void *), void *) = dlsym(RTLD_NEXT, "pthread_create");
    struct work *given = __libc_malloc(sizeof *given);
    if (given == NULL)
        return EAGAIN;
    *given = (struct work){work, with};
    int status = start(thread, how, run, given);
    if (status == 0)
        atomic_store(&has_threads, 1);
    else
        free(given);
    return status;
}
