// A library to preload (LD_PRELOAD) that refuses a growth of a program, or the start of a thread.
//
// A growth is a call of malloc, calloc or realloc. The one whose number, counted from 1, is in REFUSE_GROWTH gets NULL and
// ENOMEM, and all others get what the C library (glibc) gives. A start is a call of pthread_create: the one whose number is in
// REFUSE_THREAD gets EAGAIN. A refusal is told by one octet on the descriptor whose number is in REFUSE_REPORT. So whoever
// started the program knows whether it came to that growth or start.

#define _GNU_SOURCE
#include <dlfcn.h>
#include <errno.h>
#include <pthread.h>
#include <stdatomic.h>
#include <stdbool.h>
#include <stddef.h>
#include <stdlib.h>
#include <unistd.h>

// glibc's own, under the names that it gives them for this use.
void *__libc_malloc(size_t size);
void *__libc_calloc(size_t count, size_t size);
void *__libc_realloc(void *old, size_t size);

static atomic_ulong growths, starts;

// The number in a variable of the environment, 0 where there is none.
static unsigned long number_in(const char *name)
{
    const char *text = getenv(name);
    return text ? strtoul(text, NULL, 10) : 0;
}

// Tells a refusal. One that cannot be told would look like none, so the program ends here.
static void tell(void)
{
    if (write((int)number_in("REFUSE_REPORT"), "r", 1) != 1)
        _exit(125);
}

// Counts a growth, and says whether it is to be refused.
static bool is_refused(void)
{
    if (atomic_fetch_add(&growths, 1) + 1 != number_in("REFUSE_GROWTH"))
        return false;
    tell();
    errno = ENOMEM;
    return true;
}

void *malloc(size_t size)
{
    return is_refused() ? NULL : __libc_malloc(size);
}

void *calloc(size_t count, size_t size)
{
    return is_refused() ? NULL : __libc_calloc(count, size);
}

void *realloc(void *old, size_t size)
{
    return is_refused() ? NULL : __libc_realloc(old, size);
}

int pthread_create(pthread_t *thread, const pthread_attr_t *attributes, void *(*start)(void *), void *argument)
{
    int (*create)(pthread_t *, const pthread_attr_t *, void *(*)(void *), void *);
    if (atomic_fetch_add(&starts, 1) + 1 == number_in("REFUSE_THREAD")) {
        tell();
        return EAGAIN;
    }
    // POSIX's way to put what dlsym gives into a pointer to a function.
    *(void **)&create = dlsym(RTLD_NEXT, "pthread_create");
    return create(thread, attributes, start, argument);
}
