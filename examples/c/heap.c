/*
 * The three functions by which the library takes memory, here over malloc. A firmware writes its own, and puts them in place of
 * the kit's:
 *
 *     cc -c -fPIC heap.c && make capi HEAP=$PWD/heap.o
 */
#include <stdbool.h>
#include <stddef.h>
#include <stdlib.h>

/* A pointer that is never NULL, and whether memory lies there. */
struct tried {
    bool is_there;
    void *at;
};

struct tried rattle_alloc(size_t size, size_t alignment);
struct tried rattle_realloc(void *old, size_t old_size, size_t size, size_t alignment);
void rattle_dealloc(void *at);

static struct tried tried(void *at)
{
    static char nothing;
    struct tried found = {at != NULL, at != NULL ? at : &nothing};
    return found;
}

/* Memory of a size at an alignment of at most 16. Of no octets it has a place of its own too. */
struct tried rattle_alloc(size_t size, size_t alignment)
{
    return tried(malloc(size != 0 ? size : alignment));
}

/* The octets move. Where memory is refused, the old ones stay where they are. */
struct tried rattle_realloc(void *old, size_t old_size, size_t size, size_t alignment)
{
    (void)old_size;
    return tried(realloc(old, size != 0 ? size : alignment));
}

void rattle_dealloc(void *at)
{
    free(at);
}
