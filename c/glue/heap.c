/* The heap of the proved library, by that of C: three functions that its code calls. */
#include <stdbool.h>
#include <stddef.h>
#include <stdlib.h>

/* Whether there was memory, and where. */
struct tried {
    bool has_memory;
    void *block;
};

struct tried rattle_alloc(size_t size, size_t alignment);
struct tried rattle_realloc(void *block, size_t kept, size_t size, size_t alignment);
void rattle_dealloc(void *block);

static char nothing; /* an address for what has none */

static struct tried found(void *block)
{
    return (struct tried){block != NULL, block ? block : &nothing};
}

struct tried rattle_alloc(size_t size, size_t alignment)
{
    return found(malloc(size ? size : alignment));
}

struct tried rattle_realloc(void *block, size_t kept, size_t size, size_t alignment)
{
    (void)kept;
    return found(realloc(block, size ? size : alignment));
}

void rattle_dealloc(void *block)
{
    free(block);
}
