/* Where the proved library gets memory. A program that defines these three functions itself replaces them (docs/GUIDE.md). */
#include <stddef.h>
#include <stdlib.h>

struct rattle_allocation {
    _Bool worked;
    void *block;
};

static struct rattle_allocation tried(void *block) {
    static char nothing; /* a block isn't NULL, even after a failed allocation */
    return block != NULL ? (struct rattle_allocation){1, block} : (struct rattle_allocation){0, &nothing};
}

/* malloc aligns each block to 16 bytes, which is the largest alignment that is asked for. A length may be 0. */
struct rattle_allocation rattle_alloc(size_t length, size_t alignment) { return tried(malloc(length != 0 ? length : alignment)); }

struct rattle_allocation rattle_realloc(void *block, size_t used, size_t length, size_t alignment) {
    (void)used;
    return tried(realloc(block, length != 0 ? length : alignment));
}

void rattle_dealloc(void *block) { free(block); }
