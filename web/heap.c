/* Memory for a module of WebAssembly: the three functions by which the proved code gets it. This file isn't proved.
 *
 * A block begins at a multiple of 16, behind a header of 8 bytes. Up to 1 KiB each multiple of 16 has a list of unused blocks of its own,
 * above that each eighth of a power of two. A block never becomes one of another size, and memory never gets smaller. */
#include "heap.h"

#define PAGE 65536u
#define LARGEST (1u << 30)
#define CLASSES 256

struct block {
    struct block *next;
};
struct header {
    u32 class, size;
};
#define HEADER(block) ((struct header *)(block) - 1)

extern u8 __heap_base;
static u64 top, end, held, limit = 0xfff00000;
static struct block *unused[CLASSES];

static struct header header_for(u64 length) {
    u64 size = (length + sizeof(struct header) + 15) & ~15ull;
    if (size <= 1024)
        return (struct header){(u32)(size >> 4), (u32)size};
    u32 log = 63 - (u32)__builtin_clzll(size - 1); /* 2^log < size <= 2^(log + 1) */
    u64 step = 1ull << log >> 3, steps = (size - (1ull << log) + step - 1) / step;
    return (struct header){64 + (log - 10) * 8 + (u32)steps, (u32)((1ull << log) + steps * step)};
}

/* The module's addresses are shortened to 32 bits after this file is compiled: a failure is then the largest number of 32 bits. */
static bool grow(u64 pages) { return (i32)__builtin_wasm_memory_grow(0, pages) != -1; }

/* A block that nobody has had yet, or NULL. */
static struct block *fresh(u64 size) {
    if (top == 0) {
        top = (((u64)&__heap_base + 15) & ~15ull) + sizeof(struct header);
        end = (u64)__builtin_wasm_memory_size(0) * PAGE;
    }
    if (top + size > limit)
        return NULL;
    if (top + size > end) {
        u64 pages = (top + size - end + PAGE - 1) / PAGE, more = pages > 16 ? pages : 16;
        if (!grow(more))
            return NULL;
        end += more * PAGE;
    }
    struct block *found = (struct block *)top;
    top += size;
    return found;
}

void *heap_take(u64 length) {
    if (length > LARGEST)
        return NULL;
    struct header header = header_for(length);
    struct block *found = unused[header.class];
    if (found != NULL)
        unused[header.class] = found->next;
    else if ((found = fresh(header.size)) == NULL)
        return NULL;
    *HEADER(found) = header;
    held += header.size;
    return found;
}

void heap_give(void *block) {
    struct block *it = block;
    struct block **list = &unused[HEADER(block)->class];
    held -= HEADER(block)->size;
    it->next = *list;
    *list = it;
}

/* Bytes of the blocks in use, with their headers. */
u64 heap_held(void) { return held; }

/* From now on memory ends there. */
EXPORT(limit_memory) void heap_limit(u32 bytes) { limit = bytes; }

/* ---- what the proved code calls */

struct tried {
    bool worked;
    void *block;
};

static struct tried tried(void *block) {
    static char nothing; /* a block isn't NULL, even after a failed allocation */
    return block != NULL ? (struct tried){true, block} : (struct tried){false, &nothing};
}

struct tried rattle_alloc(u64 length, u64 alignment) {
    (void)alignment;
    return tried(heap_take(length));
}

/* A block that would be an eighth too large moves. */
struct tried rattle_realloc(void *block, u64 used, u64 length, u64 alignment) {
    (void)alignment;
    u64 size = HEADER(block)->size;
    if (length + sizeof(struct header) <= size && header_for(length).size + size / 8 >= size)
        return tried(block);
    void *other = heap_take(length);
    if (other != NULL) {
        __builtin_memcpy(other, block, used < length ? used : length);
        heap_give(block);
    }
    return tried(other);
}

void rattle_dealloc(void *block) {
    if (block != NULL)
        heap_give(block);
}
