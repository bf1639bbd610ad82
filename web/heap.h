/* The heap of a module of WebAssembly, and names of types: no header of a C library is at hand for it. */
#ifndef HEAP_H
#define HEAP_H

typedef __UINT8_TYPE__ u8;
typedef __UINT32_TYPE__ u32;
typedef __UINT64_TYPE__ u64;
typedef __INT32_TYPE__ i32;
typedef __INT64_TYPE__ i64;
typedef _Bool bool;
#define true 1
#define false 0
#define NULL ((void *)0)

/* The name by which JavaScript calls the function that follows. */
#define EXPORT(name) __attribute__((export_name(#name)))

/* A block for so many bytes, or NULL. */
void *heap_take(u64 length);
void heap_give(void *block);
u64 heap_held(void);

#endif
