// An allocator whose allocations can be made to fail. LD_PRELOAD loads it before a program, so that it takes the place of the C
// library's malloc, calloc, realloc and free, and of its read and write too. The environment says what fails:
//
//   FAIL_ALLOCATION=N    the N-th allocation, counted from 1; with 0 none
//   FAIL_LATER=1         and all that follow it
//   FAIL_READ=N          the N-th read, as on a broken disk; with 0 none
//   FAIL_WRITE=N         the N-th write; with 0 none
//   WRITE_NOTHING=1      the write that would fail writes no byte instead
//   PIECE=N              each read and each write takes at most N bytes; with 0 there is no such bound
//
// When the program ends, "ALLOCATIONS FAILED LEAKED BROKEN READS" is written to the file descriptor COUNTS, if it is set: the number of
// allocations, how many of them failed, how many blocks weren't freed, how many reads and writes failed or wrote nothing, and the
// number of reads.
//
// No memory is used twice, so a growing block always moves. New bytes are A5, and those of a freed block 5A: a program that reads
// what it never wrote, or has freed, gives wrong results.
#define _DEFAULT_SOURCE
#include <errno.h>
#include <stdbool.h>
#include <stddef.h>
#include <stdio.h>
#include <stdlib.h>
#include <string.h>
#include <sys/syscall.h>
#include <unistd.h>

enum { ALIGNMENT = 16, ROOM = 1 << 28 };

// What lies before each block.
struct head {
    size_t length;
    bool is_given, is_counted;
};

enum { HEAD = (sizeof(struct head) + ALIGNMENT - 1) / ALIGNMENT * ALIGNMENT };

static _Alignas(ALIGNMENT) unsigned char room[ROOM];
static size_t used;

static long allocations, failed, leaked, fail_at_allocation;
static bool fails_later_too, is_on;

static bool fails_now(void) {
    if (!is_on)
        return false;
    allocations++;
    if (fail_at_allocation == 0 || allocations < fail_at_allocation || (allocations > fail_at_allocation && !fails_later_too))
        return false;
    failed++;
    return true;
}

static struct head *head_of(void *block) {
    return (struct head *)((unsigned char *)block - HEAD);
}

// Aborts a program that frees what it doesn't own. Then no counts are written.
static struct head *given_head_of(void *block) {
    struct head *head = head_of(block);
    if (!head->is_given)
        abort();
    return head;
}

// Allocates a block, or fails.
static void *give(size_t length) {
    size_t taken = ROOM;
    if (length < ROOM - HEAD - ALIGNMENT)
        taken = HEAD + (length + ALIGNMENT - 1) / ALIGNMENT * ALIGNMENT;
    if (fails_now() || taken > ROOM - used) {
        errno = ENOMEM;
        return NULL;
    }
    unsigned char *block = room + used + HEAD;
    used += taken;
    *head_of(block) = (struct head){length, true, is_on};
    leaked += is_on;
    return memset(block, 0xA5, length);
}

static void release(void *block) {
    struct head *head = given_head_of(block);
    head->is_given = false;
    leaked -= head->is_counted;
    memset(block, 0x5A, head->length);
}

void *malloc(size_t length) {
    return give(length);
}

void free(void *block) {
    if (block)
        release(block);
}

void *realloc(void *old, size_t length) {
    size_t kept = old ? given_head_of(old)->length : 0;
    void *block = give(length);
    if (!block || !old)
        return block;
    memcpy(block, old, kept < length ? kept : length);
    release(old);
    return block;
}

void *calloc(size_t count, size_t size) {
    bool is_too_long = size && count > ROOM / size;
    void *block = give(is_too_long ? ROOM : count * size);
    return block ? memset(block, 0, count * size) : NULL;
}

// Calls of one kind, of which one may have to fail.
struct calls {
    long made, fail_at;
};

static struct calls reads, writes;
static long broken;
static size_t piece;
static bool writes_nothing;

static bool is_broken(struct calls *calls) {
    if (!is_on || ++calls->made != calls->fail_at)
        return false;
    broken++;
    return true;
}

static size_t piece_of(size_t length) {
    return is_on && piece && length > piece ? piece : length;
}

static ssize_t fail(void) {
    errno = EIO;
    return -1;
}

ssize_t read(int end, void *bytes, size_t length) {
    return is_broken(&reads) ? fail() : syscall(SYS_read, end, bytes, piece_of(length));
}

ssize_t write(int end, const void *bytes, size_t length) {
    if (is_broken(&writes))
        return writes_nothing ? 0 : fail();
    return syscall(SYS_write, end, bytes, piece_of(length));
}

// The number that a variable of the environment has, or 0.
static long number_in(const char *name) {
    const char *value = getenv(name);
    return value ? atol(value) : 0;
}

__attribute__((constructor)) static void begin(void) {
    fail_at_allocation = number_in("FAIL_ALLOCATION");
    fails_later_too = number_in("FAIL_LATER") == 1;
    reads.fail_at = number_in("FAIL_READ");
    writes.fail_at = number_in("FAIL_WRITE");
    writes_nothing = number_in("WRITE_NOTHING") == 1;
    piece = (size_t)number_in("PIECE");
    is_on = true;
}

__attribute__((destructor)) static void end(void) {
    char counts[80];
    is_on = false;
    int length = snprintf(counts, sizeof counts, "%ld %ld %ld %ld %ld\n", allocations, failed, leaked, broken, reads.made);
    if (getenv("COUNTS") && write((int)number_in("COUNTS"), counts, (size_t)length) != length)
        _exit(99);
}
