// Counts what a program asks of the C library's heap between two requests of marker sizes. To be preloaded.

#include <stddef.h>
#include <stdint.h>
#include <stdio.h>
#include <string.h>

// No program asks for these sizes by itself.
enum { MARK_BEGIN = 0x5eed01, MARK_END = 0x5eed02 };

// Stands before each block, and keeps its alignment.
enum { HEAD = 16 };

extern void *__libc_malloc(size_t);
extern void *__libc_realloc(void *, size_t);
extern void __libc_free(void *);

// Sums of sizes: of all requests; of the blocks that are held, and the most of that; the same in chunks of the heap.
static int64_t asked, held, most_held, held_chunks, most_chunks;

// A chunk of glibc: 8 bytes and the block, a multiple of 16, at least 32.
static int64_t chunk(size_t n) {
    size_t whole = (n + 8 + 15) & ~(size_t)15;
    return whole < 32 ? 32 : (int64_t)whole;
}

static int is_marker(size_t n) { return n == MARK_BEGIN || n == MARK_END; }

static void taken(size_t n) {
    if (is_marker(n)) return;
    asked += (int64_t)n;
    held += (int64_t)n;
    held_chunks += chunk(n);
    if (most_held < held) most_held = held;
    if (most_chunks < held_chunks) most_chunks = held_chunks;
}

static void given_back(size_t n) {
    if (is_marker(n)) return;
    held -= (int64_t)n;
    held_chunks -= chunk(n);
}

static void mark(size_t n) {
    if (n == MARK_BEGIN) asked = held = most_held = held_chunks = most_chunks = 0;
    if (n == MARK_END) {
        char line[128];
        int len = snprintf(line, sizeof line, "%lld %lld %lld\n", (long long)most_held, (long long)asked, (long long)most_chunks);
        fwrite(line, 1, (size_t)len, stderr);
    }
}

void *malloc(size_t n) {
    mark(n);
    char *block = __libc_malloc(n + HEAD);
    if (block == NULL) return NULL;
    memcpy(block, &n, sizeof n);
    taken(n);
    return block + HEAD;
}

void *calloc(size_t count, size_t size) {
    size_t n;
    if (__builtin_mul_overflow(count, size, &n)) return NULL;
    void *block = malloc(n);
    if (block != NULL) memset(block, 0, n);
    return block;
}

void free(void *p) {
    if (p == NULL) return;
    size_t n;
    char *block = (char *)p - HEAD;
    memcpy(&n, block, sizeof n);
    given_back(n);
    __libc_free(block);
}

// The old block and the new one are held together for a moment, as where the heap has to move it.
void *realloc(void *p, size_t n) {
    if (p == NULL) return malloc(n);
    size_t old;
    char *block = (char *)p - HEAD;
    memcpy(&old, block, sizeof old);
    char *moved = __libc_realloc(block, n + HEAD);
    if (moved == NULL) return NULL;
    memcpy(moved, &n, sizeof n);
    taken(n);
    given_back(old);
    return moved + HEAD;
}
