/* share CHANNEL KEYS BLOCK..: prints the lines of `fabcommit run`, while eight threads query the ledger, each by a
 * handle of its own. To submit a block, the main thread closes their handles, and shares the ledger anew after the
 * block. Each of them has queried the ledger at each height before the next block comes. */
#define _GNU_SOURCE
#include "fabcommit.h"
#include <inttypes.h>
#include <pthread.h>
#include <sched.h>
#include <stdatomic.h>
#include <stdio.h>
#include <stdlib.h>
#include <string.h>

enum { READERS = 8, ROWS = 20, POOL = 1 << 14 };

struct bytes { uint8_t *at; size_t len; };

/* On a cache line of its own, since each call writes its handle. At heights below `asked` it has queried. */
struct reader { _Alignas(64) fabcommit_handle handle; _Atomic uint64_t asked; };

static struct reader readers[READERS];
/* held for reading during a query, for writing while the readers' handles are closed */
static pthread_rwlock_t lock;
static atomic_bool is_over;

#define CHECK(is_well) \
    do { if (!(is_well)) { fprintf(stderr, "line %d: %s\n", __LINE__, #is_well); exit(3); } } while (0)

static struct bytes read_file(const char *path)
{
    FILE *file = fopen(path, "rb");
    if (!file || fseek(file, 0, SEEK_END)) { perror(path); exit(2); }
    struct bytes bytes = {0, (size_t)ftell(file)};
    rewind(file);
    bytes.at = malloc(bytes.len + 1);
    if (!bytes.at || fread(bytes.at, 1, bytes.len, file) != bytes.len) { perror(path); exit(2); }
    fclose(file);
    return bytes;
}

/* Checks that a key has the row of the scan, by a second query. */
static void check_row(fabcommit_handle *handle, const uint8_t *pool, const fabcommit_scanned_row *row)
{
    uint8_t value[1024];
    fabcommit_row found;
    const uint8_t *ns = (const uint8_t *)"cc", *key = pool + row->key.at;
    CHECK(!fabcommit_get(handle, ns, 2, key, row->key.len, &found, value, sizeof value));
    CHECK(found.block == row->block && found.tx == row->tx && found.len == row->value.len);
    CHECK(!memcmp(value, pool + row->value.at, found.len));
}

static void query(struct reader *reader)
{
    static const uint8_t cc[] = {'c', 'c'};
    uint8_t pool[POOL], flags[4096];
    fabcommit_scanned_row rows[ROWS];
    fabcommit_scan_sizes sizes;
    fabcommit_receipt receipt;
    fabcommit_handle *handle = &reader->handle;
    uint64_t height;
    size_t len;
    CHECK(!fabcommit_height(handle, &height) && height + 1 >= atomic_load(&reader->asked));
    CHECK(!fabcommit_scan(handle, cc, 2, cc, 0, cc, 0, pool, POOL, rows, ROWS, &sizes));
    for (size_t i = 0; i < sizes.rows; i++) check_row(handle, pool, &rows[i]);
    CHECK(!fabcommit_definition(handle, cc, 2, pool, POOL, &len));
    if (height) {
        CHECK(!fabcommit_block(handle, height - 1, &receipt));
        CHECK(!fabcommit_flags(handle, height - 1, flags, sizeof flags, &len) && len == receipt.flags);
    }
    atomic_store(&reader->asked, height + 1);
}

static void *query_on(void *reader)
{
    while (!atomic_load(&is_over)) {
        pthread_rwlock_rdlock(&lock);
        query(reader);
        pthread_rwlock_unlock(&lock);
    }
    return NULL;
}

static void wait_for_queries(fabcommit_handle *handle)
{
    uint64_t height;
    CHECK(!fabcommit_height(handle, &height));
    for (int i = 0; i < READERS; i++) while (atomic_load(&readers[i].asked) <= height) sched_yield();
}

static void share_with_all(fabcommit_handle *handle)
{
    for (int i = 0; i < READERS; i++) CHECK(!fabcommit_share(handle, &readers[i].handle));
}

static void close_all(void)
{
    for (int i = 0; i < READERS; i++) fabcommit_close(&readers[i].handle);
}

static uint32_t submit(fabcommit_handle *handle, struct bytes block, fabcommit_receipt *receipt)
{
    wait_for_queries(handle);
    /* the handle is this thread's, so this call needs no lock; the readers hold the ledger too, so it does nothing */
    CHECK(fabcommit_submit(handle, block.at, block.len, receipt) == FABCOMMIT_SHARED);
    pthread_rwlock_wrlock(&lock);
    close_all();
    uint32_t code = fabcommit_submit(handle, block.at, block.len, receipt);
    share_with_all(handle);
    pthread_rwlock_unlock(&lock);
    return code;
}

static void print(fabcommit_handle *handle, const fabcommit_receipt *receipt)
{
    uint8_t flags[4096];
    size_t len;
    CHECK(!fabcommit_flags(handle, receipt->number, flags, sizeof flags, &len));
    printf("accepted %" PRIu64 " ", receipt->number);
    for (int i = 0; i < 32; i++) printf("%02x", receipt->header_hash[i]);
    for (size_t i = 0; i < len; i++) printf(" %d", flags[i]);
    printf("\n");
}

int main(int argc, char **argv)
{
    if (argc < 3) { fprintf(stderr, "share CHANNEL KEYS BLOCK..\n"); return 2; }
    struct bytes channel = read_file(argv[1]), keys = read_file(argv[2]);
    fabcommit_handle handle = {0};
    CHECK(!fabcommit_open(&handle, channel.at, channel.len, keys.at, keys.len));
    free(channel.at);
    free(keys.at);
    /* otherwise readers that go on without end may keep the lock from who writes */
    pthread_rwlockattr_t writers_first;
    pthread_rwlockattr_init(&writers_first);
    pthread_rwlockattr_setkind_np(&writers_first, PTHREAD_RWLOCK_PREFER_WRITER_NONRECURSIVE_NP);
    pthread_rwlock_init(&lock, &writers_first);
    share_with_all(&handle);
    pthread_t threads[READERS];
    for (int i = 0; i < READERS; i++) CHECK(!pthread_create(&threads[i], NULL, query_on, &readers[i]));
    for (int i = 3; i < argc; i++) {
        struct bytes block = read_file(argv[i]);
        fabcommit_receipt receipt;
        CHECK(!submit(&handle, block, &receipt));
        print(&handle, &receipt);
        free(block.at);
    }
    wait_for_queries(&handle);
    atomic_store(&is_over, true);
    for (int i = 0; i < READERS; i++) CHECK(!pthread_join(threads[i], NULL));
    /* the ledger is freed with the last handle, whichever that is */
    fabcommit_close(&handle);
    close_all();
    return 0;
}
