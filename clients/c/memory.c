/* memory CHANNEL KEYS BLOCK..: refuses each allocation of the library in turn. The call then answers FABCOMMIT_MEMORY and has changed
 * nothing, and succeeds once it is made again; at the end nothing is left. Silent if so. For glibc. */
#include "fabcommit.h"
#include <stdio.h>
#include <stdlib.h>
#include <string.h>

void *__libc_malloc(size_t), *__libc_realloc(void *, size_t);
void __libc_free(void *);

/* of the library alone: how many allocations are granted until one is refused, none being -1; whether one was; how many aren't freed */
static long granted = -1, live;
static bool was_refused, counts;

static bool refuses(void)
{
    if (!counts || granted < 0 || granted-- > 0) return false;
    was_refused = true;
    return true;
}

void *malloc(size_t n)
{
    void *at = refuses() ? NULL : __libc_malloc(n);
    if (counts && at) live++;
    return at;
}

void *realloc(void *from, size_t n) { return refuses() ? NULL : __libc_realloc(from, n); }

void free(void *at)
{
    if (counts && at) live--;
    __libc_free(at);
}

struct bytes { uint8_t *at; size_t len; };
static struct bytes channel, keys, blocks[16];
static int n_blocks;
static fabcommit_handle handle, other;
static uint8_t pool[1 << 20];
static fabcommit_verdict verdicts[4096];
static fabcommit_past_write writes[64];
static fabcommit_scanned_row rows[64];
static fabcommit_reason reasons[64];
static fabcommit_identity identities[256];

/* how many calls there are besides those of the blocks */
enum { OTHERS = 10 };

static struct bytes read_file(const char *path)
{
    FILE *file = fopen(path, "rb");
    if (!file || fseek(file, 0, SEEK_END)) { perror(path); exit(2); }
    struct bytes bytes = {0, (size_t)ftell(file)};
    rewind(file);
    bytes.at = malloc(bytes.len + 1);
    if (!bytes.at || fread(bytes.at, 1, bytes.len, file) != bytes.len) { perror(path); exit(2); }
    fclose(file);
    return bytes;
}

/* Shares the ledger, and gives the share back. If that fails the other handle stays closed. */
static uint32_t share(void)
{
    uint32_t code = fabcommit_share(&handle, &other);
    if (code && other.is_open) return FABCOMMIT_SHARED;
    fabcommit_close(&other);
    return code;
}

static uint32_t call(int step)
{
    fabcommit_sizes sizes = {0, 0};
    fabcommit_receipt receipt;
    size_t len;
    fabcommit_scan_sizes scan;
    fabcommit_history_sizes past;
    fabcommit_reason_sizes why;
    const uint8_t *cc = (const uint8_t *)"cc", *car = (const uint8_t *)"car1";
    if (step == 0) return fabcommit_open(&handle, channel.at, channel.len, keys.at, keys.len);
    if (step <= n_blocks) return fabcommit_submit(&handle, blocks[step - 1].at, blocks[step - 1].len, &receipt);
    switch (step - n_blocks) {
    case 1: return fabcommit_list(blocks[0].at, blocks[0].len, pool, sizeof pool, verdicts, 4096, &sizes);
    case 2: return fabcommit_scan(&handle, cc, 2, cc, 0, cc, 0, pool, sizeof pool, rows, 64, &scan);
    case 3: return fabcommit_history(&handle, cc, 2, car, 4, pool, sizeof pool, writes, 64, &past);
    case 4: return fabcommit_definition(&handle, cc, 2, pool, sizeof pool, &len);
    case 5: return fabcommit_key_policy(&handle, cc, 2, (const uint8_t *)"car2", 4, pool, sizeof pool, &len);
    /* where the first block is next once more, by verdicts that refuse all */
    case 6: return fabcommit_open(&handle, channel.at, channel.len, keys.at, 0);
    case 7: return fabcommit_explain(&handle, blocks[0].at, blocks[0].len, pool, sizeof pool, reasons, 64, identities, 256, &why);
    case 8: return fabcommit_list(blocks[0].at, blocks[0].len, pool, sizeof pool, verdicts, 4096, &sizes) ? FABCOMMIT_MEMORY
        : fabcommit_explain_by(&handle, blocks[0].at, blocks[0].len, pool, sizes.pool, verdicts, sizes.verdicts, pool + sizes.pool,
                               sizeof pool - sizes.pool, reasons, 64, identities, 256, &why);
    case 9: return share();
    case OTHERS: return fabcommit_list(blocks[0].at, blocks[0].len, pool, sizeof pool, verdicts, 4096, &sizes) ? FABCOMMIT_MEMORY
        : fabcommit_submit_by(&handle, blocks[0].at, blocks[0].len, pool, sizes.pool, verdicts, sizes.verdicts, &receipt);
    }
    return FABCOMMIT_CLOSED;
}

static uint64_t height(void)
{
    uint64_t height = 99;
    fabcommit_height(&handle, &height);
    return height;
}

/* All steps, of which one allocation is refused. */
static bool fits(long n)
{
    granted = n;
    was_refused = false;
    counts = true;
    for (int step = 0; step <= n_blocks + OTHERS; step++) {
        uint64_t before = height();
        uint32_t code = call(step);
        if (code == FABCOMMIT_MEMORY && was_refused && height() == before) code = call(step);
        if (code) { counts = false; printf("allocation %ld, step %d: code %u\n", n, step, code); exit(1); }
    }
    fabcommit_close(&handle);
    counts = false;
    if (live) { printf("allocation %ld: %ld not freed\n", n, live); exit(1); }
    return was_refused;
}

int main(int argc, char **argv)
{
    if (argc < 4 || argc > 19) return 2;
    channel = read_file(argv[1]);
    keys = read_file(argv[2]);
    for (; n_blocks < argc - 3; n_blocks++) blocks[n_blocks] = read_file(argv[n_blocks + 3]);
    long n = 0;
    while (fits(n)) n++;
    fprintf(stderr, "memory: %ld allocations refused\n", n);
    return n == 0;
}
