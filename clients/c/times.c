/* times SETUP CHANNEL KEYS BLOCK..: prints how long each call takes, in microseconds: the median over the blocks behind the first
 * SETUP ones, of which every other is submitted by verdicts, and then over 1,000 turns on the rows of cc. A submit by verdicts
 * accepts all, and no time of the caller's own checks is in it. */
#define _POSIX_C_SOURCE 199309L
#include "fabcommit.h"
#include <stdio.h>
#include <stdlib.h>
#include <string.h>
#include <time.h>

struct bytes { uint8_t *at; size_t len; };
enum { TURNS = 1000, CALLS = 18, POOL = 1 << 24, RECORDS = 1 << 16 };
static const char *const NAMES[CALLS] = {
    "list", "explain", "explain_by", "submit", "submit_by", "height", "get", "key_policy", "block", "flags", "definition", "first_use",
    "scan, 100 rows", "history", "open", "close", "share", "close of a share",
};
static double times[CALLS][TURNS];
static int counts[CALLS];
static uint8_t pool[POOL], verdict_pool[POOL];
static fabcommit_verdict verdicts[RECORDS];
static fabcommit_reason reasons[4096];
static fabcommit_identity identities[RECORDS];
static fabcommit_scanned_row rows[100];
static fabcommit_past_write writes[4096];

static struct bytes read_file(const char *path)
{
    FILE *file = fopen(path, "rb");
    if (!file || fseek(file, 0, SEEK_END)) { perror(path); exit(2); }
    struct bytes bytes = {0, (size_t)ftell(file)};
    rewind(file);
    bytes.at = malloc(bytes.len + 1);
    if (!bytes.at || fread(bytes.at, 1, bytes.len, file) != bytes.len) { perror(path); exit(2); }
    fclose(file);
    return bytes;
}

static double now(void)
{
    struct timespec t;
    clock_gettime(CLOCK_MONOTONIC, &t);
    return (double)t.tv_sec * 1e6 + (double)t.tv_nsec / 1e3;
}

static void ended(int call, double began, uint32_t code, uint32_t wanted)
{
    double took = now() - began;
    if (code != wanted) { printf("%s: code %u\n", NAMES[call], code); exit(1); }
    if (counts[call] < TURNS) times[call][counts[call]++] = took;
}

#define TIMED(call, wanted, ...) do { double began = now(); uint32_t code = (__VA_ARGS__); ended(call, began, code, wanted); } while (0)

static int in_order(const void *a, const void *b)
{
    double x = *(const double *)a, y = *(const double *)b;
    return (x > y) - (x < y);
}

static void time_block(fabcommit_handle *h, struct bytes b, bool by_keys)
{
    fabcommit_sizes sizes;
    fabcommit_reason_sizes why;
    fabcommit_receipt receipt;
    TIMED(0, 0, fabcommit_list(b.at, b.len, verdict_pool, POOL, verdicts, RECORDS, &sizes));
    for (size_t i = 0; i < sizes.verdicts; i++) verdicts[i].accepted = true;
    TIMED(1, 0, fabcommit_explain(h, b.at, b.len, pool, POOL, reasons, 4096, identities, RECORDS, &why));
    TIMED(2, 0, fabcommit_explain_by(h, b.at, b.len, verdict_pool, sizes.pool, verdicts, sizes.verdicts, pool, POOL, reasons, 4096,
                                     identities, RECORDS, &why));
    if (by_keys) TIMED(3, 0, fabcommit_submit(h, b.at, b.len, &receipt));
    else TIMED(4, 0, fabcommit_submit_by(h, b.at, b.len, verdict_pool, sizes.pool, verdicts, sizes.verdicts, &receipt));
}

static void time_questions(fabcommit_handle *h, uint64_t height)
{
    const uint8_t *cc = (const uint8_t *)"cc", zeros[64] = {0};
    uint64_t told;
    size_t len;
    fabcommit_receipt receipt;
    fabcommit_row row;
    fabcommit_use use;
    fabcommit_scan_sizes scan;
    fabcommit_history_sizes past;
    if (fabcommit_scan(h, cc, 2, cc, 0, cc, 0, pool, POOL, rows, 100, &scan) || !scan.rows) { printf("no rows\n"); exit(1); }
    for (int i = 0; i < TURNS; i++) {
        fabcommit_piece key = rows[i % (int)scan.rows].key;
        memcpy(verdict_pool, pool + key.at, key.len);
        TIMED(5, 0, fabcommit_height(h, &told));
        TIMED(6, 0, fabcommit_get(h, cc, 2, verdict_pool, key.len, &row, verdict_pool + 4096, 4096));
        TIMED(7, FABCOMMIT_NONE, fabcommit_key_policy(h, cc, 2, verdict_pool, key.len, verdict_pool + 4096, 4096, &len));
        TIMED(8, 0, fabcommit_block(h, (uint64_t)i % height, &receipt));
        TIMED(9, 0, fabcommit_flags(h, (uint64_t)i % height, verdict_pool + 4096, 4096, &len));
        TIMED(10, 0, fabcommit_definition(h, cc, 2, verdict_pool + 4096, 4096, &len));
        TIMED(11, FABCOMMIT_NONE, fabcommit_first_use(h, zeros, 64, &use));
        TIMED(12, 0, fabcommit_scan(h, cc, 2, verdict_pool, key.len, cc, 0, pool + (POOL >> 1), POOL >> 1, rows, 100, &scan));
        /* the same rows once more, whose keys the next turns take */
        if (fabcommit_scan(h, cc, 2, cc, 0, cc, 0, pool, POOL >> 1, rows, 100, &scan)) exit(1);
        TIMED(13, 0, fabcommit_history(h, cc, 2, verdict_pool, key.len, pool + (POOL >> 1), POOL >> 1, writes, 4096, &past));
    }
}

int main(int argc, char **argv)
{
    if (argc < 5) { fprintf(stderr, "times SETUP CHANNEL KEYS BLOCK..\n"); return 2; }
    struct bytes channel = read_file(argv[2]), keys = read_file(argv[3]);
    fabcommit_handle handle = {0}, other = {0};
    fabcommit_receipt receipt;
    if (fabcommit_open(&handle, channel.at, channel.len, keys.at, keys.len)) return 1;
    for (int i = 4; i < argc; i++) {
        struct bytes block = read_file(argv[i]);
        if (i - 4 >= atoi(argv[1])) time_block(&handle, block, i % 2);
        else if (fabcommit_submit(&handle, block.at, block.len, &receipt)) return 1;
        free(block.at);
    }
    time_questions(&handle, (uint64_t)argc - 4);
    for (int i = 0; i < TURNS; i++) {
        TIMED(14, 0, fabcommit_open(&other, channel.at, channel.len, keys.at, keys.len));
        TIMED(15, 0, (fabcommit_close(&other), 0));
        TIMED(16, 0, fabcommit_share(&handle, &other));
        TIMED(17, 0, (fabcommit_close(&other), 0));
    }
    fabcommit_close(&handle);
    for (int i = 0; i < CALLS; i++) {
        qsort(times[i], (size_t)counts[i], sizeof **times, in_order);
        printf("%-16s %10.2f\n", NAMES[i], counts[i] ? times[i][counts[i] / 2] : 0.0);
    }
    return 0;
}
