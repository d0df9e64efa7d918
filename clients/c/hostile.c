/* hostile CHANNEL KEYS BLOCK..: makes 2,000 calls of what comes, with spoiled blocks, pieces of no pool, buffers of any
 * size, and handles that are closed or share a ledger. Each buffer is an allocation of its own, so that valgrind sees a
 * byte beside it. A code other than FABCOMMIT_OK has written nothing, and at the end nothing is left. Silent if so. */
#include "fabcommit.h"
#include <stdio.h>
#include <stdlib.h>
#include <string.h>

struct bytes { uint8_t *at; size_t len; };
static struct bytes channel, keys, blocks[16];
static int n_blocks;
static uint32_t state = 1;

static uint32_t any(uint32_t below)
{
    state ^= state << 13, state ^= state >> 17, state ^= state << 5;
    return state % below;
}

/* an allocation of its own, of sevens */
static struct bytes buffer(size_t len)
{
    struct bytes b = {malloc(len + !len), len};
    if (!b.at) exit(2);
    memset(b.at, 7, len);
    return b;
}

static struct bytes read_file(const char *path)
{
    FILE *file = fopen(path, "rb");
    if (!file || fseek(file, 0, SEEK_END)) { perror(path); exit(2); }
    struct bytes b = buffer((size_t)ftell(file));
    rewind(file);
    if (fread(b.at, 1, b.len, file) != b.len) { perror(path); exit(2); }
    fclose(file);
    return b;
}

static struct bytes some(uint32_t below) { return buffer(any(4) ? any(below) : 0); }

/* mostly the next block, or another one; at times with a part cut off or a byte changed */
static struct bytes block(fabcommit_handle *h)
{
    uint64_t height;
    bool is_next = any(4) && !fabcommit_height(h, &height);
    struct bytes from = blocks[is_next ? height % (uint64_t)n_blocks : any((uint32_t)n_blocks)], b = buffer(any(8) ? from.len : any((uint32_t)from.len));
    memcpy(b.at, from.at, b.len);
    if (b.len && !any(4)) b.at[any((uint32_t)b.len)] = (uint8_t)any(256);
    return b;
}

/* a name or a key, or neither */
static struct bytes word(bool is_key)
{
    static const char *const words[2][6] = {{"cc", "cc", "cc", "undefined", "x y", ""}, {"car1", "car1", "car2", "car2", "\377", ""}};
    const char *from = words[is_key][any(6)];
    struct bytes b = buffer(strlen(from));
    memcpy(b.at, from, b.len);
    return b;
}

static void check(const char *call, uint32_t code, bool is_kept)
{
    if (code <= FABCOMMIT_SHARED && (code == FABCOMMIT_OK || is_kept)) return;
    printf("%s: code %u%s\n", call, code, is_kept ? "" : ", and a buffer isn't as it was");
    exit(1);
}

static bool is_kept(struct bytes b)
{
    for (size_t i = 0; i < b.len; i++) if (b.at[i] != 7) return false;
    return true;
}

/* verdicts whose pieces are of a pool, or aren't */
static struct bytes verdicts(size_t pool)
{
    struct bytes b = buffer(any(4) * sizeof(fabcommit_verdict));
    size_t places[] = {0, 1, pool / 2, pool, SIZE_MAX, (size_t)1 << 63};
    for (fabcommit_verdict *v = (fabcommit_verdict *)b.at; (uint8_t *)v < b.at + b.len; v++) {
        fabcommit_piece *const pieces[] = {&v->org, &v->label, &v->message, &v->signature};
        for (int i = 0; i < 4; i++) pieces[i]->at = places[any(6)], pieces[i]->len = places[any(6)];
        v->role = (uint8_t)any(256);
        v->accepted = any(2);
    }
    return b;
}

#define OF(b) (b).at, (b).len
#define RECORDS(type, b) (type *)(b).at, (b).len / sizeof(type)

static void call(fabcommit_handle *h, fabcommit_handle *other)
{
    fabcommit_receipt receipt;
    fabcommit_row row;
    fabcommit_use first;
    fabcommit_sizes sizes;
    fabcommit_scan_sizes scan;
    fabcommit_history_sizes past;
    fabcommit_reason_sizes why;
    size_t len;
    uint64_t height;
    struct bytes a = word(false), b = word(true), c = word(true), d = block(h), pool = some(3000), list = some(6000), more = some(600);
    struct bytes said = verdicts(pool.len), table = buffer(pool.len);
    struct bytes text = h->is_open && any(4) ? d : channel, book = any(4) ? keys : a, id = any(2) ? pool : d;
    bool keeps = true;
    uint32_t code = 0, which = any(20);
    switch (which) {
    case 0: code = fabcommit_open(h, OF(text), OF(book)); break;
    case 1: if (!any(8)) fabcommit_close(h); break;
    case 2: case 3: case 4: code = fabcommit_submit(h, OF(d), &receipt); break;
    case 5: code = fabcommit_submit_by(h, OF(d), OF(table), RECORDS(fabcommit_verdict, said), &receipt); break;
    case 6: code = fabcommit_list(OF(d), OF(pool), RECORDS(fabcommit_verdict, list), &sizes); break;
    case 7: code = fabcommit_height(h, &height); break;
    case 8: code = fabcommit_get(h, OF(a), OF(b), &row, OF(pool)); break;
    case 9: code = fabcommit_block(h, any(9), &receipt); break;
    case 10: code = fabcommit_flags(h, any(9), OF(pool), &len); break;
    case 11: code = fabcommit_definition(h, OF(a), OF(pool), &len); break;
    case 12: code = fabcommit_first_use(h, OF(id), &first); break;
    case 13: code = fabcommit_scan(h, OF(a), OF(b), OF(c), OF(pool), RECORDS(fabcommit_scanned_row, list), &scan); break;
    case 14: code = fabcommit_history(h, OF(a), OF(b), OF(pool), RECORDS(fabcommit_past_write, list), &past); break;
    case 15: code = fabcommit_key_policy(h, OF(a), OF(b), OF(pool), &len); break;
    case 16: code = fabcommit_explain(h, OF(d), OF(pool), RECORDS(fabcommit_reason, list), RECORDS(fabcommit_identity, more), &why); break;
    case 17: code = fabcommit_explain_by(h, OF(d), OF(table), RECORDS(fabcommit_verdict, said), OF(pool), RECORDS(fabcommit_reason, list),
                                         RECORDS(fabcommit_identity, more), &why); break;
    case 18: code = fabcommit_share(h, other); break;
    case 19: fabcommit_close(other);
    }
    keeps = is_kept(pool) && is_kept(list) && is_kept(more);
    char name[16];
    snprintf(name, sizeof name, "call %u", which);
    check(name, code, keeps);
    free(a.at), free(b.at), free(c.at), free(d.at), free(pool.at), free(list.at), free(more.at), free(said.at), free(table.at);
}

int main(int argc, char **argv)
{
    if (argc < 4 || argc > 19) return 2;
    channel = read_file(argv[1]);
    keys = read_file(argv[2]);
    for (; n_blocks < argc - 3; n_blocks++) blocks[n_blocks] = read_file(argv[n_blocks + 3]);
    fabcommit_handle handles[2] = {{0}, {0}};
    for (int i = 0; i < 2000; i++) {
        /* mostly the first one, so that the ledger has one handle at times, and takes blocks */
        int one = !any(8);
        call(&handles[one], &handles[!one]);
    }
    for (int i = 0; i < 4; i++) fabcommit_close(&handles[i % 2]);
    free(channel.at), free(keys.at);
    while (n_blocks) free(blocks[--n_blocks].at);
    return 0;
}
