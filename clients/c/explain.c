/* explain CHANNEL KEYS BLOCK..: prints the lines of `fabcommit explain`, the signatures checked by the library. */
#include "fabcommit.h"
#include <inttypes.h>
#include <stdio.h>
#include <stdlib.h>

struct bytes { uint8_t *at; size_t len; };
static const char *const ROLES[] = {"admin", "client", "peer", "orderer", "member"};
static const char *const TEXT_FAULTS[] = {"", "too-large", "syntax", "role", "threshold", "too-deep"};
static const char *const LISTS[] = {"reads", "writes", "policies"};
/* by kind */
static const char *const WORDS[] = {
    "", "", "creator", "channel", "wanted", "used", "not-alone", "no-admin-policy", "undefined", "policy", "admin", "undefined",
    "repeated", "repeated", "repeated", "repeated", "fallen", "outside", "policy", "touched", "key", "chaincode", "named", "read", "range",
};
static const struct { uint8_t flag; const char *name; } FLAGS[] = {
    {0, "VALID"}, {2, "BAD_PAYLOAD"}, {4, "BAD_CREATOR_SIGNATURE"}, {6, "INVALID_CONFIG_TRANSACTION"}, {8, "BAD_PROPOSAL_TXID"},
    {9, "DUPLICATE_TXID"}, {10, "ENDORSEMENT_POLICY_FAILURE"}, {11, "MVCC_READ_CONFLICT"}, {12, "PHANTOM_READ_CONFLICT"},
    {14, "TARGET_CHAIN_NOT_FOUND"}, {22, "BAD_RWSET"}, {25, "INVALID_CHAINCODE"},
};

static uint8_t *pool;
static fabcommit_reason *reasons;
static fabcommit_identity *identities;
static fabcommit_reason_sizes sizes; /* none at first */

static struct bytes read_file(const char *path)
{
    FILE *file = fopen(path, "rb");
    if (!file || fseek(file, 0, SEEK_END)) { perror(path); exit(2); }
    struct bytes bytes = {0, (size_t)ftell(file)};
    rewind(file);
    bytes.at = malloc(bytes.len + 1);
    if (!bytes.at || fread(bytes.at, 1, bytes.len, file) != bytes.len) { perror(path); exit(2); }
    fclose(file);
    return bytes;
}

static void flag(uint8_t flag)
{
    for (size_t i = 0; i < sizeof FLAGS / sizeof *FLAGS; i++)
        if (FLAGS[i].flag == flag) printf(" %d %s", flag, FLAGS[i].name);
}

static void put(fabcommit_piece piece)
{
    if (!piece.len) printf("%%");
    for (const uint8_t *at = pool + piece.at, *end = at + piece.len; at < end; at++)
        if (*at > 32 && *at < 127 && *at != '%') putchar(*at); else printf("%%%02X", *at);
}

static void word(fabcommit_piece piece) { printf(" "); put(piece); }
static void names(size_t first, size_t count)
{
    for (const fabcommit_identity *i = identities + first, *end = i + count; i < end; i++) {
        word(i->org);
        printf(":%s:", ROLES[i->role]);
        put(i->label);
    }
}

static void lack(const fabcommit_reason *r)
{
    printf(" %.*s", (int)r->policy.len, (const char *)pool + r->policy.at);
    names(r->first_identity, r->signers);
    if (r->refused) printf(" refused");
    names(r->first_identity + r->signers, r->refused);
    if (r->has_missing) { printf(" missing"); word(r->missing_org); printf(".%s", ROLES[r->missing_role]); }
    if (r->another_order) printf(" order");
}

static void seen(const char *what, fabcommit_seen seen)
{
    if (seen.is_there) printf(" %s %" PRIu64 " %" PRIu32, what, seen.block, seen.tx); else printf(" %s absent", what);
}

static void range(const fabcommit_reason *r) { word(r->name); word(r->start); word(r->end); printf(" key"); word(r->key); }

static void reason(size_t place, const fabcommit_reason *r)
{
    bool is_range = r->kind == FABCOMMIT_REASON_PHANTOM_CONFLICT;
    printf("%zu", place);
    flag(r->flag);
    if (*WORDS[r->kind]) printf(" %s", WORDS[r->kind]);
    switch (r->kind) {
    case FABCOMMIT_REASON_BAD_SIGNATURE: names(r->first_identity, 1); break;
    case FABCOMMIT_REASON_OTHER_CHANNEL: case FABCOMMIT_REASON_UPDATE_UNDEFINED: case FABCOMMIT_REASON_UNDEFINED:
    case FABCOMMIT_REASON_NAMESPACE_REPEATS: word(r->name); break;
    case FABCOMMIT_REASON_OTHER_ID: word(r->id); break;
    case FABCOMMIT_REASON_USED_ID: printf(" %" PRIu64 " %" PRIu32, r->block, r->tx); flag(r->used_flag); break;
    case FABCOMMIT_REASON_UPDATE_UNREADABLE: printf(" %s", TEXT_FAULTS[r->text_fault]); break;
    case FABCOMMIT_REASON_ADMIN_UNSATISFIED: lack(r); break;
    case FABCOMMIT_REASON_READ_REPEATS: case FABCOMMIT_REASON_WRITE_REPEATS: case FABCOMMIT_REASON_POLICY_WRITE_REPEATS:
        word(r->name); printf(" %s", LISTS[r->kind - FABCOMMIT_REASON_READ_REPEATS]); word(r->key); break;
    case FABCOMMIT_REASON_RESULT_FALLS: case FABCOMMIT_REASON_RESULT_LEAVES:
        range(r); printf(" range %zu result %zu", r->range_place, r->result_place); break;
    case FABCOMMIT_REASON_POLICY_UNREADABLE: word(r->name); word(r->key); printf(" %s", TEXT_FAULTS[r->text_fault]); break;
    case FABCOMMIT_REASON_TOUCHED: word(r->name); word(r->key); printf(" %" PRIu32, r->tx); break;
    case FABCOMMIT_REASON_KEY_UNSATISFIED: case FABCOMMIT_REASON_CHAINCODE_UNSATISFIED: word(r->name); word(r->key); lack(r); break;
    case FABCOMMIT_REASON_NAMED_UNSATISFIED: word(r->name); lack(r); break;
    case FABCOMMIT_REASON_READ_CONFLICT: case FABCOMMIT_REASON_PHANTOM_CONFLICT:
        if (is_range) range(r); else { word(r->name); word(r->key); }
        seen("was", r->read);
        seen("is", r->there);
        if (is_range) printf(r->exhausted ? " all" : " part");
        if (r->has_tx) printf(" by %" PRIu32, r->tx);
    }
    printf("\n");
}

/* The reasons of the next block, for which room is made. */
static uint32_t explained(fabcommit_handle *handle, struct bytes block)
{
    for (bool is_known = false;; is_known = true) {
        uint32_t code = fabcommit_explain(handle, block.at, block.len, pool, sizes.pool, reasons, sizes.reasons, identities,
                                          sizes.identities, &sizes);
        if (is_known || code != FABCOMMIT_SMALL) return code;
        pool = realloc(pool, sizes.pool + 1);
        reasons = realloc(reasons, (sizes.reasons + 1) * sizeof *reasons);
        identities = realloc(identities, (sizes.identities + 1) * sizeof *identities);
        if (!pool || !reasons || !identities) return FABCOMMIT_MEMORY;
    }
}

int main(int argc, char **argv)
{
    if (argc < 4) { fprintf(stderr, "explain CHANNEL KEYS BLOCK..\n"); return 2; }
    struct bytes channel = read_file(argv[1]), keys = read_file(argv[2]);
    fabcommit_handle handle = {0};
    fabcommit_receipt receipt = {0};
    if (!(pool = malloc(1)) || !(reasons = malloc(sizeof *reasons)) || !(identities = malloc(sizeof *identities))) return 2;
    uint32_t code = fabcommit_open(&handle, channel.at, channel.len, keys.at, keys.len);
    for (int i = 3; i < argc && !code; i++) {
        struct bytes block = read_file(argv[i]);
        if (i == argc - 1) code = explained(&handle, block);
        /* which also tells the header hash of the last one */
        if (!code) code = fabcommit_submit(&handle, block.at, block.len, &receipt);
        free(block.at);
    }
    if (!code) {
        printf("block %" PRIu64 " ", receipt.number);
        for (int i = 0; i < 32; i++) printf("%02x", receipt.header_hash[i]);
        printf("\n");
        for (size_t i = 0; i < sizes.reasons; i++) reason(i, &reasons[i]);
    } else fprintf(stderr, "code %" PRIu32 "\n", code);
    fabcommit_close(&handle);
    free(channel.at), free(keys.at), free(pool), free(reasons), free(identities);
    return code ? 2 : 0;
}
