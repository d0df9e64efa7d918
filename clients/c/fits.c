/* Checks that header and library fit: the sizes and places that the library was built for, its names, and its first answers. Silent if so. */
#include "fabcommit.h"
#include <stdio.h>
#include <string.h>

_Static_assert(sizeof(fabcommit_handle) == 16 && offsetof(fabcommit_handle, is_open) == 8, "handle");
_Static_assert(sizeof(fabcommit_version_numbers) == 12 && offsetof(fabcommit_version_numbers, last_block) == 8, "versions");
_Static_assert(sizeof(fabcommit_receipt) == 88 && offsetof(fabcommit_receipt, flags) == 16 && offsetof(fabcommit_receipt, header_hash) == 24 &&
                   offsetof(fabcommit_receipt, commit_hash) == 56, "receipt");
_Static_assert(sizeof(fabcommit_piece) == 16 && offsetof(fabcommit_piece, len) == 8, "piece");
_Static_assert(sizeof(fabcommit_verdict) == 72 && offsetof(fabcommit_verdict, label) == 16 && offsetof(fabcommit_verdict, message) == 32 &&
                   offsetof(fabcommit_verdict, signature) == 48 && offsetof(fabcommit_verdict, role) == 64 &&
                   offsetof(fabcommit_verdict, accepted) == 65, "verdict");
_Static_assert(sizeof(fabcommit_sizes) == 16 && offsetof(fabcommit_sizes, verdicts) == 8, "sizes");
_Static_assert(sizeof(fabcommit_row) == 24 && offsetof(fabcommit_row, tx) == 8 && offsetof(fabcommit_row, len) == 16, "row");
_Static_assert(sizeof(fabcommit_use) == 16 && offsetof(fabcommit_use, tx) == 8 && offsetof(fabcommit_use, flag) == 12, "use");
_Static_assert(sizeof(fabcommit_scanned_row) == 48 && offsetof(fabcommit_scanned_row, value) == 16 &&
                   offsetof(fabcommit_scanned_row, block) == 32 && offsetof(fabcommit_scanned_row, tx) == 40, "scanned row");
_Static_assert(sizeof(fabcommit_scan_sizes) == 24 && offsetof(fabcommit_scan_sizes, more) == 16, "scan sizes");
_Static_assert(sizeof(fabcommit_past_write) == 48 && offsetof(fabcommit_past_write, tx) == 40 &&
                   offsetof(fabcommit_past_write, deleted) == 44, "past write");
_Static_assert(sizeof(fabcommit_history_sizes) == 16 && offsetof(fabcommit_history_sizes, writes) == 8, "history sizes");
_Static_assert(sizeof(fabcommit_seen) == 16 && offsetof(fabcommit_seen, tx) == 8 && offsetof(fabcommit_seen, is_there) == 12, "seen");
_Static_assert(sizeof(fabcommit_identity) == 40 && offsetof(fabcommit_identity, label) == 16 && offsetof(fabcommit_identity, role) == 32, "identity");
_Static_assert(sizeof(fabcommit_reason) == 208 && offsetof(fabcommit_reason, key) == 16 && offsetof(fabcommit_reason, end) == 48 &&
                   offsetof(fabcommit_reason, id) == 64 && offsetof(fabcommit_reason, policy) == 80 &&
                   offsetof(fabcommit_reason, missing_org) == 96 && offsetof(fabcommit_reason, read) == 112 &&
                   offsetof(fabcommit_reason, there) == 128 && offsetof(fabcommit_reason, block) == 144 &&
                   offsetof(fabcommit_reason, result_place) == 160 && offsetof(fabcommit_reason, first_identity) == 168 &&
                   offsetof(fabcommit_reason, refused) == 184 && offsetof(fabcommit_reason, tx) == 192 &&
                   offsetof(fabcommit_reason, kind) == 197 && offsetof(fabcommit_reason, missing_role) == 200 &&
                   offsetof(fabcommit_reason, has_tx) == 201 && offsetof(fabcommit_reason, another_order) == 204, "reason");
_Static_assert(sizeof(fabcommit_reason_sizes) == 40 && offsetof(fabcommit_reason_sizes, identities) == 32, "reason sizes");
_Static_assert(sizeof(bool) == 1 && sizeof(size_t) == 8, "bool, size_t");

static int failures;

static void wants(const char *what, uint64_t got, uint64_t want)
{
    if (got != want) { printf("%s: %llu, not %llu\n", what, (unsigned long long)got, (unsigned long long)want); failures++; }
}

#define BYTES(text) (const uint8_t *)(text), sizeof(text) - 1

int main(void)
{
    /* what a call writes beside its parts would be seen here */
    struct { fabcommit_handle before, handle, after; } h, other;
    struct { fabcommit_receipt receipt; uint8_t after[16]; } r;
    struct { fabcommit_row row; uint8_t after[16]; } w;
    uint8_t sevens[16];
    memset(&h, 7, sizeof h);
    memset(&h.handle, 0, sizeof h.handle);
    other = h;
    memset(&r, 7, sizeof r);
    memset(&w, 7, sizeof w);
    memset(sevens, 7, sizeof sevens);
    uint64_t height = 7;
    size_t len = 7;
    uint8_t bytes[4] = {7, 7, 7, 7};
    fabcommit_sizes sizes = {7, 7};
    fabcommit_verdict verdict;
    fabcommit_version_numbers versions;
    fabcommit_versions(&versions);
    wants("interface", versions.interface, FABCOMMIT_INTERFACE);
    wants("first version of blocks", versions.first_block, 1);
    wants("last version of blocks", versions.last_block, 2);
    wants("height of a closed one", fabcommit_height(&h.handle, &height), FABCOMMIT_CLOSED);
    wants("submit to a closed one", fabcommit_submit(&h.handle, BYTES("x"), &r.receipt), FABCOMMIT_CLOSED);
    wants("share of a closed one", fabcommit_share(&h.handle, &other.handle), FABCOMMIT_CLOSED);
    wants("height of the other one", fabcommit_height(&other.handle, &height), FABCOMMIT_CLOSED);
    wants("open without a channel", fabcommit_open(&h.handle, BYTES("x"), BYTES("")), FABCOMMIT_NO_CHANNEL);
    wants("open without text", fabcommit_open(&h.handle, BYTES("\377"), BYTES("")), FABCOMMIT_NO_TEXT);
    wants("open without keys", fabcommit_open(&h.handle, BYTES("channel c"), BYTES("x")), FABCOMMIT_NO_KEYS);
    wants("open", fabcommit_open(&h.handle, BYTES("channel c"), BYTES("")), FABCOMMIT_OK);
    wants("open again", fabcommit_open(&h.handle, BYTES("x"), BYTES("")), FABCOMMIT_NO_CHANNEL);
    wants("height", fabcommit_height(&h.handle, &height), FABCOMMIT_OK);
    wants("height of a new one", height, 0);
    wants("submit of no block", fabcommit_submit(&h.handle, BYTES("x"), &r.receipt), FABCOMMIT_MALFORMED);
    wants("its fault", r.receipt.got, 1);
    wants("submit_by", fabcommit_submit_by(&h.handle, BYTES("BLK9"), bytes, 4, &verdict, 0, &r.receipt), FABCOMMIT_MALFORMED);
    wants("its fault", r.receipt.got, 1);
    wants("list of no block", fabcommit_list(BYTES("x"), bytes, 4, &verdict, 1, &sizes), FABCOMMIT_MALFORMED);
    wants("its size", sizes.pool, 7);
    r.receipt.got = 7;
    wants("share", fabcommit_share(&h.handle, &other.handle), FABCOMMIT_OK);
    wants("height of the other one", fabcommit_height(&other.handle, &height), FABCOMMIT_OK);
    wants("submit to a shared one", fabcommit_submit(&h.handle, BYTES("x"), &r.receipt), FABCOMMIT_SHARED);
    wants("submit_by to a shared one",
          fabcommit_submit_by(&other.handle, BYTES("BLK9"), bytes, 4, &verdict, 0, &r.receipt), FABCOMMIT_SHARED);
    wants("what wasn't told", r.receipt.got, 7);
    fabcommit_close(&other.handle);
    wants("get", fabcommit_get(&h.handle, BYTES("c"), BYTES("k"), &w.row, bytes, 4), FABCOMMIT_NONE);
    wants("get without a name", fabcommit_get(&h.handle, BYTES(""), BYTES("k"), &w.row, bytes, 4), FABCOMMIT_NO_NAME);
    wants("block", fabcommit_block(&h.handle, 0, &r.receipt), FABCOMMIT_NONE);
    wants("flags", fabcommit_flags(&h.handle, 0, bytes, 4, &len), FABCOMMIT_NONE);
    wants("definition", fabcommit_definition(&h.handle, BYTES("cc"), bytes, 4, &len), FABCOMMIT_NONE);
    fabcommit_use first = {0, 0, 0};
    wants("first use of no id", fabcommit_first_use(&h.handle, BYTES("id"), &first), FABCOMMIT_NO_NAME);
    fabcommit_scanned_row scanned;
    fabcommit_scan_sizes found = {7, 7, true};
    wants("scan", fabcommit_scan(&h.handle, BYTES("cc"), BYTES(""), BYTES(""), bytes, 4, &scanned, 1, &found), FABCOMMIT_OK);
    wants("its sizes", found.pool + found.rows + found.more, 0);
    fabcommit_past_write past;
    fabcommit_history_sizes many = {7, 7};
    wants("history", fabcommit_history(&h.handle, BYTES("cc"), BYTES("k"), bytes, 4, &past, 1, &many), FABCOMMIT_OK);
    wants("its sizes", many.pool + many.writes, 0);
    wants("key policy", fabcommit_key_policy(&h.handle, BYTES("cc"), BYTES("k"), bytes, 4, &len), FABCOMMIT_NONE);
    fabcommit_reason reason;
    fabcommit_identity identity;
    fabcommit_reason_sizes why = {7, 7, 7, 7, 7};
    wants("explain", fabcommit_explain(&h.handle, BYTES("x"), bytes, 4, &reason, 1, &identity, 1, &why), FABCOMMIT_MALFORMED);
    wants("its fault", why.got, 1);
    why.got = 7;
    wants("explain_by", fabcommit_explain_by(&h.handle, BYTES("BLK9"), bytes, 4, &verdict, 0, bytes, 4, &reason, 1, &identity, 1, &why),
          FABCOMMIT_MALFORMED);
    wants("its fault", why.got, 1);
    wants("its sizes", why.number + why.pool + why.reasons + why.identities, 28);
    wants("what wasn't told", (uint64_t)len + bytes[0] + bytes[3], 21);
    fabcommit_close(&h.handle);
    fabcommit_close(&h.handle);
    wants("height of a closed one", fabcommit_height(&h.handle, &height), FABCOMMIT_CLOSED);
    wants("what stands beside", memcmp(&h.before, sevens, 16) || memcmp(&h.after, sevens, 16) || memcmp(r.after, sevens, 16) || memcmp(w.after, sevens, 16), 0);
    wants("what stands beside the other", memcmp(&other.before, sevens, 16) || memcmp(&other.after, sevens, 16), 0);
    return failures != 0;
}
