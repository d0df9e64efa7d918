/* The committing peer's ledger for C, and for what calls C: libfabcommit_c.a, of the crate fabcommit_c, of which clients/install makes
 * libfabcommit.a and libfabcommit.so.
 *
 * What the caller owes, and nothing checks:
 * - A handle is 16 bytes of the caller's. Of zeros it is closed. It is read and written by these calls alone, and never used from two
 *   copies.
 * - A handle is one call's at a time, also in a query; from thread to thread it may go, as under a lock. To ask from
 *   several threads, give each a handle by fabcommit_share, which is a call on both handles. A ledger takes blocks
 *   while one handle holds it. Keep threads' handles on different cache lines: calls write them.
 * - No buffer overlaps another one or a handle, and the two handles of fabcommit_share don't overlap. No pointer is
 *   null, even if its length is 0. A bool is 0 or 1.
 * - malloc, realloc and free are one allocator's; no call comes from a signal handler, or from a forked child of a process with threads.
 *
 * What a call promises: it answers a code below, whatever else it is given. A code other than FABCOMMIT_OK has changed nothing, but what
 * is told as said. A buffer is written whole or, if it is too small, not at all: then the code is FABCOMMIT_SMALL, and what is needed
 * was told. Beside a length stands how many there are, not how much was given. */
#ifndef FABCOMMIT_H
#define FABCOMMIT_H
#include <stdbool.h>
#include <stddef.h>
#include <stdint.h>

#ifdef __cplusplus
extern "C" {
#endif

/* The version of this interface that the header declares. */
#define FABCOMMIT_INTERFACE 3u

enum {
    FABCOMMIT_OK = 0,
    FABCOMMIT_MALFORMED = 1,       /* the bytes spell no block */
    FABCOMMIT_WRONG_NUMBER = 2,    /* the block's number isn't the height */
    FABCOMMIT_WRONG_PREVIOUS = 3,  /* its previous hash isn't the last header hash */
    FABCOMMIT_WRONG_DATA_HASH = 4, /* its data hash isn't that of its transactions */
    FABCOMMIT_OLD_VERSION = 5,     /* a block of version 1 after one of version 2 */
    FABCOMMIT_MEMORY = 6,          /* an allocation was refused */
    FABCOMMIT_CLOSED = 7,          /* the handle is closed */
    FABCOMMIT_NO_TEXT = 8,         /* a text isn't UTF-8 */
    FABCOMMIT_NO_CHANNEL = 9,      /* the text is no channel's */
    FABCOMMIT_NO_KEYS = 10,        /* the text is no key book */
    FABCOMMIT_NO_NAME = 11,        /* a namespace or chaincode is no name, a key no key, an id no id */
    FABCOMMIT_NONE = 12,           /* there is no row, block, policy or use */
    FABCOMMIT_SMALL = 13,          /* a buffer is too small; what is needed was told */
    FABCOMMIT_SHARED = 14          /* another handle holds the ledger: it takes no block until that one is closed */
};

typedef struct { void *at; bool is_open; } fabcommit_handle;

typedef struct { uint32_t interface, first_block, last_block; } fabcommit_version_numbers;

/* Of an accepted block its number (twice), how many flags it has, and its hashes. At FABCOMMIT_WRONG_NUMBER the number that is next, and
 * the one that the block has (`got`); at FABCOMMIT_MALFORMED the number of the first fault of the bytes, 1 to 6, B1 to B6 of the command
 * line (`got`). Nothing else is told of a refusal. */
typedef struct {
    uint64_t number, got;
    size_t flags;
    uint8_t header_hash[32], commit_hash[32];
} fabcommit_receipt;

/* Bytes of a pool: where they begin, and how many they are. One that isn't inside the pool has none. */
typedef struct { size_t at, len; } fabcommit_piece;

/* What is said of one signature. The role is 0 for an admin, 1 for a client, 2 for a peer, 3 for an orderer. */
typedef struct {
    fabcommit_piece org, label, message, signature;
    uint8_t role;
    bool accepted;
} fabcommit_verdict;

typedef struct { size_t pool, verdicts; } fabcommit_sizes;

/* Where a row was written last, and how long its value is. */
typedef struct { uint64_t block; uint32_t tx; size_t len; } fabcommit_row;

/* Where an id was used first, and that transaction's flag. */
typedef struct { uint64_t block; uint32_t tx; uint8_t flag; } fabcommit_use;

/* A row of a scan, whose key and value are pieces of a pool. `more` tells whether rows are left after those. */
typedef struct { fabcommit_piece key, value; uint64_t block; uint32_t tx; } fabcommit_scanned_row;
typedef struct { size_t pool, rows; bool more; } fabcommit_scan_sizes;

/* A value write or a delete of a key: the transaction's id, of 64 bytes, and the value are pieces of a pool. */
typedef struct { fabcommit_piece id, value; uint64_t block; uint32_t tx; bool deleted; } fabcommit_past_write;
typedef struct { size_t pool, writes; } fabcommit_history_sizes;

/* What a reason is about, with what its record tells beside flag and kind, and the words of `fabcommit explain`. */
enum {
    FABCOMMIT_REASON_NO_FAULT = 0,
    FABCOMMIT_REASON_NO_TRANSACTION = 1,
    FABCOMMIT_REASON_BAD_SIGNATURE = 2,           /* creator: an identity, refused */
    FABCOMMIT_REASON_OTHER_CHANNEL = 3,           /* channel: name */
    FABCOMMIT_REASON_OTHER_ID = 4,                /* wanted: id */
    FABCOMMIT_REASON_USED_ID = 5,                 /* used: block, tx, used_flag */
    FABCOMMIT_REASON_NOT_ALONE = 6,               /* not-alone */
    FABCOMMIT_REASON_NO_ADMIN_POLICY = 7,         /* no-admin-policy */
    FABCOMMIT_REASON_UPDATE_UNDEFINED = 8,        /* undefined, of an update: name */
    FABCOMMIT_REASON_UPDATE_UNREADABLE = 9,       /* policy, of an update: text_fault */
    FABCOMMIT_REASON_ADMIN_UNSATISFIED = 10,      /* admin: a lack */
    FABCOMMIT_REASON_UNDEFINED = 11,              /* undefined: name */
    FABCOMMIT_REASON_NAMESPACE_REPEATS = 12,      /* repeated: name */
    FABCOMMIT_REASON_READ_REPEATS = 13,           /* repeated, reads: name, key */
    FABCOMMIT_REASON_WRITE_REPEATS = 14,          /* repeated, writes: name, key */
    FABCOMMIT_REASON_POLICY_WRITE_REPEATS = 15,   /* repeated, policies: name, key */
    FABCOMMIT_REASON_RESULT_FALLS = 16,           /* fallen: name, start, end, key, range_place, result_place */
    FABCOMMIT_REASON_RESULT_LEAVES = 17,          /* outside: the same */
    FABCOMMIT_REASON_POLICY_UNREADABLE = 18,      /* policy: name, key, text_fault */
    FABCOMMIT_REASON_TOUCHED = 19,                /* touched: name, key, tx */
    FABCOMMIT_REASON_KEY_UNSATISFIED = 20,        /* key: name, key, a lack */
    FABCOMMIT_REASON_CHAINCODE_UNSATISFIED = 21,  /* chaincode: name, key, a lack */
    FABCOMMIT_REASON_NAMED_UNSATISFIED = 22,      /* named: name, a lack */
    FABCOMMIT_REASON_READ_CONFLICT = 23,          /* read: name, key, read, there, tx if has_tx */
    FABCOMMIT_REASON_PHANTOM_CONFLICT = 24        /* range: the same, and start, end, exhausted */
};

/* The version of a key that was read, or that is there. If the key was absent, `is_there` is false and the others are 0. */
typedef struct { uint64_t block; uint32_t tx; bool is_there; } fabcommit_seen;

/* An identity, whose role is as in a verdict. */
typedef struct { fabcommit_piece org, label; uint8_t role; } fabcommit_identity;

/* Why a transaction has its flag. What its kind doesn't speak of is a piece of no bytes, 0 or false. A lack is `policy`, the canonical
 * text of what isn't satisfied; the signers; the endorsers of whom no signature is accepted, `refused`; the principal that is missing;
 * and whether another order would do. */
typedef struct {
    fabcommit_piece name;          /* of a namespace, a chaincode or a channel */
    fabcommit_piece key;
    fabcommit_piece start, end;    /* the bounds of a range, of which an empty end is none */
    fabcommit_piece id;            /* the id that nonce and creator give */
    fabcommit_piece policy;
    fabcommit_piece missing_org;
    fabcommit_seen read, there;    /* what was read, and what is there */
    uint64_t block;                /* of an id's first use: that of the block that is explained, or an earlier one */
    size_t range_place, result_place; /* of a range in its namespace, of a result in the range */
    size_t first_identity, signers, refused; /* where its identities begin: signers, and then whose signatures were refused */
    uint32_t tx;                   /* an id's first use; the first that wrote a key's policy; the last that wrote or deleted a key */
    uint8_t flag, kind;
    uint8_t used_flag;             /* of an id's first use */
    uint8_t text_fault;            /* of a policy text: 1 too large, 2 syntax, 3 role, 4 threshold, 5 too deep */
    uint8_t missing_role;          /* as an identity's, and 4 for any member */
    bool has_tx, exhausted, has_missing, another_order;
} fabcommit_reason;

/* The block's number (twice), and how much of each there is. Of a refusal the numbers that a receipt tells. */
typedef struct { uint64_t number, got; size_t pool, reasons, identities; } fabcommit_reason_sizes;

/* Tells the version of the interface, and the first and last version of the blocks that the library reads. */
void fabcommit_versions(fabcommit_version_numbers *versions);

/* Opens the ledger of height 0 of a channel text, with a text of keys, which is empty if the caller checks all signatures. What the
 * handle held is freed. */
uint32_t fabcommit_open(fabcommit_handle *handle, const uint8_t *channel, size_t channel_len, const uint8_t *keys, size_t keys_len);

/* Frees what the handle holds, but a ledger that other handles hold stays theirs. A closed handle stays closed, and may
 * be opened. */
void fabcommit_close(fabcommit_handle *handle);

/* Makes `other` one more handle of the same ledger, with the same keys. What `other` held is freed, but at
 * FABCOMMIT_MEMORY and FABCOMMIT_CLOSED it stays as it was. Each handle may then be used by a thread of its own, at the
 * same time. While two or more handles hold the ledger, fabcommit_submit and fabcommit_submit_by return
 * FABCOMMIT_SHARED: close all but one, submit, and share again. */
uint32_t fabcommit_share(fabcommit_handle *handle, fabcommit_handle *other);

/* Hands in the next block, whose signatures are checked by the keys of the handle. The flags are had by fabcommit_flags. */
uint32_t fabcommit_submit(fabcommit_handle *handle, const uint8_t *block, size_t block_len, fabcommit_receipt *receipt);

/* Lists the signatures that a block may ask about, also of a block that a ledger would refuse, as verdicts that refuse all. The caller
 * sets `accepted` of each that is good: label, role and organization are its identity. In the pool stand, for one verdict after the
 * other, organization, label, message, signature. The sizes are told before anything is written. */
uint32_t fabcommit_list(const uint8_t *block, size_t block_len, uint8_t *pool, size_t pool_len, fabcommit_verdict *verdicts,
                        size_t verdicts_len, fabcommit_sizes *sizes);

/* Hands in the next block, whose signatures the caller has checked: one is good if a verdict on its identity, message and bytes
 * accepts it. What no verdict speaks of is refused. */
uint32_t fabcommit_submit_by(fabcommit_handle *handle, const uint8_t *block, size_t block_len, const uint8_t *pool, size_t pool_len,
                             const fabcommit_verdict *verdicts, size_t verdicts_len, fabcommit_receipt *receipt);

/* Tells the number of the next block. */
uint32_t fabcommit_height(fabcommit_handle *handle, uint64_t *height);

/* Tells the row of a key of a namespace, and its value. A key without a row is FABCOMMIT_NONE. */
uint32_t fabcommit_get(fabcommit_handle *handle, const uint8_t *ns, size_t ns_len, const uint8_t *key, size_t key_len,
                       fabcommit_row *row, uint8_t *value, size_t value_len);

/* Tells again what fabcommit_submit told of an accepted block, by its number. */
uint32_t fabcommit_block(fabcommit_handle *handle, uint64_t number, fabcommit_receipt *receipt);

/* Tells the flags of an accepted block by its number, one for each transaction, as in Fabric's TxValidationCode. */
uint32_t fabcommit_flags(fabcommit_handle *handle, uint64_t number, uint8_t *flags, size_t flags_len, size_t *len);

/* Tells the canonical text of a chaincode's policy. A chaincode without one is FABCOMMIT_NONE. */
uint32_t fabcommit_definition(fabcommit_handle *handle, const uint8_t *chaincode, size_t chaincode_len, uint8_t *text, size_t text_len,
                              size_t *len);

/* Tells where an id was used first, of 64 bytes (else FABCOMMIT_NO_NAME). One that wasn't used is FABCOMMIT_NONE. */
uint32_t fabcommit_first_use(fabcommit_handle *handle, const uint8_t *id, size_t id_len, fabcommit_use *first);

/* Tells the rows of a namespace from a start to before an end, which is no bound if it is empty: as many as `rows` has room for. To go on
 * if `more` is set, start at the last key with a zero byte after it. A key of 1024 bytes has no such bound: leave its last bytes 255 out
 * and add 1 to the byte before them. In the pool stand, for one row after the other, key and value. */
uint32_t fabcommit_scan(fabcommit_handle *handle, const uint8_t *ns, size_t ns_len, const uint8_t *start, size_t start_len,
                        const uint8_t *end, size_t end_len, uint8_t *pool, size_t pool_len, fabcommit_scanned_row *rows, size_t rows_len,
                        fabcommit_scan_sizes *sizes);

/* Tells the value writes and deletes of a key, the newest first. In the pool stand, for one after the other, id and value. */
uint32_t fabcommit_history(fabcommit_handle *handle, const uint8_t *ns, size_t ns_len, const uint8_t *key, size_t key_len, uint8_t *pool,
                           size_t pool_len, fabcommit_past_write *writes, size_t writes_len, fabcommit_history_sizes *sizes);

/* Tells the canonical text of the policy that a key has of its own. A key without one, or without a row, is FABCOMMIT_NONE. */
uint32_t fabcommit_key_policy(fabcommit_handle *handle, const uint8_t *ns, size_t ns_len, const uint8_t *key, size_t key_len,
                              uint8_t *text, size_t text_len, size_t *len);

/* Tells why each transaction of the next block would have its flag, by the keys of the handle, and commits nothing: a record for each,
 * in order, and the identities that they name. The sizes are told before anything is written; of a block that would be refused they
 * have what fabcommit_submit would tell, under its code. In the pool stand, for one reason after the other, its pieces in their order,
 * and for each of its identities organization and label. */
uint32_t fabcommit_explain(fabcommit_handle *handle, const uint8_t *block, size_t block_len, uint8_t *pool, size_t pool_len,
                           fabcommit_reason *reasons, size_t reasons_len, fabcommit_identity *identities, size_t identities_len,
                           fabcommit_reason_sizes *sizes);

/* Tells the same by verdicts on a pool, as fabcommit_submit_by takes them. */
uint32_t fabcommit_explain_by(fabcommit_handle *handle, const uint8_t *block, size_t block_len, const uint8_t *verdict_pool,
                              size_t verdict_pool_len, const fabcommit_verdict *verdicts, size_t verdicts_len, uint8_t *pool,
                              size_t pool_len, fabcommit_reason *reasons, size_t reasons_len, fabcommit_identity *identities,
                              size_t identities_len, fabcommit_reason_sizes *sizes);

#ifdef __cplusplus
}
#endif
#endif
