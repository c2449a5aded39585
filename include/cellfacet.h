/*
 * Cellfacet for C: checks signed AVM (X-Chain) transactions, merges drafts of one, and takes
 * drafts that are sent in pieces.
 *
 * Build the library with `tools/libraries phone` and link target/staticlib/libphone.a; it needs
 * only the C library. The two functions for uploads are in another one, `tools/libraries operator`
 * and target/staticlib/liboperator.a; both may be linked. They keep no state, allocate nothing,
 * write to no memory but the output of a merge, and the state and the store of an upload, and may
 * be called from several threads at once.
 *
 * A slot is the 65 bytes for one signature. A draft is an accepted transaction, some of whose
 * slots may still be empty.
 *
 * Every answer is one 64-bit integer: a number of the table below, times 2^32, plus a place.
 * cellfacet_number and cellfacet_place take it apart.
 */
#ifndef CELLFACET_H
#define CELLFACET_H

#include <stddef.h>
#include <stdint.h>

#ifdef __cplusplus
extern "C" {
#endif

/*
 * The numbers, and the place that goes with each. A place is a byte offset from the first byte
 * passed in; for CELLFACET_CONFLICT it is the number of a slot. Fields are read from left to
 * right, and the answer is the first broken rule.
 */
enum {
    /* Accepted: one signed transaction, and nothing after it. Place: its number of bytes. */
    CELLFACET_ACCEPTED = 0,
    /* Merged. Place: the number of bytes written. */
    CELLFACET_DONE = 0,

    /* Refusals of cellfacet_check. */

    /* More than 65,536 bytes. Place: 0. */
    CELLFACET_TOO_LONG = 1,
    /* A field is cut short: not all of its bytes are there. Place: the start of the field. */
    CELLFACET_CUT_SHORT = 2,
    /* The answer to a piece of an upload that is stored; no refusal. Place: 0. */
    CELLFACET_NEED_MORE = 2,
    /* The codec is not 0. Place: 0. */
    CELLFACET_WRONG_CODEC = 3,
    /* A type or FxID is unknown or not allowed here. Place: its start. */
    CELLFACET_UNKNOWN_TYPE = 4,
    /* An amount is 0. Place: the start of the amount. */
    CELLFACET_ZERO_AMOUNT = 5,
    /* A list is out of order. Place: the start of the later of the two elements. */
    CELLFACET_OUT_OF_ORDER = 6,
    /* A threshold is above the number of addresses, or 0 although there are addresses. Place:
       the start of the threshold. */
    CELLFACET_BAD_THRESHOLD = 7,
    /* The length of a name, symbol, memo or payload is not allowed. Place: the start of the
       length. */
    CELLFACET_BAD_LENGTH = 8,
    /* A character of a name or symbol is not printable ASCII. Place: that character. */
    CELLFACET_NOT_PRINTABLE = 9,
    /* The denomination is above 32. Place: that byte. */
    CELLFACET_BAD_DENOMINATION = 10,
    /* A required list is empty. Place: the start of its count. */
    CELLFACET_EMPTY_LIST = 11,
    /* Wrong number of credentials or signatures. Place: the start of the count. */
    CELLFACET_WRONG_COUNT = 12,
    /* Bytes follow the end of the transaction. Place: the first of them. */
    CELLFACET_BYTES_AFTER_END = 13,

    /* Refusals of cellfacet_merge, in the order in which they are tested. */

    /* The first draft is not accepted; cellfacet_check says why. Place: 0. */
    CELLFACET_FIRST_NOT_ACCEPTED = 17,
    /* The second draft is not accepted. Place: 0. */
    CELLFACET_SECOND_NOT_ACCEPTED = 18,
    /* The drafts are of different unsigned transactions: they differ before the credential
       count. Place: 0. */
    CELLFACET_DRAFTS_DIFFER = 19,
    /* Two different signatures in one slot. Place: the number of the first such slot. */
    CELLFACET_CONFLICT = 20,
    /* No room for the result: the output is shorter than a draft; or of an upload, the piece does
       not fit the store. Place: 0. */
    CELLFACET_NO_ROOM = 14,

    /* The rest of the table, which no function of this header returns. */

    /* No such entry or slot. Place: 0. */
    CELLFACET_NO_ENTRY = 15,
    /* The writer's step is not due. Place: 0. */
    CELLFACET_STEP_NOT_DUE = 16,
    /* The signature is not 65 bytes. Place: 0. */
    CELLFACET_NOT_A_SIGNATURE = 21
};

/*
 * Checks a whole signed transaction.
 *
 * `bytes` points to `length` readable bytes, which nothing writes to during the call. They may
 * have any values and any alignment. If `length` is 0, `bytes` may be NULL; the answer is then
 * CELLFACET_CUT_SHORT at 0.
 *
 * The answer's number is 0 to 13, its place at most 65,536.
 */
uint64_t cellfacet_check(const uint8_t *bytes, size_t length);

/*
 * Merges two drafts of one unsigned transaction, signed or not, into the front of `out`.
 *
 * A draft is any accepted transaction. Its slots are numbered from 0 across its credentials; a
 * slot whose 65 bytes are all zero is empty. In the merge each slot holds the signature that
 * either draft holds there, and is empty if it is empty in both; all other bytes are as in
 * both. So copies may be merged in any order, and more than once.
 *
 * `first`, `second` and `out` each point to as many bytes as the length after them says, or may
 * be NULL if that is 0. The bytes may have any values. `out` shares no byte with the drafts, and
 * nothing else reads or writes it during the call, nor writes the drafts. When merges are
 * chained, `out` must not overlap a draft or an earlier result that is still to be merged, and
 * nothing may write to those until they have been merged. An `out` as long as either draft is
 * enough; 65,536 bytes always are.
 *
 * On CELLFACET_DONE the merge is at the front of `out`, and no byte after it has changed. On any
 * other number no byte of `out` has changed.
 */
uint64_t cellfacet_merge(const uint8_t *first, size_t first_length,
                         const uint8_t *second, size_t second_length,
                         uint8_t *out, size_t out_length);

/*
 * An upload: a draft that is sent in pieces and kept at the front of a lent store.
 *
 * `state` points to two integers: the number of bytes stored, and the refusal that stands, as
 * number times 2^32 plus place, or 0 if none does. Both are 0 at a fresh start. Hand over the state
 * and the store as the last call left them; `state`, the store and the piece share no byte, and
 * nothing else reads or writes state and store during a call, nor writes the piece. `store` and
 * `piece` may be NULL if the length after them is 0.
 *
 * For bytes of at most 65,536 that fit the store, the answer at the end is that of cellfacet_check of
 * all bytes, however they were cut. Longer bytes are refused.
 *
 * A state or store that no call has left is safe too: the number is then one of the table, and what is
 * answered and stored says nothing about a draft.
 */

/*
 * Hands over a piece, which may be of length 0. It takes about 65 KiB of stack.
 *
 * CELLFACET_NEED_MORE at 0: the piece is stored behind the bytes that are there, state[0] has grown by
 * its length, and no other byte of the store has changed. Any other number, 1 or 3 to 14, is a refusal:
 * CELLFACET_NO_ROOM if the piece does not fit the store, else that of cellfacet_check of the bytes
 * joined so far. It is now in state[1], and neither state[0] nor any byte of the store has changed; every
 * later piece and the end are answered the same, and change nothing, until a fresh start.
 */
uint64_t cellfacet_upload_piece(uint64_t state[2], uint8_t *store, size_t store_length,
                                const uint8_t *piece, size_t piece_length);

/*
 * Ends an upload. The answer is that of cellfacet_check of the bytes stored, 0 with their number if
 * they are accepted; or the refusal that stands. Its number is 0 to 14. Nothing is written.
 */
uint64_t cellfacet_upload_end(const uint64_t state[2], const uint8_t *store, size_t store_length);

/* The number of an answer: CELLFACET_ACCEPTED or CELLFACET_DONE, or why it is a refusal. */
static inline uint32_t cellfacet_number(uint64_t answer)
{
    return (uint32_t)(answer >> 32);
}

/* The place of an answer. */
static inline uint32_t cellfacet_place(uint64_t answer)
{
    return (uint32_t)(answer & 0xffffffffu);
}

#ifdef __cplusplus
}
#endif

#endif
