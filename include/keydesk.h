/* The key desk: a proved next-key-locking desk over an index in 64 pages.
 *
 * Link with target/staticlib/libdesk.a, which `tools/make desk` makes. The library keeps nothing
 * between calls, allocates nothing and reads and writes only what it is lent: everything stands in
 * the caller's pages and desk, together "the picture". Slices of one call must not overlap. A slice
 * may have any length and hold any bytes: what is wrong with it is said by the number.
 *
 * A call serves one request record and writes answer records. Each answer names the transaction
 * that it is for, and ANSWERS TO OTHER TRANSACTIONS COME IN ONE'S OWN CALL: a commit lets those run
 * that waited behind it, and a request that closes a circle of waits can turn another's away. So
 * whoever calls goes through all answers of the call and hands each to the transaction that it
 * names. One that was told KEYDESK_STILL_QUEUED gets its answer so, in somebody else's call, and
 * asks nothing until then; only a rollback is heard meanwhile.
 *
 *   uint8_t request[KEYDESK_REQUEST];
 *   size_t length = keydesk_read(request, 2, 50, 150);
 *   uint64_t returned = keydesk_serve(pages, sizeof pages, desk, sizeof desk,
 *                                     answers, sizeof answers, request, length);
 *   if (keydesk_number(returned) != KEYDESK_DONE) ... refused, nothing changed ...
 *   for (uint32_t i = 0; i < keydesk_answer_count(returned); i++) {
 *       struct keydesk_answer answer = keydesk_answer_at(answers, i);
 *       ... hand it to answer.transaction ...
 *   }
 *
 * docs/FORMAT.md has every byte, docs/USING.md the loop around it, examples/c/server.c a whole one.
 */
#ifndef KEYDESK_H
#define KEYDESK_H

#include <stddef.h>
#include <stdint.h>

#ifdef __cplusplus
extern "C" {
#endif

/* The lengths in bytes: pages and desk exactly, answers at least. */
#define KEYDESK_PAGES 32768
#define KEYDESK_DESK 4672
#define KEYDESK_ANSWERS 320

/* Transactions are numbered 1 to 16, by the caller. */
#define KEYDESK_TRANSACTIONS 16

/* What the desk says. 0 and 10 to 12 are returned by a call; all but 10 to 12 stand in answer
 * records. With 17, 18 and 19 the transaction lives on and keeps what it has. */
#define KEYDESK_DONE 0            /* begin, commit, rollback, insert, delete done; a call: served */
#define KEYDESK_FOUND 1           /* read: an entry from lo to hi, with its key and record */
#define KEYDESK_NOTHING 2         /* read: nothing from lo to hi; delete: the key is absent */
#define KEYDESK_STILL_QUEUED 3    /* the request waits; the record says who is in its way */
#define KEYDESK_WRONG_LENGTHS 10  /* pages, desk or answers of a wrong length; nothing changed */
#define KEYDESK_NOT_WHOLE 11      /* the picture isn't whole; nothing changed */
#define KEYDESK_BAD_REQUEST 12    /* a bad request record; nothing changed */
#define KEYDESK_ALREADY_RUNNING 13 /* begin of a running transaction */
#define KEYDESK_NOT_RUNNING 14    /* any other request of a transaction that isn't running */
#define KEYDESK_IS_WAITING 15     /* anything but rollback while waiting */
#define KEYDESK_KEY_PRESENT 16    /* insert: the key is present, with its key and record */
#define KEYDESK_LOCKS_IN_USE 17   /* a new lock is needed and all 256 are in use */
#define KEYDESK_PAGES_SHORT 18    /* insert of a missing key, and the pages are short */
#define KEYDESK_CIRCLE 19         /* the request lay on a circle of waits and left the queue: of
                                     those on one its transaction held the fewest locks, and of
                                     equals it was the newest */

/* Makes the picture fresh: an empty index, nobody running.
 *
 * pages, pages_len  written whole: the 64 pages, KEYDESK_PAGES bytes
 * desk, desk_len    written whole: queue, transactions and locks, KEYDESK_DESK bytes
 *
 * Returns 0, or 10 * 2^32 with nothing written where a length is wrong. */
uint64_t keydesk_fresh(uint8_t *pages, size_t pages_len, uint8_t *desk, size_t desk_len);

/* Serves one request record.
 *
 * pages, pages_len      the 64 pages of the picture, KEYDESK_PAGES bytes; read and changed
 * desk, desk_len        the desk of the picture, KEYDESK_DESK bytes; read and changed
 * answers, answers_len  at least KEYDESK_ANSWERS bytes; answer records of 20 bytes are written from
 *                       its start, at most 16, and the bytes beyond them keep their values
 * request, request_len  one request record, as long as it says
 *
 * Returns number * 2^32 + answer bytes: number 0 with the answers' bytes, or 10, 11 or 12 (looked
 * for in this order) with 0 bytes and nothing changed. */
uint64_t keydesk_serve(uint8_t *pages, size_t pages_len, uint8_t *desk, size_t desk_len,
                       uint8_t *answers, size_t answers_len,
                       const uint8_t *request, size_t request_len);

/* The two halves of what keydesk_serve returns: its number, and how many bytes of answers stand at
 * the start of the answer space. */
static inline uint32_t keydesk_number(uint64_t returned) {
    return (uint32_t)(returned >> 32);
}

static inline uint32_t keydesk_answer_bytes(uint64_t returned) {
    return (uint32_t)returned;
}

/* Requests. Each function writes a record to the start of `out`, which has KEYDESK_REQUEST bytes,
 * and returns the record's length. It writes what it is given: keydesk_serve judges, and says 12 to
 * what is no request. */
#define KEYDESK_REQUEST 24 /* the longest request record */

#define KEYDESK_BEGIN 1
#define KEYDESK_COMMIT 2
#define KEYDESK_ROLLBACK 3
#define KEYDESK_READ 4
#define KEYDESK_INSERT 5
#define KEYDESK_DELETE 6

/* Keys: the pupil in the upper 32 bits, the delivery in the lower. They go from 0 to
 * KEYDESK_HIGHEST; the end of the index is no key. */
#define KEYDESK_HIGHEST UINT64_C(18446744073709551614)
#define KEYDESK_END UINT64_C(18446744073709551615)

static inline uint64_t keydesk_key(uint32_t pupil, uint32_t delivery) {
    return (uint64_t)pupil << 32 | delivery;
}

static inline uint32_t keydesk_pupil(uint64_t key) {
    return (uint32_t)(key >> 32);
}

static inline uint32_t keydesk_delivery(uint64_t key) {
    return (uint32_t)key;
}

/* A number of `width` bytes at a place, the lowest byte first: written, and read. */
static inline void keydesk_put(uint8_t *out, size_t at, size_t width, uint64_t value) {
    for (size_t i = 0; i < width; i++) out[at + i] = (uint8_t)(value >> (8 * i));
}

static inline uint64_t keydesk_get(const uint8_t *bytes, size_t at, size_t width) {
    uint64_t value = 0;
    for (size_t i = 0; i < width; i++) value |= (uint64_t)bytes[at + i] << (8 * i);
    return value;
}

/* The eight bytes that every request begins with. Returns the length. */
static inline size_t keydesk_head(uint8_t *out, size_t length, unsigned kind,
                                  uint16_t transaction) {
    keydesk_put(out, 0, 2, length);
    keydesk_put(out, 2, 2, kind);
    keydesk_put(out, 4, 2, transaction);
    keydesk_put(out, 6, 2, 0);
    return length;
}

static inline size_t keydesk_begin(uint8_t *out, uint16_t transaction) {
    return keydesk_head(out, 8, KEYDESK_BEGIN, transaction);
}

static inline size_t keydesk_commit(uint8_t *out, uint16_t transaction) {
    return keydesk_head(out, 8, KEYDESK_COMMIT, transaction);
}

static inline size_t keydesk_rollback(uint8_t *out, uint16_t transaction) {
    return keydesk_head(out, 8, KEYDESK_ROLLBACK, transaction);
}

/* The first entry from lo to hi. */
static inline size_t keydesk_read(uint8_t *out, uint16_t transaction, uint64_t lo, uint64_t hi) {
    keydesk_put(out, 8, 8, lo);
    keydesk_put(out, 16, 8, hi);
    return keydesk_head(out, 24, KEYDESK_READ, transaction);
}

static inline size_t keydesk_insert(uint8_t *out, uint16_t transaction, uint64_t key,
                                    uint32_t record) {
    keydesk_put(out, 8, 8, key);
    keydesk_put(out, 16, 4, record);
    keydesk_put(out, 20, 4, 0);
    return keydesk_head(out, 24, KEYDESK_INSERT, transaction);
}

static inline size_t keydesk_delete(uint8_t *out, uint16_t transaction, uint64_t key) {
    keydesk_put(out, 8, 8, key);
    return keydesk_head(out, 16, KEYDESK_DELETE, transaction);
}

/* Answers: how many a call has written, and each of them by its place from 0 on. */
#define KEYDESK_ANSWER 20 /* an answer record */

struct keydesk_answer {
    uint16_t transaction; /* whom it is for, which is often not the caller's */
    uint16_t number;      /* KEYDESK_DONE to KEYDESK_CIRCLE, never 10 to 12 */
    uint64_t key;         /* with KEYDESK_FOUND and KEYDESK_KEY_PRESENT; otherwise 0 */
    uint32_t record;      /* likewise; but with KEYDESK_STILL_QUEUED the lowest-numbered transaction
                             in its way as the call ends, 1 to 16; others may be in its way too */
};

static inline uint32_t keydesk_answer_count(uint64_t returned) {
    return keydesk_answer_bytes(returned) / KEYDESK_ANSWER;
}

static inline struct keydesk_answer keydesk_answer_at(const uint8_t *answers, uint32_t place) {
    const uint8_t *record = answers + (size_t)KEYDESK_ANSWER * place;
    struct keydesk_answer answer;
    answer.transaction = (uint16_t)keydesk_get(record, 4, 2);
    answer.number = (uint16_t)keydesk_get(record, 6, 2);
    answer.key = keydesk_get(record, 8, 8);
    answer.record = (uint32_t)keydesk_get(record, 16, 4);
    return answer;
}

#ifdef __cplusplus
}
#endif

#endif
