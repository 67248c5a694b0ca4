/* lojarnek.h: sessions of a shared pool, one word step at a time or many.
 *
 * A pool is a table of 64-bit words. The caller says where they lie: in mapped memory, on another machine, in an array, anywhere that has an
 * 8-byte load, store and compare-exchange, each of them atomic and all of them in one order (sequentially consistent). Up to 16 identities
 * work in a pool. In a pool for tables each has a table of keys and numbers of its own that the others may read; in a pool for single blocks
 * each has 16 roots, which name blocks of words that name one another. A session is what one identity is at. It says which word step is next,
 * and is told the word that was found.
 *
 *     lj_said s = lj_put(session, key, number);                the first word step, or a refusal
 *     while (lj_is_step(s)) s = lj_tell(session, make(s));     the next one, or the answer
 *
 * Where the words are mapped memory one call makes many word steps by itself:
 *
 *     lj_said s = lj_put(session, key, number);
 *     while (lj_is_step(s)) s = lj_run_on(session, words, total, 4096).said;
 *
 * All that somebody needs to go on after the caller's death is in the pool's words; a session holds nothing else. So a caller may be killed
 * between any two word steps: whoever then has its identity recovers it. lojarnek_map.h does all of this for a mapped file that processes
 * share, lojarnek_fabric.h for the memory of another machine.
 *
 * What no call can test, and stays the caller's:
 * 1. The word steps are made, at the pool's words and in the order in which they are asked for, and what is told is the word that was there
 *    (for a store 0). Of lj_run_on: `words` are the pool's, so many, mapped for reading and writing, and everybody changes them by atomic steps alone.
 * 2. One identity has one session that makes word steps, in the whole world, at any time; and whoever had it before makes no word step any
 *    more, not one that was sent before, either. (lojarnek_map.h: by a lock that the kernel takes back from the dead. lojarnek_fabric.h: by a
 *    key that is revoked.)
 * 3. Nobody else writes the pool's words.
 * 4. A session is one of lj_open, isn't closed, and is in one call at a time. Any thread may make the call.
 * 5. Whoever opens a session read the status word after it had the identity.
 * 6. All sessions of a pool are of its kind: lj_open in a pool for tables, lj_open_singles in one for single blocks. (lojarnek_map.h keeps the kind in
 *    the file.)
 *
 * Everything else that can be done wrong is answered by a refusal, and changes nothing. No call waits, prints, starts a thread, opens a
 * file, or keeps anything outside of the session; lj_open and lj_close alone allocate and free, by malloc and free.
 */
#ifndef LOJARNEK_H
#define LOJARNEK_H

#include <stdint.h>

#ifdef __cplusplus
extern "C" {
#endif

/* The version of this header: the first number changes where a program has to change. */
#define LJ_VERSION_MAJOR 1
#define LJ_VERSION_MINOR 2
#define LJ_VERSION "1.2"

/* What an identity is at. */
typedef struct lj_session lj_session;

/* What a call says: a word step, an answer or a refusal, by its code. Numbers that a code doesn't speak of are 0. */
typedef struct {
    uint32_t code;
    uint32_t at;     /* a word's address, from 0, or a block */
    uint64_t first;
    uint64_t second;
} lj_said;

enum {
    /* A word step. Addresses count words and not bytes, and are below lj_total. */
    LJ_LOAD = 0,        /* load the word `at`; tell what was found */
    LJ_STORE = 1,       /* store `second` in the word `at`; tell 0 */
    LJ_EXCHANGE = 2,    /* where the word `at` is `first`, store `second`; tell the word that was there, in either case */

    /* An answer: the operation is over. */
    LJ_OK = 16,         /* of join, leave, recover, del, send */
    LJ_STORED = 17,     /* of put: the value's block is `at` */
    LJ_VALUE = 18,      /* of get, copy, recv: the number is `first`, its block `at` */
    LJ_MISSING = 19,    /* there is no such key; nothing was changed */
    LJ_FULL = 20,       /* an allocation found no free block: `first` segments are others', `second` blocks were looked at */
    LJ_COUNT_FULL = 21, /* the block `at` has as many references as one can have, `first` */
    LJ_QUEUE_FULL = 22, /* of send: the queue is full, its head `first`, its tail `second` */
    LJ_EMPTY = 23,      /* of recv: the queue is empty, its head `first` */
    LJ_ROOTS_FULL = 24, /* the identity has no empty root left */
    LJ_ERA_SPENT = 25,  /* the identity's era, `first`, is spent: it can change no count any more. See "A spent era"; a pool of usual age never says it */
    LJ_ROOT = 26,       /* of alloc, share, receive, follow: the own root `first` names the block `at` */
    LJ_NO_BLOCK = 27,   /* the root, or of follow the reference word, names no block */
    LJ_NO_WORD = 28,    /* the block has `first` words of that kind, and none of this index */
    LJ_NOT_OWN = 29,    /* of set and clear: the block is of the identity `first`; references are set in own blocks alone */
    LJ_NOT_HELD = 30,   /* the own latch was lost in the midst of it: somebody else wrote the pool's words */
    LJ_COUNT = 31,      /* of send: `first` were sent to that identity before; of drain: `first` were let go */

    /* How an identity stands (lj_stage), and what is certain of what was given up (lj_fall). */
    LJ_VACANT = 32,     /* it is new or has left: it may join; `first` is 1 where an operation is in progress */
    LJ_LIVE = 33,       /* it has joined; `first` the same */
    LJ_DEAD = 34,       /* it is to be recovered; `first` the same */
    LJ_UNDECIDED = 35,

    /* Of lj_run_on alone: a word was asked for beyond the pool's, so these are no pool's words, or somebody else wrote to them. No word step was made from
     * then on, and what was in progress is given up. */
    LJ_BEYOND = 36,

    /* A refusal: nothing was done, and nothing changed. */
    LJ_OUT_OF_RANGE = 64, /* sizes, an identity, a key, a status or an operation's number that there isn't */
    LJ_WRONG_STAGE = 65,  /* the identity doesn't stand so: a command before the join, a second join, a recovery of one that isn't dead */
    LJ_BUSY = 66,         /* the operation before hasn't answered */
    LJ_IDLE = 67,         /* a word was told, and nothing had been asked for */
    LJ_NO_MEMORY = 68     /* of lj_open alone */
};

/* ---- A pool's sizes
 *
 * Format 1 has 1 to 256 segments, format 2 has 1 to 8,000; both have 1 to 16 clients, as a pool's identities are called in its sizes. A pool
 * has 1 + 21 clients + 11 clients^2 + 2,065 segments words of 8 bytes, and in format 2 one a client more: at most 4.3 MB and 132 MB. A segment
 * is one client's from its first block on, so there are to be at least as many segments as clients. */

/* How many words such a pool has, below 2^32; 0 where there is no such pool. */
uint32_t lj_total(uint32_t format, uint32_t clients, uint32_t segments);

/* The word that a new pool has at an address; 0 where there is no such pool or address. `first_era` is 1 to 2^46 - 1; 1 is right. */
uint64_t lj_first_word(uint32_t format, uint32_t clients, uint32_t segments, uint64_t first_era, uint32_t at);

/* The address of the status word of an identity, which is 0 in a new pool, 1 while the identity is live, 2 while it is being recovered, and 3 after it
 * left or was recovered; the answer is 0 where there is no such pool or identity. */
uint32_t lj_status_at(uint32_t format, uint32_t clients, uint32_t segments, uint32_t who);

/* ---- Sessions */

/* Makes a session of the identity `who`, below `clients`, whose status word is `status`: 0 or 3 says that it is vacant, 1 or 2 that its last
 * holder is dead. Answers 0 and writes where the session lies; or LJ_OUT_OF_RANGE or LJ_NO_MEMORY, and writes nothing. The session is the
 * caller's, to be closed once. */
uint32_t lj_open(uint32_t format, uint32_t clients, uint32_t segments, uint32_t who, uint64_t status, lj_session **out);

/* The same in a pool for single blocks. */
uint32_t lj_open_singles(uint32_t format, uint32_t clients, uint32_t segments, uint32_t who, uint64_t status, lj_session **out);

/* Frees a session, in whatever it is at. The pool's words stay as they are: an identity that wasn't vacant is dead from then on. */
void lj_close(lj_session *session);

/* Begins an operation, or asks something, by its number and up to three numbers. The calls below are this one. */
lj_said lj_call(lj_session *session, uint32_t op, uint64_t a, uint64_t b, uint64_t c);

/* Takes the word that was found, for a store 0: says the next word step, or the answer. LJ_IDLE where nothing had been asked for. */
lj_said lj_tell(lj_session *session, uint64_t found);

/* What is said after some word steps, and how many were made. */
typedef struct {
    lj_said said;
    uint64_t steps;
} lj_ran;

/* Makes the word steps that are asked for by itself, until the operation has answered or `steps` were made, and says what lj_tell would have said after the last one: the
 * answer, or the next word step, and then more may be made in either way. `words` are the pool's words from the first one on, `count` how many there are. They
 * are read and changed by 8-byte atomic instructions in one order, as lj_tell's caller would; they have to stay where they are during the call. Killed within it, a
 * process leaves them as one that was killed between two word steps.
 * LJ_OUT_OF_RANGE where the pool has more words than `count`, and LJ_IDLE where nothing had been asked for: nothing changed then. LJ_BEYOND: above. */
lj_ran lj_run_on(lj_session *session, uint64_t *words, uint32_t count, uint64_t steps);

enum {
    LJ_OP_JOIN = 1, LJ_OP_LEAVE = 2, LJ_OP_RECOVER = 3,
    LJ_OP_PUT = 4, LJ_OP_GET = 5, LJ_OP_DEL = 6, LJ_OP_COPY = 7, LJ_OP_SEND = 8, LJ_OP_RECV = 9,
    LJ_OP_STAGE = 16, LJ_OP_ASK = 17, LJ_OP_FALL = 18,
    LJ_OP_ALLOC = 20, LJ_OP_SHARE = 21, LJ_OP_READ = 22, LJ_OP_SET = 23, LJ_OP_CLEAR = 24, LJ_OP_DROP = 25,
    LJ_OP_SEND_BLOCK = 26, LJ_OP_RECV_BLOCK = 27, LJ_OP_DRAIN = 28, LJ_OP_FOLLOW = 29, LJ_OP_WORD = 30
};

/* Which of the three kinds something said is; what lj_stage says is none of them. */
static inline int lj_is_step(lj_said s) { return s.code <= LJ_EXCHANGE; }
static inline int lj_is_answer(lj_said s) { return s.code >= LJ_OK && s.code <= LJ_COUNT; }
static inline int lj_is_refusal(lj_said s) { return s.code >= LJ_OUT_OF_RANGE; }

/* ---- A spent era
 *
 * Each change of a count takes an era of its identity, a number below 2^47 that only grows: at a million puts a second it lasts more than half a
 * year. What is proved of sessions speaks of operations that begin while the own era is at most 2^47 - 4. So after LJ_ERA_SPENT begin nothing
 * else: close the session, open one anew, which takes the identity for dead, and recover it. Where the recovery answers LJ_ERA_SPENT too the
 * identity is used up: it stays dead and has no latch any more, and the others go on. */

/* Each of these says the first word step of an operation, or a refusal. */

/* A vacant identity becomes live; its table is as it left it. Answers LJ_OK. */
static inline lj_said lj_join(lj_session *s) { return lj_call(s, LJ_OP_JOIN, 0, 0, 0); }

/* A live identity becomes vacant; its table stays, its roots come to name none. Answers LJ_OK; or LJ_ERA_SPENT, and it stays live, in a pool for single blocks
 * it is dead then. */
static inline lj_said lj_leave(lj_session *s) { return lj_call(s, LJ_OP_LEAVE, 0, 0, 0); }

/* A dead identity becomes vacant; its table is as before or as after the command that it died in. Whoever has the identity may do this, and may
 * die in it: whoever has it next does it again. Answers LJ_OK, or LJ_ERA_SPENT, and it stays dead. */
static inline lj_said lj_recover(lj_session *s) { return lj_call(s, LJ_OP_RECOVER, 0, 0, 0); }

/* Commands of a live identity, in a pool for tables. Keys are any 32-bit numbers, numbers any 64-bit ones; `author` is any identity of the pool, oneself too. A table
 * has a latch: a command goes on asking for word steps while somebody else has the latch that it needs. Where that one has died it does so until
 * somebody has recovered it, so whoever has made some thousand word steps in vain looks whether somebody is dead (lojarnek_map.h does so).
 * Each of them may answer LJ_ERA_SPENT, and each but get LJ_COUNT_FULL: a block would have more than 1,023 references. Where a command isn't
 * done the table is as before. */

/* The key gets the number. Answers LJ_STORED; LJ_FULL, LJ_ROOTS_FULL. */
static inline lj_said lj_put(lj_session *s, uint32_t key, uint64_t number) { return lj_call(s, LJ_OP_PUT, key, number, 0); }

/* The number at an author's key. Answers LJ_VALUE; LJ_MISSING. */
static inline lj_said lj_get(lj_session *s, uint32_t author, uint32_t key) { return lj_call(s, LJ_OP_GET, author, key, 0); }

/* The key is removed from one's own table. Answers LJ_OK; LJ_MISSING. */
static inline lj_said lj_del(lj_session *s, uint32_t key) { return lj_call(s, LJ_OP_DEL, key, 0, 0); }

/* The key gets the value that the author has at the key `other`: the same block, which then has one reference more.
 * Answers LJ_VALUE; LJ_MISSING, LJ_FULL, LJ_ROOTS_FULL. */
static inline lj_said lj_copy(lj_session *s, uint32_t key, uint32_t author, uint32_t other) {
    return lj_call(s, LJ_OP_COPY, key, author, other);
}

/* The value at the key goes into the queue to another identity; the key stays. Answers LJ_OK; LJ_MISSING, LJ_QUEUE_FULL: 8 wait. */
static inline lj_said lj_send_key(lj_session *s, uint32_t to, uint32_t key) { return lj_call(s, LJ_OP_SEND, to, key, 0); }

/* The key gets the next value of the queue from another identity. Answers LJ_VALUE; LJ_EMPTY, LJ_FULL, LJ_ROOTS_FULL. */
static inline lj_said lj_recv_key(lj_session *s, uint32_t from, uint32_t key) { return lj_call(s, LJ_OP_RECV, from, key, 0); }

/* ---- Single blocks: of a live identity in a pool for them, and refused as LJ_OUT_OF_RANGE in a pool for tables, as the commands above are here.
 *
 * A block has up to 16 reference words, each of which names a block or none, and up to 8 plain words, which stay as they were made. It is freed once no
 * root, no reference word and no queue names it. It is named by a root, 0 to 15, of the identity that calls. A reference word is set in blocks that
 * the identity made itself, under its own latch, and followed under the latch of whoever made the block: where somebody else has the latch the
 * call goes on asking for word steps, as commands do. Each of them may answer LJ_ERA_SPENT, and then the identity is dead from then on. */

/* A plain word of the block that is made next, by its index, 0 to 7. Says LJ_OK at once, and asks for no word step. Words are 0 at first, and stay for the
 * blocks after the next one. */
static inline lj_said lj_word(lj_session *s, uint32_t index, uint64_t word) { return lj_call(s, LJ_OP_WORD, index, word, 0); }

/* Where a search for a free block begins: so many segments, pages and blocks behind the first ones. 0 is no hint; any other numbers will do. */
static inline uint64_t lj_near(uint16_t segment, uint8_t page, uint8_t index) { return segment | (uint64_t)page << 16 | (uint64_t)index << 24; }

/* A new block of so many reference words, which name none, and so many plain words gets the least empty root. `near` is of lj_near, or 0.
 * Answers LJ_ROOT; LJ_FULL, LJ_ROOTS_FULL. */
static inline lj_said lj_alloc(lj_session *s, uint32_t refs, uint32_t plain, uint64_t near) { return lj_call(s, LJ_OP_ALLOC, refs, plain, near); }

/* The block that a root names gets the least empty root too. Answers LJ_ROOT; LJ_NO_BLOCK, LJ_ROOTS_FULL, LJ_COUNT_FULL. */
static inline lj_said lj_share(lj_session *s, uint32_t root) { return lj_call(s, LJ_OP_SHARE, root, 0, 0); }

/* A plain word of the block that a root names. Answers LJ_VALUE; LJ_NO_BLOCK, LJ_NO_WORD. */
static inline lj_said lj_read(lj_session *s, uint32_t root, uint32_t word) { return lj_call(s, LJ_OP_READ, root, word, 0); }

/* A reference word of the own block that a root names comes to name the block that the root `to` names. Answers LJ_OK; LJ_NO_BLOCK, LJ_NO_WORD, LJ_NOT_OWN,
 * LJ_COUNT_FULL. */
static inline lj_said lj_set(lj_session *s, uint32_t root, uint32_t word, uint32_t to) { return lj_call(s, LJ_OP_SET, root, word, to); }

/* The same word comes to name none. Answers LJ_OK; LJ_NO_BLOCK, LJ_NO_WORD, LJ_NOT_OWN. */
static inline lj_said lj_clear(lj_session *s, uint32_t root, uint32_t word) { return lj_call(s, LJ_OP_CLEAR, root, word, 0); }

/* A root comes to name none, and what only it named is freed. Answers LJ_OK; LJ_NO_BLOCK. */
static inline lj_said lj_drop(lj_session *s, uint32_t root) { return lj_call(s, LJ_OP_DROP, root, 0, 0); }

/* The block that a root names goes into the queue to another identity; the root stays. Answers LJ_COUNT; LJ_NO_BLOCK, LJ_QUEUE_FULL, LJ_COUNT_FULL. */
static inline lj_said lj_send_block(lj_session *s, uint32_t to, uint32_t root) { return lj_call(s, LJ_OP_SEND_BLOCK, to, root, 0); }

/* The next block of the queue from another identity gets the least empty root. Answers LJ_ROOT; LJ_EMPTY, LJ_ROOTS_FULL, LJ_COUNT_FULL. */
static inline lj_said lj_recv_block(lj_session *s, uint32_t from) { return lj_call(s, LJ_OP_RECV_BLOCK, from, 0, 0); }

/* All blocks in all queues to the identity are let go. Answers LJ_COUNT. */
static inline lj_said lj_drain(lj_session *s) { return lj_call(s, LJ_OP_DRAIN, 0, 0, 0); }

/* The block that a reference word of the block of a root names gets the least empty root. Answers LJ_ROOT; LJ_NO_BLOCK, LJ_NO_WORD, LJ_ROOTS_FULL, LJ_COUNT_FULL. */
static inline lj_said lj_follow(lj_session *s, uint32_t root, uint32_t word) { return lj_call(s, LJ_OP_FOLLOW, root, word, 0); }

/* These say something at once, and ask for no word step. */

/* LJ_VACANT, LJ_LIVE or LJ_DEAD, as far as this session knows; `first` is 1 where an operation is in progress. */
static inline lj_said lj_stage(lj_session *s) { return lj_call(s, LJ_OP_STAGE, 0, 0, 0); }

/* The word step that is asked for, once more; LJ_IDLE where there is none. */
static inline lj_said lj_ask(lj_session *s) { return lj_call(s, LJ_OP_ASK, 0, 0, 0); }

/* Gives up what is in progress. Says what the command will have answered where its deciding step was made, or LJ_UNDECIDED: then it did nothing to
 * the table. (Where the last word step that was asked for was made, tell it first.) An identity that had joined or was at something is dead then:
 * recover it, by this session or by another one. */
static inline lj_said lj_fall(lj_session *s) { return lj_call(s, LJ_OP_FALL, 0, 0, 0); }

#ifdef __cplusplus
}
#endif
#endif
