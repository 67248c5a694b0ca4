/* lojarnek_map.h: a pool in a mapped file, shared by the processes of one machine. A header alone, for Linux and lock-free 64-bit atomics.
 *
 *     lj_pool pool; lj_client client;
 *     if (lj_pool_open(&pool, "/dev/shm/a.pool", 1, 4, 8) || lj_attach(&client, &pool, 0)) ..
 *     if (lj_client_ready(&client).code == LJ_OK) lj_run(&client, lj_put(client.session, 7, 42));
 *     lj_run(&client, lj_leave(client.session)); lj_detach(&client); lj_pool_close(&pool);
 *
 * The file is a page of sizes and then the pool's words: 9 numbers (the mark, this layout's version, format, clients, segments, first era, how many
 * words there are, where they begin in bytes, and the kind: 0 for tables, 1 for single blocks), each of 8 bytes in the machine's order. It outlives processes, and on a disk the machine's orderly
 * end. It doesn't outlive the loss of power: pages reach a disk in any order. After that judge it by `lojarnek image` and `cxlshm audit`, and throw
 * it away where it isn't clean.
 *
 * Who has an identity: byte `who` of the file is locked (an OFD lock, by an open file description of that session alone, so it holds between threads
 * of one process too). The kernel takes the lock back when the last descriptor is closed, so after the last thread of a process that is killed: it
 * makes no word step after that. A process that is stopped keeps it. So "the dead step no more" is the kernel's word; no process number is
 * read, no time is waited for, and no process has to coordinate the others.
 *
 * The caller's: everybody who can write the file keeps to this header (the file's permissions say who can); nobody truncates it while it is mapped; no fork
 * while an identity is attached (the child would have the same open file description; over exec it is closed); a file system whose locks and shared
 * mappings are one machine's (not NFS).
 */
#ifndef LOJARNEK_MAP_H
#define LOJARNEK_MAP_H

#ifndef _GNU_SOURCE
#define _GNU_SOURCE
#endif
#include "lojarnek.h"
#include <errno.h>
#include <fcntl.h>
#include <stdio.h>
#include <stdlib.h>
#include <string.h>
#include <sys/mman.h>
#include <sys/stat.h>
#include <unistd.h>

#define LJ_MARK 0x4b454e52414a4f4cULL        /* "LOJARNEK" */
#define LJ_MARK_BEGUN 0x4b454e52414a4f6cULL  /* "lOJARNEK": the file's creation was begun, and isn't done */
#define LJ_FILE_VERSION 1
#define LJ_FOR_TABLES 0
#define LJ_FOR_SINGLES 1
#define LJ_WORDS_AT 4096
#define LJ_LOCK_CREATION 64                  /* the byte that is locked by whoever makes the pool or looks whether it is one */

/* What is wrong with a file, beside the system's error numbers, which are below 1,000. lj_map_text says each in words. */
enum {
    LJ_NO_POOL = 1001,      /* no mark: it is some other file. Nothing is written there */
    LJ_UNFINISHED = 1002,   /* it is empty, or its creation was cut short: make it again */
    LJ_OTHER_VERSION = 1003,
    LJ_BAD_SIZES = 1004,    /* a mark, but no pool has such sizes, or as many words as the page says */
    LJ_BAD_LENGTH = 1005,   /* the file is longer or shorter than its pool */
    LJ_OTHER_SIZES = 1006,  /* of lj_pool_open: a pool of other sizes than were asked for */
    LJ_REPLACED = 1007,     /* of lj_attach: another file stands at the path by now */
    LJ_OTHER_KIND = 1008    /* of lj_pool_open: a pool for single blocks, or the other way round */
};

/* A pool that this process has mapped. One for all threads; the fields are to be read only. */
typedef struct {
    uint32_t format, clients, segments, total, kind;
    uint64_t *words;
    void *base;
    size_t bytes;
    int fd;
    char *path;
} lj_pool;

/* An identity that this process has: its session, and how many word steps it has made. For one thread at a time. */
typedef struct {
    lj_pool *pool;
    lj_session *session;
    uint32_t who;
    int lock;
    uint64_t steps;
} lj_client;

/* For tests: called for each identity that was recovered since a command waited in vain; and where LJ_BEFORE_STEP is defined word steps are made one by one, and
 * it is called before each. */
#ifndef LJ_RESCUED
#define LJ_RESCUED(who) ((void)0)
#endif
/* After how many word steps of one command a client looks whether somebody is dead. */
#ifndef LJ_PATIENCE
#define LJ_PATIENCE 4096
#endif
/* How many word steps are made in one call, and what is done after so many, for tests. */
#ifndef LJ_AT_ONCE
#define LJ_AT_ONCE(client) LJ_PATIENCE
#endif
#ifndef LJ_MADE
#define LJ_MADE(client, steps) ((void)0)
#endif
/* For tests: 1 and 2 are wrong on purpose, so that a test can be seen to find it. */
#ifndef LJ_SABOTAGE
#define LJ_SABOTAGE 0
#endif

/* What an answer of lj_pool_create, lj_pool_attach, lj_pool_open or lj_attach means. */
static inline const char *lj_map_text(int error) {
    switch (error) {
    case LJ_NO_POOL: return "no pool: another file stands there";
    case LJ_UNFINISHED: return "no pool yet: the file is empty, or its creation was cut short";
    case LJ_OTHER_VERSION: return "a pool of another version of this library";
    case LJ_BAD_SIZES: return "no pool has such sizes";
    case LJ_BAD_LENGTH: return "the file is longer or shorter than its pool";
    case LJ_OTHER_SIZES: return "a pool of other sizes";
    case LJ_OTHER_KIND: return "a pool of the other kind";
    case LJ_REPLACED: return "another file has taken the pool's place";
    case EAGAIN: return "somebody has this identity";
    default: return strerror(error);
    }
}

/* (inner) Locks a byte, F_WRLCK, or unlocks it, F_UNLCK; waits for it or not. 0, or -1 and errno. */
static inline int lj_lock_byte(int fd, long byte, short type, int wait) {
    struct flock lock;
    int result;
    memset(&lock, 0, sizeof lock);
    lock.l_type = type;
    lock.l_whence = SEEK_SET;
    lock.l_start = byte;
    lock.l_len = 1;
    do result = fcntl(fd, wait ? F_OFD_SETLKW : F_OFD_SETLK, &lock);
    while (result && errno == EINTR);
    return result;
}

/* (inner) Sets the fields by the sizes, and maps the file. 0, or what is wrong. */
static inline int lj_pool_map(lj_pool *pool, uint32_t kind, uint32_t format, uint32_t clients, uint32_t segments) {
    pool->kind = kind;
    pool->format = format;
    pool->clients = clients;
    pool->segments = segments;
    pool->total = lj_total(format, clients, segments);
    if (!pool->total) return LJ_BAD_SIZES;
    pool->bytes = LJ_WORDS_AT + 8 * (size_t)pool->total;
    pool->base = mmap(NULL, pool->bytes, PROT_READ | PROT_WRITE, MAP_SHARED, pool->fd, 0);
    if (pool->base == MAP_FAILED) return errno;
    pool->words = (uint64_t *)((char *)pool->base + LJ_WORDS_AT);
    return 0;
}

/* (inner) Whether the file, of this length, has a pool; then it is mapped. 0, or what is wrong. */
static inline int lj_pool_judge(lj_pool *pool, uint64_t length) {
    uint64_t page[9];
    if (length < LJ_WORDS_AT) return LJ_NO_POOL;
    if (pread(pool->fd, page, sizeof page, 0) != (ssize_t)sizeof page) return EIO;
    if (page[0] != LJ_MARK) return LJ_NO_POOL;
    if (page[1] != LJ_FILE_VERSION) return LJ_OTHER_VERSION;
    if (page[2] > UINT32_MAX || page[3] > UINT32_MAX || page[4] > UINT32_MAX || page[7] != LJ_WORDS_AT || page[8] > LJ_FOR_SINGLES) return LJ_BAD_SIZES;
    uint32_t total = lj_total((uint32_t)page[2], (uint32_t)page[3], (uint32_t)page[4]);
    if (!total || page[6] != total) return LJ_BAD_SIZES;
    if (length != LJ_WORDS_AT + 8 * (uint64_t)total) return LJ_BAD_LENGTH;
    return lj_pool_map(pool, (uint32_t)page[8], (uint32_t)page[2], (uint32_t)page[3], (uint32_t)page[4]);
}

/* (inner) Writes a new pool, its mark last. The file is empty, or its creation was cut short. 0, or what is wrong. */
static inline int lj_pool_write(lj_pool *pool, uint32_t kind, uint32_t format, uint32_t clients, uint32_t segments) {
    uint64_t page[9] = { LJ_MARK_BEGUN, LJ_FILE_VERSION, format, clients, segments, 1, lj_total(format, clients, segments), LJ_WORDS_AT, kind };
    off_t bytes = (off_t)(LJ_WORDS_AT + 8 * page[6]);
    if (!page[6]) return LJ_BAD_SIZES;
    if (pwrite(pool->fd, page, sizeof page, 0) != (ssize_t)sizeof page) return errno ? errno : ENOSPC;
    /* (the blocks are taken now, so that no store can find the disk full) */
    int e = ftruncate(pool->fd, bytes) ? errno : posix_fallocate(pool->fd, 0, bytes);
    if (e || (e = lj_pool_map(pool, kind, format, clients, segments))) return e;
    for (uint32_t at = 0; at < pool->total; at++) pool->words[at] = lj_first_word(format, clients, segments, 1, at);
    __atomic_store_n((uint64_t *)pool->base, LJ_MARK, __ATOMIC_SEQ_CST);
    return 0;
}

/* (inner) Whether the file has a pool, which is mapped then; an empty one, and one whose creation was cut short, is unfinished. 0, or what is wrong. */
static inline int lj_pool_look(lj_pool *pool) {
    struct stat is;
    uint64_t mark = 0;
    if (fstat(pool->fd, &is)) return errno;
    if (!S_ISREG(is.st_mode)) return LJ_NO_POOL;
    if (is.st_size == 0 || (pread(pool->fd, &mark, sizeof mark, 0) == (ssize_t)sizeof mark && mark == LJ_MARK_BEGUN)) return LJ_UNFINISHED;
    return lj_pool_judge(pool, (uint64_t)is.st_size);
}

/* (inner) What the three calls below do, by `make`: 0 there has to be a pool, 1 it is made anew, 2 it is made where there is none. */
static inline int lj_pool_begin(lj_pool *pool, const char *path, int make, uint32_t kind, uint32_t format, uint32_t clients, uint32_t segments, mode_t mode) {
    memset(pool, 0, sizeof *pool);
    pool->base = MAP_FAILED;
    pool->fd = -1;
    if (make && !lj_total(format, clients, segments)) return LJ_BAD_SIZES;
    if (!(pool->path = strdup(path))) return ENOMEM;
    if ((pool->fd = open(path, O_RDWR | O_CLOEXEC | (make ? O_CREAT : 0), mode)) < 0) return errno;
    if (lj_lock_byte(pool->fd, LJ_LOCK_CREATION, F_WRLCK, 1)) return errno;
    int e = lj_pool_look(pool);
    if (e == LJ_UNFINISHED && make) e = lj_pool_write(pool, kind, format, clients, segments);
    else if (!e && make == 1) e = EEXIST;
    else if (!e && make == 2 && (pool->format != format || pool->clients != clients || pool->segments != segments)) e = LJ_OTHER_SIZES;
    else if (!e && make == 2 && pool->kind != kind) e = LJ_OTHER_KIND;
    return lj_lock_byte(pool->fd, LJ_LOCK_CREATION, F_UNLCK, 0) && !e ? errno : e;
}

/* Gives back what lj_pool_create, lj_pool_attach or lj_pool_open took. No identity is attached any more. The file stays. */
static inline void lj_pool_close(lj_pool *pool) {
    if (pool->base != MAP_FAILED) munmap(pool->base, pool->bytes);
    if (pool->fd >= 0) close(pool->fd);
    free(pool->path);
    memset(pool, 0, sizeof *pool);
    pool->base = MAP_FAILED;
    pool->fd = -1;
}

/* (inner) */
static inline int lj_pool_done(lj_pool *pool, int e) {
    if (e) lj_pool_close(pool);
    return e;
}

/* Makes a pool of these sizes (lojarnek.h) in a new file, or in an empty one, and maps it. `mode` are the permissions, as 0660: who can write the file can do anything
 * to the pool. 0; EEXIST where there is a pool, LJ_NO_POOL where there is another file (nothing is written then); LJ_BAD_SIZES; or an error number.
 * Two that make it at once wait for one another. */
static inline int lj_pool_create(lj_pool *pool, const char *path, uint32_t format, uint32_t clients, uint32_t segments, mode_t mode) {
    return lj_pool_done(pool, lj_pool_begin(pool, path, 1, LJ_FOR_TABLES, format, clients, segments, mode));
}

/* Maps the pool that is in the file, of whatever kind and sizes: `pool` has them then. 0; ENOENT, LJ_NO_POOL, LJ_UNFINISHED, LJ_OTHER_VERSION, LJ_BAD_SIZES, LJ_BAD_LENGTH;
 * or an error number. It waits while somebody makes the pool. */
static inline int lj_pool_attach(lj_pool *pool, const char *path) {
    return lj_pool_done(pool, lj_pool_begin(pool, path, 0, 0, 0, 0, 0, 0));
}

/* Maps the pool of these sizes that is in the file, and makes it first where there is none, with the permissions 0660. 0; LJ_OTHER_SIZES, or what the two
 * above answer; LJ_OTHER_KIND. */
static inline int lj_pool_open(lj_pool *pool, const char *path, uint32_t format, uint32_t clients, uint32_t segments) {
    return lj_pool_done(pool, lj_pool_begin(pool, path, 2, LJ_FOR_TABLES, format, clients, segments, 0660));
}

/* The same for a pool for single blocks: in a new or empty file, and the pool that is there or a new one. A pool of the other kind is LJ_OTHER_KIND. */
static inline int lj_pool_create_singles(lj_pool *pool, const char *path, uint32_t format, uint32_t clients, uint32_t segments, mode_t mode) {
    return lj_pool_done(pool, lj_pool_begin(pool, path, 1, LJ_FOR_SINGLES, format, clients, segments, mode));
}
static inline int lj_pool_open_singles(lj_pool *pool, const char *path, uint32_t format, uint32_t clients, uint32_t segments) {
    return lj_pool_done(pool, lj_pool_begin(pool, path, 2, LJ_FOR_SINGLES, format, clients, segments, 0660));
}

/* Writes the mapped pages to the disk, and waits for it: a copy that outlives the loss of power where nobody works meanwhile. 0, or an error number. */
static inline int lj_pool_sync(lj_pool *pool) { return msync(pool->base, pool->bytes, MS_SYNC) ? errno : 0; }

/* Writes the words as an image for `cxlshm audit` (docs/IMAGE.md). It means something while nobody works. 0, or an error number. */
static inline int lj_pool_image(const lj_pool *pool, FILE *to) {
    uint64_t sizes[2] = { pool->clients, pool->segments };
    if (fwrite(pool->format == 1 ? "CXLSHM01" : "CXLSHM02", 8, 1, to) != 1 || fwrite(sizes, 8, 2, to) != 2
        || fwrite(pool->words, 8, pool->total, to) != pool->total || fflush(to)) return EIO;
    return 0;
}

/* The status word of an identity, below `clients`, as it is just now. */
static inline uint64_t lj_status(const lj_pool *pool, uint32_t who) {
    return __atomic_load_n(pool->words + lj_status_at(pool->format, pool->clients, pool->segments, who), __ATOMIC_SEQ_CST);
}

/* Whether somebody has the identity just now: 1, 0, or -1 and errno. The caller's own sessions count. */
static inline int lj_is_taken(const lj_pool *pool, uint32_t who) {
    struct flock lock;
    memset(&lock, 0, sizeof lock);
    lock.l_type = F_WRLCK;
    lock.l_whence = SEEK_SET;
    lock.l_start = who;
    lock.l_len = 1;
    return fcntl(pool->fd, F_OFD_GETLK, &lock) ? -1 : lock.l_type != F_UNLCK;
}

/* (inner) One word step at the mapped words. Machines ask for no address beyond the pool where its words are as machines left them; of a file that
 * somebody else wrote to they may, and the process ends here. */
static inline uint64_t lj_make(const lj_pool *pool, lj_said said) {
    if (__builtin_expect(said.at >= pool->total, 0)) abort();
    uint64_t *word = pool->words + said.at, from = said.first;
    if (said.code == LJ_LOAD) return __atomic_load_n(word, __ATOMIC_SEQ_CST);
    if (said.code == LJ_STORE) {
        __atomic_store_n(word, said.second, __ATOMIC_SEQ_CST);
        return 0;
    }
#if LJ_SABOTAGE == 1 /* an exchange that isn't atomic */
    uint64_t was = __atomic_load_n(word, __ATOMIC_SEQ_CST);
    if (was % 4 == 1) usleep(20);
    if (was == from) __atomic_store_n(word, said.second, __ATOMIC_SEQ_CST);
    return was;
#endif
    __atomic_compare_exchange_n(word, &from, said.second, 0, __ATOMIC_SEQ_CST, __ATOMIC_SEQ_CST);
    return from;
}

/* (inner) Locks the byte of an identity by an open file description of its own. 0 and `lock`; EAGAIN, LJ_REPLACED or an error number. */
static inline int lj_take(const lj_pool *pool, uint32_t who, int *lock) {
    struct stat here, mapped;
    int e = 0;
    if ((*lock = open(pool->path, O_RDWR | O_CLOEXEC)) < 0) return errno;
    if (fstat(*lock, &here) || fstat(pool->fd, &mapped)) e = errno;
    else if (here.st_dev != mapped.st_dev || here.st_ino != mapped.st_ino) e = LJ_REPLACED;
    else if (lj_lock_byte(*lock, (long)who, F_WRLCK, 0)) e = errno == EACCES ? EAGAIN : errno;
    if (e) {
        close(*lock);
        *lock = -1;
    }
    return e;
}

/* Takes the identity `who`. 0, and `client` has it: vacant, or dead where lj_stage says so. EAGAIN where somebody has it, be it
 * only to see whether it is dead: ask again; EINVAL where the pool has no such identity or its status is none; LJ_REPLACED; or an error number. */
static inline int lj_attach(lj_client *client, lj_pool *pool, uint32_t who) {
    memset(client, 0, sizeof *client);
    client->pool = pool;
    client->who = who;
    client->lock = -1;
    if (!lj_status_at(pool->format, pool->clients, pool->segments, who)) return EINVAL;
    int e = lj_take(pool, who, &client->lock);
    if (e) return e;
    uint64_t status = lj_status(pool, who);
#if LJ_SABOTAGE == 2 /* a dead identity is taken for one that has left */
    if (status == 1 || status == 2) status = 3;
#endif
    uint32_t code = pool->kind == LJ_FOR_SINGLES ? lj_open_singles(pool->format, pool->clients, pool->segments, who, status, &client->session)
                                                  : lj_open(pool->format, pool->clients, pool->segments, who, status, &client->session);
    if (!code) return 0;
    close(client->lock);
    client->lock = -1;
    return code == LJ_NO_MEMORY ? ENOMEM : EINVAL;
}

/* Gives the identity back, in whatever it is at: one that hasn't left is dead, and whoever attaches it next finds it so. */
static inline void lj_detach(lj_client *client) {
    if (client->session) lj_close(client->session);
    client->session = NULL;
    if (client->lock >= 0) close(client->lock);
    client->lock = -1;
}

static inline uint32_t lj_rescue(lj_pool *pool, uint32_t but);

/* (inner) Makes some word steps of an operation: how many, and what is said then. Words that somebody else wrote to may end the process, as in lj_make. */
static inline lj_ran lj_some(lj_client *client, lj_said said) {
    lj_ran ran;
#ifdef LJ_BEFORE_STEP
    LJ_BEFORE_STEP(client, said);
    ran.said = lj_tell(client->session, lj_make(client->pool, said));
    ran.steps = 1;
#else
    (void)said;
    ran = lj_run_on(client->session, client->pool->words, client->pool->total, LJ_AT_ONCE(client));
    if (__builtin_expect(ran.said.code == LJ_BEYOND, 0)) abort();
#endif
    return ran;
}

/* Runs an operation to its answer: makes the word steps that are asked for. A refusal is handed on. A command that waits for the latch of somebody who has died
 * recovers that one, after LJ_PATIENCE word steps; a command that waits for one who is stopped waits. */
static inline lj_said lj_run(lj_client *client, lj_said said) {
    uint64_t waited = 0;
    while (lj_is_step(said)) {
        lj_ran ran = lj_some(client, said);
        said = ran.said;
        client->steps += ran.steps;
        waited += ran.steps;
        LJ_MADE(client, ran.steps);
        if (__builtin_expect(waited >= LJ_PATIENCE, 0) && lj_is_step(said)) {
            waited = 0;
            if (lj_stage(client->session).code == LJ_LIVE) lj_rescue(client->pool, client->who);
        }
    }
    return said;
}

/* Makes an identity that was just attached live: recovers it where it is dead, and joins. LJ_OK, or LJ_ERA_SPENT, and it is dead still. */
static inline lj_said lj_client_ready(lj_client *client) {
    if (lj_stage(client->session).code == LJ_DEAD) {
        lj_said said = lj_run(client, lj_recover(client->session));
        if (said.code != LJ_OK) return said;
    }
    return lj_run(client, lj_join(client->session));
}

/* Recovers whoever is dead and nobody has, but for one identity. How many it were. */
static inline uint32_t lj_rescue(lj_pool *pool, uint32_t but) {
    uint32_t recovered = 0;
    for (uint32_t who = 0; who < pool->clients; who++) {
        lj_client client;
        if (who == but || lj_attach(&client, pool, who)) continue;
        if (lj_stage(client.session).code == LJ_DEAD && lj_run(&client, lj_recover(client.session)).code == LJ_OK) {
            recovered++;
            LJ_RESCUED(who);
        }
        lj_detach(&client);
    }
    return recovered;
}
#endif
