/* memory.h: a pool in an array, for tests. */
#ifndef MEMORY_H
#define MEMORY_H
#include "lojarnek.h"
#include <inttypes.h>
#include <stdio.h>
#include <stdlib.h>
#include <string.h>

typedef struct { uint32_t format, clients, segments, total; uint64_t *words; } memory;

static inline memory memory_new(uint32_t format, uint32_t clients, uint32_t segments) {
    memory pool = { format, clients, segments, lj_total(format, clients, segments), NULL };
    pool.words = malloc(8 * (size_t)pool.total);
    if (!pool.words) abort();
    for (uint32_t at = 0; at < pool.total; at++) pool.words[at] = lj_first_word(format, clients, segments, 1, at);
    return pool;
}

static inline lj_session *memory_open(memory *pool, uint32_t who) {
    lj_session *session = NULL;
    uint32_t at = lj_status_at(pool->format, pool->clients, pool->segments, who);
    if (!at || lj_open(pool->format, pool->clients, pool->segments, who, pool->words[at], &session)) abort();
    return session;
}

static inline lj_session *memory_open_single(memory *pool, uint32_t who) {
    lj_session *session = NULL;
    uint32_t at = lj_status_at(pool->format, pool->clients, pool->segments, who);
    if (!at || lj_open_singles(pool->format, pool->clients, pool->segments, who, pool->words[at], &session)) abort();
    return session;
}

static inline uint64_t memory_make(memory *pool, lj_said said) {
    if (said.at >= pool->total) abort();
    uint64_t found = pool->words[said.at];
    if (said.code == LJ_STORE || (said.code == LJ_EXCHANGE && found == said.first)) pool->words[said.at] = said.second;
    return said.code == LJ_STORE ? 0 : found;
}

static inline lj_said memory_run(memory *pool, lj_session *session, lj_said said) {
    while (lj_is_step(said)) said = lj_tell(session, memory_make(pool, said));
    return said;
}
#endif
