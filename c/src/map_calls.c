/* map_calls.c: lojarnek_map.h as calls, for languages that include no C header. Pools and clients are allocated here, and handed out as pointers. */
#include "lojarnek_map.h"

uint32_t ljm_version(void) { return LJ_VERSION_MAJOR * 1000 + LJ_VERSION_MINOR; }
const char *ljm_text(int error) { return lj_map_text(error); }

/* `make`: 0 attach, 1 create, 2 either. Sessions of these calls are for tables, so a pool for single blocks is LJ_OTHER_KIND. */
int ljm_open(const char *path, int make, uint32_t format, uint32_t clients, uint32_t segments, uint32_t mode, lj_pool **out) {
    lj_pool *pool = malloc(sizeof *pool);
    if (!pool) return ENOMEM;
    int e = make == 0 ? lj_pool_attach(pool, path)
        : make == 1 ? lj_pool_create(pool, path, format, clients, segments, (mode_t)mode) : lj_pool_open(pool, path, format, clients, segments);
    if (!e && pool->kind != LJ_FOR_TABLES) {
        lj_pool_close(pool);
        e = LJ_OTHER_KIND;
    }
    if (e) free(pool);
    else *out = pool;
    return e;
}
void ljm_close(lj_pool *pool) {
    lj_pool_close(pool);
    free(pool);
}
void ljm_sizes(const lj_pool *pool, uint32_t out[4]) {
    out[0] = pool->format;
    out[1] = pool->clients;
    out[2] = pool->segments;
    out[3] = pool->total;
}
int ljm_image(const lj_pool *pool, const char *path) {
    FILE *to = fopen(path, "wb");
    if (!to) return errno;
    int e = lj_pool_image(pool, to);
    return fclose(to) && !e ? EIO : e;
}
uint32_t ljm_rescue(lj_pool *pool, uint32_t but) { return lj_rescue(pool, but); }

int ljm_attach(lj_pool *pool, uint32_t who, lj_client **out) {
    lj_client *client = malloc(sizeof *client);
    if (!client) return ENOMEM;
    int e = lj_attach(client, pool, who);
    if (e) free(client);
    else *out = client;
    return e;
}
void ljm_detach(lj_client *client) {
    lj_detach(client);
    free(client);
}
void ljm_run(lj_client *client, uint32_t op, uint64_t a, uint64_t b, uint64_t c, lj_said *out) { *out = lj_run(client, lj_call(client->session, op, a, b, c)); }

/* A number of word steps of an operation, for tests that die in the midst of one: begins it, makes so many, and leaves it there. */
void ljm_part(lj_client *client, uint32_t op, uint64_t a, uint64_t b, uint64_t c, uint64_t steps, lj_said *out) {
    lj_said said = lj_call(client->session, op, a, b, c);
    for (; steps && lj_is_step(said); steps--) said = lj_tell(client->session, lj_make(client->pool, said));
    *out = said;
}

/* For callers that make the word steps themselves: the words, and an identity's lock. */
uint64_t *ljm_words(lj_pool *pool) { return pool->words; }
int ljm_take(const lj_pool *pool, uint32_t who, int *lock) { return lj_take(pool, who, lock); }
void ljm_give(int lock) { close(lock); }
