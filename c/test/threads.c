/* threads.c: threads of one process, each with an identity of its own, on one mapped pool; some give theirs up in the midst of a command: threads FILE. */
#include "lojarnek_map.h"
#include <pthread.h>

enum { THREADS = 4, LIVES = 40 };
static lj_pool pool;
static uint64_t bad;

static uint64_t drawn(uint64_t *state) {
    *state ^= *state << 13;
    *state ^= *state >> 7;
    *state ^= *state << 17;
    return *state;
}

/* Some commands of an identity; the last one is left in the midst of it. */
static void life(lj_client *c, uint64_t *state) {
    for (uint64_t n = drawn(state) % 60; n; n--) {
        uint32_t key = (uint32_t)(drawn(state) % 8), other = (uint32_t)(drawn(state) % THREADS);
        lj_said said = drawn(state) % 3 ? lj_run(c, lj_put(c->session, key, key * 7)) : lj_run(c, lj_get(c->session, other, key));
        if (said.code == LJ_VALUE && said.first % 7) __atomic_fetch_add(&bad, 1, __ATOMIC_SEQ_CST);
        if (!lj_is_answer(said)) __atomic_fetch_add(&bad, 1, __ATOMIC_SEQ_CST);
    }
    lj_said said = lj_put(c->session, 3, 21);
    for (uint64_t n = drawn(state) % 50; n && lj_is_step(said); n--) said = lj_tell(c->session, lj_make(c->pool, said));
}

static void *work(void *at) {
    uint64_t state = (uint64_t)(size_t)at * 77 + 1;
    for (int n = 0; n < LIVES; n++) {
        lj_client c;
        if (lj_attach(&c, &pool, (uint32_t)(drawn(&state) % THREADS))) continue;
        if (lj_client_ready(&c).code != LJ_OK) __atomic_fetch_add(&bad, 1, __ATOMIC_SEQ_CST);
        else life(&c, &state);
        lj_detach(&c);
    }
    return NULL;
}

int main(int argc, char **argv) {
    pthread_t threads[THREADS];
    if (argc < 2 || lj_pool_open(&pool, argv[1], 1, THREADS, 8)) return 2;
    for (size_t i = 0; i < THREADS; i++) if (pthread_create(&threads[i], NULL, work, (void *)i)) return 2;
    for (size_t i = 0; i < THREADS; i++) pthread_join(threads[i], NULL);
    lj_rescue(&pool, UINT32_MAX);
    FILE *to = argc > 2 ? fopen(argv[2], "wb") : NULL;
    if (argc > 2 && (!to || lj_pool_image(&pool, to) || fclose(to))) bad++;
    lj_pool_close(&pool);
    printf("threads: %s\n", bad ? "WRONG" : "as wanted");
    return bad != 0;
}
