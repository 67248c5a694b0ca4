/* answers.c: each answer and each refusal once, over a pool in an array. Link with -Wl,--wrap=malloc. */
#include "memory.h"

static int bad, tests;
static int no_memory; /* where set, malloc gives none */
void *__real_malloc(size_t bytes);
void *__wrap_malloc(size_t bytes);
void *__wrap_malloc(size_t bytes) { return no_memory ? NULL : __real_malloc(bytes); }

static void expect(const char *what, uint64_t is, uint64_t wanted) {
    tests++;
    if (is == wanted) return;
    bad++;
    fprintf(stderr, "answers: %s is %" PRIu64 ", %" PRIu64 " is wanted\n", what, is, wanted);
}

/* A refusal changes nothing: how the identity stands, and what it is asked for. */
static void refuses(const char *what, lj_session *session, uint32_t op, uint64_t a, uint64_t b, uint64_t c, uint32_t code) {
    lj_said stage = lj_stage(session), ask = lj_ask(session), said = lj_call(session, op, a, b, c);
    expect(what, said.code, code);
    expect("a refusal's numbers", said.at | said.first | said.second, 0);
    lj_said stage2 = lj_stage(session), ask2 = lj_ask(session);
    expect("the stage after a refusal", memcmp(&stage, &stage2, sizeof stage), 0);
    expect("the word step after a refusal", memcmp(&ask, &ask2, sizeof ask), 0);
}

static void sizes(void) {
    lj_session *session = NULL;
    expect("the words of the least pool", lj_total(1, 1, 1), 1 + 21 + 11 + 2065);
    expect("of the largest one", lj_total(2, 16, 8000), 16523169);
    expect("of format 0", lj_total(0, 1, 1), 0);
    expect("of format 3", lj_total(3, 1, 1), 0);
    expect("of no client", lj_total(1, 0, 1), 0);
    expect("of 17 clients", lj_total(1, 17, 1), 0);
    expect("of 257 clients", lj_total(1, 257, 1), 0);
    expect("of no segment", lj_total(1, 1, 0), 0);
    expect("of 257 segments", lj_total(1, 1, 257), 0);
    expect("of 8,001 segments", lj_total(2, 1, 8001), 0);
    expect("of 65,537 segments", lj_total(1, 1, 65537), 0);
    expect("a status' address", lj_status_at(1, 4, 4, 3), 4);
    expect("of another pool's identity", lj_status_at(1, 4, 4, 4), 0);
    expect("an era", lj_first_word(1, 2, 2, 7, 1 + 5 * 2), 7);
    expect("a word that isn't one", lj_first_word(1, 2, 2, 7, lj_total(1, 2, 2)), 0);
    for (uint64_t status = 0; status < 6; status++) {
        uint32_t code = lj_open(1, 2, 2, 0, status, &session);
        expect("an opened session", code, status < 4 ? 0 : LJ_OUT_OF_RANGE);
        if (code) continue;
        expect("its stage", lj_stage(session).code, status == 0 || status == 3 ? LJ_VACANT : LJ_DEAD);
        lj_close(session);
        session = NULL;
    }
    expect("a session of no pool", lj_open(1, 2, 300, 0, 0, &session), LJ_OUT_OF_RANGE);
    expect("a session of no identity", lj_open(1, 2, 2, 2, 0, &session), LJ_OUT_OF_RANGE);
    no_memory = 1;
    uint32_t code = lj_open(1, 2, 2, 0, 0, &session);
    no_memory = 0;
    expect("a session without memory", code, LJ_NO_MEMORY);
    expect("what is written then", session != NULL, 0);
}

static void refusals(void) {
    memory pool = memory_new(1, 2, 2);
    lj_session *s = memory_open(&pool, 0);
    expect("a word that nobody asked for", lj_tell(s, 5).code, LJ_IDLE);
    refuses("nothing asked for", s, LJ_OP_ASK, 0, 0, 0, LJ_IDLE);
    refuses("a put before the join", s, LJ_OP_PUT, 1, 1, 0, LJ_WRONG_STAGE);
    refuses("a leaving before it", s, LJ_OP_LEAVE, 0, 0, 0, LJ_WRONG_STAGE);
    refuses("a recovery of a vacant one", s, LJ_OP_RECOVER, 0, 0, 0, LJ_WRONG_STAGE);
    lj_said first = lj_join(s);
    expect("a join's first word step", first.code <= LJ_EXCHANGE, 1);
    expect("busy", lj_stage(s).first, 1);
    refuses("a second join in the midst of it", s, LJ_OP_JOIN, 0, 0, 0, LJ_BUSY);
    refuses("a number that is no operation's in the midst of it", s, 99, 0, 0, 0, LJ_BUSY);
    expect("a join", memory_run(&pool, s, lj_ask(s)).code, LJ_OK);
    expect("live", lj_stage(s).code, LJ_LIVE);
    refuses("a second join", s, LJ_OP_JOIN, 0, 0, 0, LJ_WRONG_STAGE);
    refuses("a recovery of a live one", s, LJ_OP_RECOVER, 0, 0, 0, LJ_WRONG_STAGE);
    refuses("a key of 33 bits", s, LJ_OP_PUT, 1ull << 32, 1, 0, LJ_OUT_OF_RANGE);
    refuses("a get of such a key", s, LJ_OP_GET, 0, 1ull << 32, 0, LJ_OUT_OF_RANGE);
    refuses("a del of such a key", s, LJ_OP_DEL, 1ull << 32, 0, 0, LJ_OUT_OF_RANGE);
    refuses("a copy to such a key", s, LJ_OP_COPY, 1ull << 32, 0, 0, LJ_OUT_OF_RANGE);
    refuses("a copy of such a key", s, LJ_OP_COPY, 0, 0, 1ull << 32, LJ_OUT_OF_RANGE);
    refuses("a get of no identity's", s, LJ_OP_GET, 2, 1, 0, LJ_OUT_OF_RANGE);
    refuses("a get of identity 256", s, LJ_OP_GET, 256, 1, 0, LJ_OUT_OF_RANGE);
    refuses("a copy of no identity's", s, LJ_OP_COPY, 1, 2, 1, LJ_OUT_OF_RANGE);
    refuses("a send to no identity", s, LJ_OP_SEND, 2, 1, 0, LJ_OUT_OF_RANGE);
    refuses("a send to oneself", s, LJ_OP_SEND, 0, 1, 0, LJ_OUT_OF_RANGE);
    refuses("a receive from oneself", s, LJ_OP_RECV, 0, 1, 0, LJ_OUT_OF_RANGE);
    refuses("a receive from no identity", s, LJ_OP_RECV, 2, 1, 0, LJ_OUT_OF_RANGE);
    refuses("operation 0", s, 0, 0, 0, 0, LJ_OUT_OF_RANGE);
    refuses("operation 10", s, 10, 0, 0, 0, LJ_OUT_OF_RANGE);
    refuses("operation 19", s, 19, 0, 0, 0, LJ_OUT_OF_RANGE);
    lj_close(s);
    s = memory_open(&pool, 0);
    expect("dead", lj_stage(s).code, LJ_DEAD);
    refuses("a put of a dead one", s, LJ_OP_PUT, 1, 1, 0, LJ_WRONG_STAGE);
    refuses("a join of a dead one", s, LJ_OP_JOIN, 0, 0, 0, LJ_WRONG_STAGE);
    expect("a recovery", memory_run(&pool, s, lj_recover(s)).code, LJ_OK);
    expect("vacant", lj_stage(s).code, LJ_VACANT);
    lj_close(s);
    free(pool.words);
}

static void answers(uint32_t format) {
    memory pool = memory_new(format, 2, 2);
    lj_session *a = memory_open(&pool, 0), *b = memory_open(&pool, 1);
    expect("a join", memory_run(&pool, a, lj_join(a)).code, LJ_OK);
    expect("another one's", memory_run(&pool, b, lj_join(b)).code, LJ_OK);
    expect("a get of nothing", memory_run(&pool, a, lj_get(a, 0, 5)).code, LJ_MISSING);
    lj_said put = memory_run(&pool, a, lj_put(a, 5, UINT64_MAX));
    expect("a put", put.code, LJ_STORED);
    lj_said got = memory_run(&pool, b, lj_get(b, 0, 5));
    expect("another one's get", got.code, LJ_VALUE);
    expect("its number", got.first, UINT64_MAX);
    expect("its block", got.at, put.at);
    got = memory_run(&pool, b, lj_copy(b, UINT32_MAX, 0, 5));
    expect("a copy", got.code, LJ_VALUE);
    expect("its block, the same", got.at, put.at);
    expect("a copy of nothing", memory_run(&pool, b, lj_copy(b, 1, 0, 6)).code, LJ_MISSING);
    expect("a send of nothing", memory_run(&pool, a, lj_send_key(a, 1, 6)).code, LJ_MISSING);
    expect("a receive of nothing", memory_run(&pool, b, lj_recv_key(b, 0, 7)).code, LJ_EMPTY);
    for (int n = 0; n < 8; n++) expect("a send", memory_run(&pool, a, lj_send_key(a, 1, 5)).code, LJ_OK);
    got = memory_run(&pool, a, lj_send_key(a, 1, 5));
    expect("a ninth one", got.code, LJ_QUEUE_FULL);
    expect("its tail and head differ by", got.first > got.second ? got.first - got.second : got.second - got.first, 8);
    got = memory_run(&pool, b, lj_recv_key(b, 0, 7));
    expect("a receive", got.code, LJ_VALUE);
    expect("its number", got.first, UINT64_MAX);
    expect("a del", memory_run(&pool, a, lj_del(a, 5)).code, LJ_OK);
    expect("a second one", memory_run(&pool, a, lj_del(a, 5)).code, LJ_MISSING);
    expect("a leaving", memory_run(&pool, a, lj_leave(a)).code, LJ_OK);
    expect("vacant", lj_stage(a).code, LJ_VACANT);
    expect("a second join", memory_run(&pool, a, lj_join(a)).code, LJ_OK);
    lj_close(a);
    lj_close(b);
    free(pool.words);
}

static void limits(void) {
    memory pool = memory_new(1, 1, 1);
    lj_session *s = memory_open(&pool, 0);
    uint32_t key = 0;
    lj_said said = memory_run(&pool, s, lj_join(s));
    while ((said = memory_run(&pool, s, lj_put(s, key, key))).code == LJ_STORED) key++;
    expect("a put without a free block", said.code, LJ_FULL);
    expect("keys before it, some", key > 100, 1);
    expect("a del frees one", memory_run(&pool, s, lj_del(s, 0)).code, LJ_OK);
    expect("so that there is one", memory_run(&pool, s, lj_put(s, 0, 1)).code, LJ_STORED);
    lj_close(s);
    free(pool.words);

    pool = memory_new(1, 1, 8);
    s = memory_open(&pool, 0);
    memory_run(&pool, s, lj_join(s));
    memory_run(&pool, s, lj_put(s, 0, 9));
    for (key = 1; (said = memory_run(&pool, s, lj_copy(s, key, 0, 0))).code == LJ_VALUE; key++);
    expect("a copy beyond 1,023 references", said.code, LJ_COUNT_FULL);
    expect("its count", said.first, 1023);
    /* (roots that name a block, and an era near its end: words as no client of this age leaves them) */
    uint64_t roots[16], *root = pool.words + 1 + 5 + 1, block = said.at;
    memcpy(roots, root, sizeof roots);
    for (int k = 0; k < 16; k++) if (!root[k]) root[k] = block;
    expect("a put without an empty root", memory_run(&pool, s, lj_put(s, 5000, 1)).code, LJ_ROOTS_FULL);
    memcpy(root, roots, sizeof roots);
    lj_close(s);
    free(pool.words);

    pool = memory_new(1, 1, 2);
    s = memory_open(&pool, 0);
    memory_run(&pool, s, lj_join(s));
    pool.words[1 + 5] = (1ull << 47) - 2;
    said = memory_run(&pool, s, lj_put(s, 1, 1));
    expect("a put in a spent era", said.code, LJ_ERA_SPENT);
    expect("the era", said.first, (1ull << 47) - 2);
    lj_close(s);
    free(pool.words);
}

/* A put is given up after each of its word steps: from its deciding one on what it will have answered is certain, and the recovered table has it. */
static void falls(void) {
    unsigned decided = 0, undecided = 0;
    for (unsigned at = 0; at < 1000; at++) {
        memory pool = memory_new(1, 1, 2);
        lj_session *s = memory_open(&pool, 0);
        memory_run(&pool, s, lj_join(s));
        memory_run(&pool, s, lj_put(s, 7, 1));
        lj_said said = lj_put(s, 7, 2);
        for (unsigned n = 0; n < at && lj_is_step(said); n++) said = lj_tell(s, memory_make(&pool, said));
        int over = !lj_is_step(said);
        said = lj_fall(s);
        expect("dead after a fall", lj_stage(s).code, LJ_DEAD);
        expect("idle after a fall", lj_ask(s).code, LJ_IDLE);
        if (said.code == LJ_STORED) decided++;
        else expect("what a fall says", said.code, LJ_UNDECIDED), undecided++;
        expect("a recovery", memory_run(&pool, s, lj_recover(s)).code, LJ_OK);
        memory_run(&pool, s, lj_join(s));
        expect("the number after it", memory_run(&pool, s, lj_get(s, 0, 7)).first, over || said.code == LJ_STORED ? 2 : 1);
        lj_close(s);
        free(pool.words);
        if (over) break;
    }
    expect("falls before the deciding step, some", undecided > 10, 1);
    expect("falls after it, some", decided > 2, 1);
    memory pool = memory_new(1, 1, 1);
    lj_session *s = memory_open(&pool, 0);
    expect("a fall of one at nothing", lj_fall(s).code, LJ_UNDECIDED);
    expect("and it is vacant still", lj_stage(s).code, LJ_VACANT);
    lj_close(s);
    free(pool.words);
}

/* Word steps that the library makes itself. */
static void runs(void) {
    memory pool = memory_new(1, 2, 2);
    lj_session *s = memory_open(&pool, 0);
    expect("a run where nothing is asked for", lj_run_on(s, pool.words, pool.total, 9).said.code, LJ_IDLE);
    lj_said first = lj_join(s);
    lj_ran ran = lj_run_on(s, pool.words, pool.total, 0);
    expect("a run of no word step", ran.steps, 0);
    expect("what is asked for then", memcmp(&ran.said, &first, sizeof first), 0);
    ran = lj_run_on(s, pool.words, pool.total - 1, 9);
    expect("a run on too few words", ran.said.code, LJ_OUT_OF_RANGE);
    expect("its word steps", ran.steps, 0);
    lj_said ask = lj_ask(s);
    expect("what is asked for after it", memcmp(&ask, &first, sizeof first), 0);
    expect("a join", lj_run_on(s, pool.words, pool.total, UINT64_MAX).said.code, LJ_OK);
    expect("live", lj_stage(s).code, LJ_LIVE);
    lj_put(s, 7, 42);
    ran = lj_run_on(s, pool.words, pool.total, 2);
    expect("a run of two", ran.steps, 2);
    expect("what it says", lj_is_step(ran.said), 1);
    ask = lj_ask(s);
    expect("what is asked for then", memcmp(&ran.said, &ask, sizeof ask), 0);
    expect("a put", lj_run_on(s, pool.words, pool.total, 1000).said.code, LJ_STORED);
    lj_get(s, 0, 7);
    ran = lj_run_on(s, pool.words, pool.total, 1000);
    expect("a get", ran.said.code, LJ_VALUE);
    expect("its number", ran.said.first, 42);
    for (uint32_t at = 0; at < pool.total; at++) if (pool.words[at]) pool.words[at] = 0xfffff;
    lj_get(s, 0, 7);
    ran = lj_run_on(s, pool.words, pool.total, 1000);
    expect("a run on words that are no pool's", ran.said.code, LJ_BEYOND);
    expect("dead", lj_stage(s).code, LJ_DEAD);
    expect("what is asked for then", lj_ask(s).code, LJ_IDLE);
    lj_close(s);
    free(pool.words);
}

int main(void) {
    sizes();
    refusals();
    answers(1);
    answers(2);
    limits();
    falls();
    runs();
    printf("answers: %d of %d are as wanted\n", tests - bad, tests);
    return bad != 0;
}
