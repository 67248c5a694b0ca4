/* singles.c: single blocks. Each answer and each refusal once, over a pool in an array; then identities that take turns by word steps, die at any of them
 * and are recovered, and images of what they leave.
 *
 *   singles [IMAGE [SEED]]      images are written as IMAGE.0, IMAGE.1 ..
 */
#include "memory.h"

static int bad, tests;
static const char *image;

static void expect(const char *what, uint64_t is, uint64_t wanted) {
    tests++;
    if (is == wanted) return;
    bad++;
    fprintf(stderr, "singles: %s is %" PRIu64 ", %" PRIu64 " is wanted\n", what, is, wanted);
}

/* A refusal changes nothing: how the identity stands, and what it is asked for. */
static void refuses(const char *what, lj_session *session, uint32_t op, uint64_t a, uint64_t b, uint64_t c, uint32_t code) {
    lj_said stage = lj_stage(session), ask = lj_ask(session), said = lj_call(session, op, a, b, c);
    expect(what, said.code, code);
    expect("a refusal's numbers", said.at | said.first | said.second, 0);
    lj_said stage2 = lj_stage(session), ask2 = lj_ask(session);
    expect("the stage after a refusal", memcmp(&stage, &stage2, sizeof stage), 0);
    expect("the word step after a refusal", memcmp(&ask, &ask2, sizeof ask), 0);
}

static void refusals(void) {
    memory pool = memory_new(1, 2, 2);
    lj_session *none = NULL, *s = memory_open_single(&pool, 0);
    expect("a session of no pool", lj_open_singles(1, 2, 300, 0, 0, &none), LJ_OUT_OF_RANGE);
    expect("a session of no identity", lj_open_singles(1, 2, 2, 2, 0, &none), LJ_OUT_OF_RANGE);
    expect("a session of no status", lj_open_singles(1, 2, 2, 0, 4, &none), LJ_OUT_OF_RANGE);
    expect("what is written then", none != NULL, 0);
    expect("a word that nobody asked for", lj_tell(s, 5).code, LJ_IDLE);
    refuses("an allocation before the join", s, LJ_OP_ALLOC, 1, 1, 0, LJ_WRONG_STAGE);
    refuses("a drain before it", s, LJ_OP_DRAIN, 0, 0, 0, LJ_WRONG_STAGE);
    refuses("a leaving before it", s, LJ_OP_LEAVE, 0, 0, 0, LJ_WRONG_STAGE);
    refuses("a recovery of a vacant one", s, LJ_OP_RECOVER, 0, 0, 0, LJ_WRONG_STAGE);
    lj_join(s);
    refuses("an allocation in the midst of a join", s, LJ_OP_ALLOC, 1, 1, 0, LJ_BUSY);
    expect("a join", memory_run(&pool, s, lj_ask(s)).code, LJ_OK);
    refuses("a second join", s, LJ_OP_JOIN, 0, 0, 0, LJ_WRONG_STAGE);
    refuses("17 reference words", s, LJ_OP_ALLOC, 17, 0, 0, LJ_OUT_OF_RANGE);
    refuses("9 plain words", s, LJ_OP_ALLOC, 0, 9, 0, LJ_OUT_OF_RANGE);
    refuses("a hint of 33 bits", s, LJ_OP_ALLOC, 0, 0, 1ull << 32, LJ_OUT_OF_RANGE);
    refuses("a plain word of index 8", s, LJ_OP_WORD, 8, 0, 0, LJ_OUT_OF_RANGE);
    refuses("a share of root 16", s, LJ_OP_SHARE, 16, 0, 0, LJ_OUT_OF_RANGE);
    refuses("a read at root 16", s, LJ_OP_READ, 16, 0, 0, LJ_OUT_OF_RANGE);
    refuses("a read of word 256", s, LJ_OP_READ, 0, 256, 0, LJ_OUT_OF_RANGE);
    refuses("a set at root 16", s, LJ_OP_SET, 16, 0, 0, LJ_OUT_OF_RANGE);
    refuses("a set of word 256", s, LJ_OP_SET, 0, 256, 0, LJ_OUT_OF_RANGE);
    refuses("a set to root 16", s, LJ_OP_SET, 0, 0, 16, LJ_OUT_OF_RANGE);
    refuses("a clear at root 16", s, LJ_OP_CLEAR, 16, 0, 0, LJ_OUT_OF_RANGE);
    refuses("a drop of root 16", s, LJ_OP_DROP, 16, 0, 0, LJ_OUT_OF_RANGE);
    refuses("a drop of a root of 64 bits", s, LJ_OP_DROP, UINT64_MAX, 0, 0, LJ_OUT_OF_RANGE);
    refuses("a send to no identity", s, LJ_OP_SEND_BLOCK, 2, 0, 0, LJ_OUT_OF_RANGE);
    refuses("a send to oneself", s, LJ_OP_SEND_BLOCK, 0, 0, 0, LJ_OUT_OF_RANGE);
    refuses("a send of root 16", s, LJ_OP_SEND_BLOCK, 1, 16, 0, LJ_OUT_OF_RANGE);
    refuses("a receive from oneself", s, LJ_OP_RECV_BLOCK, 0, 0, 0, LJ_OUT_OF_RANGE);
    refuses("a receive from no identity", s, LJ_OP_RECV_BLOCK, 256, 0, 0, LJ_OUT_OF_RANGE);
    refuses("a follow at root 16", s, LJ_OP_FOLLOW, 16, 0, 0, LJ_OUT_OF_RANGE);
    refuses("a put in a pool for single blocks", s, LJ_OP_PUT, 1, 1, 0, LJ_OUT_OF_RANGE);
    refuses("operation 31", s, 31, 0, 0, 0, LJ_OUT_OF_RANGE);
    lj_close(s);
    s = memory_open_single(&pool, 0);
    refuses("a share of a dead one", s, LJ_OP_SHARE, 0, 0, 0, LJ_WRONG_STAGE);
    expect("a recovery", memory_run(&pool, s, lj_recover(s)).code, LJ_OK);
    expect("vacant", lj_stage(s).code, LJ_VACANT);
    lj_close(s);
    s = memory_open(&pool, 1);
    expect("a join in a pool for tables", memory_run(&pool, s, lj_join(s)).code, LJ_OK);
    refuses("an allocation in a pool for tables", s, LJ_OP_ALLOC, 1, 1, 0, LJ_OUT_OF_RANGE);
    refuses("a plain word in a pool for tables", s, LJ_OP_WORD, 0, 0, 0, LJ_OUT_OF_RANGE);
    lj_close(s);
    free(pool.words);
}

/* Two words of a block, and a root that names it. */
static lj_said made(memory *pool, lj_session *s, uint32_t refs, uint64_t first, uint64_t second) {
    expect("a plain word", lj_word(s, 0, first).code, LJ_OK);
    expect("another one", lj_word(s, 1, second).code, LJ_OK);
    return memory_run(pool, s, lj_alloc(s, refs, 2, 0));
}

static void answers(uint32_t format) {
    memory pool = memory_new(format, 2, 2);
    lj_session *a = memory_open_single(&pool, 0), *b = memory_open_single(&pool, 1);
    lj_said said, one, two;
#define RUN(s, call) (said = memory_run(&pool, s, call))
#define CODE(what, s, call, code_) expect(what, RUN(s, call).code, code_)
    CODE("a join", a, lj_join(a), LJ_OK);
    CODE("another one's", b, lj_join(b), LJ_OK);
    one = made(&pool, a, 1, 7, UINT64_MAX);
    expect("an allocation", one.code, LJ_ROOT);
    expect("its root", one.first, 0);
    CODE("a read", a, lj_read(a, 0, 0), LJ_VALUE);
    expect("its number", said.first, 7);
    expect("its block", said.at, one.at);
    CODE("a read of the other word", a, lj_read(a, 0, 1), LJ_VALUE);
    expect("its number", said.first, UINT64_MAX);
    CODE("a read of no word", a, lj_read(a, 0, 2), LJ_NO_WORD);
    expect("how many there are", said.first, 2);
    CODE("a read at an empty root", a, lj_read(a, 5, 0), LJ_NO_BLOCK);
    two = made(&pool, a, 3, 8, 9);
    expect("a second allocation", two.code, LJ_ROOT);
    expect("its root", two.first, 1);
    CODE("a set", a, lj_set(a, 0, 0, 1), LJ_OK);
    CODE("the same again", a, lj_set(a, 0, 0, 1), LJ_OK);
    CODE("a set of no word", a, lj_set(a, 0, 1, 1), LJ_NO_WORD);
    expect("how many there are", said.first, 1);
    CODE("a set at an empty root", a, lj_set(a, 4, 0, 1), LJ_NO_BLOCK);
    CODE("a set to an empty root", a, lj_set(a, 0, 0, 4), LJ_NO_BLOCK);
    CODE("a drop of the second root", a, lj_drop(a, 1), LJ_OK);
    CODE("a second one", a, lj_drop(a, 1), LJ_NO_BLOCK);
    CODE("a follow", a, lj_follow(a, 0, 0), LJ_ROOT);
    expect("its root", said.first, 1);
    expect("its block", said.at, two.at);
    CODE("a read there", a, lj_read(a, 1, 1), LJ_VALUE);
    expect("its number", said.first, 9);
    CODE("a follow of no word", a, lj_follow(a, 0, 1), LJ_NO_WORD);
    CODE("a follow of an empty word", a, lj_follow(a, 1, 0), LJ_NO_BLOCK);
    CODE("a share", a, lj_share(a, 1), LJ_ROOT);
    expect("its root", said.first, 2);
    expect("its block", said.at, two.at);
    CODE("a share of an empty root", a, lj_share(a, 9), LJ_NO_BLOCK);
    CODE("a send", a, lj_send_block(a, 1, 0), LJ_COUNT);
    expect("sent before", said.first, 0);
    CODE("a send of an empty root", a, lj_send_block(a, 1, 9), LJ_NO_BLOCK);
    CODE("a receive", b, lj_recv_block(b, 0), LJ_ROOT);
    expect("its root", said.first, 0);
    expect("its block", said.at, one.at);
    CODE("a receive of nothing", b, lj_recv_block(b, 0), LJ_EMPTY);
    CODE("another one's follow", b, lj_follow(b, 0, 0), LJ_ROOT);
    expect("its block", said.at, two.at);
    CODE("another one's read", b, lj_read(b, 1, 0), LJ_VALUE);
    expect("its number", said.first, 8);
    CODE("a set in another one's block", b, lj_set(b, 0, 0, 1), LJ_NOT_OWN);
    expect("whose it is", said.first, 0);
    CODE("a clear in another one's block", b, lj_clear(b, 0, 0), LJ_NOT_OWN);
    CODE("a clear", a, lj_clear(a, 0, 0), LJ_OK);
    CODE("a second one", a, lj_clear(a, 0, 0), LJ_OK);
    CODE("a clear at an empty root", a, lj_clear(a, 9, 0), LJ_NO_BLOCK);
    CODE("a follow after it", a, lj_follow(a, 0, 0), LJ_NO_BLOCK);
    for (uint64_t n = 1; n < 9; n++) {
        CODE("a send", a, lj_send_block(a, 1, 1), LJ_COUNT);
        expect("sent before", said.first, n);
    }
    CODE("a send to a full queue", a, lj_send_block(a, 1, 1), LJ_QUEUE_FULL);
    CODE("a drain", b, lj_drain(b), LJ_COUNT);
    expect("how many", said.first, 8);
    CODE("a second one", b, lj_drain(b), LJ_COUNT);
    expect("how many", said.first, 0);
    while (RUN(a, lj_share(a, 0)).code == LJ_ROOT) continue;
    expect("a share without an empty root", said.code, LJ_ROOTS_FULL);
    CODE("an allocation without one", a, lj_alloc(a, 0, 0, 0), LJ_ROOTS_FULL);
    CODE("a leaving", a, lj_leave(a), LJ_OK);
    CODE("another one's", b, lj_leave(b), LJ_OK);
    lj_close(a);
    lj_close(b);
    free(pool.words);
}

/* A block of as many references as one can have, 1,023: a root, a slot of a queue, and words of blocks of a chain, whose last word names the block before. */
static void counts(void) {
    memory pool = memory_new(1, 2, 4);
    lj_session *a = memory_open_single(&pool, 0), *b = memory_open_single(&pool, 1);
    lj_said said, block;
    uint32_t references = 1, word = 0;
    CODE("a join", a, lj_join(a), LJ_OK);
    CODE("another one's", b, lj_join(b), LJ_OK);
    block = memory_run(&pool, a, lj_alloc(a, 0, 0, 0));
    expect("the block", block.code, LJ_ROOT);
    CODE("a chain", a, lj_alloc(a, 16, 0, 0), LJ_ROOT);
    while (references < 1022) {
        if (word == 15) {
            CODE("a new block", a, lj_alloc(a, 16, 0, 0), LJ_ROOT);
            expect("its root", said.first, 2);
            CODE("it names the chain", a, lj_set(a, 2, 15, 1), LJ_OK);
            CODE("the chain's root is dropped", a, lj_drop(a, 1), LJ_OK);
            CODE("the new block gets it", a, lj_share(a, 2), LJ_ROOT);
            expect("that root", said.first, 1);
            CODE("and loses its own", a, lj_drop(a, 2), LJ_OK);
            word = 0;
        }
        CODE("a reference", a, lj_set(a, 1, word, 0), LJ_OK);
        references++, word++;
    }
    CODE("the last but one", a, lj_send_block(a, 1, 0), LJ_COUNT);
    CODE("one too many by a share", a, lj_share(a, 0), LJ_COUNT_FULL);
    expect("the block", said.at, block.at);
    expect("its references", said.first, 1023);
    CODE("by a set", a, lj_set(a, 1, word, 0), LJ_COUNT_FULL);
    CODE("by a send", a, lj_send_block(a, 1, 0), LJ_COUNT_FULL);
    CODE("by a receive", b, lj_recv_block(b, 0), LJ_COUNT_FULL);
    CODE("by a follow", a, lj_follow(a, 1, 0), LJ_COUNT_FULL);
    CODE("one is cleared", a, lj_clear(a, 1, 0), LJ_OK);
    CODE("then there is room", b, lj_recv_block(b, 0), LJ_ROOT);
    lj_close(a);
    lj_close(b);
    free(pool.words);
}

/* What nobody may do: somebody else writes the word that says which latch is held, in the midst of a call. Then a call that is given up. */
static void unlatched(void) {
    memory pool = memory_new(1, 2, 2);
    lj_session *s = memory_open_single(&pool, 0);
    lj_said said;
    const uint32_t hold = 1 + 2 * 2, latch = 1 + 3 * 2;
    RUN(s, lj_join(s));
    RUN(s, lj_alloc(s, 1, 0, 0));
    said = lj_set(s, 0, 0, 0);
    while (lj_is_step(said) && !pool.words[latch]) said = lj_tell(s, memory_make(&pool, said));
    expect("the latch is held", pool.words[latch] != 0, 1);
    pool.words[hold] = 0;
    expect("the set without it", memory_run(&pool, s, said).code, LJ_NOT_HELD);
    expect("live still", lj_stage(s).code, LJ_LIVE);
    lj_alloc(s, 0, 0, 0);
    expect("an allocation is given up", lj_fall(s).code, LJ_UNDECIDED);
    expect("dead from then on", lj_stage(s).code, LJ_DEAD);
    lj_close(s);
    free(pool.words);
}

static void limits(void) {
    memory pool = memory_new(1, 1, 1);
    lj_session *s = memory_open_single(&pool, 0);
    lj_said said;
    uint32_t blocks = 0;
    RUN(s, lj_join(s));
    /* (a chain: the new block names the one before, and root 0 the new one) */
    RUN(s, lj_alloc(s, 1, 8, 0));
    while (RUN(s, lj_alloc(s, 1, 8, lj_near(0, 3, 1))).code == LJ_ROOT) {
        blocks++;
        CODE("a set", s, lj_set(s, (uint32_t)said.first, 0, 0), LJ_OK);
        CODE("a drop", s, lj_drop(s, 0), LJ_OK);
        CODE("a share", s, lj_share(s, 1), LJ_ROOT);
        CODE("a drop", s, lj_drop(s, 1), LJ_OK);
    }
    expect("an allocation in a full pool", said.code, LJ_FULL);
    expect("blocks before it, some", blocks > 50, 1);
    CODE("the chain is let go", s, lj_drop(s, 0), LJ_OK);
    CODE("so that there is one", s, lj_alloc(s, 1, 8, 0), LJ_ROOT);
    pool.words[1 + 5] = (1ull << 47) - 2;
    CODE("a share in a spent era", s, lj_share(s, 0), LJ_ERA_SPENT);
    expect("dead from then on", lj_stage(s).code, LJ_DEAD);
    lj_close(s);
    free(pool.words);
}

static uint64_t state;

static uint64_t draw(uint64_t below) {
    state ^= state << 13;
    state ^= state >> 7;
    state ^= state << 17;
    return (state >> 11) % below;
}

/* An operation by chance; some of the numbers are out of range. */
static lj_said begin(lj_session *s, uint32_t clients) {
    uint32_t root = (uint32_t)draw(8), word = (uint32_t)draw(4), other = (uint32_t)draw(clients);
    switch (draw(16)) {
    case 0: case 1: case 2: return lj_alloc(s, (uint32_t)draw(5), (uint32_t)draw(4), draw(2) ? draw(1u << 24) : 0);
    case 3: return lj_share(s, root);
    case 4: return lj_read(s, root, word);
    case 5: case 6: case 7: return lj_set(s, root, word, (uint32_t)draw(8));
    case 8: return lj_clear(s, root, word);
    case 9: case 10: return lj_drop(s, root);
    case 11: return lj_send_block(s, other, root);
    case 12: return lj_recv_block(s, other);
    case 13: return draw(8) ? lj_recv_block(s, other) : lj_drain(s);
    case 14: return draw(20) ? lj_follow(s, root, word) : lj_leave(s);
    default: return lj_follow(s, root, word);
    }
}

/* Identities take turns by word steps; each dies now and then, in recoveries too, and whoever comes next recovers it. */
static uint64_t turns(uint32_t format, uint32_t clients, uint64_t steps, uint64_t *deaths) {
    memory pool = memory_new(format, clients, 2 * clients);
    lj_session *s[16] = { NULL };
    lj_said now[16];
    for (uint64_t n = 0; n < steps; n++) {
        uint32_t who = (uint32_t)draw(clients);
        if (!s[who]) {
            s[who] = memory_open_single(&pool, who);
            now[who] = lj_stage(s[who]).code == LJ_DEAD ? lj_recover(s[who]) : lj_join(s[who]);
        } else if (lj_is_step(now[who])) now[who] = lj_tell(s[who], memory_make(&pool, now[who]));
        else if (lj_stage(s[who]).code == LJ_LIVE) now[who] = begin(s[who], clients);
        else now[who] = lj_join(s[who]);
        if (now[who].code == LJ_NOT_HELD || now[who].code == LJ_IDLE || now[who].code == LJ_WRONG_STAGE) expect("an answer by chance", now[who].code, LJ_OK);
        if (!draw(300)) {
            lj_close(s[who]);
            s[who] = NULL;
            (*deaths)++;
        }
    }
    for (uint32_t who = 0; who < clients; who++) {
        if (s[who]) lj_close(s[who]);
        s[who] = memory_open_single(&pool, who);
        if (lj_stage(s[who]).code == LJ_DEAD) expect("a recovery at the end", memory_run(&pool, s[who], lj_recover(s[who])).code, LJ_OK);
        lj_close(s[who]);
    }
    uint64_t sizes[2] = { pool.clients, pool.segments };
    static int images;
    if (image) {
        char name[4096];
        snprintf(name, sizeof name, "%s.%d", image, images++);
        FILE *to = fopen(name, "wb");
        if (!to || fwrite(format == 1 ? "CXLSHM01" : "CXLSHM02", 8, 1, to) != 1 || fwrite(sizes, 8, 2, to) != 2 || fwrite(pool.words, 8, pool.total, to) != pool.total || fclose(to)) abort();
    }
    free(pool.words);
    return steps;
}

int main(int argc, char **argv) {
    image = argc > 1 ? argv[1] : NULL;
    state = argc > 2 ? strtoull(argv[2], NULL, 10) | 1 : 88172645463325252ull;
    uint64_t steps = 0, deaths = 0;
    refusals();
    answers(1);
    answers(2);
    counts();
    unlatched();
    limits();
    for (uint32_t n = 0; n < 12; n++) steps += turns(1 + n % 2, 1 + n % 5, 100000, &deaths);
    printf("singles: %d of %d are as wanted; %" PRIu64 " turns, %" PRIu64 " deaths\n", tests - bad, tests, steps, deaths);
    return bad != 0;
}
