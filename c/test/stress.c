/* stress.c: processes that work on one mapped pool, and die by SIGKILL at any moment. `stress --help` says how.
 *
 * A worker takes any identity that nobody has; where it is dead it recovers it; then it joins, makes commands, and sometimes leaves. The parent kills a
 * random worker each 0..gap microseconds and starts another one; or, with --fuse, workers kill themselves, each before a word step whose number is drawn
 * (of a join, a command, a leaving or a recovery alike). After each epoch all workers are killed, all identities recovered, and the pool's words written as
 * an image, for an audit by another program.
 *
 * Beside that each identity's map is followed in memory that isn't the pool's: before a command its author writes down what it intends, and after the
 * answer that it is done. Whoever works next for the identity reads the key that was intended at the death: it has to be as before or as intended.
 * Numbers carry a check of their own, so that a number from nowhere is noticed. */
#define _GNU_SOURCE
#include <stdint.h>
static void rescued(void);
#define LJ_PATIENCE 256
#if LJ_SABOTAGE /* those are in word steps that this side makes itself */
static void before_step(void *client, const void *said);
#define LJ_BEFORE_STEP(client, said) before_step(client, &(said))
#else
static uint64_t at_once(void);
static void made(uint64_t steps);
#define LJ_AT_ONCE(client) at_once()
#define LJ_MADE(client, steps) made(steps)
#endif
#define LJ_RESCUED(who) rescued()
#include "lojarnek_map.h"
#include <inttypes.h>
#include <signal.h>
#include <sys/wait.h>
#include <time.h>

enum { MOST_KEYS = 64, MOST_WORKERS = 64 };
enum { IDLE, JOIN, COMMAND, LEAVE, RECOVERY, CHECKS, KINDS };
enum { NOTHING, PUT, DEL, TAKEN }; /* what a command intends: TAKEN is a copy or a receive, of a number that its author doesn't know before */

/* what an identity's map has to be */
typedef struct {
    uint64_t number[MOST_KEYS];
    uint8_t has[MOST_KEYS];
    uint32_t pending, key;
    uint64_t want;
} shadow;

/* what all processes count together */
typedef struct {
    uint64_t commands, steps, joins, leaves, recoveries_begun, recoveries_done, wrong, checked, decided, undone, rescues, kills[KINDS];
    shadow of[16];
    uint32_t doing[MOST_WORKERS + 1];
    uint32_t stop;
} board;

static struct { uint64_t format, clients, segments, workers, kills, epoch, gap, fuse, keys, seed; const char *path, *image; } given =
    { 1, 8, 16, 4, 1000, 500, 2000, 0, 24, 1, NULL, NULL };
static lj_pool pool;
static board *all;
static uint32_t slot = MOST_WORKERS;
static uint64_t state = 1, fuse;

#define ADD(x, n) __atomic_fetch_add(&all->x, (uint64_t)(n), __ATOMIC_RELAXED)

static uint64_t drawn(void) {
    state ^= state << 13;
    state ^= state >> 7;
    state ^= state << 17;
    return state;
}
static uint32_t below(uint64_t most) { return (uint32_t)(drawn() % most); }
static uint64_t mix(uint64_t x) {
    x *= 0x9e3779b97f4a7c15ULL;
    return (x ^ (x >> 29)) * 0xbf58476d1ce4e5b9ULL;
}
static uint64_t number(uint32_t low) { return low | (mix(low) & 0xffffffff00000000ULL); }
static int is_number(uint64_t n) { return n == number((uint32_t)n); }

#if LJ_SABOTAGE
static void before_step(void *client, const void *said) {
    if (!fuse || --fuse) return;
#if LJ_SABOTAGE == 3 /* the last word step of who died is made later, as one that was sent before may be */
    lj_client *dying = client;
    if (!fork()) {
        close(dying->lock);
        usleep(2000);
        lj_make(dying->pool, *(const lj_said *)said);
        _exit(0);
    }
#else
    (void)client, (void)said;
#endif
    kill(getpid(), SIGKILL);
}
#else
/* How many word steps are made at once: no more than this process lives for, and mostly some. */
static uint64_t at_once(void) {
    if (fuse == 1) kill(getpid(), SIGKILL);
    uint64_t most = 1 + drawn() % LJ_PATIENCE;
    return fuse && fuse - 1 < most ? fuse - 1 : most;
}
static void made(uint64_t steps) {
    if (fuse) fuse -= steps;
}
#endif
static void rescued(void) { ADD(rescues, 1); }
static void doing(uint32_t what) { __atomic_store_n(&all->doing[slot], what, __ATOMIC_SEQ_CST); }
static int over(void) { return (int)__atomic_load_n(&all->stop, __ATOMIC_RELAXED); }

static void wrong(const char *why, uint32_t who, uint32_t key, lj_said said) {
    ADD(wrong, 1);
    fprintf(stderr, "WRONG %s: identity %u key %u code %u number %" PRIx64 "\n", why, who, key, said.code, said.first);
}

static lj_said run(lj_client *c, lj_said said) {
    uint64_t before = c->steps;
    said = lj_run(c, said);
    ADD(steps, c->steps - before);
    ADD(commands, 1);
    if (!lj_is_answer(said)) wrong("no answer", c->who, 0, said);
    return said;
}

/* A join, a leaving or a recovery, which has to be done. */
static void quiet(lj_client *c, uint32_t what, lj_said first) {
    doing(what);
    uint64_t before = c->steps;
    lj_said said = lj_run(c, first);
    ADD(steps, c->steps - before);
    if (said.code != LJ_OK) wrong(what == JOIN ? "join" : what == LEAVE ? "leave" : "recovery", c->who, 0, said);
}

/* An own key is as the shadow says, or as was intended at the death. */
static void check_key(lj_client *c, uint32_t key) {
    shadow *h = &all->of[c->who];
    lj_said said = run(c, lj_get(c->session, c->who, key));
    int has = said.code == LJ_VALUE, as_before = has == h->has[key] && (!has || said.first == h->number[key]);
    ADD(checked, 1);
    if (!has && said.code != LJ_MISSING) wrong("get", c->who, key, said);
    else if (h->pending && h->key == key) {
        int as_wanted = h->pending == PUT ? has && said.first == h->want : h->pending == DEL ? !has : has && is_number(said.first);
        if (!as_before && !as_wanted) wrong("after a death", c->who, key, said);
        if (as_wanted && !as_before) ADD(decided, 1);
        else ADD(undone, 1);
        h->has[key] = (uint8_t)has;
        h->number[key] = said.first;
        h->pending = NOTHING;
    } else if (!as_before) wrong("map", c->who, key, said);
}

static void intend(shadow *h, uint32_t kind, uint32_t key, uint64_t want) {
    h->key = key;
    h->want = want;
    __atomic_store_n(&h->pending, kind, __ATOMIC_SEQ_CST);
}
static void has_now(shadow *h, uint32_t key, uint64_t n) {
    h->number[key] = n;
    h->has[key] = 1;
}

static void put(lj_client *c, shadow *h, uint32_t key) {
    uint64_t n = number((uint32_t)drawn());
    intend(h, PUT, key, n);
    if (run(c, lj_put(c->session, key, n)).code == LJ_STORED) has_now(h, key, n);
}
static void del(lj_client *c, shadow *h, uint32_t key) {
    intend(h, DEL, key, 0);
    lj_said said = run(c, lj_del(c->session, key));
    if (said.code != LJ_OK && said.code != LJ_MISSING) return;
    if ((said.code == LJ_OK) != h->has[key]) wrong("del", c->who, key, said);
    h->has[key] = 0;
}
static void take(lj_client *c, shadow *h, uint32_t key, lj_said first) {
    intend(h, TAKEN, key, 0);
    lj_said said = run(c, first);
    if (said.code != LJ_VALUE) return;
    if (!is_number(said.first)) wrong("copy or receive", c->who, key, said);
    has_now(h, key, said.first);
}
static void get(lj_client *c, shadow *h, uint32_t author, uint32_t key) {
    lj_said said = run(c, lj_get(c->session, author, key));
    if (said.code == LJ_VALUE && !is_number(said.first)) wrong("get of another", author, key, said);
    if (author == c->who && (said.code == LJ_VALUE) != h->has[key]) wrong("own get", author, key, said);
}

static void one(lj_client *c) {
    shadow *h = &all->of[c->who];
    uint32_t key = below(given.keys), other = below(given.clients), key2 = below(given.keys), what = below(16);
    if (what < 5) put(c, h, key);
    else if (what < 7) del(c, h, key);
    else if (what < 9) take(c, h, key, lj_copy(c->session, key, other, key2));
    else if (what < 11 && other != c->who) run(c, lj_send_key(c->session, other, key));
    else if (what < 14 && other != c->who) take(c, h, key, lj_recv_key(c->session, other, key));
    else get(c, h, other, key);
    __atomic_store_n(&h->pending, NOTHING, __ATOMIC_SEQ_CST);
}

static void recover(lj_client *c) {
    if (lj_stage(c->session).code != LJ_DEAD) return;
    ADD(recoveries_begun, 1);
    quiet(c, RECOVERY, lj_recover(c->session));
    ADD(recoveries_done, 1);
}

/* Works for an identity, if nobody has it. */
static int serve(uint32_t who) {
    lj_client c;
    if (lj_attach(&c, &pool, who)) return 0;
    recover(&c);
    quiet(&c, JOIN, lj_join(c.session));
    ADD(joins, 1);
    doing(CHECKS);
    if (all->of[who].pending) check_key(&c, all->of[who].key);
    if (below(8) == 0) for (uint32_t key = 0; key < given.keys; key++) check_key(&c, key);
    doing(COMMAND);
    for (uint32_t n = below(3000); n && !over(); n--) one(&c);
    quiet(&c, LEAVE, lj_leave(c.session));
    ADD(leaves, 1);
    doing(IDLE);
    lj_detach(&c);
    return 1;
}

static pid_t begin(uint32_t at, uint64_t seed) {
    pid_t pid = fork();
    if (pid) return pid;
    slot = at;
    state = seed | 1;
    for (int i = 0; i < 8; i++) drawn();
    fuse = given.fuse ? 1 + drawn() % given.fuse : 0;
    lj_pool_close(&pool);
    if (lj_pool_attach(&pool, given.path)) _exit(9);
    while (!over()) if (!serve(below(given.clients))) usleep(20);
    _exit(0);
}

/* Nobody works: all are recovered, each map is looked at, all leave, and the image is written. */
static void rest(uint64_t n) {
    slot = MOST_WORKERS;
    for (uint32_t who = 0; who < given.clients; who++) {
        lj_client c;
        int e = lj_attach(&c, &pool, who);
        if (e) {
            ADD(wrong, 1);
            fprintf(stderr, "WRONG at rest: identity %u: %s\n", who, lj_map_text(e));
            continue;
        }
        recover(&c);
        quiet(&c, JOIN, lj_join(c.session));
        for (uint32_t key = 0; key < given.keys; key++) check_key(&c, key);
        quiet(&c, LEAVE, lj_leave(c.session));
        lj_detach(&c);
    }
    if (!given.image) return;
    char name[4096];
    snprintf(name, sizeof name, "%s.%06" PRIu64, given.image, n);
    FILE *to = fopen(name, "wb");
    if (!to || lj_pool_image(&pool, to) || fclose(to)) ADD(wrong, 1);
}

/* A death of a worker that is awaited: of whom, or that one is chosen and killed. */
static uint32_t death(const pid_t *workers) {
    int status;
    uint32_t at = 0;
    if (given.fuse) {
        pid_t pid = waitpid(-1, &status, 0);
        while (at < given.workers && workers[at] != pid) at++;
    } else {
        at = below(given.workers);
        usleep(below(given.gap + 1));
        kill(workers[at], SIGKILL);
        waitpid(workers[at], &status, 0);
    }
    if (!WIFSIGNALED(status) || WTERMSIG(status) != SIGKILL) {
        ADD(wrong, 1);
        fprintf(stderr, "WRONG: a worker ended by itself, status %x\n", status);
    }
    return at % MOST_WORKERS;
}

/* Kills up to so many workers in all, from the nth on; then all of them. */
static void epoch(uint64_t n, uint64_t to) {
    pid_t workers[MOST_WORKERS];
    for (uint32_t at = 0; at < given.workers; at++) workers[at] = begin(at, mix(given.seed * 1000003 + n * 64 + at));
    for (; n < to; n++) {
        uint32_t at = death(workers);
        all->kills[all->doing[at] % KINDS]++;
        all->doing[at] = IDLE;
        workers[at] = begin(at, mix(given.seed * 1000003 + (n + 1) * 64 + at));
    }
    for (uint32_t at = 0; at < given.workers; at++) {
        kill(workers[at], SIGKILL);
        waitpid(workers[at], NULL, 0);
        all->doing[at] = IDLE;
    }
}

static int told(uint64_t images, double seconds) {
    uint64_t *k = all->kills;
    printf("%" PRIu64 " kills: idle %" PRIu64 ", in a join %" PRIu64 ", a command %" PRIu64 ", a leaving %" PRIu64 ", a recovery %" PRIu64 ", checks %" PRIu64 "\n",
           given.kills, k[IDLE], k[JOIN], k[COMMAND], k[LEAVE], k[RECOVERY], k[CHECKS]);
    printf("%" PRIu64 " joins, %" PRIu64 " leavings, %" PRIu64 " recoveries begun, %" PRIu64 " done, and %" PRIu64 " of who held a latch\n", all->joins, all->leaves,
           all->recoveries_begun, all->recoveries_done, all->rescues);
    printf("%" PRIu64 " commands, %" PRIu64 " word steps, %" PRIu64 " images, %.1f seconds\n", all->commands, all->steps, images, seconds);
    printf("%" PRIu64 " keys looked at; of commands that a death cut %" PRIu64 " were done, %" PRIu64 " weren't; %" PRIu64 " wrong\n", all->checked, all->decided, all->undone, all->wrong);
    return all->wrong != 0;
}

static int options(int argc, char **argv) {
    static const struct { const char *name; uint64_t *at, most; } words[] = {
        { "--format", &given.format, 2 }, { "--clients", &given.clients, 16 }, { "--segments", &given.segments, 8000 }, { "--workers", &given.workers, MOST_WORKERS },
        { "--kills", &given.kills, UINT64_MAX }, { "--epoch", &given.epoch, UINT64_MAX }, { "--gap", &given.gap, 1000000 }, { "--fuse", &given.fuse, UINT64_MAX },
        { "--keys", &given.keys, MOST_KEYS }, { "--seed", &given.seed, UINT64_MAX } };
    given.path = argv[1];
    for (int i = 2; i + 1 < argc; i += 2) {
        size_t w = 0;
        if (!strcmp(argv[i], "--image")) {
            given.image = argv[i + 1];
            continue;
        }
        while (w < sizeof words / sizeof *words && strcmp(words[w].name, argv[i])) w++;
        if (w == sizeof words / sizeof *words) return 0;
        *words[w].at = strtoull(argv[i + 1], NULL, 10);
        if (*words[w].at > words[w].most || (words[w].at != &given.fuse && !*words[w].at)) return 0;
    }
    return argc % 2 == 0;
}

int main(int argc, char **argv) {
    if (argc < 2 || !strcmp(argv[1], "--help") || !options(argc, argv)) {
        fprintf(stderr, "stress FILE [--format F] [--clients N] [--segments G] [--workers W] [--kills K] [--epoch E] [--gap US | --fuse STEPS] [--keys N] [--seed S] [--image PREFIX]\n");
        return 2;
    }
    state = given.seed | 1;
    all = mmap(NULL, sizeof *all, PROT_READ | PROT_WRITE, MAP_SHARED | MAP_ANONYMOUS, -1, 0);
    int e = lj_pool_open(&pool, given.path, (uint32_t)given.format, (uint32_t)given.clients, (uint32_t)given.segments);
    if (e || all == MAP_FAILED) return fprintf(stderr, "stress: %s\n", lj_map_text(e)), 3;
    struct timespec from, to;
    uint64_t images = 0;
    clock_gettime(CLOCK_MONOTONIC, &from);
    for (uint64_t n = 0; n < given.kills; n += given.epoch) {
        epoch(n, n + given.epoch < given.kills ? n + given.epoch : given.kills);
        rest(++images);
    }
    clock_gettime(CLOCK_MONOTONIC, &to);
    lj_pool_close(&pool);
    return told(images, (double)(to.tv_sec - from.tv_sec) + (double)(to.tv_nsec - from.tv_nsec) / 1e9);
}
