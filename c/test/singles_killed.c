/* singles_killed.c: processes that work with single blocks in a mapped pool, each killed by itself before a word step that is drawn, in recoveries too.
 *
 *   singles_killed FILE IMAGE [KILLS [SEED]]      images are written as IMAGE.0, IMAGE.1 ..
 */
static void fuse(void);
#define LJ_BEFORE_STEP(client, said) fuse()
#include "lojarnek_map.h"
#include <inttypes.h>
#include <signal.h>
#include <sys/wait.h>

enum { CLIENTS = 5, SEGMENTS = 10, WORKERS = 4 };
typedef struct { uint64_t commands, recoveries, rescues, wrong; } board;
static board *all;
static uint64_t state, left;

static void fuse(void) {
    if (!left--) kill(getpid(), SIGKILL);
}

static uint64_t draw(uint64_t below) {
    state ^= state << 13;
    state ^= state >> 7;
    state ^= state << 17;
    return (state >> 11) % below;
}

static void count(uint64_t *number) { __atomic_fetch_add(number, 1, __ATOMIC_SEQ_CST); }

/* An operation by chance; `check` is a plain word that tells the one beside it. */
static void work(lj_client *c) {
    lj_session *s = c->session;
    uint32_t root = (uint32_t)draw(10), word = (uint32_t)draw(3), other = (c->who + 1 + (uint32_t)draw(CLIENTS - 1)) % CLIENTS;
    uint64_t number = draw(UINT32_MAX);
    lj_said said;
    switch (draw(14)) {
    case 0: case 1: case 2:
        lj_word(s, 0, number);
        lj_word(s, 1, ~number);
        said = lj_alloc(s, 3, 2, draw(2) ? draw(1u << 24) : 0);
        break;
    case 3: said = lj_share(s, root); break;
    case 4: case 5: said = lj_set(s, root, word, (uint32_t)draw(10)); break;
    case 6: said = lj_clear(s, root, word); break;
    case 7: case 8: said = lj_drop(s, root); break;
    case 9: said = lj_send_block(s, other, root); break;
    case 10: said = lj_recv_block(s, other); break;
    case 11: said = draw(20) ? lj_follow(s, root, word) : lj_drain(s); break;
    default: said = lj_follow(s, root, word);
    }
    said = lj_run(c, said);
    if (!lj_is_answer(said) || said.code == LJ_NOT_HELD || said.code == LJ_ERA_SPENT) count(&all->wrong);
    if (said.code == LJ_ROOT) {
        lj_said one = lj_run(c, lj_read(s, (uint32_t)said.first, 0)), two = lj_run(c, lj_read(s, (uint32_t)said.first, 1));
        if (one.code != LJ_VALUE || two.code != LJ_VALUE || one.at != said.at || one.first != ~two.first) count(&all->wrong);
    }
    count(&all->commands);
}

static void worker(const char *path, uint64_t seed) {
    lj_pool pool;
    state = seed | 1;
    for (int n = 0; n < 9; n++) draw(2);
    left = draw(4000);
    if (lj_pool_open_singles(&pool, path, 1, CLIENTS, SEGMENTS)) _exit(1);
    for (;;) {
        lj_client c;
        if (lj_attach(&c, &pool, (uint32_t)draw(CLIENTS))) continue;
        int dead = lj_stage(c.session).code == LJ_DEAD;
        if (lj_client_ready(&c).code != LJ_OK) count(&all->wrong);
        if (dead) count(&all->recoveries);
        for (uint64_t n = draw(60); n; n--) work(&c);
        if (!draw(4)) lj_run(&c, lj_leave(c.session));
        lj_detach(&c);
    }
}

int main(int argc, char **argv) {
    if (argc < 3) return 2;
    uint64_t kills = argc > 3 ? strtoull(argv[3], NULL, 10) : 1000, seed = argc > 4 ? strtoull(argv[4], NULL, 10) : 7, images = 0, each = kills < 10 ? 1 : kills / 10;
    all = mmap(NULL, sizeof *all, PROT_READ | PROT_WRITE, MAP_SHARED | MAP_ANONYMOUS, -1, 0);
    unlink(argv[1]);
    for (uint64_t n = 0; n < kills;) {
        /* (as many deaths as an image takes; the last workers are killed by their parent) */
        pid_t now[WORKERS];
        for (int i = 0; i < WORKERS; i++) if (!(now[i] = fork())) worker(argv[1], seed + 1000003 * (n + (uint64_t)i));
        for (uint64_t k = 0; k < each; k++, n++) {
            int status;
            pid_t gone = wait(&status);
            if (!WIFSIGNALED(status)) all->wrong++;
            for (int i = 0; i < WORKERS; i++) if (now[i] == gone && !(now[i] = fork())) worker(argv[1], seed + 1000003 * (n + 7919) + (uint64_t)i);
        }
        for (int i = 0; i < WORKERS; i++) kill(now[i], SIGKILL);
        while (wait(NULL) > 0) n++;
        lj_pool pool;
        char name[4096];
        left = UINT64_MAX;
        if (lj_pool_attach(&pool, argv[1]) || pool.kind != LJ_FOR_SINGLES) return 1;
        lj_rescue(&pool, UINT32_MAX);
        snprintf(name, sizeof name, "%s.%" PRIu64, argv[2], images++);
        FILE *to = fopen(name, "wb");
        if (!to || lj_pool_image(&pool, to) || fclose(to)) return 1;
        lj_pool_close(&pool);
    }
    printf("singles: %" PRIu64 " deaths, %" PRIu64 " operations, %" PRIu64 " recoveries, %" PRIu64 " wrong, %" PRIu64 " images\n", kills, all->commands, all->recoveries, all->wrong, images);
    return all->wrong != 0;
}
