/* bench.c: puts and gets by some processes on one mapped pool, each an identity of its own.
 *
 *   bench FILE [--procs P] [--ops N] [--keys K] [--mode put|get|getother] [--format F]
 */
#include "lojarnek_map.h"
#include <inttypes.h>
#include <sys/wait.h>
#include <time.h>

typedef struct { uint32_t ready, go, bad; double cpu[16], wall[16]; uint64_t steps[16]; } board;
static struct { uint64_t procs, ops, keys, format; const char *mode, *path; } given = { 1, 200000, 16, 1, "put", NULL };

static double now(clockid_t clock) {
    struct timespec t;
    clock_gettime(clock, &t);
    return (double)t.tv_sec + (double)t.tv_nsec / 1e9;
}

static uint64_t operations(lj_client *c, uint32_t author, int put) {
    uint64_t bad = 0;
    for (uint64_t n = 0; n < given.ops; n++) {
        uint32_t key = (uint32_t)(n % given.keys);
        lj_said said = lj_run(c, put ? lj_put(c->session, key, n) : lj_get(c->session, author, key));
        bad += said.code != (put ? LJ_STORED : LJ_VALUE);
    }
    return bad;
}

static void worker(board *all, uint32_t who) {
    lj_pool pool;
    lj_client c;
    if (lj_pool_open(&pool, given.path, (uint32_t)given.format, 8, 16) || lj_attach(&c, &pool, who) || lj_client_ready(&c).code != LJ_OK) _exit(1);
    for (uint32_t key = 0; key < given.keys; key++) lj_run(&c, lj_put(c.session, key, key));
    __atomic_fetch_add(&all->ready, 1, __ATOMIC_SEQ_CST);
    while (!__atomic_load_n(&all->go, __ATOMIC_SEQ_CST)) usleep(100);
    c.steps = 0;
    double wall = now(CLOCK_MONOTONIC), cpu = now(CLOCK_PROCESS_CPUTIME_ID);
    uint32_t author = strcmp(given.mode, "getother") ? who : (who + 1) % (uint32_t)given.procs;
    uint64_t bad = operations(&c, author, !strcmp(given.mode, "put"));
    all->cpu[who] = now(CLOCK_PROCESS_CPUTIME_ID) - cpu;
    all->wall[who] = now(CLOCK_MONOTONIC) - wall;
    all->steps[who] = c.steps;
    lj_run(&c, lj_leave(c.session));
    _exit(bad != 0);
}

int main(int argc, char **argv) {
    if (argc < 2) return 2;
    given.path = argv[1];
    for (int i = 2; i + 1 < argc; i += 2) {
        if (!strcmp(argv[i], "--procs")) given.procs = strtoull(argv[i + 1], NULL, 10);
        else if (!strcmp(argv[i], "--ops")) given.ops = strtoull(argv[i + 1], NULL, 10);
        else if (!strcmp(argv[i], "--keys")) given.keys = strtoull(argv[i + 1], NULL, 10);
        else if (!strcmp(argv[i], "--format")) given.format = strtoull(argv[i + 1], NULL, 10);
        else if (!strcmp(argv[i], "--mode")) given.mode = argv[i + 1];
        else return 2;
    }
    if (!given.procs || given.procs > 8 || !given.keys) return 2;
    board *all = mmap(NULL, sizeof *all, PROT_READ | PROT_WRITE, MAP_SHARED | MAP_ANONYMOUS, -1, 0);
    unlink(given.path);
    for (uint32_t who = 0; who < given.procs; who++) if (!fork()) worker(all, who);
    while (__atomic_load_n(&all->ready, __ATOMIC_SEQ_CST) < given.procs) usleep(1000);
    __atomic_store_n(&all->go, 1, __ATOMIC_SEQ_CST);
    int bad = 0, status;
    while (wait(&status) > 0) bad |= status;
    double cpu = 0, wall = 0, steps = 0, n = (double)(given.ops * given.procs);
    for (uint32_t who = 0; who < given.procs; who++) {
        cpu += all->cpu[who];
        steps += (double)all->steps[who];
        if (all->wall[who] > wall) wall = all->wall[who];
    }
    printf("%-8s %" PRIu64 " processes: %.1f word steps an operation; %.0f thousand a second, %.0f thousand a processor second; %.1f ns a word step%s\n",
           given.mode, given.procs, steps / n, n / wall / 1e3, n / cpu / 1e3, cpu / steps * 1e9, bad ? " WRONG" : "");
    return bad != 0;
}
