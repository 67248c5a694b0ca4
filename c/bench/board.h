/* board.h: processes that make the same operations at once, for the benches of this folder: what test/bench.c measures of a pool is measured here of
 * something else, in the same words. */
#ifndef BOARD_H
#define BOARD_H
#ifndef _GNU_SOURCE
#define _GNU_SOURCE
#endif
#include <inttypes.h>
#include <stdint.h>
#include <stdio.h>
#include <stdlib.h>
#include <string.h>
#include <sys/mman.h>
#include <sys/wait.h>
#include <time.h>
#include <unistd.h>

typedef struct { uint32_t ready, go; double cpu[16], wall[16]; } board;
typedef struct { uint64_t procs, ops, keys; int put; const char *path; } options;

static double now(clockid_t clock) {
    struct timespec t;
    clock_gettime(clock, &t);
    return (double)t.tv_sec + (double)t.tv_nsec / 1e9;
}

static int options_of(options *given, int argc, char **argv) {
    if (argc < 2) return 0;
    given->procs = 1;
    given->ops = 200000;
    given->keys = 16;
    given->put = 1;
    given->path = argv[1];
    for (int i = 2; i + 1 < argc; i += 2) {
        if (!strcmp(argv[i], "--procs")) given->procs = strtoull(argv[i + 1], NULL, 10);
        else if (!strcmp(argv[i], "--ops")) given->ops = strtoull(argv[i + 1], NULL, 10);
        else if (!strcmp(argv[i], "--keys")) given->keys = strtoull(argv[i + 1], NULL, 10);
        else if (!strcmp(argv[i], "--mode")) given->put = !strcmp(argv[i + 1], "put");
        else return 0;
    }
    return given->procs > 0 && given->procs <= 16 && given->keys > 0;
}

/* A worker has opened what it works on, and waits for the others; then it begins. */
static void ready(board *all) {
    __atomic_fetch_add(&all->ready, 1, __ATOMIC_SEQ_CST);
    while (!__atomic_load_n(&all->go, __ATOMIC_SEQ_CST)) usleep(100);
}

/* Runs `worker` in each process; it answers how many of its operations went wrong. */
static int measure(const char *name, options given, uint64_t (*worker)(board *all, options given, uint32_t who, double *wall, double *cpu)) {
    board *all = (board *)mmap(NULL, sizeof *all, PROT_READ | PROT_WRITE, MAP_SHARED | MAP_ANONYMOUS, -1, 0);
    for (uint32_t who = 0; who < given.procs; who++) {
        if (!fork()) {
            double wall = 0, cpu = 0;
            uint64_t bad = worker(all, given, who, &wall, &cpu);
            all->wall[who] = now(CLOCK_MONOTONIC) - wall;
            all->cpu[who] = now(CLOCK_PROCESS_CPUTIME_ID) - cpu;
            _exit(bad != 0);
        }
    }
    while (__atomic_load_n(&all->ready, __ATOMIC_SEQ_CST) < given.procs) usleep(1000);
    __atomic_store_n(&all->go, 1, __ATOMIC_SEQ_CST);
    int bad = 0, status;
    while (wait(&status) > 0) bad |= status;
    double cpu = 0, wall = 0, n = (double)(given.ops * given.procs);
    for (uint32_t who = 0; who < given.procs; who++) {
        cpu += all->cpu[who];
        if (all->wall[who] > wall) wall = all->wall[who];
    }
    printf("%s %s %" PRIu64 " processes: %.0f thousand a second, %.0f thousand a processor second%s\n",
           name, given.put ? "put" : "get", given.procs, n / wall / 1e3, n / cpu / 1e3, bad ? " WRONG" : "");
    return bad != 0;
}
#endif
