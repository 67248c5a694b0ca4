/* blocks.c: two processes on one pool for single blocks. One makes a list, and sends each new head of it, until it is killed; the other recovers it, and
 * walks the list. */
#include "lojarnek_map.h"
#include <inttypes.h>
#include <signal.h>
#include <sys/wait.h>

/* Identity 1 makes blocks of a plain word, 0, 1, 2 .., and a reference word that names the block before. Its newest one is at a root, and goes to identity 0. */
static void child(const char *path) {
    lj_pool pool;
    lj_client me;
    if (lj_pool_attach(&pool, path) || lj_attach(&me, &pool, 1) || lj_client_ready(&me).code != LJ_OK) _exit(1);
    lj_said last = { 0 };
    for (uint64_t n = 0;; n++) {
        lj_word(me.session, 0, n);
        lj_said made = lj_run(&me, lj_alloc(me.session, 1, 1, 0));
        if (made.code != LJ_ROOT) _exit(1);
        if (n) lj_run(&me, lj_set(me.session, (uint32_t)made.first, 0, (uint32_t)last.first));
        if (n) lj_run(&me, lj_drop(me.session, (uint32_t)last.first));
        while (lj_run(&me, lj_send_block(me.session, 0, (uint32_t)made.first)).code == LJ_QUEUE_FULL) usleep(100);
        last = made;
    }
}

/* The plain word of the block that a root names. */
static uint64_t number(lj_client *me, lj_said root) { return lj_run(me, lj_read(me->session, (uint32_t)root.first, 0)).first; }

int main(int argc, char **argv) {
    const char *path = argc > 1 ? argv[1] : "/dev/shm/blocks.pool";
    lj_pool pool;
    lj_client me;
    lj_said block, next;
    int e = lj_pool_open_singles(&pool, path, 1, 2, 4);
    if (e) return fprintf(stderr, "%s: %s\n", path, lj_map_text(e)), 1;
    pid_t pid = fork(); /* (before an identity is attached) */
    if (!pid) child(path);
    if ((e = lj_attach(&me, &pool, 0))) return fprintf(stderr, "identity 0: %s\n", lj_map_text(e)), 1;
    if (lj_client_ready(&me).code != LJ_OK) return 1;
    for (;;) {
        block = lj_run(&me, lj_recv_block(me.session, 1));
        if (block.code == LJ_ROOT && number(&me, block) == 100) break;
        if (block.code == LJ_ROOT) lj_run(&me, lj_drop(me.session, (uint32_t)block.first));
        else usleep(100);
    }
    kill(pid, SIGKILL);
    waitpid(pid, NULL, 0);
    printf("killed, and recovered: %" PRIu32 "\n", lj_rescue(&pool, 0));
    for (uint64_t n = 100; n; n--, block = next) {
        next = lj_run(&me, lj_follow(me.session, (uint32_t)block.first, 0));
        lj_run(&me, lj_drop(me.session, (uint32_t)block.first));
        if (next.code != LJ_ROOT || number(&me, next) != n - 1) return printf("block %" PRIu64 " is wrong\n", n - 1), 1;
    }
    printf("its 101 blocks are there\n");
    lj_run(&me, lj_leave(me.session));
    lj_detach(&me);
    lj_pool_close(&pool);
    return 0;
}
