/* two.c: two processes on one pool. One is killed in the midst of its work; the other recovers it, and reads its table. */
#include "lojarnek_map.h"
#include <inttypes.h>
#include <signal.h>
#include <sys/wait.h>

/* Identity 1 puts the numbers 0, 1, 2 .. at its keys until it is killed. */
static void child(const char *path) {
    lj_pool pool;
    lj_client me;
    if (lj_pool_attach(&pool, path) || lj_attach(&me, &pool, 1) || lj_client_ready(&me).code != LJ_OK) _exit(1);
    for (uint64_t n = 0;; n++) lj_run(&me, lj_put(me.session, (uint32_t)(n % 16), n));
}

int main(int argc, char **argv) {
    const char *path = argc > 1 ? argv[1] : "/dev/shm/two.pool";
    lj_pool pool;
    lj_client me, other;
    int e = lj_pool_open(&pool, path, 1, 2, 4);
    if (e) return fprintf(stderr, "%s: %s\n", path, lj_map_text(e)), 1;
    pid_t pid = fork(); /* (before an identity is attached) */
    if (!pid) child(path);
    if ((e = lj_attach(&me, &pool, 0))) return fprintf(stderr, "identity 0: %s\n", lj_map_text(e)), 1;
    if (lj_client_ready(&me).code != LJ_OK) return 1;
    while (lj_run(&me, lj_get(me.session, 1, 15)).code != LJ_VALUE) usleep(100);
    kill(pid, SIGKILL);
    waitpid(pid, NULL, 0);
    printf("killed; its status is %" PRIu64 ", so it is dead\n", lj_status(&pool, 1));
    if ((e = lj_attach(&other, &pool, 1))) return fprintf(stderr, "identity 1: %s\n", lj_map_text(e)), 1;
    printf("recovered: %s\n", lj_run(&other, lj_recover(other.session)).code == LJ_OK ? "yes" : "no");
    lj_detach(&other);
    for (uint32_t key = 0; key < 16; key++) {
        lj_said said = lj_run(&me, lj_get(me.session, 1, key));
        if (said.code != LJ_VALUE || said.first % 16 != key) return printf("key %u is wrong\n", key), 1;
    }
    printf("its 16 keys are there\n");
    lj_run(&me, lj_leave(me.session));
    lj_detach(&me);
    lj_pool_close(&pool);
    return 0;
}
