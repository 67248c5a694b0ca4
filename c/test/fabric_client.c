/* fabric_client.c: clients of a memory node.
 *
 *   fabric_client PROVIDER ADDRESS PORT work WHO SEED     puts and removals, until it is killed
 *   fabric_client PROVIDER ADDRESS PORT zombie WHO        stops itself in the midst of a put, and goes on when it is continued
 *   fabric_client PROVIDER ADDRESS PORT recover WHO       recovers the identity if it is dead, joins, reads its table, leaves
 *   fabric_client PROVIDER ADDRESS PORT bench WHO N       N puts and N gets, and how long a word step takes
 *   fabric_client PROVIDER ADDRESS PORT revoke WHO        has the identity's key closed
 */
#include "lojarnek_fabric.h"
#include <inttypes.h>
#include <signal.h>
#include <time.h>

static double now(void) {
    struct timespec t;
    clock_gettime(CLOCK_MONOTONIC, &t);
    return (double)t.tv_sec * 1e6 + (double)t.tv_nsec / 1e3;
}

static int work(ljf_client *c, uint64_t x) {
    for (x |= 1; !c->error;) {
        x ^= x << 13, x ^= x >> 7, x ^= x << 17;
        ljf_run(c, x % 4 ? lj_put(c->session, x / 16 % 16, x >> 32) : lj_del(c->session, x / 16 % 16));
    }
    return fprintf(stderr, "%u: %s\n", c->who, fi_strerror(c->error)), 8;
}

static int zombie(ljf_client *c) {
    ljf_run(c, lj_put(c->session, 1, 11));
    lj_said said = lj_put(c->session, 1, 22);
    for (int i = 0; i < 20 && lj_is_step(said); i++) said = lj_tell(c->session, ljf_make(c, said));
    printf("%u: 20 word steps into a put, it stops\n", c->who);
    fflush(stdout);
    raise(SIGSTOP);
    while (lj_is_step(said) && !c->error) said = lj_tell(c->session, ljf_make(c, said));
    printf("%u: continued: %s\n", c->who, c->error ? fi_strerror(c->error) : "THE FENCE DIDN'T HOLD");
    return c->error ? 0 : 9;
}

static int reads(ljf_client *c) {
    for (uint32_t key = 0; key < 16; key++) {
        lj_said said = ljf_run(c, lj_get(c->session, c->who, key));
        if (said.code == LJ_VALUE) printf("%u: key %u is %" PRIu64 "\n", c->who, key, said.first);
    }
    return ljf_run(c, lj_leave(c->session)).code != LJ_OK;
}

static int bench(ljf_client *c, int n) {
    double from = now();
    uint64_t steps = c->steps;
    for (int i = 0; i < n; i++) if (ljf_run(c, lj_put(c->session, (uint32_t)i % 16, (uint64_t)i)).code != LJ_STORED) return 6;
    for (int i = 0; i < n; i++) if (ljf_run(c, lj_get(c->session, c->who, (uint32_t)i % 16)).code != LJ_VALUE) return 7;
    steps = c->steps - steps;
    printf("%" PRIu64 " word steps, %.1f us each\n", steps, (now() - from) / (double)steps);
    return ljf_run(c, lj_leave(c->session)).code != LJ_OK;
}

int main(int argc, char **argv) {
    if (argc < 6) return 2;
    const char *what = argv[4];
    uint32_t who = (uint32_t)atoi(argv[5]);
    uint16_t port = (uint16_t)atoi(argv[3]);
    ljf_client c;
    if (!strcmp(what, "revoke")) {
        ljf_grant grant;
        int control = ljf_control(argv[2], port);
        return control < 0 || ljf_ask(control, LJF_REVOKE, who, &grant) || grant.code;
    }
    int e, tries = 0;
    while ((e = ljf_attach(&c, argv[1], argv[2], port, who, 0)) == EAGAIN && tries++ < 400) usleep(5000);
    if (e) return fprintf(stderr, "attach %u: %s\n", who, fi_strerror(e)), 3;
    if (lj_stage(c.session).code == LJ_DEAD) {
        lj_said said = ljf_run(&c, lj_recover(c.session));
        printf("%u: was dead, %s in %" PRIu64 " word steps\n", who, said.code == LJ_OK ? "recovered" : "NOT RECOVERED", c.steps);
        if (said.code != LJ_OK) return 4;
    }
    if (ljf_run(&c, lj_join(c.session)).code != LJ_OK) return 5;
    e = !strcmp(what, "work") ? work(&c, strtoull(argv[6], NULL, 10)) : !strcmp(what, "zombie") ? zombie(&c) : !strcmp(what, "bench") ? bench(&c, atoi(argv[6])) : reads(&c);
    ljf_detach(&c);
    return e;
}
