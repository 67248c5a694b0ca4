/* lojarnek.c: a pool in a mapped file, from the shell. `lojarnek --help` says what it does. */
#include "lojarnek_map.h"
#include <inttypes.h>
#include <limits.h>
#include <signal.h>

#ifdef LJ_FABRIC
int lj_serve(const char *provider, const char *address, uint16_t port, uint32_t format, uint32_t clients, uint32_t segments, const char *image);
#endif

static const char help[] =
    "lojarnek: a pool of tables in a mapped file, which processes share and any of them may be killed in\n"
    "\n"
    "  lojarnek create FILE CLIENTS SEGMENTS [FORMAT]  make a pool; FORMAT is 1 (to 256 segments) or 2 (to 8,000)\n"
    "  lojarnek status FILE                            each identity: who has it, and whether it is to be recovered\n"
    "  lojarnek recover FILE [WHO]                     recover everybody who is dead, or one identity\n"
    "  lojarnek put FILE WHO KEY NUMBER                WHO's KEY gets NUMBER\n"
    "  lojarnek get FILE WHO AUTHOR KEY                the number at AUTHOR's KEY\n"
    "  lojarnek del FILE WHO KEY                       WHO's KEY goes\n"
    "  lojarnek copy FILE WHO KEY AUTHOR OTHER         WHO's KEY gets the value at AUTHOR's key OTHER\n"
    "  lojarnek send FILE WHO TO KEY                   the value at KEY goes into the queue to TO\n"
    "  lojarnek recv FILE WHO FROM KEY                 KEY gets the next value of the queue from FROM\n"
    "  lojarnek list FILE WHO AUTHOR FIRST LAST        AUTHOR's keys from FIRST to LAST, with their numbers\n"
    "  lojarnek image FILE                             the words as an image, for `cxlshm audit`\n"
    "  lojarnek serve PROVIDER ADDRESS PORT CLIENTS SEGMENTS FORMAT [IMAGE]\n"
    "                                                  a memory node by libfabric, until SIGTERM (only if built with it)\n"
    "  lojarnek --help | --version\n"
    "\n"
    "Whoever works as WHO takes that identity for the time of the command, recovers it first where its last holder was\n"
    "killed, and leaves. A command may be followed by `--stop STEP`: the process stops itself before its word step STEP\n"
    "(SIGSTOP), to be killed or continued.\n"
    "\n"
    "Status: 0 done; 1 not done (no such key, a full pool, nobody to recover ..), and standard output says so;\n"
    "2 the words don't fit; 3 the file, or the identity is taken.\n";

static uint64_t stop_at; /* the word step of the command before which the process stops itself; 0 for none */

static int misused(const char *what) {
    fprintf(stderr, "lojarnek: %s\n`lojarnek --help` says what is wanted\n", what);
    return 2;
}

static int failed(const char *what, int error) {
    fprintf(stderr, "lojarnek: %s: %s\n", what, lj_map_text(error));
    return 3;
}

/* A number in decimal, at most `most`. 0, or the status of a misuse. */
static int number(const char *word, uint64_t most, uint64_t *out) {
    char *end, message[160];
    errno = 0;
    *out = strtoull(word, &end, 10);
    if (*word >= '0' && *word <= '9' && !*end && !errno && *out <= most) return 0;
    snprintf(message, sizeof message, "%.60s is no number from 0 to %" PRIu64, word, most);
    return misused(message);
}

static const char *word_of(uint32_t code) {
    switch (code) {
    case LJ_OK: case LJ_STORED: return "ok";
    case LJ_MISSING: return "missing";
    case LJ_FULL: return "full";
    case LJ_COUNT_FULL: return "count full";
    case LJ_QUEUE_FULL: return "queue full";
    case LJ_EMPTY: return "empty";
    case LJ_ROOTS_FULL: return "roots full";
    case LJ_ERA_SPENT: return "era spent";
    default: return "refused";
    }
}

/* Prints what was answered. 0 where it was done. */
static int print(lj_said said) {
    if (said.code == LJ_VALUE) printf("%" PRIu64 "\n", said.first);
    else printf("%s\n", word_of(said.code));
    return said.code != LJ_OK && said.code != LJ_STORED && said.code != LJ_VALUE;
}

static int create(char **words, int count) {
    uint64_t clients, segments, format = 1;
    lj_pool pool;
    int e;
    if (count != 3 && count != 4) return misused("create wants FILE CLIENTS SEGMENTS [FORMAT]");
    if (number(words[1], 16, &clients) || number(words[2], 8000, &segments) || (count == 4 && number(words[3], 2, &format))) return 2;
    e = lj_pool_create(&pool, words[0], (uint32_t)format, (uint32_t)clients, (uint32_t)segments, 0660);
    if (e == LJ_BAD_SIZES) return misused("no pool has such sizes: 1 to 16 clients, 1 to 256 segments, or 1 to 8,000 in format 2");
    if (e) return failed(words[0], e);
    printf("%u words\n", pool.total);
    lj_pool_close(&pool);
    return 0;
}

static int status(lj_pool *pool) {
    printf("format %u, %u clients, %u segments, %u words%s\n", pool->format, pool->clients, pool->segments, pool->total, pool->kind == LJ_FOR_SINGLES ? ", for single blocks" : "");
    for (uint32_t who = 0; who < pool->clients; who++) {
        uint64_t is = lj_status(pool, who);
        int taken = lj_is_taken(pool, who);
        const char *what = is == 1 ? taken ? "live" : "dead, to be recovered" : is == 2 ? taken ? "being recovered" : "dead in its recovery, to be recovered"
            : is == 0 ? "new" : is == 3 ? "gone" : "no status: the words aren't a pool's";
        if (taken < 0) return failed("locks", errno);
        printf("%u: %s%s\n", who, what, taken && (is == 0 || is == 3) ? ", somebody has it" : "");
    }
    return 0;
}

static int recover(lj_pool *pool, uint32_t who) {
    lj_client client;
    int e = lj_attach(&client, pool, who);
    if (e == EAGAIN) return failed("an identity", e);
    if (e) return failed("attach", e);
    int dead = lj_stage(client.session).code == LJ_DEAD, bad = 0;
    if (dead) {
        lj_said said = lj_run(&client, lj_recover(client.session));
        bad = said.code != LJ_OK;
        printf("%u: %s in %" PRIu64 " word steps\n", who, bad ? word_of(said.code) : "recovered", client.steps);
    }
    lj_detach(&client);
    return bad || !dead;
}

static int recover_all(lj_pool *pool) {
    int done = 0, left = 0;
    for (uint32_t who = 0; who < pool->clients; who++) {
        uint64_t is = lj_status(pool, who);
        if ((is != 1 && is != 2) || lj_is_taken(pool, who)) continue;
        if (recover(pool, who)) left++;
        else done++;
    }
    if (!done && !left) printf("nobody is dead\n");
    return left != 0 || !done;
}

/* Runs a command to its answer; stops the process before one of its word steps, where that was asked for. */
static lj_said run(lj_client *client, lj_said said) {
    for (uint64_t step = 1; stop_at && lj_is_step(said); step++) {
        if (step == stop_at) {
            fprintf(stderr, "stopped before word step %" PRIu64 ", process %d\n", step, (int)getpid());
            raise(SIGSTOP);
        }
        said = lj_tell(client->session, lj_make(client->pool, said));
    }
    return stop_at ? said : lj_run(client, said);
}

static int list(lj_client *client, uint32_t author, uint64_t first, uint64_t last) {
    int none = 1;
    for (uint64_t key = first; key <= last; key++) {
        lj_said said = lj_run(client, lj_get(client->session, author, (uint32_t)key));
        if (lj_is_refusal(said)) return misused("the pool has no such identity");
        if (said.code != LJ_VALUE) continue;
        printf("%" PRIu64 " %" PRIu64 "\n", key, said.first);
        none = 0;
    }
    return none;
}

static const struct { const char *name; uint32_t op; int numbers; const char *wants; uint64_t most[3]; } commands[] = {
    { "put", LJ_OP_PUT, 2, "put wants FILE WHO KEY NUMBER", { UINT32_MAX, UINT64_MAX, 0 } },
    { "get", LJ_OP_GET, 2, "get wants FILE WHO AUTHOR KEY", { 15, UINT32_MAX, 0 } },
    { "del", LJ_OP_DEL, 1, "del wants FILE WHO KEY", { UINT32_MAX, 0, 0 } },
    { "copy", LJ_OP_COPY, 3, "copy wants FILE WHO KEY AUTHOR OTHER", { UINT32_MAX, 15, UINT32_MAX } },
    { "send", LJ_OP_SEND, 2, "send wants FILE WHO TO KEY", { 15, UINT32_MAX, 0 } },
    { "recv", LJ_OP_RECV, 2, "recv wants FILE WHO FROM KEY", { 15, UINT32_MAX, 0 } },
    { "list", 0, 3, "list wants FILE WHO AUTHOR FIRST LAST", { 15, UINT32_MAX, UINT32_MAX } },
};

/* Takes the identity, does one command, and leaves. */
static int work(lj_pool *pool, size_t which, char **words) {
    uint64_t who, given[3] = { 0, 0, 0 };
    lj_client client;
    if (pool->kind != LJ_FOR_TABLES) return misused("a pool for single blocks has no tables");
    if (number(words[0], 15, &who)) return 2;
    for (int i = 0; i < commands[which].numbers; i++)
        if (number(words[1 + i], commands[which].most[i], &given[i])) return 2;
    int e = lj_attach(&client, pool, (uint32_t)who), result;
    if (e == EINVAL) return misused("the pool has no such identity");
    if (e) return failed("attach", e);
    lj_said said = lj_client_ready(&client);
    if (said.code != LJ_OK) result = print(said);
    else if (!commands[which].op) result = list(&client, (uint32_t)given[0], given[1], given[2]);
    else {
        said = run(&client, lj_call(client.session, commands[which].op, given[0], given[1], given[2]));
        result = lj_is_refusal(said) ? misused("the pool has no such identity, or it is WHO itself") : print(said);
    }
    lj_run(&client, lj_leave(client.session));
    lj_detach(&client);
    return result;
}

/* A word of the shell over a pool that stands. */
static int over(lj_pool *pool, const char *word, char **words, int count) {
    uint64_t who;
    if (!strcmp(word, "status")) return count ? misused("status wants FILE") : status(pool);
    if (!strcmp(word, "image")) return count ? misused("image wants FILE") : lj_pool_image(pool, stdout) ? failed("standard output", EIO) : 0;
    if (!strcmp(word, "recover") && !count) return recover_all(pool);
    if (!strcmp(word, "recover"))
        return count != 1 ? misused("recover wants FILE [WHO]") : number(words[0], pool->clients - 1, &who) ? 2 : recover(pool, (uint32_t)who);
    for (size_t i = 0; i < sizeof commands / sizeof *commands; i++)
        if (!strcmp(word, commands[i].name)) return count != 1 + commands[i].numbers ? misused(commands[i].wants) : work(pool, i, words);
    return misused("there is no such command");
}

static int serve(char **words, int count) {
#ifdef LJ_FABRIC
    uint64_t port, clients, segments, format;
    if (count != 6 && count != 7) return misused("serve wants PROVIDER ADDRESS PORT CLIENTS SEGMENTS FORMAT [IMAGE]");
    if (number(words[2], 65535, &port) || number(words[3], 16, &clients) || number(words[4], 8000, &segments) || number(words[5], 2, &format)) return 2;
    return lj_serve(words[0], words[1], (uint16_t)port, (uint32_t)format, (uint32_t)clients, (uint32_t)segments, count == 7 ? words[6] : NULL);
#else
    (void)words, (void)count;
    return misused("serve: this program was built without libfabric");
#endif
}

int main(int argc, char **argv) {
    lj_pool pool;
    uint64_t step = 0;
    if (argc == 2 && !strcmp(argv[1], "--help")) return fputs(help, stdout) < 0;
    if (argc == 2 && !strcmp(argv[1], "--version")) return printf("lojarnek %s\n", LJ_VERSION) < 0;
    if (argc > 3 && !strcmp(argv[argc - 2], "--stop")) {
        if (number(argv[argc - 1], UINT64_MAX, &step)) return 2;
        stop_at = step;
        argc -= 2;
    }
    if (argc < 3) return misused("a command and a file are wanted");
    if (!strcmp(argv[1], "create")) return create(argv + 2, argc - 2);
    if (!strcmp(argv[1], "serve")) return serve(argv + 2, argc - 2);
    int e = lj_pool_attach(&pool, argv[2]);
    if (e) return failed(argv[2], e);
    int result = over(&pool, argv[1], argv + 3, argc - 3);
    lj_pool_close(&pool);
    if (fflush(stdout) || ferror(stdout)) return failed("standard output", EIO);
    return result;
}
