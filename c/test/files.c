/* files.c: which files are pools, who gets an identity, and what outlives everybody: files FOLDER. */
#include "lojarnek_map.h"
#include <inttypes.h>
#include <signal.h>
#include <sys/wait.h>
#include <time.h>

static int bad, tests;
static char path[4096], other[5000];

static void expect(const char *what, int64_t is, int64_t wanted) {
    tests++;
    if (is == wanted) return;
    bad++;
    fprintf(stderr, "files: %s is %" PRId64 ", %" PRId64 " is wanted\n", what, is, wanted);
}

static void write_at(off_t at, uint64_t number) {
    int fd = open(path, O_RDWR);
    if (fd < 0 || pwrite(fd, &number, 8, at) != 8) abort();
    close(fd);
}

static void sized(off_t bytes) { if (truncate(path, bytes)) abort(); }

static int attaches(void) {
    lj_pool pool;
    int e = lj_pool_attach(&pool, path);
    if (!e) lj_pool_close(&pool);
    return e;
}

static int creates(uint32_t format, uint32_t clients, uint32_t segments) {
    lj_pool pool;
    int e = lj_pool_create(&pool, path, format, clients, segments, 0600);
    if (!e) lj_pool_close(&pool);
    return e;
}

static void forged(void) {
    struct stat is;
    off_t length = LJ_WORDS_AT + 8 * (off_t)lj_total(1, 2, 3);
    unlink(path);
    expect("a file that isn't there", attaches(), ENOENT);
    expect("sizes that no pool has", creates(1, 2, 257), LJ_BAD_SIZES);
    expect("nothing was made then", stat(path, &is), -1);
    expect("a new pool", creates(1, 2, 3), 0);
    expect("its length", stat(path, &is) ? -1 : is.st_size, length);
    expect("its permissions", is.st_mode & 0777, 0600);
    expect("a second one there", creates(1, 2, 3), EEXIST);
    expect("attached", attaches(), 0);
    static const struct { int at; uint64_t is; int error; } forged[] = {
        { 0, LJ_MARK + 1, LJ_NO_POOL }, { 0, 0, LJ_NO_POOL }, { 0, LJ_MARK_BEGUN, LJ_UNFINISHED }, { 1, 2, LJ_OTHER_VERSION }, { 1, 0, LJ_OTHER_VERSION },
        { 2, 2, LJ_BAD_SIZES }, { 2, 3, LJ_BAD_SIZES }, { 3, 3, LJ_BAD_SIZES }, { 3, 0, LJ_BAD_SIZES }, { 3, 1ull << 32 | 2, LJ_BAD_SIZES }, { 4, 4, LJ_BAD_SIZES },
        { 4, 1ull << 32 | 3, LJ_BAD_SIZES }, { 6, 1, LJ_BAD_SIZES }, { 7, 8192, LJ_BAD_SIZES }, { 8, 2, LJ_BAD_SIZES } };
    uint64_t page[9] = { LJ_MARK, LJ_FILE_VERSION, 1, 2, 3, 1, lj_total(1, 2, 3), LJ_WORDS_AT, LJ_FOR_TABLES };
    for (size_t i = 0; i < sizeof forged / sizeof *forged; i++) {
        write_at(8 * forged[i].at, forged[i].is);
        expect("a forged page", attaches(), forged[i].error);
        write_at(8 * forged[i].at, page[forged[i].at]);
        expect("the page again", attaches(), 0);
    }
    sized(length - 8);
    expect("a file that is too short", attaches(), LJ_BAD_LENGTH);
    sized(length + 8);
    expect("one that is too long", attaches(), LJ_BAD_LENGTH);
    sized(64);
    expect("one that is less than a page", attaches(), LJ_NO_POOL);
    expect("which nothing is made of", creates(1, 2, 3), LJ_NO_POOL);
    sized(0);
    expect("an empty one", attaches(), LJ_UNFINISHED);
    expect("of which a pool is made", creates(1, 2, 3), 0);
    write_at(0, 0x6f6c6c6568ULL);
    expect("another file", creates(1, 2, 3), LJ_NO_POOL);
    uint64_t first = 0;
    int fd = open(path, O_RDONLY);
    expect("read", pread(fd, &first, 8, 0), 8);
    close(fd);
    expect("it is as it was", (int64_t)first, 0x6f6c6c6568LL);
    lj_pool pool;
    expect("a folder", lj_pool_attach(&pool, "/tmp"), EISDIR);
    expect("a device", lj_pool_attach(&pool, "/dev/null"), LJ_NO_POOL);
    unlink(path);
}

static void identities(void) {
    lj_pool pool, again;
    lj_client a, b;
    unlink(path);
    expect("opened, and made", lj_pool_open(&pool, path, 1, 2, 2), 0);
    expect("opened once more", lj_pool_open(&again, path, 1, 2, 2), 0);
    lj_pool_close(&again);
    expect("opened with other sizes", lj_pool_open(&again, path, 1, 2, 3), LJ_OTHER_SIZES);
    expect("nobody has it", lj_is_taken(&pool, 0), 0);
    expect("an identity", lj_attach(&a, &pool, 0), 0);
    expect("somebody has it", lj_is_taken(&pool, 0), 1);
    expect("the same again, in this process", lj_attach(&b, &pool, 0), EAGAIN);
    pid_t child = fork();
    if (!child) {
        /* (of the child's own descriptors: the copies of the parent's are closed) */
        close(a.lock);
        lj_pool_close(&pool);
        _exit(lj_pool_attach(&pool, path) || lj_attach(&b, &pool, 0) != EAGAIN);
    }
    int status;
    waitpid(child, &status, 0);
    expect("the same again, in another one", status, 0);
    expect("an identity that isn't there", lj_attach(&b, &pool, 2), EINVAL);
    expect("ready", (int)lj_client_ready(&a).code, LJ_OK);
    expect("a put", (int)lj_run(&a, lj_put(a.session, 1, 10)).code, LJ_STORED);
    lj_detach(&a);
    expect("nobody has it", lj_is_taken(&pool, 0), 0);
    expect("it is dead", (int64_t)lj_status(&pool, 0), 1);
    expect("recovered", lj_rescue(&pool, UINT32_MAX), 1);
    expect("it is gone", (int64_t)lj_status(&pool, 0), 3);
    expect("recovered once more", lj_rescue(&pool, UINT32_MAX), 0);
    snprintf(other, sizeof other, "%s.other", path);
    rename(path, other);
    expect("another pool at its path", creates(1, 2, 2), 0);
    expect("an identity of the first", lj_attach(&a, &pool, 0), LJ_REPLACED);
    rename(other, path);
    lj_status(&pool, 0);
    pool.words[lj_status_at(1, 2, 2, 1)] = 77;
    expect("an identity whose status is none", lj_attach(&a, &pool, 1), EINVAL);
    expect("and nobody has it", lj_is_taken(&pool, 1), 0);
    expect("synced", lj_pool_sync(&pool), 0);
    lj_pool_close(&pool);
    unlink(path);
}

/* A pool for single blocks is one from its creation on: the file says so to whoever attaches it. */
static void kinds(void) {
    lj_pool pool;
    lj_client c;
    unlink(path);
    expect("a pool for single blocks", lj_pool_create_singles(&pool, path, 1, 2, 2, 0600), 0);
    lj_pool_close(&pool);
    expect("opened for tables", lj_pool_open(&pool, path, 1, 2, 2), LJ_OTHER_KIND);
    expect("opened for single blocks", lj_pool_open_singles(&pool, path, 1, 2, 2), 0);
    lj_pool_close(&pool);
    expect("attached", lj_pool_attach(&pool, path), 0);
    expect("its kind", pool.kind, LJ_FOR_SINGLES);
    expect("an identity", lj_attach(&c, &pool, 1), 0);
    expect("ready", (int)lj_client_ready(&c).code, LJ_OK);
    expect("a put there", (int)lj_run(&c, lj_put(c.session, 1, 10)).code, LJ_OUT_OF_RANGE);
    expect("a block", (int)lj_run(&c, lj_alloc(c.session, 1, 1, 0)).code, LJ_ROOT);
    lj_detach(&c);
    expect("recovered", lj_rescue(&pool, UINT32_MAX), 1);
    lj_pool_close(&pool);
    unlink(path);
    expect("a pool for tables", creates(1, 2, 2), 0);
    expect("opened for single blocks", lj_pool_open_singles(&pool, path, 1, 2, 2), LJ_OTHER_KIND);
    expect("attached", lj_pool_attach(&pool, path), 0);
    expect("its kind", pool.kind, LJ_FOR_TABLES);
    lj_pool_close(&pool);
    unlink(path);
}

/* A child makes a pool and puts until it is killed; everybody is dead then. Whoever comes next opens the file, and has the keys. */
static void everybody_dies(void) {
    for (unsigned n = 0; n < 200; n++) {
        lj_pool pool;
        lj_client c;
        int status, e;
        pid_t child = fork();
        if (!child) {
            if (lj_pool_open(&pool, path, 1, 2, 2) || lj_attach(&c, &pool, n % 2) || lj_client_ready(&c).code != LJ_OK) _exit(1);
            for (uint64_t i = 0;; i++) if (lj_run(&c, lj_put(c.session, (uint32_t)(i % 8), i % 8 + 100)).code != LJ_STORED) _exit(2);
        }
        usleep(n * 37 % 3000);
        kill(child, SIGKILL);
        waitpid(child, &status, 0);
        expect("killed", WIFSIGNALED(status), 1);
        e = lj_pool_open(&pool, path, 1, 2, 2);
        expect("opened after all died", e, 0);
        if (e) continue;
        lj_rescue(&pool, UINT32_MAX);
        expect("an identity", lj_attach(&c, &pool, n % 2), 0);
        expect("ready", (int)lj_client_ready(&c).code, LJ_OK);
        for (uint32_t key = 0; key < 8; key++) {
            lj_said said = lj_run(&c, lj_get(c.session, n % 2, key));
            expect("a key", said.code == LJ_MISSING || (said.code == LJ_VALUE && said.first == key + 100), 1);
        }
        expect("a leaving", (int)lj_run(&c, lj_leave(c.session)).code, LJ_OK);
        lj_detach(&c);
        lj_pool_close(&pool);
        if (n % 3 == 0) unlink(path);
    }
    unlink(path);
}

/* Eight make one pool at once, and some of them are killed in it: it is made once. */
static void made_at_once(void) {
    for (int n = 0; n < 40; n++) {
        pid_t children[8];
        int status;
        unlink(path);
        for (int i = 0; i < 8; i++) if (!(children[i] = fork())) {
            lj_pool pool;
            _exit(lj_pool_open(&pool, path, 2, 3, 20) || pool.words[1 + 5 * 3 + 3] != 1 || pool.total != lj_total(2, 3, 20));
        }
        usleep((unsigned)n * 20);
        for (int i = 0; i < 4; i++) kill(children[i], SIGKILL);
        for (int i = 0; i < 8; i++) {
            waitpid(children[i], &status, 0);
            expect("made at once", status == 0 || (i < 4 && WIFSIGNALED(status)), 1);
        }
        expect("it is there", attaches(), 0);
    }
    unlink(path);
}

int main(int argc, char **argv) {
    snprintf(path, sizeof path, "%s/files.pool", argc > 1 ? argv[1] : "/dev/shm");
    forged();
    identities();
    kinds();
    everybody_dies();
    made_at_once();
    printf("files: %d of %d are as wanted\n", tests - bad, tests);
    return bad != 0;
}
