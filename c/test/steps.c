/* steps.c: sessions beside recorded word steps of an independent implementation: steps < steps.vectors, steps < singles.vectors. With an argument, steps by-itself < .., the library makes
 * each word step itself. */
#include "memory.h"

typedef struct { lj_session *session; lj_said said; uint64_t sum; unsigned made; } seat;

static memory pool;
static seat seats[16];
static int single; /* whether the pool is for single blocks */
static int by_itself;
static unsigned line, operations, deaths;
static unsigned long steps;

static void wrong(const char *what, uint64_t is, uint64_t wanted) {
    fprintf(stderr, "line %u: %s is %" PRIx64 ", %" PRIx64 " is wanted\n", line, what, is, wanted);
    exit(1);
}

static void want(const char *what, uint64_t is, uint64_t wanted) { if (is != wanted) wrong(what, is, wanted); }

static uint64_t mixed(uint64_t sum, uint64_t number) {
    sum = (sum ^ number) * 0x100000001b3;
    return sum ^ sum >> 29;
}

static uint64_t sum_of_words(void) {
    uint64_t sum = 0;
    for (uint32_t at = 0; at < pool.total; at++) sum = mixed(sum, pool.words[at]);
    return sum;
}

static void new_pool(int is_single, uint32_t format, uint32_t clients, uint32_t segments, uint32_t total, uint64_t sum) {
    for (int who = 0; who < 16; who++) {
        if (seats[who].session) lj_close(seats[who].session);
        seats[who].session = NULL;
    }
    free(pool.words);
    single = is_single;
    pool = memory_new(format, clients, segments);
    want("how many words", pool.total, total);
    want("the words of a new pool", sum_of_words(), sum);
}

static lj_said by_library(seat *s) {
    lj_ran ran = lj_run_on(s->session, pool.words, pool.total, 1);
    want("how many were made", ran.steps, 1);
    return ran.said;
}

static void make(seat *s, unsigned count) {
    while (count--) {
        if (!lj_is_step(s->said)) wrong("what is said", s->said.code, LJ_LOAD);
        s->sum = mixed(mixed(s->sum, s->said.code), s->said.at);
        if (s->said.code == LJ_EXCHANGE) s->sum = mixed(s->sum, s->said.first);
        if (s->said.code != LJ_LOAD) s->sum = mixed(s->sum, s->said.second);
        s->said = by_itself ? by_library(s) : lj_tell(s->session, memory_make(&pool, s->said));
        s->made++;
        steps++;
    }
}

static void ended(seat *s, unsigned made, uint64_t sum, lj_said said) {
    want("how many word steps", s->made, made);
    want("what was asked for", s->sum, sum);
    want("the code", s->said.code, said.code);
    want("the block", s->said.at, said.at);
    want("the first number", s->said.first, said.first);
    want("the second number", s->said.second, said.second);
    operations++;
}

int main(int argc, char **argv) {
    char text[256];
    (void)argv;
    by_itself = argc > 1;
    while (fgets(text, sizeof text, stdin)) {
        unsigned who, a, b, c, d;
        uint64_t x = 0, y = 0, z = 0, sum;
        lj_said said;
        line++;
        if (sscanf(text, "p %u %u %u %u %" SCNx64, &a, &b, &c, &d, &sum) == 5) new_pool(0, a, b, c, d, sum);
        else if (sscanf(text, "b %u %u %u %u %" SCNx64, &a, &b, &c, &d, &sum) == 5) new_pool(1, a, b, c, d, sum);
        else if (sscanf(text, "o %u", &who) == 1) seats[who % 16].session = single ? memory_open_single(&pool, who) : memory_open(&pool, who);
        else if (sscanf(text, "k %u %u %" SCNu64, &who, &a, &x) == 3) want("a word that is kept", lj_word(seats[who % 16].session, a, x).code, LJ_OK);
        else if (sscanf(text, "x %u", &who) == 1) {
            lj_close(seats[who % 16].session);
            seats[who % 16].session = NULL;
            deaths++;
        } else if (sscanf(text, "c %u %u %" SCNu64 " %" SCNu64 " %" SCNu64, &who, &a, &x, &y, &z) >= 2) {
            seat *s = &seats[who % 16];
            s->sum = s->made = 0;
            s->said = lj_call(s->session, a, x, y, z);
        } else if (sscanf(text, "s %u %u", &who, &a) == 2) make(&seats[who % 16], a);
        else if (sscanf(text, "e %u %u %" SCNx64 " %u %u %" SCNu64 " %" SCNu64, &who, &a, &sum, &said.code, &said.at, &said.first, &said.second) == 7)
            ended(&seats[who % 16], a, sum, said);
        else if (sscanf(text, "w %" SCNx64, &sum) == 1) want("the pool's words", sum_of_words(), sum);
        else if (*text != '#') wrong("a line", (unsigned char)*text, 'p');
    }
    for (int who = 0; who < 16; who++) if (seats[who].session) lj_close(seats[who].session);
    free(pool.words);
    printf("steps: %lu word steps of %u operations and %u deaths are as recorded\n", steps, operations, deaths);
    return operations == 0;
}
