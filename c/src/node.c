/* node.c: a memory node. It holds a pool's words, lets one-sided verbs at them, and hands out identities; it makes no word step itself. */
#define _GNU_SOURCE
#include "lojarnek_fabric.h"
#include <fcntl.h>
#include <inttypes.h>
#include <signal.h>

enum { PEERS = 64, CLIENTS = 16 };

typedef struct {
    int fd, who; /* who: the identity that was given over this connection, or -1 */
} peer;

static struct {
    ljf_end end;
    ljf_grant grant;
    uint64_t *words, given;
    struct fid_mr *keys[CLIENTS]; /* of the identities that somebody has */
    peer peers[PEERS];
    int peer_count, ear;
} node;
static volatile sig_atomic_t over;

static void stop(int signal) {
    (void)signal;
    over = 1;
}

/* After this no verb by the identity's key touches a word. */
static void fence(int who) {
    if (who < 0 || !node.keys[who]) return;
    fi_close(&node.keys[who]->fid);
    node.keys[who] = NULL;
    node.grant.revoked++;
    for (int i = 0; i < node.peer_count; i++) if (node.peers[i].who == who) node.peers[i].who = -1;
}

static void attach(peer *from, uint32_t who) {
    uint64_t key = 0x10000 + CLIENTS * ++node.given + who;
    if (who >= node.grant.clients) node.grant.code = EINVAL;
    else if (node.keys[who] || from->who >= 0) node.grant.code = EAGAIN;
    else {
        int r = fi_mr_reg(node.end.domain, node.words, 8 * (size_t)node.grant.total, FI_REMOTE_READ | FI_REMOTE_WRITE, 0, key, 0, &node.keys[who], NULL);
        node.grant.code = (uint32_t)-r;
        if (r) return;
        from->who = (int)who;
        node.grant.key = fi_mr_key(node.keys[who]);
    }
}

/* Whether the connection is still there. */
static int serve(peer *from) {
    ljf_request request;
    ssize_t bytes = recv(from->fd, &request, sizeof request, 0);
    if (bytes < 0 && (errno == EAGAIN || errno == EINTR)) return 1;
    if (bytes != sizeof request) {
        fence(from->who);
        close(from->fd);
        return 0;
    }
    node.grant.code = 0;
    node.grant.key = 0;
    if (request.what == LJF_ATTACH) attach(from, request.who);
    else if (request.what == LJF_REVOKE && request.who < node.grant.clients) fence((int)request.who);
    else node.grant.code = EINVAL;
    if (send(from->fd, &node.grant, sizeof node.grant, MSG_NOSIGNAL) != sizeof node.grant) { /* it is found gone at its next turn */ }
    return 1;
}

static void hear(void) {
    int on = 1, fd = accept4(node.ear, NULL, NULL, SOCK_NONBLOCK | SOCK_CLOEXEC);
    if (fd >= 0 && node.peer_count < PEERS) {
        setsockopt(fd, IPPROTO_TCP, TCP_NODELAY, &on, sizeof on);
        node.peers[node.peer_count++] = (peer){ fd, -1 };
    } else if (fd >= 0) close(fd);
    for (int i = 0; i < node.peer_count; i++) if (!serve(&node.peers[i])) node.peers[i--] = node.peers[--node.peer_count];
}

static int listens(const char *address, uint16_t port) {
    struct sockaddr_in at = { .sin_family = AF_INET, .sin_port = htons(port) };
    int on = 1;
    if (inet_pton(AF_INET, address, &at.sin_addr) != 1) return EINVAL;
    node.ear = socket(AF_INET, SOCK_STREAM | SOCK_CLOEXEC | SOCK_NONBLOCK, 0);
    setsockopt(node.ear, SOL_SOCKET, SO_REUSEADDR, &on, sizeof on);
    return node.ear < 0 || bind(node.ear, (struct sockaddr *)&at, sizeof at) || listen(node.ear, PEERS) ? errno : 0;
}

static int begins(const char *provider, const char *address, uint32_t format, uint32_t clients, uint32_t segments) {
    uint32_t total = lj_total(format, clients, segments);
    size_t length = sizeof node.grant.address;
    if (!total) return EINVAL;
    node.grant = (ljf_grant){ .format = format, .clients = clients, .segments = segments, .total = total };
    node.words = aligned_alloc(4096, (8 * (size_t)total + 4095) / 4096 * 4096);
    if (!node.words) return ENOMEM;
    for (uint32_t at = 0; at < total; at++) node.words[at] = lj_first_word(format, clients, segments, 1, at);
    node.grant.base = (uint64_t)node.words;
    int r = ljf_open(&node.end, provider, address, FI_SOURCE);
    if (!r) r = fi_getname(&node.end.ep->fid, node.grant.address, &length);
    node.grant.length = (uint32_t)length;
    return -r;
}

static int write_image(const char *path) {
    uint64_t sizes[2] = { node.grant.clients, node.grant.segments };
    FILE *to = fopen(path, "wb");
    int bad = !to || fwrite(node.grant.format == 1 ? "CXLSHM01" : "CXLSHM02", 8, 1, to) != 1 || fwrite(sizes, 8, 2, to) != 2
        || fwrite(node.words, 8, node.grant.total, to) != node.grant.total;
    return (to && fclose(to)) || bad;
}

/* Serves until SIGTERM or SIGINT; then writes the words as an image, where a path is given. 0, or the status of a failure. */
int lj_serve(const char *provider, const char *address, uint16_t port, uint32_t format, uint32_t clients, uint32_t segments, const char *image) {
    struct sigaction action = { .sa_handler = stop };
    sigaction(SIGTERM, &action, NULL);
    sigaction(SIGINT, &action, NULL);
    int e = begins(provider, address, format, clients, segments);
    if (e) return fprintf(stderr, "lojarnek: fabric: %s\n", fi_strerror(e)), 3;
    if ((e = listens(address, port))) return fprintf(stderr, "lojarnek: %s: %s\n", address, strerror(e)), 3;
    printf("%s, %u words\n", node.end.info->fabric_attr->prov_name, node.grant.total);
    fflush(stdout);
    for (uint64_t turn = 0; !over; turn++) {
        struct fi_cq_entry entry;
        struct fi_cq_err_entry wrong = { 0 };
        /* (whoever polls makes the provider's progress) */
        if (fi_cq_read(node.end.cq, &entry, 1) == -FI_EAVAIL) fi_cq_readerr(node.end.cq, &wrong, 0);
        if (turn % 256 == 0) hear();
    }
    if (image && write_image(image)) return fprintf(stderr, "lojarnek: %s: not written\n", image), 3;
    printf("%" PRIu64 " keys given, %" PRIu64 " revoked\n", node.given, node.grant.revoked);
    return 0;
}
