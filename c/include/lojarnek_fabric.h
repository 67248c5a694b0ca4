/* lojarnek_fabric.h: a pool's words in the memory of another machine, by libfabric's one-sided verbs. For clients and for the node (src/node.c); a header
 * alone, to be linked with -lfabric.
 *
 * A node holds the words and hands out identities over a control connection (TCP). To who attaches as identity `who` it gives its fabric address and the
 * key of a memory registration that it made for this attachment alone: all word steps of that client go by that key. When the control connection ends
 * (the kernel of a dead client closes it), or somebody says revoke, the node closes that registration first and only then gives the identity to anybody
 * else. So a verb of the former holder that comes late, or of a holder that was only stopped, is refused by its key: that is the fence.
 *
 * A word step is one verb, and the next one is asked for when it is complete:
 *   a load       fi_fetch_atomic FI_ATOMIC_READ
 *   a store      fi_fetch_atomic FI_ATOMIC_WRITE (its answer says that it was done)
 *   an exchange  fi_compare_atomic FI_CSWAP
 * With LJF_PLAIN loads go by fi_read and stores by fi_write with FI_DELIVERY_COMPLETE. libfabric doesn't promise that these are atomic beside atomics: that
 * rests on the provider then.
 *
 * The caller's: a key gives its holder every word of the pool, and the control connection isn't encrypted, so everybody on that network is trusted. A client
 * that lives but loses its control connection is fenced as if it were dead, and has to attach anew. The node's death loses the words.
 */
#ifndef LOJARNEK_FABRIC_H
#define LOJARNEK_FABRIC_H

#include "lojarnek.h"
#include <arpa/inet.h>
#include <errno.h>
#include <netinet/in.h>
#include <netinet/tcp.h>
#include <rdma/fabric.h>
#include <rdma/fi_atomic.h>
#include <rdma/fi_cm.h>
#include <rdma/fi_domain.h>
#include <rdma/fi_endpoint.h>
#include <rdma/fi_errno.h>
#include <rdma/fi_rma.h>
#include <stdio.h>
#include <stdlib.h>
#include <string.h>
#include <sys/socket.h>
#include <unistd.h>

enum { LJF_PLAIN = 1 };
enum { LJF_ATTACH = 1, LJF_REVOKE = 2 };

/* What goes over the control connection: a request, and what the node answers. */
typedef struct {
    uint32_t what, who;
} ljf_request;
typedef struct {
    uint32_t code; /* 0; EAGAIN where somebody has the identity, EINVAL where there is none, or another error */
    uint32_t format, clients, segments, total, length;
    uint64_t base, key, revoked;
    uint8_t address[128];
} ljf_grant;

/* One end of the fabric. */
typedef struct {
    struct fi_info *info;
    struct fid_fabric *fabric;
    struct fid_domain *domain;
    struct fid_ep *ep;
    struct fid_av *av;
    struct fid_cq *cq;
} ljf_end;

/* An identity of the pool of a node. For one thread at a time. */
typedef struct {
    ljf_end end;
    ljf_grant grant;
    int control, mode;
    fi_addr_t to;
    lj_session *session;
    uint32_t who;
    uint64_t steps;
    int error; /* not 0: a verb was refused or lost, and the identity isn't this client's any more */
    struct {
        uint64_t operand, compare, result;
    } *buffer;
    struct fid_mr *mr;
    void *desc;
} ljf_client;

static inline void ljf_close(ljf_end *end) {
    if (end->ep) fi_close(&end->ep->fid);
    if (end->cq) fi_close(&end->cq->fid);
    if (end->av) fi_close(&end->av->fid);
    if (end->domain) fi_close(&end->domain->fid);
    if (end->fabric) fi_close(&end->fabric->fid);
    if (end->info) fi_freeinfo(end->info);
    memset(end, 0, sizeof *end);
}

/* Opens an end of a provider, as "tcp;ofi_rxm"; the node's with its address and FI_SOURCE. 0, or a negative number of libfabric, and nothing is open. */
static inline int ljf_open(ljf_end *end, const char *provider, const char *node, uint64_t flags) {
    struct fi_info *hints = fi_allocinfo();
    struct fi_av_attr av = { .type = FI_AV_TABLE };
    struct fi_cq_attr cq = { .format = FI_CQ_FORMAT_CONTEXT, .wait_obj = FI_WAIT_NONE };
    memset(end, 0, sizeof *end);
    if (!hints) return -FI_ENOMEM;
    hints->caps = FI_RMA | FI_ATOMIC | FI_MSG;
    hints->ep_attr->type = FI_EP_RDM;
    hints->domain_attr->mr_mode = FI_MR_LOCAL | FI_MR_VIRT_ADDR | FI_MR_ALLOCATED | FI_MR_PROV_KEY;
    hints->fabric_attr->prov_name = strdup(provider);
    int r = fi_getinfo(FI_VERSION(1, 17), node, NULL, flags, hints, &end->info);
    fi_freeinfo(hints);
    if (!r && !(r = fi_fabric(end->info->fabric_attr, &end->fabric, NULL)) && !(r = fi_domain(end->fabric, end->info, &end->domain, NULL))
        && !(r = fi_endpoint(end->domain, end->info, &end->ep, NULL)) && !(r = fi_av_open(end->domain, &av, &end->av, NULL))
        && !(r = fi_cq_open(end->domain, &cq, &end->cq, NULL)) && !(r = fi_ep_bind(end->ep, &end->av->fid, 0))
        && !(r = fi_ep_bind(end->ep, &end->cq->fid, FI_TRANSMIT | FI_RECV))) r = fi_enable(end->ep);
    if (r) ljf_close(end);
    return r;
}

/* (inner) Sends or receives all of it. */
static inline int ljf_whole(int fd, void *at, size_t bytes, int out) {
    for (size_t done = 0; done < bytes;) {
        ssize_t r = out ? send(fd, (char *)at + done, bytes - done, MSG_NOSIGNAL) : recv(fd, (char *)at + done, bytes - done, 0);
        if (r > 0) done += (size_t)r;
        else if (r == 0 || errno != EINTR) return -1;
    }
    return 0;
}

/* A control connection to a node; -1 where there is none. */
static inline int ljf_control(const char *node, uint16_t port) {
    struct sockaddr_in to;
    int one = 1, fd = socket(AF_INET, SOCK_STREAM | SOCK_CLOEXEC, 0);
    memset(&to, 0, sizeof to);
    to.sin_family = AF_INET;
    to.sin_port = htons(port);
    if (fd >= 0 && inet_pton(AF_INET, node, &to.sin_addr) == 1 && !connect(fd, (struct sockaddr *)&to, sizeof to)) {
        setsockopt(fd, IPPROTO_TCP, TCP_NODELAY, &one, sizeof one);
        return fd;
    }
    if (fd >= 0) close(fd);
    return -1;
}

/* A request, and its answer: 0, or -1 where the connection is lost. */
static inline int ljf_ask(int control, uint32_t what, uint32_t who, ljf_grant *grant) {
    ljf_request request = { what, who };
    return ljf_whole(control, &request, sizeof request, 1) || ljf_whole(control, grant, sizeof *grant, 0) ? -1 : 0;
}

/* (inner) Posts the verb of a word step. 0, or a negative number of libfabric. */
static inline ssize_t ljf_post(ljf_client *c, lj_said said, uint64_t at) {
    uint64_t key = c->grant.key;
    if (said.code == LJ_EXCHANGE)
        return fi_compare_atomic(c->end.ep, &c->buffer->operand, 1, c->desc, &c->buffer->compare, c->desc, &c->buffer->result, c->desc, c->to, at, key, FI_UINT64, FI_CSWAP, c);
    if (!(c->mode & LJF_PLAIN))
        return fi_fetch_atomic(c->end.ep, &c->buffer->operand, 1, c->desc, &c->buffer->result, c->desc, c->to, at, key, FI_UINT64,
                               said.code == LJ_LOAD ? FI_ATOMIC_READ : FI_ATOMIC_WRITE, c);
    if (said.code == LJ_LOAD) return fi_read(c->end.ep, &c->buffer->result, 8, c->desc, c->to, at, key, c);
    struct iovec from = { &c->buffer->operand, 8 };
    struct fi_rma_iov to = { at, 8, key };
    struct fi_msg_rma message = { .msg_iov = &from, .desc = &c->desc, .iov_count = 1, .addr = c->to, .rma_iov = &to, .rma_iov_count = 1, .context = c };
    return fi_writemsg(c->end.ep, &message, FI_DELIVERY_COMPLETE | FI_COMPLETION);
}

/* One word step. Where its verb is refused or lost `error` is set, and the word isn't to be told. */
static inline uint64_t ljf_make(ljf_client *c, lj_said said) {
    uint64_t at = (c->end.info->domain_attr->mr_mode & FI_MR_VIRT_ADDR ? c->grant.base : 0) + 8 * (uint64_t)said.at;
    struct fi_cq_entry entry;
    ssize_t r;
    if (said.at >= c->grant.total) {
        c->error = EINVAL;
        return 0;
    }
    c->buffer->operand = said.second;
    c->buffer->compare = said.first;
    c->buffer->result = 0;
    while ((r = ljf_post(c, said, at)) == -FI_EAGAIN) fi_cq_read(c->end.cq, NULL, 0);
    if (!r) {
        while ((r = fi_cq_read(c->end.cq, &entry, 1)) == -FI_EAGAIN);
        if (r == 1) return said.code == LJ_STORE ? 0 : c->buffer->result;
    }
    struct fi_cq_err_entry wrong;
    memset(&wrong, 0, sizeof wrong);
    c->error = r == -FI_EAVAIL && fi_cq_readerr(c->end.cq, &wrong, 0) == 1 ? wrong.err : (int)-r;
    if (!c->error) c->error = EIO;
    return 0;
}

/* Gives the identity back, in whatever it is at: the node closes its key. */
static inline void ljf_detach(ljf_client *c) {
    if (c->session) lj_close(c->session);
    if (c->mr) fi_close(&c->mr->fid);
    ljf_close(&c->end);
    free(c->buffer);
    if (c->control >= 0) close(c->control);
    c->control = -1;
}

/* (inner) Opens this end, and the session by the status word that the node has. 0, or an error. */
static inline int ljf_begin(ljf_client *c, const char *provider) {
    int r = ljf_open(&c->end, provider, NULL, 0);
    if (r) return -r;
    if (fi_av_insert(c->end.av, c->grant.address, 1, &c->to, 0, NULL) != 1) return EADDRNOTAVAIL;
    if (posix_memalign((void **)&c->buffer, 64, sizeof *c->buffer)) return ENOMEM;
    if (c->end.info->domain_attr->mr_mode & FI_MR_LOCAL) {
        if ((r = fi_mr_reg(c->end.domain, c->buffer, sizeof *c->buffer, FI_READ | FI_WRITE, 0, 0, 0, &c->mr, NULL))) return -r;
        c->desc = fi_mr_desc(c->mr);
    }
    lj_said load = { LJ_LOAD, lj_status_at(c->grant.format, c->grant.clients, c->grant.segments, c->who), 0, 0 };
    uint64_t status = ljf_make(c, load);
    if (c->error) return c->error;
    uint32_t code = lj_open(c->grant.format, c->grant.clients, c->grant.segments, c->who, status, &c->session);
    return code == LJ_NO_MEMORY ? ENOMEM : code ? EINVAL : 0;
}

/* Takes the identity `who` of the pool of a node. 0; EAGAIN where somebody has it; or another error, and nothing is open. */
static inline int ljf_attach(ljf_client *c, const char *provider, const char *node, uint16_t port, uint32_t who, int mode) {
    memset(c, 0, sizeof *c);
    c->mode = mode;
    c->who = who;
    if ((c->control = ljf_control(node, port)) < 0) return ECONNREFUSED;
    int e = ljf_ask(c->control, LJF_ATTACH, who, &c->grant) ? ECONNRESET : c->grant.code ? (int)c->grant.code : ljf_begin(c, provider);
    if (e) ljf_detach(c);
    return e;
}

/* Runs an operation to its answer. Where `error` is set meanwhile the answer is LJ_IDLE: detach, and attach anew. A command waits for the latch of one who has died until
 * somebody has recovered that one. */
static inline lj_said ljf_run(ljf_client *c, lj_said said) {
    while (lj_is_step(said)) {
        uint64_t found = ljf_make(c, said);
        if (c->error) {
            lj_said none = { LJ_IDLE, 0, 0, 0 };
            return none;
        }
        said = lj_tell(c->session, found);
        c->steps++;
    }
    return said;
}
#endif
