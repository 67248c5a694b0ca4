// lojarnek.hpp: a shared pool for C++17, over lojarnek.h and lojarnek_map.h. What a destructor gives back can't be forgotten.
//
//     lojarnek::Pool pool("/dev/shm/a.pool", {1, 4, 8});
//     lojarnek::Client me(pool, 0);                 // takes the identity, recovers it where it is dead, joins
//     me.put(7, 42);
//     std::optional<std::uint64_t> n = me.get(0, 7);
//                                                   // leaves, and gives it back
//
// A Client is for one thread at a time, as a std::vector is; a Pool may be used by all. A refusal is an exception (Refused), as is an error of the
// system (std::system_error) and a file that is no pool (NoPool). What is no mistake is told by a result: a key that isn't there, a full pool.
// For words that lie elsewhere: Session<Words>, of any type with `std::uint64_t make(const lj_said &)`.
#ifndef LOJARNEK_HPP
#define LOJARNEK_HPP
#include "lojarnek_map.h"
#include <cstdint>
#include <memory>
#include <optional>
#include <stdexcept>
#include <string>
#include <system_error>

namespace lojarnek {

struct Refused : std::logic_error {
    std::uint32_t code; // LJ_OUT_OF_RANGE, LJ_WRONG_STAGE, LJ_BUSY, LJ_IDLE
    explicit Refused(std::uint32_t c) : std::logic_error("refused with " + std::to_string(c)), code(c) {}
};
struct NoPool : std::runtime_error {
    int error; // LJ_NO_POOL and what follows it
    explicit NoPool(int e) : std::runtime_error(lj_map_text(e)), error(e) {}
};

struct Sizes {
    std::uint32_t format, clients, segments;
    std::uint32_t total() const { return lj_total(format, clients, segments); }
};

inline void check(int error) {
    if (error >= LJ_NO_POOL) throw NoPool(error);
    if (error) throw std::system_error(error, std::generic_category());
}

/// A session over words that lie anywhere. Its identity has to be this caller's alone (lojarnek.h, 2 and 5).
template <class Words> class Session {
    struct Close {
        void operator()(lj_session *s) const { lj_close(s); }
    };
    Words *words;
    std::unique_ptr<lj_session, Close> at;

    lj_said run(lj_said said) {
        while (lj_is_step(said)) said = lj_tell(at.get(), words->make(said));
        if (lj_is_refusal(said)) throw Refused(said.code);
        return said;
    }
    static std::optional<std::uint64_t> value(lj_said said) { return said.code == LJ_VALUE ? std::optional<std::uint64_t>(said.first) : std::nullopt; }

public:
    Session(Words &w, Sizes sizes, std::uint32_t who) : words(&w) {
        lj_said load{LJ_LOAD, lj_status_at(sizes.format, sizes.clients, sizes.segments, who), 0, 0};
        lj_session *session = nullptr;
        if (load.at == 0) throw Refused(LJ_OUT_OF_RANGE);
        std::uint32_t code = lj_open(sizes.format, sizes.clients, sizes.segments, who, w.make(load), &session);
        if (code == LJ_NO_MEMORY) throw std::bad_alloc();
        if (code) throw Refused(code);
        at.reset(session);
    }
    bool dead() const { return lj_stage(at.get()).code == LJ_DEAD; }
    bool live() const { return lj_stage(at.get()).code == LJ_LIVE; }
    void join() { run(lj_join(at.get())); }
    bool leave() { return run(lj_leave(at.get())).code == LJ_OK; }     // false: its era is spent
    bool recover() { return run(lj_recover(at.get())).code == LJ_OK; } // false: its era is spent
    lj_said put(std::uint32_t key, std::uint64_t number) { return run(lj_put(at.get(), key, number)); }
    bool del(std::uint32_t key) { return run(lj_del(at.get(), key)).code == LJ_OK; }
    std::optional<std::uint64_t> get(std::uint32_t author, std::uint32_t key) { return value(run(lj_get(at.get(), author, key))); }
    lj_said copy(std::uint32_t key, std::uint32_t author, std::uint32_t other) { return run(lj_copy(at.get(), key, author, other)); }
    lj_said send(std::uint32_t to, std::uint32_t key) { return run(lj_send_key(at.get(), to, key)); }
    lj_said recv(std::uint32_t from, std::uint32_t key) { return run(lj_recv_key(at.get(), from, key)); }
};

/// A pool for tables in a mapped file.
class Pool {
    lj_pool pool{};

public:
    explicit Pool(const std::string &path) {
        check(lj_pool_attach(&pool, path.c_str()));
        if (pool.kind == LJ_FOR_TABLES) return;
        lj_pool_close(&pool);
        check(LJ_OTHER_KIND);
    }
    Pool(const std::string &path, Sizes sizes) { check(lj_pool_open(&pool, path.c_str(), sizes.format, sizes.clients, sizes.segments)); }
    ~Pool() { lj_pool_close(&pool); }
    Pool(const Pool &) = delete;
    Pool &operator=(const Pool &) = delete;
    Sizes sizes() const { return {pool.format, pool.clients, pool.segments}; }
    std::uint32_t rescue() { return lj_rescue(&pool, UINT32_MAX); } // recovers who is dead; how many it were
    lj_pool *raw() { return &pool; }
};

/// An identity of a pool in a mapped file, joined for as long as this is there.
class Client {
    lj_client client{};

    lj_said run(lj_said said) {
        said = lj_run(&client, said);
        if (lj_is_refusal(said)) throw Refused(said.code);
        return said;
    }
    static std::optional<std::uint64_t> value(lj_said said) { return said.code == LJ_VALUE ? std::optional<std::uint64_t>(said.first) : std::nullopt; }

public:
    Client(Pool &pool, std::uint32_t who) {
        check(lj_attach(&client, pool.raw(), who));
        if (lj_client_ready(&client).code != LJ_OK) {
            lj_detach(&client);
            throw std::runtime_error("the identity's era is spent");
        }
    }
    ~Client() {
        lj_run(&client, lj_leave(client.session));
        lj_detach(&client);
    }
    Client(const Client &) = delete;
    Client &operator=(const Client &) = delete;
    lj_said put(std::uint32_t key, std::uint64_t number) { return run(lj_put(client.session, key, number)); }
    bool del(std::uint32_t key) { return run(lj_del(client.session, key)).code == LJ_OK; }
    std::optional<std::uint64_t> get(std::uint32_t author, std::uint32_t key) { return value(run(lj_get(client.session, author, key))); }
    std::optional<std::uint64_t> copy(std::uint32_t key, std::uint32_t author, std::uint32_t other) { return value(run(lj_copy(client.session, key, author, other))); }
    bool send(std::uint32_t to, std::uint32_t key) { return run(lj_send_key(client.session, to, key)).code == LJ_OK; }
    std::optional<std::uint64_t> recv(std::uint32_t from, std::uint32_t key) { return value(run(lj_recv_key(client.session, from, key))); }
};

} // namespace lojarnek
#endif
