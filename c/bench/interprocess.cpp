// interprocess.cpp: puts and gets in a map of Boost.Interprocess in a mapped file, under one robust mutex of POSIX threads (which tells whoever takes it
// next that its holder died; the map may be torn then, and nothing here mends it): each process at keys of its own.
//
//   interprocess FILE [--procs P] [--ops N] [--keys K] [--mode put|get]
#include "board.h"
#include <boost/interprocess/allocators/allocator.hpp>
#include <boost/interprocess/containers/map.hpp>
#include <boost/interprocess/managed_mapped_file.hpp>
#include <cerrno>
#include <functional>
#include <pthread.h>
#include <utility>

namespace ipc = boost::interprocess;
using Entry = std::pair<const uint32_t, uint64_t>;
using Segment = ipc::managed_mapped_file;
using Map = ipc::map<uint32_t, uint64_t, std::less<uint32_t>, ipc::allocator<Entry, Segment::segment_manager>>;

struct Robust {
    pthread_mutex_t mutex;
    Robust() {
        pthread_mutexattr_t how;
        pthread_mutexattr_init(&how);
        pthread_mutexattr_setpshared(&how, PTHREAD_PROCESS_SHARED);
        pthread_mutexattr_setrobust(&how, PTHREAD_MUTEX_ROBUST);
        pthread_mutex_init(&mutex, &how);
    }
    int lock() {
        int e = pthread_mutex_lock(&mutex);
        if (e == EOWNERDEAD) e = pthread_mutex_consistent(&mutex);
        return e;
    }
    void unlock() { pthread_mutex_unlock(&mutex); }
};

static uint64_t worker(board *all, options given, uint32_t who, double *wall, double *cpu) {
    Segment segment(ipc::open_only, given.path);
    Robust &mutex = *segment.find<Robust>("mutex").first;
    Map &map = *segment.find<Map>("map").first;
    uint64_t bad = 0;
    for (uint32_t key = 0; key < given.keys; key++) {
        bad += mutex.lock() != 0;
        map.insert_or_assign(who << 16 | key, static_cast<uint64_t>(key));
        mutex.unlock();
    }
    ready(all);
    *wall = now(CLOCK_MONOTONIC);
    *cpu = now(CLOCK_PROCESS_CPUTIME_ID);
    for (uint64_t n = 0; n < given.ops; n++) {
        uint32_t key = who << 16 | static_cast<uint32_t>(n % given.keys);
        bad += mutex.lock() != 0;
        if (given.put) map.insert_or_assign(key, n);
        else bad += map.find(key) == map.end();
        mutex.unlock();
    }
    return bad;
}

int main(int argc, char **argv) {
    options given;
    if (!options_of(&given, argc, argv)) return 2;
    unlink(given.path);
    {
        Segment segment(ipc::create_only, given.path, 16u << 20);
        segment.construct<Robust>("mutex")();
        segment.construct<Map>("map")(std::less<uint32_t>(), segment.get_segment_manager());
    }
    return measure("interprocess", given, worker);
}
