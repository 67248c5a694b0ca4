// two.cpp: two processes on one pool. One is killed in the midst of its work; the other recovers it, and reads its table.
#include "lojarnek.hpp"
#include <csignal>
#include <iostream>
#include <sys/wait.h>

[[noreturn]] static void child(const std::string &path) {
    lojarnek::Pool pool(path);
    lojarnek::Client me(pool, 1);
    for (std::uint64_t n = 0;; n++) me.put(static_cast<std::uint32_t>(n % 16), n);
}

int main(int argc, char **argv) {
    const std::string path = argc > 1 ? argv[1] : "/dev/shm/two.pool";
    lojarnek::Pool pool(path, {1, 2, 4});
    pid_t pid = fork(); // (before an identity is attached)
    if (pid == 0) child(path);
    lojarnek::Client me(pool, 0);
    while (!me.get(1, 15)) usleep(100);
    kill(pid, SIGKILL);
    waitpid(pid, nullptr, 0);
    std::cout << "killed; recovered: " << pool.rescue() << "\n";
    for (std::uint32_t key = 0; key < 16; key++)
        if (me.get(1, key).value_or(99) % 16 != key) return std::cout << "key " << key << " is wrong\n", 1;
    std::cout << "its 16 keys are there\n";
    try {
        lojarnek::Client again(pool, 0);
        return 1;
    } catch (const std::system_error &e) {
        std::cout << "identity 0 once more: " << e.what() << "\n";
    }
    try {
        me.send(0, 1);
        return 1;
    } catch (const lojarnek::Refused &e) {
        std::cout << "a send to oneself: " << e.what() << "\n";
    }
    return 0;
}
