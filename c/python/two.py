"""Two processes on one pool. One is killed in the midst of its work; the other recovers it, and reads its table: two.py FILE"""
import os
import signal
import sys
import time

import lojarnek

path = sys.argv[1] if len(sys.argv) > 1 else "/dev/shm/two.pool"
with lojarnek.Pool(path, clients=2, segments=4) as pool:
    pid = os.fork()  # (before an identity is attached)
    if pid == 0:
        me = lojarnek.Pool(path).join(1)
        n = 0
        while True:
            me.put(n % 16, n)
            n += 1
    with pool.join(0) as me:
        while me.get(1, 15) is None:
            time.sleep(0.001)
        os.kill(pid, signal.SIGKILL)
        os.waitpid(pid, 0)
        print("killed; recovered:", pool.rescue())
        if any(me.get(1, key) % 16 != key for key in range(16)):
            sys.exit("a key is wrong")
        print("its 16 keys are there")
        try:
            pool.join(0)
        except lojarnek.Taken as error:
            print("identity 0 once more:", error.strerror)
        try:
            me.send(0, 1)
        except lojarnek.Refused as error:
            print("a send to oneself:", error)
