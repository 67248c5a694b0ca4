"""A pool of tables in a mapped file, which processes share and any of them may be killed in.

    with lojarnek.Pool("/dev/shm/a.pool", clients=4, segments=8) as pool, pool.join(0) as me:
        me.put(7, 42)
        me.get(0, 7)                                  # 42; None where there is no such key

`join` takes an identity, recovers it where its last holder was killed, and joins; the end of the `with` leaves and gives it back. Each call runs to its
answer in C (liblojarnek_map.so), which makes the word steps. A client is for one thread at a time. Fork before `join`, never after it.
"""
import ctypes
import os
import pathlib

__all__ = ["Pool", "Client", "Refused", "NotDone", "Taken", "NoPool"]
__version__ = "1.0"

u32, u64, pointer = ctypes.c_uint32, ctypes.c_uint64, ctypes.c_void_p
OK, STORED, VALUE, MISSING, EMPTY = 16, 17, 18, 19, 23
NAMES = {OK: "ok", STORED: "stored", VALUE: "value", MISSING: "missing", 20: "full", 21: "count full", 22: "queue full", EMPTY: "empty", 24: "roots full",
         25: "era spent", 32: "vacant", 33: "live", 34: "dead", 64: "out of range", 65: "wrong stage", 66: "busy", 67: "idle", 68: "no memory"}
JOIN, LEAVE, RECOVER, PUT, GET, DEL, COPY, SEND, RECV, STAGE = 1, 2, 3, 4, 5, 6, 7, 8, 9, 16


class Refused(ValueError):
    """A number is out of its range, or the identity doesn't stand so: nothing was done."""


class NotDone(RuntimeError):
    """A full pool, a full queue, a block with too many references: the table is as before."""


class Taken(BlockingIOError):
    """Somebody has this identity."""


class NoPool(OSError):
    """The file is no pool, or another one than was asked for."""


class Said(ctypes.Structure):
    _fields_ = [("code", u32), ("at", u32), ("first", u64), ("second", u64)]


def _library():
    here = pathlib.Path(__file__).parent
    lib = ctypes.CDLL(os.environ.get("LOJARNEK_LIB") or next((str(f) for f in (here / "liblojarnek_map.so",) if f.exists()), "liblojarnek_map.so"))
    lib.ljm_text.argtypes, lib.ljm_text.restype = [ctypes.c_int], ctypes.c_char_p
    lib.ljm_open.argtypes = [ctypes.c_char_p, ctypes.c_int, u32, u32, u32, u32, ctypes.POINTER(pointer)]
    lib.ljm_close.argtypes, lib.ljm_close.restype = [pointer], None
    lib.ljm_sizes.argtypes, lib.ljm_sizes.restype = [pointer, u32 * 4], None
    lib.ljm_image.argtypes = [pointer, ctypes.c_char_p]
    lib.ljm_rescue.argtypes, lib.ljm_rescue.restype = [pointer, u32], u32
    lib.ljm_attach.argtypes = [pointer, u32, ctypes.POINTER(pointer)]
    lib.ljm_detach.argtypes, lib.ljm_detach.restype = [pointer], None
    lib.ljm_run.argtypes, lib.ljm_run.restype = [pointer, u32, u64, u64, u64, ctypes.POINTER(Said)], None
    lib.ljm_part.argtypes, lib.ljm_part.restype = [pointer, u32, u64, u64, u64, u64, ctypes.POINTER(Said)], None
    if lib.ljm_version() // 1000 != 1:
        raise ImportError("liblojarnek_map.so is of another version")
    return lib


lib = _library()


def _check(error, path):
    if error > 1000:
        raise NoPool(error, lib.ljm_text(error).decode(), path)
    if error:
        raise OSError(error, os.strerror(error), path)


class Pool:
    """The pool for tables in the file. With sizes it is made where there is none; without them there has to be one."""

    def __init__(self, path, clients=None, segments=None, format=1):
        self._at, self.path = pointer(), os.fspath(path)
        make = 0 if clients is None else 2
        _check(lib.ljm_open(os.fsencode(path), make, format, clients or 0, segments or 0, 0, ctypes.byref(self._at)), self.path)
        sizes = (u32 * 4)()
        lib.ljm_sizes(self._at, sizes)
        self.format, self.clients, self.segments, self.words = sizes

    def attach(self, who):
        """Takes the identity, and leaves it as it stands: `with pool.join(who)` is what most want."""
        return Client(self, who)

    def join(self, who):
        """Takes the identity, recovers it where it is dead, and joins."""
        client = Client(self, who)
        try:
            client.ready()
        except BaseException:
            client.detach()
            raise
        return client

    def rescue(self):
        """Recovers whoever is dead. How many it were."""
        return lib.ljm_rescue(self._open(), 0xffffffff)

    def image(self, path):
        """Writes the words as an image, for `cxlshm audit`. It means something while nobody works."""
        _check(lib.ljm_image(self._open(), os.fsencode(path)), path)

    def close(self):
        if self._at:
            lib.ljm_close(self._at)
            self._at = None

    def _open(self):
        if not self._at:
            raise ValueError("the pool is closed")
        return self._at

    def __enter__(self):
        return self

    def __exit__(self, *_):
        self.close()


class Client:
    """An identity that this process has. `with` leaves and gives it back."""

    def __init__(self, pool, who):
        self.pool, self.who, self._at = pool, who, pointer()
        error = lib.ljm_attach(pool._open(), who, ctypes.byref(self._at))
        if error == 11:
            raise Taken(error, "somebody has this identity", pool.path)
        if error == 22:
            raise Refused("the pool has no such identity")
        _check(error, pool.path)

    def _run(self, op, a=0, b=0, c=0):
        if not self._at:
            raise ValueError("the identity was given back")
        for number in (a, b, c):
            if not 0 <= number < 1 << 64:
                raise Refused("a number is out of its range")
        said = Said()
        lib.ljm_run(self._at, op, a, b, c, ctypes.byref(said))
        if said.code >= 64:
            raise Refused(NAMES[said.code])
        return said

    def _done(self, op, *numbers):
        said = self._run(op, *numbers)
        if said.code in (OK, STORED, VALUE):
            return said
        if said.code in (MISSING, EMPTY):
            return None
        raise NotDone(NAMES[said.code])

    @property
    def stage(self):
        """'vacant', 'live' or 'dead'."""
        return NAMES[self._run(STAGE).code]

    def ready(self):
        if self.stage == "dead":
            self._done(RECOVER)
        self._done(JOIN)

    def recover(self):
        self._done(RECOVER)

    def leave(self):
        self._done(LEAVE)

    def detach(self):
        """Gives the identity back, in whatever it is at: one that hasn't left is dead."""
        if self._at:
            lib.ljm_detach(self._at)
            self._at = None

    def put(self, key, number):
        self._done(PUT, key, number)

    def get(self, author, key):
        said = self._done(GET, author, key)
        return said and said.first

    def delete(self, key):
        return self._done(DEL, key) is not None

    def copy(self, key, author, other):
        said = self._done(COPY, key, author, other)
        return said and said.first

    def send(self, to, key):
        return self._done(SEND, to, key) is not None

    def recv(self, source, key):
        said = self._done(RECV, source, key)
        return said and said.first

    def __enter__(self):
        return self

    def __exit__(self, *_):
        if self._at and self.stage == "live":
            self.leave()
        self.detach()
