"""Random paths through `path_fork` and through an independent implementation of its grammar.

    python3 conformance/paths.py LIBRARY [PATHS [SEED]]

LIBRARY is the static library of crates/lsn_core_c. The paths are those of segment files of forks,
such paths with some bytes changed, and random bytes, so that a part of them names a fork. Both have
to name the same fork, segment and form, or none. Not part of the gate. Skipped where the
independent implementation (PGBACKUP_ORACLE) isn't there.
"""
import ctypes
import os
import random
import subprocess
import sys
import tempfile

from common import ORACLE

NUMBERS = [0, 1, 2, 9, 10, 1663, 16384, 131072, 2**31, 2**32 - 2, 2**32 - 1, 2**32, 2**32 + 1, 2**64 - 1, 2**64, 10**20]
BYTES = b"base/INCREMENTAL._init0123456789\x00\n/.-+ \xd9\xa1x"


class RelationFile(ctypes.Structure):
    """A segment file of a fork, as crates/lsn_core_c has it."""

    _fields_ = [
        ("db", ctypes.c_uint32),
        ("rel", ctypes.c_uint32),
        ("segment", ctypes.c_uint32),
        ("init", ctypes.c_bool),
        ("incremental", ctypes.c_bool),
    ]

    def parts(self):
        """Its numbers, its fork and its form."""
        return self.db, self.rel, self.segment, self.init, self.incremental


UNCHANGED = (7, 7, 7, True, True)


def reader(library, folder):
    """The library's `lsn_path_fork`, as a function from bytes to parts, or None."""
    shared = os.path.join(folder, "liblsn.so")
    whole = ["-Wl,--whole-archive", library, "-Wl,--no-whole-archive"]
    subprocess.run(["clang", "-shared", "-o", shared] + whole, check=True)
    call = ctypes.CDLL(shared).lsn_path_fork
    call.argtypes = [ctypes.c_char_p, ctypes.c_size_t, ctypes.POINTER(RelationFile)]
    call.restype = ctypes.c_bool

    def read(path):
        file = RelationFile(*UNCHANGED)
        found = call(path, len(path), ctypes.byref(file))
        if not found and file.parts() != UNCHANGED:
            return "refused and written"
        return file.parts() if found else None

    return read


def number_text(rnd):
    """A number as a path has it, or nearly so."""
    if rnd.random() < 0.2:
        number = rnd.choice(NUMBERS)
    else:
        number = rnd.randrange(2 ** rnd.choice([4, 16, 32, 32, 33]))
    front = rnd.choice([b"0", b"00", b"+", b"-", b" "]) if rnd.random() < 0.03 else b""
    return front + b"%d" % number + (rnd.choice([b"a", b" ", b"\n"]) if rnd.random() < 0.03 else b"")


def fork_path(rnd):
    """The path of a segment file of a fork, or nearly so."""
    prefix = rnd.choice([b""] * 9 + [b"INCREMENTAL."] * 9 + [b"INCREMENTAL", b"incremental."])
    kind = rnd.choice([b""] * 9 + [b"_init"] * 9 + [b"_fsm", b"_vm"])
    segment = rnd.choice([b""] * 9 + [b"." + number_text(rnd)] * 10 + [b"."])
    return b"base/" + number_text(rnd) + b"/" + prefix + number_text(rnd) + kind + segment


def changed(rnd, path):
    """The path with a byte put in, taken out or turned into another, or two of its ends exchanged."""
    at = rnd.randrange(len(path) + 1)
    byte = bytes([rnd.choice(BYTES)])
    return rnd.choice([
        path[:at] + byte + path[at:],
        path[:at] + path[at + 1:],
        path[:at] + byte + path[at + 1:],
        path[at:] + path[:at],
        path[:at],
    ])


def random_path(rnd):
    """A path of a fork, nearly one, or random bytes."""
    if rnd.random() < 0.05:
        return bytes(rnd.choice(BYTES) for _ in range(rnd.randrange(30)))
    path = fork_path(rnd)
    for _ in range(rnd.choice([0, 0, 0, 1, 1, 2])):
        path = changed(rnd, path)
    return path


def oracle_reader():
    """The same function of the independent implementation."""
    sys.path.insert(0, ORACLE)
    from oracle.base import INIT, path_fork

    def read(path):
        found = path_fork(path)
        if found is None:
            return None
        (db, rel, kind), segment, incremental = found
        return db, rel, segment, kind == INIT, incremental

    return read


def main():
    if not os.path.isdir(ORACLE):
        print("skipped: there is no independent implementation at %s" % ORACLE)
        return 0
    arguments = sys.argv[2:] + ["500000", "1"][len(sys.argv) - 2:]
    library, paths, rnd = os.path.abspath(sys.argv[1]), int(arguments[0]), random.Random(int(arguments[1]))
    named = different = 0
    with tempfile.TemporaryDirectory() as folder:
        read, wanted = reader(library, folder), oracle_reader()
        for _ in range(paths):
            path = random_path(rnd)
            expected, got = wanted(path), read(path)
            named += expected is not None
            if got != expected:
                print("%r: %s, not %s" % (path, got, expected))
                different += 1
    print("paths.py: %d paths, %d of them of a fork, %d differences" % (paths, named, different))
    return 1 if different else 0


if __name__ == "__main__":
    sys.exit(main())
