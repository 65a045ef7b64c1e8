"""Each command with memory refused at one allocation after the other.

    python3 conformance/memory.py PROGRAM [MOST]

A library that is loaded before the C library's refuses one call of `malloc` or `realloc` of the program, the first of a
command, then the second, and so on up to the last one that it makes; of a command that makes more than MOST of them (600
without it) as many, evenly spread. Each call is of a copy of the same folder. It has to do what it does with ample
memory, with the same lines and status; or to end with status 4 and the line of want of memory, a `run` behind lines that
say how far each worker came, or, where memory runs out while the words are read or the lines are printed, with none; or,
where it was a call of the system that had no memory and may have changed something, with status 3 and the name of the
area. It never says anything else, and always ends. Behind it the command does all at a second try, for which its output
is emptied; a store is brought back by `restart`, and its data areas are then what its WAL replays to.
Not part of the gate. Skipped where there is no C compiler, or where the program is one that no library can be loaded
before.
"""
import os
import re
import shutil
import subprocess
import sys
import tempfile

from common import files

SHIM = r"""
#define _GNU_SOURCE
#include <errno.h>
#include <fcntl.h>
#include <stdatomic.h>
#include <stddef.h>
#include <stdlib.h>
#include <sys/mman.h>
#include <unistd.h>

extern void *__libc_malloc(size_t), *__libc_realloc(void *, size_t);
static long refused = -1;
static atomic_long own, *count = &own;

__attribute__((constructor)) static void begin(void) {
    const char *at = getenv("REFUSED"), *path = getenv("COUNTED");
    if (at) refused = atol(at);
    int file = path ? open(path, O_RDWR | O_CREAT | O_TRUNC, 0644) : -1;
    if (file >= 0 && !ftruncate(file, sizeof *count)) {
        void *room = mmap(NULL, sizeof *count, PROT_READ | PROT_WRITE, MAP_SHARED, file, 0);
        if (room != MAP_FAILED) count = room;
    }
}
static int is_refused(void) {
    if (atomic_fetch_add(count, 1) + 1 != refused) return 0;
    errno = ENOMEM;
    return 1;
}
void *malloc(size_t size) { return is_refused() ? NULL : __libc_malloc(size); }
void *realloc(void *from, size_t size) { return is_refused() ? NULL : __libc_realloc(from, size); }
"""
PAGE = "32,8160,65"
WRITES = """worker ann
create 5/16384
grow 5/16384@0 6 %s
change 5/16384@2+8170:C0FFEE
checkpoint
change 5/16384@2+8170:C0FFEF
truncate 5/16384 4
worker bob
create 5/16385
change 5/16385@0=%s
drop 5/16385
flush 2
worker cem
full sun
summarise
incr mon sun
incr tue mon
""" % (PAGE, PAGE)
INIT = ["init", "--segment-mib", "1", "--system-id", "7"]


class Called:
    """What a call came to."""

    def __init__(self, path, shim, words, folder, script="", refused=None):
        counted = os.path.join(folder, "..", "counted")
        room = {**os.environ, "LD_PRELOAD": shim, "COUNTED": counted}
        room.update({"REFUSED": str(refused)} if refused else {})
        ran = subprocess.run([path] + words, input=script, cwd=folder, env=room, text=True, capture_output=True,
                             check=False, timeout=60)
        self.status, self.lines = ran.returncode, ran.stdout.splitlines()
        with open(counted, "rb") as told:
            self.count = int.from_bytes(told.read(), "little")


def is_want(status, lines, is_run):
    """Whether status and lines say that memory ran out, or that a call of the system had none."""
    if status == 4:
        told = not lines or re.fullmatch(r"refused 61 NoMemory", lines[-1])
    else:
        told = status == 3 and lines and re.fullmatch(r"refused 60 DeviceFault [a-z0-9/]+", lines[-1])
    return told and (is_run or len(lines) <= 1)


def is_same(lines, wanted, is_run):
    """The same lines; of a run of several workers in any order, whatever places and counts they tell."""
    def shape(line):
        return re.sub(r"(wrote|published) \d+", r"\1", re.sub(r"[0-9A-F]+/[0-9A-F]+", "@", line))
    return sorted(map(shape, lines)) == sorted(map(shape, wanted)) if is_run else lines == wanted


def judged(path, shim, words, script, folder, now, wanted, outputs):
    """What is wrong with a call whose memory was refused, as texts; the folder before and behind it is told."""
    is_run, found = words[0] == "run", []
    same = now.status == wanted.status and is_same(now.lines, wanted.lines, is_run)
    if not same and not is_want(now.status, now.lines, is_run):
        found.append("status %d, %s" % (now.status, now.lines[-3:]))
    for output in outputs:
        shutil.rmtree(os.path.join(folder, output), ignore_errors=True)
    if is_run:
        back = Called(path, shim, ["restart"], folder)
        replayed = Called(path, shim, ["replay", "again"], folder)
        if back.status or replayed.status or back.lines[0].split()[1:] != replayed.lines[0].split()[1:]:
            found.append("restart %s, replay %s" % (back.lines, replayed.lines))
        left = {p: b for q in range(4) for p, b in files(os.path.join(folder, "data%d" % q)).items()}
        if left != files(os.path.join(folder, "o", "again")):
            found.append("the data areas are not what the WAL replays to")
        return found
    again = Called(path, shim, words, folder, script)
    if (again.status, again.lines) != (wanted.status, wanted.lines):
        found.append("at the second try %d, %s" % (again.status, again.lines))
    return found


def cases(path, shim, room):
    """Each command with its script, the folder in which it is called, and what it writes."""
    folder = os.path.join(room, "store")
    os.mkdir(folder)
    yield INIT, "", folder, ["wal"]
    Called(path, shim, INIT, folder)
    yield ["run"], WRITES, folder, ["b"]
    yield ["run", "--frames", "4"], WRITES, folder, ["b"]
    ran = Called(path, shim, ["run"], folder, WRITES)
    if ran.status:
        raise RuntimeError("no store: %s" % ran.lines)
    segment = open(os.path.join(folder, "wal", "000000010000000000000001"), "rb").read()
    with open(os.path.join(room, "stream"), "wb") as stream:
        stream.write(segment)
    yield ["run"], "", folder, []
    yield ["restart"], "", folder, []
    for name in ("sun", "mon", "tue"):
        yield ["verify", name], "", folder, []
    yield ["combine", "week", "sun", "mon", "tue"], "", folder, ["b/week"]
    yield ["merge-incr", "both", "mon", "tue"], "", folder, ["b/both"]
    yield ["restore", "out", "sun", "mon", "tue"], "", folder, ["o/out"]
    yield ["replay", "out"], "", folder, ["o/out"]
    summaries = sorted(os.listdir(os.path.join(folder, "sums")))
    ends = sorted(int(name[24:40], 16) for name in summaries)
    yield ["walsummary", "0/100060", "0/%X" % ends[-1]], "", folder, []
    empty = os.path.join(room, "empty")
    os.mkdir(empty)
    yield ["drill", "3"], "", empty, ["wal", "sums", "b", "o"] + ["data%d" % q for q in range(4)]


def main():
    path, most = os.path.abspath(sys.argv[1]), int(sys.argv[2]) if len(sys.argv) > 2 else 600
    if not shutil.which("cc"):
        print("skipped: there is no C compiler")
        return 0
    failed = 0
    with tempfile.TemporaryDirectory() as room:
        shim = os.path.join(room, "shim.so")
        with open(os.path.join(room, "shim.c"), "w", encoding="ascii") as text:
            text.write(SHIM)
        subprocess.run(["cc", "-O1", "-shared", "-fPIC", "-o", shim, text.name, "-ldl"], check=True)
        for words, script, folder, outputs in cases(path, shim, room):
            copy = os.path.join(room, "copy")

            def called(refused=None):
                shutil.rmtree(copy, ignore_errors=True)
                shutil.copytree(folder, copy)
                return Called(path, shim, words, copy, script, refused)

            wanted = called()
            if wanted.status or not wanted.count:
                print("skipped: %s ended with %d, %s" % (words, wanted.status, wanted.lines[-1:]))
                return 1 if wanted.status else 0
            step = max(1, wanted.count // most)
            tried = range(1, wanted.count + 1, step)
            refusals = 0
            for number in tried:
                now = called(number)
                refusals += now.status in (3, 4)
                for why in judged(path, shim, words, script, copy, now, wanted, outputs):
                    print("%s, allocation %d: %s" % (" ".join(words), number, why), flush=True)
                    failed += 1
            print("%s: %d of %d allocations refused in turn, %d times answered as want of memory"
                  % (" ".join(words), len(tried), wanted.count, refusals), flush=True)
    print("memory.py: %d differences" % failed)
    return 1 if failed else 0


if __name__ == "__main__":
    sys.exit(main())
