"""Measures incremental backups of a store of 256 MiB beside its full backup.

    python3 bench/incr.py PROGRAM [ROUNDS]

A store of 256 MiB gets a full backup `f1`, and then 1, 10 and 50 of each hundred blocks are changed, by four bytes each,
in a store of its own each time. A `run` whose script has the lines `summarise` and `incr i1 f1` is measured, and one with
the line `summarise` alone, so that the WAL up to there is summed up in both; the same of `full f2`. Prints what each
backup takes more, by the best times over rounds, in turn, of the processor and by the clock, its ratio to the full one,
and the size of its files.
"""
import os
import shutil
import sys
import tempfile

from full import FORKS, PAGES, new_store, run, write
from wal import Best

KEPT = ["wal", "sums", "b", "data0", "data1", "data2", "data3"]


def changes(share):
    """A line for so many of each hundred blocks: the first bytes behind the page's header."""
    lines = ["worker w"]
    for number in range(FORKS):
        for block in range(PAGES):
            if block % 100 < share:
                lines.append("change 5/%d@%d+24:%08X" % (16384 + number, block, block))
    return lines + ["summarise"]


def set_aside(to):
    """Keeps the store as it stands, to begin again from it."""
    shutil.rmtree(to, ignore_errors=True)
    os.mkdir(to)
    for name in KEPT:
        if os.path.isdir(name):
            shutil.copytree(name, to + "/" + name)


def begin_again(kept):
    for name in KEPT:
        shutil.rmtree(name, ignore_errors=True)
        if os.path.isdir(kept + "/" + name):
            shutil.copytree(kept + "/" + name, name)


def mib(folder):
    found = [os.path.join(top, name) for top, _, names in os.walk(folder) for name in names]
    return sum(os.path.getsize(name) for name in found) / 1048576


def measure(program, share, rounds):
    """Measures an incremental backup of so many changed blocks, and the full one, and prints what they take."""
    begin_again("grown")
    write("changes", changes(share))
    run(Best(), "changes", program, "changes")
    set_aside("changed")
    best, size = Best(), 0
    for _ in range(rounds):
        for name in ("summed", "incr", "full"):
            begin_again("changed")
            run(best, name, program, name)
            size = mib("b/i1") if name == "incr" else size
    print("an incremental backup of 256 MiB, %d %% changed: %.0f MiB" % (share, size))
    for way, took in (("of the processor", best.processor), ("by the clock", best.seconds)):
        incr, full = took["incr"] - took["summed"], took["full"] - took["summed"]
        print("    %s %.2f s, %.3f of the full one (%.2f s)" % (way, incr, incr / full, full))


def main():
    program, rounds = os.path.abspath(sys.argv[1]), int((sys.argv[2:] + ["3"])[0])
    folder, home = tempfile.mkdtemp(dir=os.getcwd()), os.getcwd()
    os.chdir(folder)
    new_store(program)
    write("first", ["worker w", "full f1", "summarise"])
    write("summed", ["worker w", "summarise"])
    write("incr", ["worker w", "summarise", "incr i1 f1"])
    write("full", ["worker w", "summarise", "full f2"])
    run(Best(), "first", program, "first")
    set_aside("grown")
    for share in (1, 10, 50):
        measure(program, share, rounds)
    os.chdir(home)
    shutil.rmtree(folder)


if __name__ == "__main__":
    main()
