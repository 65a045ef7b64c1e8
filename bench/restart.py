"""Measures `restart` beside a `run` of an empty script, for a store of 256 MiB whose last checkpoint is late.

    python3 bench/restart.py PROGRAM [ROUNDS]

The store's eight forks are followed by a checkpoint and 1,000 patches, and the WAL is cut by eight bytes, so that it ends
within the entry of its last checkpoint. `restart` then reads the whole WAL, redoes those patches, and cuts the torn entry;
a second one does the same but for the cut. A `run` of an empty script over the WAL that was cut so reads all of it too,
makes the data areas anew from it, and does a checkpoint when it closes, which is taken away again. Prints the best times
of each over rounds, in turn, of the processor and by the clock, their ratio, and the memory of `restart`.
"""
import os
import shutil
import sys
import tempfile

from full import FORKS, PAGES, new_store, run, write
from wal import Best, segments, timed

PATCHES = 1000
AIM = 0.5


def torn_store(program):
    """The store, with its WAL cut within the last entry; what the first `restart` printed."""
    new_store(program)
    lines = ["worker w", "checkpoint"]
    for number in range(PATCHES):
        lines.append("change 5/%d@%d+24:%08X" % (16384 + number % FORKS, number * 7919 % PAGES, number))
    write("late", lines)
    run(Best(), "late", program, "late")
    last = segments()[-1]
    os.truncate(last, os.path.getsize(last) - 8)
    return timed([program, "restart"]).text


def opened(best, program, size):
    """A `run` of an empty script, and what it wrote to the WAL taken away."""
    last = segments()[-1]
    run(best, "run", program, "empty")
    os.truncate(last, size)


def main():
    program, rounds, home = os.path.abspath(sys.argv[1]), int((sys.argv[2:] + ["3"])[0]), os.getcwd()
    with tempfile.TemporaryDirectory(dir=home) as folder:
        os.chdir(folder)
        text, best = torn_store(program), Best()
        write("empty", ["worker w"])
        size = os.path.getsize(segments()[-1])
        for _ in range(rounds):
            os.sync()
            opened(best, program, size)
            shutil.rmtree("sums", ignore_errors=True)
            os.sync()
            if best.take("restart", [program, "restart"]) != text:
                sys.exit("another restart printed another line")
        os.chdir(home)
    print("restart of 256 MiB behind a late checkpoint: %.0f MiB of memory" % best.memory["restart"])
    for way, took in (("of the processor", best.processor), ("by the clock", best.seconds)):
        ratio = took["restart"] / took["run"]
        print("    %s %.2f s, %.2f of a run of an empty script (%.2f s): %s" %
              (way, took["restart"], ratio, took["run"], "met" if ratio <= AIM else "MISSED"))


if __name__ == "__main__":
    main()
