"""Measures the combining of chains of backups of 256 MiB beside copies and sums of the same files.

    python3 bench/combine.py PROGRAM [ROUNDS [MEMBERS..]]

A store of 256 MiB gets a full backup and incremental ones on it, before each of which another tenth of its blocks is
changed, by four bytes each. `combine` of the first 3, 10 and 64 of them, or of so many as MEMBERS says, is measured, in
turn with `sha256sum` of all files that it reads and writes, and with `cp` of what it wrote. Prints the best times of each
over rounds, of the processor and by the clock, the ratio of the combining to the sums and two copies, and its memory; and
the times and ratios of the further chains to those of the first.
"""
import os
import shutil
import sys
import tempfile

from full import FORKS, PAGES, new_store, run, write
from wal import MIB, Best

MEMBERS = ["3", "10", "64"]
# So many backups are taken by one script.
TAKEN = 9


def name_of(member):
    return "m%d" % member


def taken(member):
    """The lines of an incremental backup behind a change of every tenth block: the first bytes behind the page's header."""
    lines = []
    for number in range(FORKS):
        for block in range(member % 10, PAGES, 10):
            lines.append("change 5/%d@%d+24:%08X" % (16384 + number, block, member))
    return lines + ["incr %s %s" % (name_of(member), name_of(member - 1))]


def take_backups(program, most):
    """A full backup and incremental ones on it, so many together."""
    write("backups", ["worker w", "full " + name_of(0)])
    run(Best(), "backups", program, "backups")
    for first in range(1, most, TAKEN):
        lines = ["worker w"]
        for member in range(first, min(first + TAKEN, most)):
            lines += taken(member)
        write("backups", lines)
        run(Best(), "backups", program, "backups")


def files(folders):
    return [os.path.join(top, name) for folder in folders for top, _, names in os.walk(folder) for name in names]


def mib(folders):
    return sum(os.path.getsize(name) for name in files(folders)) / MIB


def measured(program, count, rounds):
    """The times of a combining of so many members and their ratios to sums and copies, of the processor and by the
    clock. Prints them."""
    members, best, found = [name_of(member) for member in range(count)], Best(), []
    read = ["b/" + member for member in members]
    for _ in range(rounds):
        for folder in ("b/c", "copy"):
            shutil.rmtree(folder, ignore_errors=True)
        best.take("combine", [program, "combine", "c"] + members)
        best.take("sums", ["sha256sum"] + files(["b/c"] + read))
        best.take("cp", ["cp", "-r", "b/c", "copy"])
    print("combining %d members: %.0f MiB read and %.0f MiB written, %.1f MiB of memory" %
          (count, mib(read), mib(["b/c"]), best.memory["combine"]))
    for way, took in (("of the processor", best.processor), ("by the clock", best.seconds)):
        ratio = took["combine"] / (took["sums"] + 2 * took["cp"])
        print("    %s %.2f s, %.2f of sha256sum and two cp (%.2f s and %.2f s each)" %
              (way, took["combine"], ratio, took["sums"], took["cp"]))
        found += [took["combine"], ratio]
    return found


def main():
    program, rounds = os.path.abspath(sys.argv[1]), int((sys.argv[2:] + ["3"])[0])
    counts, home = [int(count) for count in sys.argv[3:] or MEMBERS], os.getcwd()
    with tempfile.TemporaryDirectory(dir=home) as folder:
        os.chdir(folder)
        new_store(program)
        take_backups(program, max(counts))
        found = {count: measured(program, count, rounds) for count in counts}
        os.chdir(home)
    for count in counts[1:]:
        ratios = tuple(mine / first for mine, first in zip(found[count], found[counts[0]]))
        print("%d members beside %d: of the processor %.2f of the time and %.2f of the ratio, by the clock %.2f and %.2f" %
              ((count, counts[0]) + ratios))


if __name__ == "__main__":
    main()
