"""Measures a restore of a backup of 256 MiB beside a copy of its files and the replay of what came after it.

    python3 bench/restore.py PROGRAM [ROUNDS]

A store of 256 MiB gets a full backup, and then a tenth of its blocks is changed. `restore` checks the backup, as `verify`
does, copies its files and redoes the WAL from its start on. Beside it stand `cp` of the backup and what `replay` takes
more to the WAL's end than to the backup's end. Prints the best times of each way over rounds, in turn, of the processor
and by the clock, the ratio of the restore to the two together, with its check and without what `verify` takes, and its
memory.
"""
import os
import shutil
import sys
import tempfile

from full import FORKS, PAGES, new_store, run, write
from wal import Best


def changes():
    """A line for every tenth block: the first bytes behind the page's header."""
    lines = ["worker w"]
    for number in range(FORKS):
        for block in range(0, PAGES, 10):
            lines.append("change 5/%d@%d+24:%08X" % (16384 + number, block, block))
    return lines


def backup_end(program):
    """The backup's end, as its check tells it."""
    return os.popen(program + " verify f1").read().split()[4]


def main():
    program, rounds = os.path.abspath(sys.argv[1]), int((sys.argv[2:] + ["3"])[0])
    folder, home = tempfile.mkdtemp(dir=os.getcwd()), os.getcwd()
    os.chdir(folder)
    new_store(program)
    write("full", ["worker w", "full f1"])
    write("changes", changes())
    for name in ("full", "changes"):
        run(Best(), name, program, name)
    end, best = backup_end(program), Best()
    for _ in range(rounds):
        shutil.rmtree("o", ignore_errors=True)
        shutil.rmtree("copy", ignore_errors=True)
        best.take("restore", [program, "restore", "r", "f1"])
        best.take("verify", [program, "verify", "f1"])
        best.take("before", [program, "replay", "--target", end, "p"])
        best.take("whole", [program, "replay", "q"])
        best.take("cp", ["cp", "-r", "b/f1", "copy"])
    print("a restore of 256 MiB: %.1f MiB of memory" % best.memory["restore"])
    for way, took in (("of the processor", best.processor), ("by the clock", best.seconds)):
        both = took["cp"] + max(0.0, took["whole"] - took["before"])
        print("    %s %.2f s, of which verify takes %.2f s; %.2f of cp and the replay of the window, and %.2f without "
              "the check (%.2f s and %.2f s)" %
              (way, took["restore"], took["verify"], took["restore"] / both, (took["restore"] - took["verify"]) / both,
               took["cp"], both - took["cp"]))
    os.chdir(home)
    shutil.rmtree(folder)


if __name__ == "__main__":
    main()
