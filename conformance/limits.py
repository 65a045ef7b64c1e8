"""A full store, through `pgbackup run` and through an independent implementation.

    python3 conformance/limits.py PROGRAM 1 [SEED]

Two forks get 32,768 pages each, one of them four a line and one by a growth, over several segments of
the WAL. Then come lines that the limits of a fork and of a store refuse, in any order, with some that
they don't, a drop of one of the two among them. Lines, status and the files of `wal` and of the data areas have to be
the same, but that a flush may write less, since the store has more pages than frames; at times there are few.
Not part of the gate. Skipped where the independent implementation (PGBACKUP_ORACLE) isn't there.
"""
import os

from common import compare
from run import both

LAST = """
change 5/1@32768=24,8192,0
change 5/1@32769=24,8192,0
change 5/1@7+24:61
change 5/2@32767+24:61 5/2@32768=24,8192,0
change 5/2_init@0=24,8192,0
change 5/3@0=24,8192,0
change 5/3@1=24,8192,0
change 5/9@0+24:61
change 5/1@0=24,8192,1 5/1@1=24,8192,1 5/1@2=24,8192,1 5/1@3=24,8192,1
create 5/4
create 5/1
grow 5/1@32767 3 24,8192,0
grow 5/1@0 32769 24,8192,0
grow 5/3@0 5 24,8192,0
truncate 5/1 32760
truncate 5/1 32768
drop 5/2
drop 5/9
grow 5/3@0 9 24,8192,0
checkpoint
flush 100
""".strip("\n").split("\n")


def full_store(rnd):
    """A script that fills a store, and lines behind it."""
    lines = ["worker w", "create 5/1", "create 5/2", "create 5/3", "create 5/2_init"]
    for block in range(0, 32768, 4):
        lines.append("change " + " ".join("5/1@%d=24,8192,0" % (block + n) for n in range(4)))
    lines.append("grow 5/2@0 32768 24,8192,0")
    return "\n".join(lines + rnd.sample(LAST, len(LAST))).encode()


def one_run(path, rnd):
    """What differs, as a list of texts."""
    for folder in ("ours", "theirs"):
        os.mkdir(folder)
    differences = both(path, ["init", "--segment-mib", "1", "--system-id", "7"])
    words = ["run"] + rnd.choice([[], ["--frames", str(rnd.randrange(4, 65))]])
    return differences + both(path, words, full_store(rnd), few=True)


if __name__ == "__main__":
    compare(one_run)
