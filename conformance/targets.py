"""A backup restored to every place from before its end to past the WAL's end.

    python3 conformance/targets.py PROGRAM [RUNS [SEED]]

Each run makes a store, runs one fixed script on it with a full backup in its middle, and then restores
the backup to each multiple of eight from a little before its end to past the WAL's end, with and
without damage: none, the WAL cut within the backup, the WAL of another store, or a WAL that ends
before the backup's start. Lines, statuses and all files are compared with those of an independent
implementation, and what a restore wrote with what `replay` to the same target writes.
Not part of the gate. Skipped where the independent implementation (PGBACKUP_ORACLE) isn't there.
"""
import os
import shutil

from common import SEGMENT, compare, files, program
from restores import ends_in, lsn, restored
from run import both

SCRIPT = b"""worker w
create 5/16384
grow 5/16384@0 10 24,8192,0
full f1
truncate 5/16384 2
grow 5/16384@2 4 24,8192,0
change 5/16384@1+100:00FF
checkpoint
change 5/16384@1+100:01FF
drop 5/16384
create 5/16384_init
create 5/16384
grow 5/16384@0 2 24,8192,7
"""


def cut(to):
    """Leaves so many bytes of the WAL, in both folders."""
    for top in ("ours", "theirs"):
        name = "%s/wal/%s" % (top, SEGMENT)
        with open(name, "rb") as f:
            content = f.read()
        with open(name, "wb") as f:
            f.write(content[:to])


def other_store():
    """The WAL of another store, with the same script."""
    for top in ("ours", "theirs"):
        shutil.rmtree(top + "/wal")
        shutil.rmtree(top + "/sums", ignore_errors=True)
        for part in ("data0", "data1", "data2", "data3"):
            shutil.rmtree("%s/%s" % (top, part), ignore_errors=True)


def one_run(path, rnd):
    """What differs, as a list of texts."""
    for folder in ("ours", "theirs"):
        os.mkdir(folder)
    init = ["init", "--segment-mib", "1", "--relseg", str(rnd.choice([1, 4, 131072])), "--system-id"]
    differences = both(path, init + ["7"])
    differences += both(path, ["run"], SCRIPT)
    start, end = ends_in(program(path, ["verify", "f1"], folder="ours")[1])
    last = 0x100000 + len(files("ours/wal")[SEGMENT])
    kind = rnd.randrange(4)
    if kind == 1:
        cut(start - 0x100000 + rnd.randrange(end - start))
    if kind == 2:
        other_store()
        differences += both(path, init + ["8"])
        differences += both(path, ["run"], SCRIPT.replace(b"full f1\n", b""))
    if kind == 3:
        cut(0x2000 if start > 0x102000 else start - 0x100000 - 8)
    for target in [None] + list(range(end - 16, last + 24, 8)):
        differences += restored(path, rnd, ["f1"], target)
    return differences


if __name__ == "__main__":
    compare(one_run)
