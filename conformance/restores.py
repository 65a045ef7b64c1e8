"""Backups restored to random targets by `pgbackup restore` and by an independent implementation.

    python3 conformance/restores.py PROGRAM [RUNS [SEED]]

Each run makes a store, runs one to three random scripts on it with a backup among their lines, which
drop relations too and make them anew, and restores each backup to five targets: starts and ends of entries, places beside them, before the
backup's end and past the WAL's, and none. Lines, statuses and all files are compared with those of the
other implementation, and what a restore wrote with what `replay` to the same target writes. At times
the WAL or the backup was damaged before.
Not part of the gate. Skipped where the independent implementation (PGBACKUP_ORACLE) isn't there.
"""
import os
import shutil

from common import compare, files, program
from run import Store, both, some_lines


def a_script(rnd, store, names):
    """A script of some lines, with full backups of new names anywhere among them."""
    lines = some_lines(rnd, store, rnd.choice([3, 10, 30]))
    for _ in range(rnd.randrange(3)):
        names.append("r%d" % len(names))
        lines.insert(rnd.randrange(len(lines) + 1), "full " + names[-1])
    return "\n".join(["worker w"] + lines).encode() + b"\n"


def wal_end(path):
    """Where our WAL ends."""
    status, lines = program(path, ["replay", "whole"], folder="ours")
    return int(lines[0].split()[1].split("/")[1], 16) if status == 0 else 0x100100


def lsn(place):
    return "%X/%X" % (place >> 32, place & 0xffffffff)


def a_target(rnd, ends, last):
    """A place near the WAL's entries, or none."""
    if rnd.random() < 0.2:
        return None
    place = rnd.choice(ends + [last, rnd.randrange(0x100000, last + 64)])
    return max(0, place + rnd.choice([0, 0, 0, -1, 1, -8, 8]))


def ends_in(lines):
    """The ends of entries that the answers of a run tell."""
    words = [word for line in lines for word in line.split() if word.count("/") == 1]
    return [int(high, 16) << 32 | int(low, 16) for high, low in (word.split("/") for word in words)]


def damage(rnd, names):
    """A byte of the WAL or of a backup, in both folders alike."""
    folder = rnd.choice(["wal", "b/" + rnd.choice(names)])
    found = sorted(files("ours/" + folder))
    if not found:
        return
    name = folder + "/" + rnd.choice(found)
    with open("ours/" + name, "rb") as f:
        content = bytearray(f.read())
    if not content:
        return
    used = len(bytes(content).rstrip(b"\0")) or 1
    content[rnd.randrange(used)] ^= 1 << rnd.randrange(8)
    for top in ("ours/", "theirs/"):
        with open(top + name, "wb") as f:
            f.write(content)


def restored(path, rnd, members, target, sound=True):
    """What differs of one restore of a chain, and, where it is sound, of the replay to the same target."""
    option = [] if target is None else ["--target", lsn(target)]
    words = [["restore"] + option + ["r"] + members, ["restore", "r"] + members + option][rnd.randrange(2)]
    differences = both(path, words)
    if rnd.random() < 0.1:
        differences += both(path, words)
    made = files("ours/o/r")
    status, _ = program(path, ["replay"] + option + ["p"], folder="ours")
    if sound and made and status == 0 and made != files("ours/o/p"):
        differences.append("%s: replay writes other files" % " ".join(words))
    for top in ("ours", "theirs"):
        shutil.rmtree(top + "/o", ignore_errors=True)
    return differences


def one_run(path, rnd):
    """What differs, as a list of texts."""
    for folder in ("ours", "theirs"):
        os.mkdir(folder)
    relseg = str(rnd.choice([1, 3, 7, 131072]))
    differences = both(path, ["init", "--segment-mib", "1", "--system-id", "7", "--relseg", relseg])
    store, names, ends = Store(), [], []
    for _ in range(rnd.randrange(1, 4)):
        script = a_script(rnd, store, names)
        differences += both(path, ["run"], script)
    if not names:
        return differences
    last = wal_end(path)
    shutil.rmtree("ours/o", ignore_errors=True)
    for name in names:
        status, lines = program(path, ["verify", name], folder="ours")
        ends += ends_in(lines) if status == 0 else []
    damaged = rnd.random() < 0.2
    if damaged:
        damage(rnd, names)
    for name in names + (["none"] if rnd.random() < 0.1 else []):
        for _ in range(5):
            differences += restored(path, rnd, [name], a_target(rnd, ends or [last], last))
    return differences


if __name__ == "__main__":
    compare(one_run)
