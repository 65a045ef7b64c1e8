"""The drills of a number, beside an independent implementation.

    python3 conformance/drills.py PROGRAM [RUNS [SEED]]

Each run takes a number, the first 32 of them 0 to 31 and the others drawn, and calls `drill` of it twice, each time
in a folder of its own, and once of the independent implementation: the three print the same line. Then an incremental
backup is taken on the drill's last one and restored with its chain, to the files that the drill left and that `replay`
gives. And the drill is tried where one of its areas holds a file, in both, with words that aren't taken, and where one
of its areas has too little room: there it ends with that area's name, or prints the line where the room was enough.
Not part of the gate. Skipped where the independent implementation (PGBACKUP_ORACLE) isn't there.
"""
import os

from common import compare, files, oracle, program
from faults import Skipped, mounted

MEMBERS = ["drill_0", "drill_1", "drill_2", "e"]
AREAS = ["wal", "sums", "b/drill_0", "b/drill_1", "b/drill_2", "o/drill"]
REFUSED = [["drill"], ["drill", "01"], ["drill", "-1"], ["drill", "4294967296"], ["drill", "1", "2"],
           ["drill", "x"], ["drill", "--frames", "4", "1"], ["drill", "1", "--target", "0/1"]]


def numbers(first):
    """The numbers of the runs, in turn."""
    yield from range(32)
    while True:
        yield first.randrange(2 ** 32)


def in_folder(name, call):
    """What a call gives in a new folder of this name."""
    os.mkdir(name)
    home = os.getcwd()
    os.chdir(name)
    try:
        return call()
    finally:
        os.chdir(home)


def put(area):
    """A file in an area of the working folder."""
    os.makedirs(area)
    with open(os.path.join(area, "x"), "wb"):
        pass


def chain(path, number, folder):
    """What differs of a backup on the drill's last one, and of its restore."""
    status, lines = program(path, ["run"], b"worker w\nincr e drill_2\n", folder)
    if status or not lines[1].startswith("w 2 backup "):
        return ["drill %d: the run behind it: %s" % (number, lines)]
    differences = []
    for words in (["restore", "r"] + MEMBERS, ["replay", "s"]):
        status, lines = program(path, words, folder=folder)
        if status or files("%s/o/%s" % (folder, words[1])) != files(folder + "/o/drill"):
            differences.append("drill %d: %s: %s" % (number, " ".join(words), lines))
    return differences


def full(path, number, area):
    """What differs where an area holds a file."""
    words = ["drill", str(number)]
    ours = in_folder("full", lambda: (put(area), program(path, words))[1])
    theirs = in_folder("theirs_full", lambda: (put(area), oracle(words))[1])
    return [] if ours == theirs and ours[0] == 1 else ["%s full: %s and %s" % (area, ours, theirs)]


def without_room(path, number, line, rnd):
    """What differs where an area's disk has little room: `wal` needs a MiB and some 300 KiB, the others up to 300."""
    area = rnd.choice(AREAS + ["data0", "data1", "data2", "data3"])
    folder = os.path.abspath(os.path.join("room", area))
    os.makedirs(folder)
    size = 4 * rnd.randrange(1, 400 if area == "wal" else 80)
    try:
        with mounted(folder, "size=%dk" % size):
            status, lines = program(path, ["drill", str(number)], folder="room")
    except Skipped:
        return []
    told = "refused 60 DeviceFault " + area
    if (status, lines) in ((0, [line]), (3, [told])):
        return []
    return ["drill %d with %d KiB for %s: %d %s" % (number, size, area, status, lines)]


TURNS = None


def one_run(path, rnd):
    """What differs, as a list of texts."""
    global TURNS
    TURNS = TURNS or numbers(rnd)
    number = next(TURNS)
    words = ["drill", str(number)]
    theirs = in_folder("theirs", lambda: oracle(words))
    differences = []
    for folder in ("first", "second"):
        ours = in_folder(folder, lambda: program(path, words))
        if ours != theirs:
            differences.append("drill %d: %s and %s" % (number, ours, theirs))
    differences += chain(path, number, "first")
    differences += full(path, number, rnd.choice(AREAS))
    differences += without_room(path, number, theirs[1][0], rnd)
    wrong = rnd.choice(REFUSED)
    ours = in_folder("wrong", lambda: program(path, wrong))
    if ours != (2, ["refused 1 Usage"]) or os.listdir("wrong"):
        differences.append("%s: %s" % (" ".join(wrong), ours))
    return differences


if __name__ == "__main__":
    compare(one_run)
