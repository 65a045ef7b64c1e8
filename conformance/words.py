"""Random words of the command line, beside an independent implementation.

    python3 conformance/words.py PROGRAM [RUNS [SEED]]

Each run calls both with the same random words, one call after the other, each over a folder of its own: commands and
other words in the first place, options of this and of other commands, given with a blank or with `=`, twice or without
a value, values in and out of their ranges, words too many and too few, and `--` with what stands behind it. Statuses
and printed lines are compared: whether the words are taken, and what a command answers that finds nothing to work on.
Not part of the gate. Skipped where the independent implementation (PGBACKUP_ORACLE) isn't there.
"""
import os

from common import compare, oracle, program

OPTIONS = {"init": ["segment-mib", "relseg", "system-id"], "run": ["frames", "keep-days"], "verify": [], "combine": [],
           "merge-incr": [], "restore": ["target"], "replay": ["target"], "walsummary": [], "drill": [],
           "follow": ["segment-mib", "relseg"], "restart": []}
PLACES = {"init": 0, "run": 0, "verify": 1, "combine": 2, "merge-incr": 3, "restore": 2, "replay": 1, "walsummary": 2,
          "drill": 1, "follow": 1, "restart": 0}
VALUES = ["0", "1", "2", "3", "01", "4", "64", "1024", "1025", "131072", "131073", "36500", "36501", "4294967295",
          "4294967296", "18446744073709551615", "18446744073709551616", "+1", "-1", "", " 1", "1 ", "0x1", "x", "0/0",
          "0/100060", "0/1006A0", "FFFFFFFF/FFFFFFFF", "100000000/0", "0/", "/0", "0/1/2", "g/0"]
WORDS = ["f1", "i1", "p", "q", "P", "a-b", "a" * 32, "a" * 33, "_", "", "-", "0/100060", "0/100090", "0/1006A0", "0/g",
         "7", "07", "x y", "b/f1"]
FIRST = list(OPTIONS) * 6 + ["", "Init", "--help", "--version", "-h", "help", "init ", "vacuum", "--", "-"]


def option(rnd, command):
    """One option, mostly of this command, in one of its forms, as words."""
    own = OPTIONS.get(command, [])
    others = ["target", "relseg", "frames", "keep-days", "force", ""]
    name = rnd.choice(own) if own and rnd.random() < 0.8 else rnd.choice(others)
    value, form = rnd.choice(VALUES), rnd.random()
    if form < 0.5:
        return ["--" + name, value]
    if form < 0.9:
        return ["--%s=%s" % (name, value)]
    return ["--" + name] if form < 0.95 else ["-" + name[:1], value]


def words(rnd):
    """The words of one call."""
    command = rnd.choice(FIRST)
    found = [[rnd.choice(WORDS[:4]) if rnd.random() < 0.7 else rnd.choice(WORDS)]
             for _ in range(max(0, PLACES.get(command, 1) + rnd.choice([0, 0, 0, 0, 1, -1])))]
    for _ in range(rnd.choice([0, 0, 1, 1, 2, 3])):
        found.insert(rnd.randint(0, len(found)), option(rnd, command))
    if rnd.random() < 0.1:
        found.insert(rnd.randint(0, len(found)), ["--"])
    return [command] + [word for part in found for word in part]


def theirs(call):
    """What the other implementation answers, in a folder of its own."""
    home = os.getcwd()
    os.chdir("theirs")
    try:
        return oracle(call)
    finally:
        os.chdir(home)


def one_run(path, rnd):
    """What differs, as a list of texts."""
    for folder in ("ours", "theirs"):
        os.mkdir(folder)
    differences = []
    for call in (words(rnd) for _ in range(12)):
        ours, other = program(path, call, folder="ours"), theirs(call)
        if ours != other:
            differences.append("%s: %s and %s" % (call, ours, other))
    return differences


if __name__ == "__main__":
    compare(one_run)
