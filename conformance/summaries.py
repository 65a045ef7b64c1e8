"""Summaries published by `pgbackup run`, and merged ones printed by `pgbackup walsummary`, beside an
independent implementation.

    python3 conformance/summaries.py PROGRAM [RUNS [SEED]]

Each run makes a store with both and runs one to four random scripts on it with checkpoints and
summaries among their lines, and relations that are dropped and made anew. Between two scripts, and behind the last, a summary's file is at times
damaged in both alike, renamed, cut, removed, or another one added; or some are made older by days, and runs
keep summaries for no, one or ten days, or all. Then both are asked for six ranges:
of ends and starts of summaries, places beside them, and empty or turned ones. Lines, statuses and all
files are compared.
Not part of the gate. Skipped where the independent implementation (PGBACKUP_ORACLE) isn't there.
"""
import os

from common import compare
from restores import lsn
from run import Store, both, some_lines


def a_script(rnd, store):
    """A script of some lines, with checkpoints and summaries anywhere among them."""
    lines = some_lines(rnd, store, rnd.choice([3, 10, 40]))
    for _ in range(rnd.randrange(1, 6)):
        lines.insert(rnd.randrange(len(lines) + 1), "checkpoint")
    for _ in range(rnd.randrange(1, 3)):
        lines.insert(rnd.randrange(len(lines) + 1), "summarise")
    return "\n".join(["worker w"] + lines + ["checkpoint", "summarise"]).encode() + b"\n"


def ends_of(names):
    """The starts and ends that names of summaries' files tell."""
    return [int(name[at:at + 16], 16) for name in names if len(name) == 48 for at in (8, 24)]


def summaries():
    """The names of our summaries' files, in order."""
    return sorted(os.listdir("ours/sums")) if os.path.isdir("ours/sums") else []


def damaged(rnd, name, content):
    """A name and what its file is to hold, by one damage to a file. None where it is to be removed."""
    content, kind = bytearray(content), rnd.randrange(5)
    if kind == 0 and content:
        content[rnd.randrange(len(content))] ^= 1 << rnd.randrange(8)
    if kind == 1 and content:
        del content[rnd.randrange(len(content)):]
    if kind == 2:
        other = ends_of(summaries())
        name = "00000001%016X%016X.summary" % (rnd.choice(other), rnd.choice(other))
    if kind == 3:
        name = rnd.choice(["A", "z", "00000002" + name[8:], name.lower()])
    return name, None if kind == 4 else content


def damage(rnd):
    """Changes, cuts, renames, adds or removes a file of a summary, in both folders alike."""
    name = rnd.choice(summaries())
    with open("ours/sums/" + name, "rb") as f:
        name, content = damaged(rnd, name, f.read())
    for top in ("ours/sums/", "theirs/sums/"):
        if content is None:
            os.remove(top + name)
            continue
        with open(top + name, "wb") as f:
            f.write(content)


def crc32c(data):
    """The CRC-32C of bytes, bit by bit."""
    crc = 0xFFFFFFFF
    for byte in data:
        crc ^= byte
        for _ in range(8):
            crc = crc >> 1 ^ (0x82F63B78 if crc & 1 else 0)
    return crc ^ 0xFFFFFFFF


def aged(content, seconds):
    """A summary's file, made so many seconds earlier."""
    made = max(0, int.from_bytes(content[20:28], "little") - seconds)
    content = content[:20] + made.to_bytes(8, "little") + content[28:-4]
    return content + crc32c(content).to_bytes(4, "little")


def age(rnd):
    """Makes some summaries older by days, and an hour more or less, in both folders alike."""
    for name in summaries():
        with open("ours/sums/" + name, "rb") as f:
            content = f.read()
        if len(content) >= 40 and rnd.random() < 0.7:
            content = aged(content, 86400 * rnd.choice([0, 1, 2, 9, 10, 11, 30]) + rnd.choice([3600, -3600]))
        for top in ("ours/sums/", "theirs/sums/"):
            with open(top + name, "wb") as f:
                f.write(content)


def run_words(rnd):
    """The words of a run, with days for which it keeps summaries or without."""
    return rnd.choice([["run"], ["run", "--keep-days", rnd.choice(["0", "1", "10", "36500"])]])


def a_range(rnd, places):
    """The words of two places, mostly in order."""
    near = [max(0, rnd.choice(places) + rnd.choice([0, 0, 0, 0, 1, -1, 8])) for _ in range(2)]
    return [lsn(place) for place in (near if rnd.random() < 0.1 else sorted(near))]


def one_run(path, rnd):
    """What differs, as a list of texts."""
    for folder in ("ours", "theirs"):
        os.mkdir(folder)
    relseg = str(rnd.choice([1, 3, 7, 131072]))
    differences = both(path, ["init", "--segment-mib", "1", "--system-id", "7", "--relseg", relseg])
    store = Store()
    for _ in range(rnd.randrange(1, 5)):
        differences += both(path, run_words(rnd), a_script(rnd, store))
        if summaries() and rnd.random() < 0.25:
            damage(rnd)
        if rnd.random() < 0.5:
            age(rnd)
    places = ends_of(summaries()) or [0x100028]
    for _ in range(6):
        differences += both(path, ["walsummary"] + a_range(rnd, places))
    return differences


if __name__ == "__main__":
    compare(one_run)
