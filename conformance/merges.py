"""Series of incremental backups merged by `pgbackup merge-incr`, beside what the rules of FORMATS.md make of their files.

    python3 conformance/merges.py PROGRAM [RUNS [SEED]]

Each run makes a store of few blocks a file, at times of the default, and runs one to four random scripts on it that
take a full backup and up to eleven incremental ones, each on the one before. Then it merges series of the chain four
times, each into the place of its members, so that merged ones are merged again. The files of each merged backup are made
here too, from those of its members by the rules, and all have to be the same; both programs verify it. The chain in
which it stands is combined, and restored to three random targets, by both, and each restore has to write what `replay`
to the same target writes. Series that are none, a member that isn't as its manifest lists it, and outputs that hold a
file have to be refused by their lines.
Not part of the gate. Skipped where the independent implementation (PGBACKUP_ORACLE) isn't there.
"""
import json
import os
import shutil
import struct

from combines import Chains, a_script, begun
from common import compare, files, program
from restores import a_target, ends_in, restored, wal_end
from run import Store, both

PREFIX = "INCREMENTAL."
PAGE = 8192


def bytes_of(name, path):
    """A file of a backup."""
    with open("ours/b/%s/%s" % (name, path), "rb") as f:
        return f.read()


def manifest_of(name):
    return json.loads(bytes_of(name, "backup_manifest"))


def is_incremental(path):
    return path.startswith("base/") and os.path.basename(path).startswith(PREFIX)


def plain(path):
    """The path under which a whole file of this one stands."""
    return os.path.join(os.path.dirname(path), os.path.basename(path)[len(PREFIX):])


class Part:
    """An incremental file: its truncation length, and its blocks."""

    def __init__(self, data):
        _, count, self.length = struct.unpack_from("<III", data)
        numbers = struct.unpack_from("<%dI" % count, data, 12)
        first = len(data) - PAGE * count
        self.blocks = {number: data[first + PAGE * at:first + PAGE * (at + 1)] for at, number in enumerate(numbers)}

    def rebuilt(self):
        """How many blocks the whole file has."""
        return max([self.length] + [number + 1 for number in self.blocks])


def answer(parts, whole, number):
    """The page of a block that these members have, the newest first, behind them a whole file or none."""
    for part in parts:
        if number in part.blocks:
            return part.blocks[number]
        if number >= part.length:
            return None
    return (whole or b"")[PAGE * number:PAGE * (number + 1)] or None


def head(length, numbers):
    """The head of an incremental file."""
    data = struct.pack("<III%dI" % len(numbers), 0xD3AE1F0D, len(numbers), length, *numbers)
    return data + bytes(-len(data) % PAGE) if numbers else data


def merged_file(series, path):
    """The path and bytes that stand for the newest member's incremental file."""
    parts, whole = [], None
    for name in reversed(series):
        if os.path.exists("ours/b/%s/%s" % (name, plain(path))):
            whole = bytes_of(name, plain(path))
            break
        parts.append(Part(bytes_of(name, path)))
    answers = [answer(parts, whole, number) for number in range(parts[0].rebuilt())]
    if whole is not None:
        return plain(path), b"".join(page or bytes(PAGE) for page in answers)
    least = min(part.length for part in parts)
    listed = [number for number, page in enumerate(answers) if page is not None or number >= least]
    return path, head(least, listed) + b"".join(answers[number] or bytes(PAGE) for number in listed)


def merged_label(series):
    newest, first = (bytes_of(name, "backup_label").splitlines(True) for name in (series[-1], series[0]))
    return b"".join(newest[:7] + first[7:])


def merged_files(series):
    """What a series is merged to, but for the manifest."""
    found = {}
    for row in manifest_of(series[-1])["Files"]:
        path = row["Path"]
        if is_incremental(path):
            path, data = merged_file(series, path)
        else:
            data = merged_label(series) if path == "backup_label" else bytes_of(series[-1], path)
        found[path] = data
    return found


def differs_in(name, series):
    """What differs of the files of a merged backup."""
    got, wanted, newest, made = files("ours/b/" + name), merged_files(series), manifest_of(series[-1]), manifest_of(name)
    del got["backup_manifest"]
    found = [path for path in sorted({*got, *wanted}) if got.get(path) != wanted.get(path)]
    if [row["Path"] for row in made["Files"]] != sorted(wanted):
        found.append("the manifest's rows")
    if any(made[key] != newest[key] for key in ("WAL-Ranges", "System-Identifier")):
        found.append("the manifest's range or system")
    return ["merged %s to %s: %s differ" % (series, name, found)] if found else []


def merged(path, name, series):
    """What differs of a merge that has to be done, and of its checks by both."""
    status, lines = program(path, ["verify", series[-1]], folder="ours")
    start, end = lines[0].split()[3:5]
    got = program(path, ["merge-incr", name] + series, folder="ours")
    wanted = 0, ["merged %s %s %s %d" % (name, start, end, len(manifest_of(series[-1])["Files"]))]
    if status or got != wanted:
        return ["merge-incr %s %s: %s, not %s" % (name, series, got, wanted)]
    shutil.copytree("ours/b/" + name, "theirs/b/" + name)
    return differs_in(name, series) + both(path, ["verify", name])


def refused(path, words, wanted):
    """What differs of a merge that has to be refused so."""
    got = program(path, ["merge-incr"] + words, folder="ours")
    same = got[0] == 1 and got[1][0].startswith("refused " + wanted)
    return [] if same else ["merge-incr %s: %s, not %s" % (words, got, wanted)]


def refusals(path, rnd, chain):
    """What differs of merges that have to be refused."""
    at = rnd.randrange(1, len(chain) - 1)
    first, second = chain[at:at + 2]
    found = refused(path, ["no", chain[0], chain[1]], "31 LaterFull %s" % chain[0])
    found += refused(path, ["no", first, first], "32 WrongPrior %s" % first)
    found += refused(path, [first, first, second], "41 AreaNotEmpty b/%s" % first)
    found += refused(path, ["no"] + [first] * 65, "37 TooManyMembers")
    kept = bytes_of(second, "backup_label")
    with open("ours/b/%s/backup_label" % second, "ab") as f:
        f.write(b"X")
    found += refused(path, ["no", first, second], "25 ")
    with open("ours/b/%s/backup_label" % second, "wb") as f:
        f.write(kept)
    return found + (["a refused merge left files"] if files("ours/b/no") else [])


def one_run(path, rnd):
    """What differs, as a list of texts."""
    _, differences = begun(path, rnd)
    store, chains = Store(), Chains()
    for _ in range(rnd.randrange(1, 5)):
        differences += both(path, ["run"], "\n".join(a_script(rnd, store, chains)).encode() + b"\n")
    last = wal_end(path)
    shutil.rmtree("ours/o", ignore_errors=True)
    there = [name for name in chains.priors if os.path.exists("ours/b/%s/backup_manifest" % name)]
    chain = chains.of(max(there, key=lambda name: len(chains.of(name)), default=None))
    ends = [end for name in chain for end in ends_in(program(path, ["verify", name], folder="ours")[1])]
    for turn in range(4):
        if len(chain) < 3 or any(name not in there for name in chain):
            break
        differences += refusals(path, rnd, chain)
        begin = rnd.randrange(1, len(chain) - 1)
        behind = rnd.randrange(begin + 2, len(chain) + 1)
        name = "m%d" % turn
        differences += merged(path, name, chain[begin:behind])
        chain = chain[:begin] + [name] + chain[behind:]
        there.append(name)
        differences += both(path, ["combine", "k%d" % turn] + chain)
        for _ in range(3):
            differences += restored(path, rnd, chain, a_target(rnd, ends or [last], last))
    return differences


if __name__ == "__main__":
    compare(one_run)
