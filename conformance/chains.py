"""Chains of backups taken by `pgbackup run`, and by an independent implementation.

    python3 conformance/chains.py PROGRAM [RUNS [SEED]]

Each run makes a store of few blocks a file, at times of the default, and runs one to four random scripts
on it with full and incremental backups among their lines, each incremental one mostly on the backup
before it, else on any, with truncations, growth over segment boundaries, relations dropped and made
anew, checkpoints and summaries.
At times a backup's manifest is damaged between two scripts, or the summaries are removed. Then each
backup is checked by `verify`, and a range of WAL is summed up. Lines, statuses and all files are compared.
Not part of the gate. Skipped where the independent implementation (PGBACKUP_ORACLE) isn't there.
"""
import os
import shutil

from common import compare
from run import Store, both, some_lines
from summaries import a_range, ends_of, summaries


def a_script(rnd, store, names):
    """A script of some lines, with backups of new names anywhere among them."""
    lines = some_lines(rnd, store, rnd.choice([3, 10, 30]))
    at = sorted(rnd.randrange(len(lines) + 1) for _ in range(rnd.randrange(1, 4)))
    for behind, place in enumerate(at):
        name = "c%d" % len(names)
        prior = names[-1] if names and rnd.random() < 0.8 else rnd.choice(names + ["none"])
        lines.insert(place + behind, "incr %s %s" % (name, prior) if names and rnd.random() < 0.8 else "full " + name)
        names.append(name)
    for _ in range(rnd.randrange(3)):
        lines.insert(rnd.randrange(len(lines) + 1), rnd.choice(["checkpoint", "summarise"]))
    return "\n".join(["worker w"] + lines).encode() + b"\n"


def damage(rnd, names):
    """A byte of a manifest, or all summaries, in both folders alike."""
    if rnd.random() < 0.5:
        for top in ("ours", "theirs"):
            shutil.rmtree(top + "/sums", ignore_errors=True)
        return
    name = "/b/%s/backup_manifest" % rnd.choice(names)
    if not os.path.exists("ours" + name):
        return
    with open("ours" + name, "rb") as f:
        content = bytearray(f.read())
    content[rnd.randrange(len(content))] ^= 1 << rnd.randrange(8)
    for top in ("ours", "theirs"):
        with open(top + name, "wb") as f:
            f.write(content)


def one_run(path, rnd):
    """What differs, as a list of texts."""
    for folder in ("ours", "theirs"):
        os.mkdir(folder)
    relseg = str(rnd.choice([1, 2, 3, 5, 7, 131072]))
    differences = both(path, ["init", "--segment-mib", "1", "--system-id", "7", "--relseg", relseg])
    store, names = Store(), []
    for _ in range(rnd.randrange(1, 5)):
        differences += both(path, ["run"], a_script(rnd, store, names))
        if rnd.random() < 0.15:
            damage(rnd, names)
    for name in names:
        differences += both(path, ["verify", name])
    places = ends_of(summaries()) or [0x100028]
    for _ in range(3):
        differences += both(path, ["walsummary"] + a_range(rnd, places))
    return differences


if __name__ == "__main__":
    compare(one_run)
