"""Measures the merging and the combining of a chain of a real PostgreSQL 17 cluster beside pg_combinebackup.

    python3 bench/merge.py PROGRAM [ROUNDS]

A cluster gets a full backup of some 1,600 files and two incremental ones, as conformance/real.py has them. `merge-incr` of
the two and `combine` of the three are measured, in turn with pg_combinebackup of the three, once as it is and once with
`--no-sync`, and with `sha256sum` of the files that `combine` reads and writes. pg_combinebackup takes the sums of files that
it copies from their manifest, and checks none. Prints the best times of each over rounds, of the processor and by the clock,
and their ratios. Skipped where no PostgreSQL 17 is installed (conformance/postgres.py).
"""
import os
import shutil
import sys

sys.path.insert(0, os.path.join(os.path.dirname(os.path.abspath(__file__)), "..", "conformance"))
from postgres import Missing, Tools
from real import Chains, members
from wal import Best

KIND = "SHA256"
OURS, THEIRS, MERGED = "ours", "theirs", "merged"


def files(folders):
    found = []
    for folder in folders:
        for top, _, names in os.walk(folder):
            found += [os.path.join(top, name) for name in names]
    return found


def theirs(tools, chain, *words):
    """pg_combinebackup as words."""
    folders = [tools.inside(chain.at(name)) for name in members(KIND)]
    return tools.words("pg_combinebackup", "--manifest-checksums=" + KIND, *words, "-o", tools.inside(chain.at(THEIRS)), *folders)


def one_round(best, program, tools, chain):
    """Takes each way once."""
    names = members(KIND)
    for way, out, words in (
            ("combine", OURS, [program, "combine", OURS] + names), ("merge-incr", MERGED, [program, "merge-incr", MERGED] + names[1:]),
            ("pg_combinebackup", THEIRS, theirs(tools, chain)),
            ("pg_combinebackup --no-sync", THEIRS, theirs(tools, chain, "--no-sync"))):
        shutil.rmtree(chain.at(out), ignore_errors=True)
        os.sync()
        best.take(way, words)
    best.take("sha256sum", ["sha256sum"] + files(chain.at(name) for name in names + [OURS]))


def told(best, way, others):
    """Prints what a way takes, and what it is of others."""
    print("%s: %s, %.0f MiB of memory" % (way, best.times(way), best.memory[way]))
    for other in others:
        print("    %s %s" % (best.ratio(way, other), other))


def main():
    try:
        tools = Tools()
    except Missing as why:
        print("skipped: %s" % why)
        return
    program, rounds = os.path.abspath(sys.argv[1]), int((sys.argv[2:] + ["3"])[0])
    chain, best = Chains(tools, program, False, [KIND]), Best()
    try:
        chain.take()
        os.chdir(chain.room)
        for _ in range(rounds):
            one_round(best, program, tools, chain)
        counts = [(name, files([chain.at(name)])) for name in members(KIND) + [OURS, MERGED]]
    finally:
        os.chdir("/")
        chain.end()
    print("a chain of %s" % ", ".join("%s: %d files" % (name, len(found)) for name, found in counts))
    told(best, "combine", ["pg_combinebackup", "pg_combinebackup --no-sync", "sha256sum"])
    told(best, "merge-incr", ["combine", "pg_combinebackup", "pg_combinebackup --no-sync"])
    for way in ("pg_combinebackup", "pg_combinebackup --no-sync", "sha256sum"):
        told(best, way, [])


if __name__ == "__main__":
    main()
