"""A chain of 64 backups, and series of 63 and of 64 incremental ones merged to one, by the program and by an
independent implementation.

    python3 conformance/series.py PROGRAM [RUNS [SEED]]

Each run makes a store of few blocks a file, at times of the default, and runs scripts on it that take a full backup b0
and 64 incremental ones, each on the one before, with truncations, growth over segment boundaries, relations dropped and
made anew, and checkpoints between. The first 63 of these are merged to m, by `merge-incr` of both and by the rules of
FORMATS.md, as merges.py does it, and all files have to be the same. Then the chains [b0, m] and b0 to b63 are combined
and restored to the WAL's end and to three places, by both: the lines and all files have to be the same, and of the two
chains too, but for the moments in a manifest; and a restore has to write what `replay` to the same target writes. The
same with all 64 incremental ones merged to one, which is as many as are taken. 65 members are refused, of `merge-incr`,
`combine` and `restore`; and so are one member of `merge-incr`, a full one anywhere in a series, members out of order,
twice or left out, and one beside the one that it is merged in, each by its line.
Not part of the gate. Skipped where the independent implementation (PGBACKUP_ORACLE) isn't there.
"""
import os
import re
import shutil

from combines import begun
from common import compare, files, program
from merges import merged
from restores import a_target, ends_in, restored, wal_end
from run import Store, both, some_lines

MOST = 64
MOMENT = re.compile(rb'"Last-Modified": "[^"]*"')


def scripts(rnd, store):
    """Scripts of some lines and of backups, each on the one before, several to a script."""
    found, taken = [], 0
    while taken <= MOST:
        lines = ["worker w"]
        for number in range(taken, min(taken + rnd.randrange(5, 30), MOST + 1)):
            lines += some_lines(rnd, store, rnd.choice([0, 1, 2, 4])) + ["checkpoint"] * (rnd.random() < 0.2)
            lines.append("incr b%d b%d" % (number, number - 1) if number else "full b0")
            taken = number + 1
        found.append("\n".join(lines).encode() + b"\n")
    return found


def but_for_moments(folder):
    """The files of a backup, its manifest without moments and without its sum."""
    found = files(folder)
    lines = found["backup_manifest"].splitlines(True)
    found["backup_manifest"] = MOMENT.sub(b"", b"".join(lines[:-1]))
    return found


def combined_alike(path, turn, chains):
    """What differs of what these chains are combined to, which has to be the same."""
    differences, outs = [], ["c%d_%d" % (turn, at) for at in range(len(chains))]
    for out, chain in zip(outs, chains):
        differences += both(path, ["combine", out] + chain) + both(path, ["verify", out])
    if any(not os.path.isdir("ours/b/" + out) for out in outs):
        return differences + ["combine of %s: nothing" % chains]
    first, second = (but_for_moments("ours/b/" + out) for out in outs)
    return differences if first == second else differences + ["%s and %s differ" % tuple(outs)]


def restored_alike(path, rnd, chains, target):
    """What differs of what these chains are restored to, which has to be the same."""
    differences, made = [], []
    for chain in chains:
        differences += restored(path, rnd, chain, target)
        words = ["restore", "r"] + chain + ([] if target is None else ["--target", "0/%X" % target])
        made.append((program(path, words, folder="ours"), files("ours/o/r")))
        shutil.rmtree("ours/o", ignore_errors=True)
    first, second = made
    return differences if first == second else differences + [
        "%s: restores of two chains: %s and %s" % (target, first[0], second[0])]


def answers(path, words, wanted):
    """What differs of a call that has to end so, by the beginning of its one line."""
    before = files("ours/b")
    status, lines = program(path, words, folder="ours")
    same = (status, len(lines)) == (2 if wanted == "refused 1 Usage" else 1, 1) and lines[0].startswith(wanted)
    same = same and files("ours/b") == before
    return ([] if same else ["%s: %d %s, not %s" % (" ".join(words), status, lines, wanted)]) + both(path, words)


def refusals(path, rnd, names, start):
    """What differs of calls that have to be refused. `m` stands for all of names but the first and the last one."""
    full, first, second, last = names[0], names[1], names[2], names[-1]
    at = rnd.randrange(2, len(names) - 2)
    swapped = names[1:at] + [names[at + 1], names[at]] + names[at + 2:]
    twice, less = names[1:at + 1] + names[at:-1], names[1:at] + names[at + 1:]
    wrong = "refused 32 WrongPrior %s "
    cases = [(["merge-incr", "no"] + names, "refused 37 TooManyMembers"),
             (["merge-incr", "no"] + [first] * 65, "refused 37 TooManyMembers"),
             (["merge-incr", "no", "m"] + names[1:], "refused 37 TooManyMembers"),
             (["merge-incr", "no", first], "refused 1 Usage"),
             (["merge-incr", "no"], "refused 1 Usage"),
             (["merge-incr", "no"] + names[:-1], "refused 31 LaterFull " + full),
             (["merge-incr", "no"] + names[1:at] + [full] + names[at:-1], "refused 31 LaterFull " + full),
             (["merge-incr", "no"] + swapped, wrong % names[at + 1]),
             (["merge-incr", "no"] + twice, wrong % names[at]),
             (["merge-incr", "no"] + less, wrong % names[at + 1]),
             (["merge-incr", "no", "m", names[-2]], wrong % names[-2]),
             (["merge-incr", "no", first, "m"], wrong % "m"),
             (["merge-incr", "m"] + names[1:-1], "refused 41 AreaNotEmpty b/m")]
    for command, out in (("combine", "no"), ("restore", "r")):
        cases += [([command, out] + names, "refused 37 TooManyMembers"),
                  ([command, out] + names[:-1] + ["none"], "refused 37 TooManyMembers"),
                  ([command, out] + names[1:], "refused 30 FirstIncremental " + first),
                  ([command, out, "m", last], "refused 30 FirstIncremental m"),
                  ([command, out, full, full], "refused 31 LaterFull " + full),
                  ([command, out, full, second], wrong % second),
                  ([command, out, full, first, "m"], "%s%s " % (wrong % "m", start)),
                  ([command, out, full, "m", names[-2]], wrong % names[-2])]
    found = [it for words, wanted in cases for it in answers(path, words, wanted)]
    return found + (["a refused call left files"] if files("ours/b/no") or files("ours/o") else [])


def one_run(path, rnd):
    """What differs, as a list of texts."""
    _, differences = begun(path, rnd)
    store, names = Store(), ["b%d" % number for number in range(MOST + 1)]
    for script in scripts(rnd, store):
        differences += both(path, ["run"], script)
    last = wal_end(path)
    shutil.rmtree("ours/o", ignore_errors=True)
    lacking = [name for name in names if not os.path.exists("ours/b/%s/backup_manifest" % name)]
    if lacking:
        return differences + ["no backup %s was taken" % lacking]
    start = program(path, ["verify", names[0]], folder="ours")[1][0].split()[3]
    for turn, (name, chain) in enumerate([("m", names[:-1]), ("m64", names)]):
        differences += merged(path, name, chain[1:]) + both(path, ["merge-incr", "n" + name] + chain[1:])
        if but_for_moments("ours/b/" + name) != but_for_moments("ours/b/n" + name):
            differences.append("%s and n%s differ" % (name, name))
        pairs = [[names[0], name], chain] if turn == 0 else [[names[0], name], [names[0], "m", names[-1]]]
        differences += combined_alike(path, turn, pairs)
        ends = ends_in(program(path, ["verify", chain[-1]], folder="ours")[1])
        for target in [None] + [a_target(rnd, ends, last) for _ in range(3)]:
            differences += restored_alike(path, rnd, pairs, target)
    return differences + refusals(path, rnd, names, start)


if __name__ == "__main__":
    compare(one_run)
