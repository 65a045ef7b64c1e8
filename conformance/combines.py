"""Chains of backups combined and restored by `pgbackup combine` and `pgbackup restore`, and by an independent
implementation.

    python3 conformance/combines.py PROGRAM [RUNS [SEED]]

Each run makes a store of few blocks a file, at times of the default, and runs one to four random scripts on it that
take a full backup and up to eleven incremental ones, mostly each on the one before, with truncations, growth over
segment boundaries, relations dropped and made anew, and checkpoints between. Then it combines chains six times: whole ones, their beginnings and their
ends, and with a backup that was combined before in the place of the members that it was made of; of some a member is
left out, doubled, moved, or another one, and now and then there are 65. At times there are backups of another store
beside them, which was made by most lines of our first script, under the same system identifier or another: chains of
them, and ours that go on with theirs, or the other way. At times the backups have files that are no fork's, such as
visibility maps, shared catalogs and files of tablespaces, plain and incremental. The output is at times an area that holds files or a member's.
What was combined is checked by `verify`. Then six chains are restored to random targets, and what a restore wrote is
compared with what `replay` to the same target writes, unless a member is of another store, or one was damaged before,
which at times one is, its sums made again or not, or made to belong elsewhere. Lines, statuses and all files are
compared.
Not part of the gate. Skipped where the independent implementation (PGBACKUP_ORACLE) isn't there.
"""
import os
import re
import shutil

from backups import MAGIC, Backup, damage, file_of
from common import compare, oracle, program
from restores import a_target, ends_in, restored, wal_end
from run import Store, both, some_lines

MOST = 12
# Folders and names of files that are no fork's; of the last two folders no file is incremental.
OTHERS = [("base/5", "16384_vm"), ("base/5", "16384_fsm"), ("global", "1262"), ("base/5", "PG_VERSION"),
          ("pg_tblspc/16390/PG_17_202406281/5", "16391.1"), ("pg_xact", "0000"), ("base", "other")]


class Chains:
    """The backups of a store: the one on which each was taken, and those that were combined up to each; and the
    backups of another store, with what was combined of them."""

    def __init__(self):
        self.priors, self.combined, self.strangers = {}, {}, {}

    def taken(self, name, prior):
        self.priors[name] = prior

    def names(self):
        return list(self.priors) + list(self.strangers) + [name for names in self.combined.values() for name in names]

    def own(self, chain):
        return not any(name in self.strangers for name in chain)

    def of(self, name):
        """The chain that ends with a backup, oldest first."""
        chain = []
        while name is not None:
            chain.append(name)
            name = self.priors.get(name, self.strangers.get(name))
        return chain[::-1]

    def crossed(self, rnd, chain):
        """A chain whose first members are of one store and the others of the other one, as far as it has such."""
        at, first = rnd.randrange(len(chain) + 1), rnd.random() < 0.5
        return [stranger_of(name) if stranger_of(name) in self.strangers and (place < at) == first else name
                for place, name in enumerate(chain)]

    def note(self, chain, out):
        """This chain was combined."""
        if self.own(chain):
            last = next((end for end, names in self.combined.items() if chain[-1] in names), chain[-1])
            self.combined.setdefault(last, []).append(out)
        else:
            self.strangers[out] = None

    def shortened(self, rnd, chain):
        """At times a backup that was combined stands in the place of what it was made of."""
        ends = [at for at, name in enumerate(chain) if self.combined.get(name)]
        if not ends or rnd.random() < 0.4:
            return chain
        at = rnd.choice(ends)
        return [rnd.choice(self.combined[chain[at]])] + chain[at + 1:]


def stranger_of(name):
    """The name that another store's backup has, where ours has this one."""
    return re.sub("^c", "d", name)


def a_script(rnd, store, chains):
    """A script of some lines, with backups of new names anywhere among them."""
    lines = some_lines(rnd, store, rnd.choice([3, 10, 30]))
    taken = []
    for _ in range(min(rnd.randrange(1, 6), MOST - len(chains.priors))):
        name, before = "c%d" % len(chains.priors), list(chains.priors)
        prior = None if not before else before[-1] if rnd.random() < 0.85 else rnd.choice(before)
        taken.append("full " + name if prior is None else "incr %s %s" % (name, prior))
        chains.taken(name, prior)
    places = sorted(rnd.randrange(len(lines) + 1) for _ in taken)
    for behind, (place, line) in enumerate(zip(places, taken)):
        lines.insert(place + behind, line)
    for _ in range(rnd.randrange(3)):
        lines.insert(rnd.randrange(len(lines) + 1), "checkpoint")
    return ["worker w"] + lines


def add_strangers(rnd, relseg, lines, chains):
    """Backups of another store, in both folders alike. It has all lines up to its first backup and most behind."""
    first = next(at for at, line in enumerate(lines) if line == "full c0") + 1
    theirs = []
    for at, line in enumerate(lines):
        taken = re.fullmatch(r"(full|incr)( c\d+)+", line)
        if taken:
            word, *names = line.split()
            names = [stranger_of(name) for name in names]
            chains.strangers[names[0]] = names[1] if names[1:] else None
            theirs.append(" ".join([word] + names))
        elif at < first or rnd.random() < 0.7:
            theirs.append(line)
    os.mkdir("other")
    os.chdir("other")
    oracle(["init", "--segment-mib", "1", "--system-id", rnd.choice(["7", "7", "8"]), "--relseg", relseg])
    oracle(["run"], "\n".join(theirs).encode() + b"\n")
    os.chdir("..")
    for name in chains.strangers:
        for folder in ("ours/b/", "theirs/b/"):
            if os.path.isdir("other/b/" + name):
                shutil.copytree("other/b/" + name, folder + name)


def a_chain(rnd, chains):
    """The members of a chain, at times not in order, not all of them, or not of one store."""
    chain = chains.shortened(rnd, chains.of(rnd.choice(list(chains.priors) + list(chains.strangers)[:3])))
    kind, at = rnd.random(), rnd.randrange(len(chain))
    if chains.strangers and rnd.random() < 0.3:
        return chains.crossed(rnd, chain)
    if kind < 0.6:
        return chain
    if kind < 0.68:
        return chain[at:]
    if kind < 0.76 and len(chain) > 1:
        return chain[:at] + chain[at + 1:]
    if kind < 0.82:
        return chain[:at + 1] + chain[at:]
    if kind < 0.88:
        return chain[:at] + [rnd.choice(chains.names() + ["none"])] + chain[at + 1:]
    if kind < 0.97:
        return rnd.sample(chain, len(chain))
    return chain + [chain[-1]] * (rnd.choice([64, 65]) - len(chain))


def an_output(rnd, chains, chain):
    """A new name, at times one that is taken, or a member's."""
    if rnd.random() < 0.9:
        return "k%d" % len(chains.names())
    return rnd.choice(chains.names() + chain)


def combined(path, rnd, chains):
    """What differs of one combining and of the check of what it made."""
    chain = a_chain(rnd, chains)
    out = an_output(rnd, chains, chain)
    new = not os.path.isdir("ours/b/" + out)
    differences = both(path, ["combine", out] + chain)
    if new and os.path.isdir("ours/b/" + out):
        chains.note(chain, out)
        differences += both(path, ["verify", out])
    return differences


def other_place(rnd, backup):
    """Leaves a backup whole, but of another system, end, timeline or prior place, or without its forks."""
    kind, manifest, label = rnd.randrange(5), backup.manifest(), backup.read("backup_label")
    if kind == 0:
        manifest["System-Identifier"] = 9
    elif kind == 1:
        manifest["WAL-Ranges"][0]["End-LSN"] = rnd.choice(["0/100100", "1/0"])
    elif kind == 2:
        for row in [row for row in manifest["Files"] if row["Path"].startswith("base/")]:
            backup.remove(row["Path"])
            manifest["Files"].remove(row)
    elif kind == 3:
        label = re.sub(rnd.choice([rb"(?<=START TIMELINE: )1", rb"(?<=FROM TLI: )1"]), b"2", label)
    else:
        label = re.sub(rb"(?<=FROM LSN: )\S+", b"0/100028", label)
    backup.write_manifest(manifest, rnd)
    backup.write("backup_label", label)
    backup.list_again("backup_label", rnd)


def an_other(rnd, folder, name):
    """A file of a folder, plain or incremental: its path and what it holds."""
    if rnd.random() < 0.4:
        return folder + "/" + name, rnd.randbytes(rnd.choice([0, 100, 8192, 20000, 32768]))
    length = rnd.randrange(5)
    blocks = sorted(rnd.sample(range(5), rnd.randrange(4)))
    return folder + "/INCREMENTAL." + name, file_of(MAGIC, len(blocks), length, blocks, rnd)


def add_others(rnd, chains):
    """Gives the backups files that are no fork's, in both folders alike; at times one is in no form there, or in
    both."""
    for place in rnd.sample(OTHERS, rnd.randrange(1, 4)):
        for name in chains.priors:
            if not os.path.exists("ours/b/%s/backup_manifest" % name):
                continue
            backup = Backup("ours/b/" + name)
            for _ in range(rnd.choice([1] * 12 + [0, 2])):
                path, content = an_other(rnd, *place)
                if chains.priors[name] is None and rnd.random() < 0.8:
                    path, content = "/".join(place), rnd.randbytes(rnd.choice([0, 8192, 20000, 32768]))
                backup.write(path, content)
                backup.list_again(path, rnd)
    for name in chains.priors:
        if os.path.isdir("ours/b/" + name):
            shutil.rmtree("theirs/b/" + name)
            shutil.copytree("ours/b/" + name, "theirs/b/" + name)


def spoil(rnd, name):
    """Damages a backup, in both folders alike."""
    if not os.path.exists("ours/b/%s/backup_manifest" % name):
        return
    rnd.choice([damage, other_place])(rnd, Backup("ours/b/" + name))
    shutil.rmtree("theirs/b/" + name)
    shutil.copytree("ours/b/" + name, "theirs/b/" + name)


def begun(path, rnd):
    """A new store in both folders: how many blocks a file of it has, and what differs."""
    for folder in ("ours", "theirs"):
        os.mkdir(folder)
    relseg = str(rnd.choice([1, 2, 3, 5, 7, 131072]))
    return relseg, both(path, ["init", "--segment-mib", "1", "--system-id", "7", "--relseg", relseg])


def one_run(path, rnd):
    """What differs, as a list of texts."""
    relseg, differences = begun(path, rnd)
    store, chains = Store(), Chains()
    scripts = [a_script(rnd, store, chains) for _ in range(rnd.randrange(1, 5))]
    for lines in scripts:
        differences += both(path, ["run"], "\n".join(lines).encode() + b"\n")
    last, ends = wal_end(path), []
    shutil.rmtree("ours/o", ignore_errors=True)
    for name in chains.priors:
        status, lines = program(path, ["verify", name], folder="ours")
        ends += ends_in(lines) if status == 0 else []
    if rnd.random() < 0.3:
        add_strangers(rnd, relseg, scripts[0], chains)
    if rnd.random() < 0.4:
        add_others(rnd, chains)
    spoilt = rnd.random() < 0.35
    for turn in range(6):
        if spoilt and turn == 3:
            spoil(rnd, rnd.choice(chains.names()))
        differences += combined(path, rnd, chains)
    for _ in range(6):
        chain, target = a_chain(rnd, chains), a_target(rnd, ends or [last], last)
        differences += restored(path, rnd, chain, target, not spoilt and chains.own(chain))
    return differences


if __name__ == "__main__":
    compare(one_run)
