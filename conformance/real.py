"""Chains of real PostgreSQL 17 clusters, combined by `pgbackup combine` and by pg_combinebackup.

    python3 conformance/real.py PROGRAM [ROUNDS]

Each round makes a cluster, every second one with another tablespace, and takes a full and two incremental backups of it
for each of the sums SHA224, SHA256, SHA384 and SHA512, while tables grow, shrink, are dropped and made. `verify` has to
take each. Each chain is combined by both programs, the program's folder completed by tools/complete-cluster, and then
all files and folders have to be the same, but for the times in `backup_manifest` and the order of its rows. So has to
be what pg_combinebackup makes of the chain in which `merge-incr` joined the incremental backups. A server is started
from what the program combined, and has to find in its tables what the first one had. At last one of the chains is
damaged, in each way of DAMAGES, and each has to be refused by name.
Not part of the gate. Skipped where no PostgreSQL 17 is installed (postgres.py).
"""
import filecmp
import os
import shutil
import subprocess
import sys

from backups import Backup
from common import program
from damages import DAMAGES, Damage
from postgres import Cluster, Missing, Tools

KINDS = ["SHA224", "SHA256", "SHA384", "SHA512"]
COMPLETE = os.path.join(os.path.dirname(os.path.abspath(__file__)), "..", "tools", "complete-cluster")
FIRST = """
create table big (id int primary key, v int, pad text);
insert into big select i, 0, repeat(md5(i::text), 12) from generate_series(1, 4000) i;
create table still (id int, pad text);
insert into still select i, repeat('s', 300) from generate_series(1, 1000) i;
create table shrink (id int, pad text);
insert into shrink select i, repeat('t', 400) from generate_series(1, 3000) i;
create table gone (id int, pad text);
insert into gone select i, repeat('g', 400) from generate_series(1, 1000) i;
create table cut (id int, pad text);
insert into cut select i, repeat('c', 400) from generate_series(1, 2000) i;
create unlogged table fast (id int primary key, pad text);
insert into fast select i, 'u' from generate_series(1, 500) i;
create table long (id int, doc text);
alter table long alter doc set storage external;
insert into long select i, repeat(md5(i::text), 400) from generate_series(1, 30) i;
create table empty (id int);
create sequence counter;
select nextval('counter');
vacuum;
"""
SECOND = """
update big set v = v + 1 where id % 20 = 0 and id < 800;
insert into big select i, 0, repeat(md5(i::text), 12) from generate_series(4001, 4400) i;
delete from shrink where id > 700;
vacuum (freeze, truncate) shrink;
truncate cut;
insert into cut select i, repeat('d', 400) from generate_series(1, 500) i;
drop table gone;
create table fresh (id int primary key, pad text);
insert into fresh select i, repeat('f', 200) from generate_series(1, 1000) i;
insert into long values (100, repeat('x', 30000));
insert into fast select i, 'v' from generate_series(501, 900) i;
select nextval('counter');
create database other;
"""
THIRD = """
update big set v = v + 1 where id between 1000 and 1400;
insert into shrink select i, repeat('T', 400) from generate_series(1, 900) i;
delete from fresh where id % 2 = 0;
vacuum fresh;
create table later as select i as id, repeat('l', 100) as pad from generate_series(1, 2000) i;
drop table cut;
insert into empty values (1);
alter table still add column extra int default 7;
"""
ASIDE = [
    "create table aside (id int, pad text) tablespace side;"
    "insert into aside select i, repeat('a', 500) from generate_series(1, 3000) i;",
    "update aside set pad = 'changed' where id < 40;",
    "create table beside (id int) tablespace side; insert into beside values (3);",
]
# What stands in the tables: of each its name, its rows, and a sum of them. An unlogged one is empty behind a recovery.
SUMS = """
select format('select %L, count(*), coalesce(sum(hashtext(t::text)), 0) from %I t', relname, relname) from pg_class
where relkind = 'r' and relpersistence = 'p' and relnamespace = 'public'::regnamespace order by relname \\gexec
select 'counter', last_value from counter;
"""


class Chains:
    """A cluster and its chains in a room, one for each kind of sum."""

    def __init__(self, tools, path, has_side, kinds):
        self.tools, self.path, self.room = tools, path, tools.room()
        self.has_side, self.kinds, self.found = has_side, kinds, []
        os.makedirs(os.path.join(self.room, "b"))
        os.makedirs(os.path.join(self.room, "ts"))
        for name in ("b", "ts"):
            os.chmod(os.path.join(self.room, name), 0o777)
        self.cluster = Cluster(tools, self.room)

    def at(self, name):
        return os.path.join(self.room, "b", name)

    def take(self):
        """Makes all backups, and notes the tables."""
        self.cluster.sql("create database shop")
        if self.has_side:
            side = self.cluster.new_folder("side")
            self.cluster.sql("create tablespace side location '%s'" % self.tools.inside(side))
        for turn, text in enumerate((FIRST, SECOND, THIRD)):
            self.cluster.sql(text + (ASIDE[turn] if self.has_side else ""), "shop")
            for kind in self.kinds:
                self.backup(kind, turn)
        self.tables = self.cluster.sql(SUMS, "shop")
        self.cluster.stop(self.cluster.data)

    def backup(self, kind, turn):
        """Takes a member."""
        names, inside = members(kind), self.tools.inside
        words = ["-Xstream", "--manifest-checksums=" + kind, "-l", "%s of %s" % (names[turn], kind)]
        if turn:
            words += ["-i", inside(self.at(names[turn - 1])) + "/backup_manifest"]
        if self.has_side:
            words += ["-T", "%s=%s" % tuple(inside(os.path.join(self.room, it)) for it in ("side", "ts/" + names[turn]))]
        self.cluster.backup(self.at(names[turn]), *words)

    def theirs(self, out, names):
        """pg_combinebackup, into another folder."""
        words = ["--manifest-checksums=SHA256", "--no-sync", "-o", self.tools.inside(self.at(out))]
        if links(self.at(names[-1])):
            words += ["-T", "%s=%s" % tuple(self.tools.inside(self.room) + "/ts/" + it for it in (names[-1], out))]
        self.tools.call("pg_combinebackup", *words, *[self.tools.inside(self.at(it)) for it in names])

    def ours(self, words, answer):
        """The program; what it answered is noted where it isn't what was to be answered."""
        status, lines = program(self.path, words, folder=self.room)
        if status or not lines or not lines[-1].startswith(answer):
            self.found.append("%s: %d %s" % (" ".join(words), status, lines))
        return status == 0

    def complete(self, out, last):
        """Makes what a program wrote a data folder, with tablespaces in folders of their own."""
        places = ["%s=%s" % (os.path.basename(link), os.path.join(self.room, "ts", out)) for link in links(self.at(last))]
        subprocess.run([sys.executable, COMPLETE, self.at(out), self.at(last)] + places, check=True)
        self.relink(out)

    def relink(self, name, absolute=False):
        """Where the tools have another root, the links to tablespaces lead elsewhere in ours: they get the path from their
        folder, or else as the tools see it, which pg_combinebackup wants of the last member."""
        top = os.path.join(self.tools.inside(self.room) if absolute else "../../..", "ts")
        for link in links(self.at(name)) if self.tools.root else []:
            os.remove(link)
            os.symlink(os.path.join(top, name), link)

    def check(self, kind):
        """Verifies and combines a chain, and starts a server from it."""
        names, own, other = members(kind), kind.lower() + "_own", kind.lower() + "_other"
        self.theirs(other, names)
        for name in names + [other]:
            self.relink(name)
        for turn, name in enumerate(names):
            self.ours(["verify", name], "verified %s %s " % (name, "incremental" if turn else "full"))
        if not self.ours(["combine", own] + names, "combined %s " % own):
            return
        self.complete(own, names[-1])
        self.found += differences(kind, self.at(own), self.at(other))
        self.tools.call("pg_verifybackup", "-n", self.tools.inside(self.at(own)))
        self.start(kind, self.at(own))
        shutil.rmtree(self.at(own))

    def check_merged(self, kind):
        """Merges a chain's increments, and has pg_combinebackup combine the full backup and what was merged."""
        names, joined, out = members(kind), "joined", "of_joined"
        if self.ours(["merge-incr", joined] + names[1:], "merged %s " % joined):
            self.complete(joined, names[-1])
            self.relink(joined, True)
            self.theirs(out, [names[0], joined])
            self.relink(out)
            self.found += differences(kind + " merged", self.at(out), self.at(kind.lower() + "_other"))

    def check_damages(self, kind):
        """Each damage of a chain is refused by name, and nothing is written."""
        for way in DAMAGES:
            it = Damage([self.at(name) for name in members(kind)], self.at("out"))
            wanted = "refused " + way(it)
            status, lines = program(self.path, ["combine", "out"] + it.names, folder=self.room)
            it.undo()
            if status != 1 or len(lines) != 1 or not (lines[0] + " ").startswith(wanted + " "):
                self.found.append("%s: %d %s, where %s was to be answered" % (way.__name__, status, lines, wanted))
            if Backup(self.at("out")).paths():
                self.found.append("%s: it wrote a file" % way.__name__)
            shutil.rmtree(self.at("out"), ignore_errors=True)

    def start(self, kind, data):
        """A server that starts from a combined backup has the tables as they were."""
        self.cluster.start(data)
        try:
            tables, unlogged = self.cluster.sql(SUMS, "shop"), self.cluster.sql("select count(*) from fast", "shop")
        finally:
            self.cluster.stop(data)
        if tables != self.tables or unlogged != "0\n":
            self.found.append("%s: the tables are %s and %s, and were %s" % (kind, tables, unlogged, self.tables))

    def end(self):
        self.cluster.stop(self.cluster.data)
        shutil.rmtree(self.room)


def members(kind):
    return [kind.lower() + "_" + it for it in ("f", "i1", "i2")]


def links(folder):
    """The links that stand for tablespaces."""
    top = os.path.join(folder, "pg_tblspc")
    return [os.path.join(top, it) for it in os.listdir(top) if os.path.islink(os.path.join(top, it))]


def tree(folder):
    """The folders and the files below a folder, links followed."""
    folders, names = set(), set()
    for top, _, found in os.walk(folder, followlinks=True):
        folders.add(os.path.relpath(top, folder))
        names.update(os.path.relpath(os.path.join(top, it), folder) for it in found)
    return folders, names


def told(folder):
    """What a manifest says, but for the times and the order of its rows, and for the files of its WAL, which the one of
    pg_combinebackup lists without a sum."""
    manifest = Backup(folder).manifest()
    rows = {row["Path"]: (row["Size"], row.get("Checksum-Algorithm"), row.get("Checksum"))
            for row in manifest.pop("Files") if not row["Path"].startswith("pg_wal/")}
    return manifest, rows


def differences(what, own, other):
    """How the folder that the program wrote differs from the other one."""
    trees, found = [tree(own), tree(other)], []
    for had, kind in ((0, "folder"), (1, "file")):
        for name in sorted(trees[0][had] ^ trees[1][had]):
            found.append("%s: only one has the %s %s" % (what, kind, name))
    same = (trees[0][1] & trees[1][1]) - {"backup_manifest"}
    for name in filecmp.cmpfiles(own, other, sorted(same), shallow=False)[1:]:
        found += ["%s: %s differs" % (what, it) for it in name]
    if told(own) != told(other):
        found.append("%s: the manifests differ" % what)
    return found


def one_round(tools, path, number):
    """What differs, as a list of texts."""
    chains = Chains(tools, path, number % 2 == 1, KINDS)
    try:
        chains.take()
        for kind in KINDS:
            chains.check(kind)
        chains.check_merged(KINDS[number % 4])
        chains.check_damages(KINDS[number % 4])
    finally:
        chains.end()
    return chains.found


def main():
    try:
        tools = Tools()
    except Missing as why:
        print("skipped: %s" % why)
        return
    path, rounds, failed = os.path.abspath(sys.argv[1]), int((sys.argv[2:] + ["2"])[0]), 0
    for number in range(rounds):
        for difference in one_round(tools, path, number):
            print("round %d: %s" % (number, difference), flush=True)
            failed += 1
    print("%s: %d rounds, %d chains and %d damages each, %d differences" %
          (os.path.basename(sys.argv[0]), rounds, len(KINDS), len(DAMAGES), failed))
    sys.exit(1 if failed else 0)


if __name__ == "__main__":
    main()
