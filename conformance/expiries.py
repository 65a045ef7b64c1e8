"""Runs that remove expired summaries, of which one call of the system fails, each in turn.

    python3 conformance/expiries.py PROGRAM [STEP]

A store has summaries of seven ranges, made AGES days ago. A script of one worker changes a page, takes a checkpoint
and summarises with `--keep-days 10`, over and over on copies of that store. First its calls that change folders and
files are counted, and then every STEP-th (1) of them fails, from the first one on; then the same for calls that read. A
run has to end in a minute: with status 3, and the area of the call's file as its last line; or with status 0 and the
same lines, where the call did not matter. Behind each, the summaries that are gone are the first ones, by their ends,
of those that are too old; where the call removes one, all before it are gone and none behind it; and all others are
there, byte for byte. The later the call that fails, the more are gone: none, one, and so on to all. Then `restart`
brings the store back where the run failed, and a further run removes the rest of the old ones, and no other, and leaves
summaries from the newest of the seven ranges on without a gap.
Not part of the gate. Skipped where there is no gcc.
"""
import os
import shutil
import subprocess
import sys
import tempfile

from calls import SECONDS
from common import files, program
from frames import area_of, called
from summaries import aged, crc32c

AGES = [30, 11, 2, 30, 0, 12, 30]
KEPT = [place for place, days in enumerate(AGES) if days < 10]
RUN = ["run", "--keep-days", "10"]
SCRIPT = "worker w\nchange 5/16384@0=32,8160,66\ncheckpoint\nsummarise\n"
AGAIN = "worker w\ncheckpoint\nsummarise\n"


def in_order(summaries):
    """The names of these files of summaries, by the ends of their ranges."""
    return sorted(summaries, key=lambda name: int(name[24:40], 16))


def make_store(path, folder):
    """A store with a summary of each age, in order."""
    os.mkdir(folder)
    program(path, ["init", "--segment-mib", "1", "--system-id", "7"], b"", folder)
    changes = "".join("change 5/16384@0=32,8160,%d\ncheckpoint\n" % number for number in range(1, len(AGES)))
    script = "worker w\ncreate 5/16384\ngrow 5/16384@0 3 32,8160,65\ncheckpoint\n" + changes + "summarise\n"
    status, lines = program(path, ["run"], script.encode(), folder)
    sums = os.path.join(folder, "sums")
    names = in_order(files(sums))
    if status or len(names) != len(AGES):
        sys.exit("the store has %d summaries: status %d, %s" % (len(names), status, lines[-3:]))
    for name, days in zip(names, AGES):
        with open(os.path.join(sums, name), "r+b") as f:
            content = aged(f.read(), 86400 * days)
            f.seek(0)
            f.write(content)
    return files(sums)


def is_whole(content):
    """Whether a summary's file has the sum of what it holds."""
    return len(content) >= 40 and crc32c(content[:-4]).to_bytes(4, "little") == content[-4:]


class Runs:
    """Runs on copies of a store of which a call fails."""

    def __init__(self, path, room):
        self.path, self.store, self.folder = path, os.path.join(room, "store"), os.path.join(room, "site")
        self.library, source = os.path.join(room, "fault.so"), os.path.dirname(os.path.abspath(__file__)) + "/fault.c"
        subprocess.run(["gcc", "-O2", "-shared", "-fPIC", "-o", self.library, source, "-ldl"], check=True)
        self.made = make_store(path, self.store)
        self.names = in_order(self.made)
        self.kept = [self.names[place] for place in KEPT]
        self.expired = [name for name in self.names if name not in self.kept]

    def ran(self, kind, at):
        """(status, lines, what the fault's log tells) of one run on a copy of the store."""
        shutil.rmtree(self.folder, ignore_errors=True)
        shutil.copytree(self.store, self.folder)
        return called(self.path, self.folder, self.library, at, RUN, SCRIPT, kind)

    def place(self, told):
        """Where the call that failed was, below the store."""
        path = told.partition(" ")[2]
        return os.path.relpath(path, self.folder) if path.startswith("/") else path

    def is_wrong(self, wanted, came, told):
        """Whether a run's answer is wrong."""
        status, lines = came
        named = ["refused 60 DeviceFault " + area for area in area_of(self.place(told))]
        return came != wanted and (status != 3 or not lines or lines[-1] not in named)

    def removed(self, told):
        """How many of the old summaries are gone, and what is wrong of those that are gone or there."""
        found = files(os.path.join(self.folder, "sums"))
        gone = [name for name in self.names if name not in found]
        wrong = [name for name in self.names if name in found and found[name] != self.made[name]]
        if gone != self.expired[:len(gone)]:
            return len(gone), "gone are %s" % gone
        at = [it for it, name in enumerate(self.expired) if told == "unlink %s/sums/%s" % (self.folder, name)
              or told == "unlink sums/%s" % name]
        if at and len(gone) not in (at[0], at[0] + 1):
            return len(gone), "gone are %d before the one at fault, not %d" % (len(gone), at[0])
        return len(gone), "changed are %s" % wrong if wrong else None

    def finished(self, status):
        """What is wrong behind a further run, or none."""
        if status:
            back = program(self.path, ["restart"], b"", self.folder)
            if back[0]:
                return "restart: %s" % (back,)
        ended = program(self.path, RUN, AGAIN.encode(), self.folder)
        found = files(os.path.join(self.folder, "sums"))
        new = in_order(set(found) - set(self.names))
        ends = [self.names[-1][24:40]] + [name[24:40] for name in new]
        if ended[0] or [name for name in self.names if name in found] != self.kept:
            return "a further run: %s leaves %s" % (ended, sorted(found))
        if any(found[name] != self.made[name] for name in self.kept) or not all(is_whole(found[name]) for name in new):
            return "a further run leaves other files"
        joined = new and all(name[8:24] == end for name, end in zip(new, ends))
        redo = ended[1][1].split()[-1]
        high, low = (int(part, 16) for part in redo.split("/"))
        return None if joined and int(ends[-1], 16) == high << 32 | low else "a gap up to %s: %s" % (redo, new)

    def all_of(self, kind, step):
        """Fails the calls of a kind in turn. How many differences there were."""
        status, lines, told = self.ran(kind, 0)
        wanted, count = (status, lines), int(told.partition(" ")[2])
        least, why = self.removed(told)
        failed, unneeded, seen, tried = 0, 0, [], 0
        if status or why or least != len(self.expired) or lines[-2:-1] != ["w 4 published 1"] or self.finished(0):
            print("without a fault: status %d, %s, %d gone, %s" % (status, lines, least, why))
            return 1
        least = 0
        for at in range(1, count + 1, step):
            status, lines, told = self.ran(kind, at)
            many, why = self.removed(told)
            if not why and self.is_wrong(wanted, (status, lines), told):
                why = "status %d, %s" % (status, lines[-3:])
            if not why and many < least and status:
                why = "%d are gone, and %d behind an earlier call" % (many, least)
            why = why or self.finished(status)
            if why:
                print("%s call %d, %s: %s" % (kind, at, told, why), flush=True)
                failed += 1
            tried, unneeded = tried + 1, unneeded + (status == 0)
            if status:
                least = max(least, many)
                seen.append(many)
        if kind == "write" and step == 1 and sorted(set(seen)) != list(range(len(self.expired) + 1)):
            print("%s: behind the failed runs so many are gone: %s" % (kind, sorted(set(seen))))
            failed += 1
        print("%d calls to %s, %d failed in turn, %d of these did not matter; old summaries gone behind the others: %s"
              % (count, kind, tried, unneeded, ", ".join("%d in %d" % (n, seen.count(n)) for n in sorted(set(seen)))))
        return failed


def main():
    if not shutil.which("gcc"):
        print("skipped: there is no gcc")
        return
    step = int(sys.argv[2]) if len(sys.argv) > 2 else 1
    with tempfile.TemporaryDirectory(dir="/dev/shm" if os.path.isdir("/dev/shm") else None) as room:
        runs = Runs(os.path.abspath(sys.argv[1]), room)
        failed = runs.all_of("write", step) + runs.all_of("read", step)
    print("expiries.py: %d differences" % failed)
    sys.exit(1 if failed else 0)


if __name__ == "__main__":
    main()
