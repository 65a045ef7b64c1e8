"""A drill of which one call of the system fails, each in turn.

    python3 conformance/calls.py PROGRAM [STEP [NUMBER]]

The drill of NUMBER (1) is called over and over in new folders. The first time its calls that change folders and files are
counted, and then the first one fails, the second one, and so on to the last; every STEP-th (1) of them is tried. Then the
same for calls that read, of which every fiftieth is tried, as there are thousands. A library that is loaded before the C
library makes a call fail (fault.c). Each drill has to end in a minute: with status 3, the area of the call's file on
standard output, and the call and its path on standard error; or with status 0 and the drill's line, where the call did
not matter. Which calls these are is printed.
Not part of the gate. Skipped where there is no gcc.
"""
import collections
import os
import re
import shutil
import subprocess
import sys
import tempfile

AREAS = ["wal", "data0", "data1", "data2", "data3", "sums", "b/drill_0", "b/drill_1", "b/drill_2", "o/drill"]
SECONDS = 60
Called = collections.namedtuple("Called", "status lines said call path")


class Drills:
    """Drills of one number by one program, in a room."""

    def __init__(self, program, number, room):
        self.words, self.room, self.library = [program, "drill", number], room, os.path.join(room, "fault.so")
        source = os.path.join(os.path.dirname(os.path.abspath(__file__)), "fault.c")
        subprocess.run(["gcc", "-O2", "-Wall", "-shared", "-fPIC", "-o", self.library, source, "-ldl"], check=True)

    def call(self, kind, at):
        """One drill in a new folder, of which a call of this kind fails."""
        folder, log = os.path.join(self.room, "site"), os.path.join(self.room, "log")
        shutil.rmtree(folder, ignore_errors=True)
        os.mkdir(folder)
        fault = {"LD_PRELOAD": self.library, "FAULT_AT": str(at), "FAULT_KIND": kind, "FAULT_LOG": log}
        ran = subprocess.run(self.words, cwd=folder, env={**os.environ, **fault}, capture_output=True, text=True,
                             check=False, timeout=SECONDS)
        with open(log, encoding="utf-8") as told:
            call, _, path = told.read().rstrip("\n").partition(" ")
        os.remove(log)
        path = os.path.relpath(path, folder) if path.startswith("/") else path
        return Called(ran.returncode, ran.stdout.splitlines(), ran.stderr.splitlines(), call, path)


def area_of(path):
    """The area at or below which a path is, or the areas below it."""
    return AREAS if path == "." else [
        it for it in AREAS if (path + "/").startswith(it + "/") or it.startswith(path.rstrip("/") + "/")]


def fault(line, called):
    """What is wrong of what a drill answered, as a text, or none."""
    if called.status == 0:
        return None if called.lines == [line] and not called.said else "status 0"
    told = re.fullmatch("refused 60 DeviceFault (.*)", called.lines[0]) if len(called.lines) == 1 else None
    if called.status != 3 or not told or told[1] not in area_of(called.path):
        return "another answer"
    said = re.fullmatch("pgbackup: (\\S+) (.*): Input/output error [(]os error 5[)]", (called.said or [""])[0])
    # Folders are made with those above them, and the error names the lowest one. What is synced is opened for it.
    if len(called.said) != 3 or not said or said[1] not in (called.call, called.call.replace("open", "fsync")) or not (
            said[2].rstrip("/") == called.path.rstrip("/")
            or called.call == "mkdir" and said[2].startswith(called.path + "/")):
        return "another error"
    return None if called.said[1].startswith("pgbackup: error: ") else "no error line"


def all_of(drills, kind, step):
    """Fails the calls of a kind in turn. How many differences there were."""
    counted = drills.call(kind, 0)
    line, passed, failed, tried = counted.lines[0], collections.Counter(), 0, 0
    for at in range(1, int(counted.path) + 1, step):
        try:
            called = drills.call(kind, at)
            wrong = fault(line, called)
        except subprocess.TimeoutExpired:
            called, wrong = None, "no end"
        tried += 1
        if wrong:
            print("%s call %d: %s: %s" % (kind, at, wrong, called), flush=True)
            failed += 1
        elif called.status == 0:
            passed[called.call] += 1
    missed = passed.pop("calls", 0)
    kinds = ", ".join("%d of %s" % (count, call) for call, count in sorted(passed.items())) or "none"
    print("%d calls to %s, %d of them failed in turn: %s did not matter, and %d were not reached, as workers run otherwise "
          "each time" % (int(counted.path), kind, tried - missed, kinds, missed))
    return failed


def main():
    if not shutil.which("gcc"):
        print("skipped: there is no gcc")
        return
    arguments = sys.argv[2:] + ["1", "1"][len(sys.argv) - 2:]
    with tempfile.TemporaryDirectory(dir="/dev/shm" if os.path.isdir("/dev/shm") else None) as room:
        drills = Drills(os.path.abspath(sys.argv[1]), arguments[1], room)
        failed = all_of(drills, "write", int(arguments[0])) + all_of(drills, "read", 50 * int(arguments[0]))
    print("%s: %d differences" % (os.path.basename(sys.argv[0]), failed))
    sys.exit(1 if failed else 0)


if __name__ == "__main__":
    main()
