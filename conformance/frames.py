"""Runs with four frames a partition, of which one call of the system fails, each in turn.

    python3 conformance/frames.py PROGRAM [STEP]

A script of one worker changes more pages of a partition than it has frames, so that pages are written for room, and
takes a checkpoint, a flush and a backup. It is run over and over on copies of one store. First its calls that change
folders and files are counted, and then every STEP-th (1) of them fails, from the first one on. A run has to end in a minute:
with status 3, and the area of the call's file as its last line; or with status 0 and the same lines, where the call did
not matter. Behind each, `restart` brings the store back: its data areas are then what its WAL replays to.
Not part of the gate. Skipped where there is no gcc.
"""
import os
import shutil
import subprocess
import sys
import tempfile

from calls import SECONDS
from common import files, program

AREAS = ["wal", "data0", "data1", "data2", "data3", "sums", "b/f1"]
SCRIPT = "\n".join(
    ["worker w"] + ["create 5/%d" % rel for rel in range(1, 5)]
    + ["grow 5/%d@0 7 32,8160,%d" % (rel, 64 + rel) for rel in range(1, 5)]
    + ["change 5/%d@%d+8170:C0FFEE" % (rel, block) for block in range(7) for rel in range(1, 5)]
    + ["checkpoint", "truncate 5/2 3", "drop 5/3"]
    + ["change 5/%d@%d+8170:C0FFEF" % (rel, block) for block in range(3) for rel in (1, 2, 4)]
    + ["flush 5", "full f1", "change 5/1@5=32,8160,90", ""])


def area_of(path):
    """The area at or below which a path is, or the areas below it."""
    return AREAS if path == "." else [it for it in AREAS if (path + "/").startswith(it + "/") or it.startswith(path + "/")]


def called(path, folder, library, at, words=("run", "--frames", "4"), script=SCRIPT, kind="write"):
    """(status, lines, what the fault's log tells) of one run of which a call of a kind fails."""
    log = folder + ".log"
    room = {**os.environ, "LD_PRELOAD": library, "FAULT_AT": str(at), "FAULT_KIND": kind, "FAULT_LOG": log}
    ran = subprocess.run([path, *words], input=script, cwd=folder, env=room, capture_output=True,
                         text=True, check=False, timeout=SECONDS)
    with open(log, encoding="utf-8") as told:
        return ran.returncode, ran.stdout.splitlines(), told.read().rstrip("\n")


def wrong(path, folder, wanted, came, told):
    """What is wrong of a run and of what it left, as a text, or none."""
    status, lines = came
    place = os.path.relpath(told.partition(" ")[2], folder) if " /" in told else told.partition(" ")[2]
    named = ["refused 60 DeviceFault " + area for area in area_of(place)]
    if (status, lines) != wanted and (status != 3 or lines[-1] not in named):
        return "%s: status %d, %s" % (told, status, lines[-3:])
    back, again = program(path, ["restart"], b"", folder), program(path, ["replay", "p"], b"", folder)
    if back[0] or again[0] or back[1][0].split()[1:] != again[1][0].split()[1:]:
        return "%s: restart %s, replay %s" % (told, back, again)
    left = {p: b for q in range(4) for p, b in files(os.path.join(folder, "data%d" % q)).items()}
    return None if left == files(os.path.join(folder, "o/p")) else "%s: other files than the WAL replays to" % told


def main():
    if not shutil.which("gcc"):
        print("skipped: there is no gcc")
        return
    path, step = os.path.abspath(sys.argv[1]), int(sys.argv[2]) if len(sys.argv) > 2 else 1
    failed = unneeded = 0
    with tempfile.TemporaryDirectory(dir="/dev/shm" if os.path.isdir("/dev/shm") else None) as room:
        library, store, folder = (os.path.join(room, it) for it in ("fault.so", "store", "site"))
        source = os.path.join(os.path.dirname(os.path.abspath(__file__)), "fault.c")
        subprocess.run(["gcc", "-O2", "-shared", "-fPIC", "-o", library, source, "-ldl"], check=True)
        os.mkdir(store)
        program(path, ["init", "--segment-mib", "1", "--system-id", "7"], b"", store)

        def ran(at):
            shutil.rmtree(folder, ignore_errors=True)
            shutil.copytree(store, folder)
            return called(path, folder, library, at)

        status, lines, told = ran(0)
        wanted, count = (status, lines), int(told.partition(" ")[2])
        if status:
            print("status %d, %s" % (status, lines[-3:]))
            sys.exit(1)
        for at in range(1, count + 1, step):
            status, lines, told = ran(at)
            why = wrong(path, folder, wanted, (status, lines), told)
            unneeded += status == 0
            if why:
                print("call %d: %s" % (at, why), flush=True)
                failed += 1
    print("%d calls, every %d failed in turn, %d of these did not matter" % (count, step, unneeded))
    print("frames.py: %d differences" % failed)
    sys.exit(1 if failed else 0)


if __name__ == "__main__":
    main()
