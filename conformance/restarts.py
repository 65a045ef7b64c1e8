"""Runs that are killed, and `pgbackup restart` behind them.

    python3 conformance/restarts.py PROGRAM [RUNS [SEED]]

Each run makes a store and runs one to three random scripts of one to eight workers on it, the last of which is killed
at a random moment. Then `restart` has to end well, and a second one has to print the same line; the data areas have to
be what `replay` makes of the WAL, by both programs, with as many forks and pages, and the WAL has to end no earlier than
that of the run before. At times the data areas are marked as `rebuilding` and the WAL was cut before, anywhere behind its
first entry; or a file of theirs got some bytes more than whole pages. Behind that further scripts are run, with a full
and an incremental backup, and their chain restored to the WAL's end has to be what `replay` writes.
Not part of the gate. Skipped where the independent implementation (PGBACKUP_ORACLE) isn't there.
"""
import os
import shutil
import subprocess
import time

from common import SEGMENT, compare, files, oracle, program
from crews import DATA, crew_script, run_words

FORK = (5, 16384, 0)


def script_of(rnd, run, lengths):
    return "\n".join(crew_script(rnd, lengths, [], run, rnd.choice([8, 20, 60]))).encode() + b"\n"


def killed(path, rnd, script):
    """A run that is killed at a moment, mostly while it works."""
    process = subprocess.Popen([path] + run_words(rnd), cwd="ours", stdin=subprocess.PIPE, stdout=subprocess.PIPE,
                               stderr=subprocess.DEVNULL)
    process.stdin.write(script)
    process.stdin.close()
    time.sleep(rnd.choice([0.002, 0.01, 0.03, 0.1]) * rnd.random())
    process.kill()
    process.stdout.read()
    process.wait()


def cut(rnd):
    """The WAL ends earlier, behind its first entry, as no stop leaves it: so no summary tells of it, and the data areas
    are to be made anew."""
    name = "ours/wal/" + SEGMENT
    os.truncate(name, rnd.randrange(8192 if os.path.getsize(name) > 8192 else 160, os.path.getsize(name) + 1))
    for later in sorted(os.listdir("ours/wal")):
        if later not in (SEGMENT, "settings"):
            os.remove("ours/wal/" + later)
    shutil.rmtree("ours/sums", ignore_errors=True)
    os.makedirs("ours/data0", exist_ok=True)
    open("ours/data0/rebuilding", "wb").close()


def torn(rnd):
    """A fork's file has some bytes more than whole pages."""
    found = [area + "/" + name for area in DATA for name in files("ours/" + area) if name != "rebuilding"]
    if found:
        with open("ours/" + rnd.choice(found), "ab") as f:
            f.write(rnd.randbytes(rnd.randrange(1, 8192)))


def held():
    """The files of the data areas."""
    return {name: data for area in DATA for name, data in files("ours/" + area).items()}


def replayed():
    """What the other implementation makes of the WAL: its line, and the files."""
    shutil.rmtree("theirs", ignore_errors=True)
    os.mkdir("theirs")
    shutil.copytree("ours/wal", "theirs/wal")
    os.chdir("theirs")
    _, lines = oracle(["replay", "p"])
    os.chdir("..")
    return lines, files("theirs/o/p")


def restarted(path, least):
    """What differs of a restart, and where the WAL ends behind it."""
    first, second = (program(path, ["restart"], folder="ours") for _ in range(2))
    if first[0] != 0 or first != second:
        return ["restart: %s, and then %s" % (first, second)], least
    _, end, forks, pages = first[1][0].split()
    shutil.rmtree("ours/o", ignore_errors=True)
    status, lines = program(path, ["replay", "p"], folder="ours")
    found = [] if status == 0 and lines == ["replayed %s %s %s" % (end, forks, pages)] else [
        "restart prints %s, replay %s" % (first, lines)]
    if not held() == files("ours/o/p") == replayed()[1]:
        found.append("the data areas aren't what the WAL replays to")
    if replayed()[0] != lines:
        found.append("replay prints %s, the other one %s" % (lines, replayed()[0]))
    place = int(end.split("/")[1], 16)
    return found + (["it ends at %s, earlier than before" % end] if place < least else []), place


def goes_on(path, rnd):
    """What differs of a run behind a restart, and of the chain that it takes."""
    found = []
    for script in (b"worker z\nfull z9_f\ncheckpoint\n", script_of(rnd, 9, {FORK: 1}), b"worker z\nincr z9_i z9_f\n"):
        status, told = program(path, ["run"], script, "ours")
        found += [] if status == 0 else ["a run behind it: %d, %s" % (status, told)]
    if not os.path.exists("ours/b/z9_i/backup_manifest"):
        return found
    for words in (["restore", "r", "z9_f", "z9_i"], ["replay", "q"]):
        status, told = program(path, words, folder="ours")
        found += [] if status == 0 else ["%s: %d, %s" % (words, status, told)]
    return found + ([] if files("ours/o/r") == files("ours/o/q") else ["the restore isn't what replay writes"])


def one_run(path, rnd):
    """What differs, as a list of texts."""
    os.mkdir("ours")
    program(path, ["init", "--segment-mib", "1", "--system-id", "7"], folder="ours")
    program(path, ["run"], b"worker a\ncreate 5/16384\ngrow 5/16384@0 1 24,8192,0\n", "ours")
    for run in range(rnd.randrange(3)):
        program(path, run_words(rnd), script_of(rnd, run, {FORK: 1}), "ours")
    shutil.rmtree("ours/o", ignore_errors=True)
    _, lines = program(path, ["replay", "before"], folder="ours")
    least = int(lines[0].split()[1].split("/")[1], 16)
    killed(path, rnd, script_of(rnd, 8, {FORK: 1}))
    kind = rnd.random()
    if kind < 0.25:
        cut(rnd)
        least = 0
    elif kind < 0.5:
        torn(rnd)
    differences, _ = restarted(path, least)
    return differences + goes_on(path, rnd)


if __name__ == "__main__":
    compare(one_run)
