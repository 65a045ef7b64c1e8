"""What the comparisons share: the two programs, the files that they leave, and the runs."""
import io
import os
import random
import shutil
import subprocess
import sys
import tempfile
import threading

ORACLE = os.environ.get("PGBACKUP_ORACLE", "")
SEGMENT = "000000010000000000000001"
# What the first page of the WAL has behind its head and the checkpoint.
ROOM = 8192 - 96


def oracle(words, script=b"", moment=1700000000):
    """(status, lines) of one call of the independent implementation, in the working folder, at a moment."""
    from oracle import chain
    from oracle.cli import Program

    chain.REAL_PATHS = True
    called = Program(moment, io.BytesIO(script))
    status = called.call(words)
    return status, [line.decode() for line in called.lines]


def program(path, words, script=b"", folder="."):
    """(status, lines) of one call of the program in this folder."""
    ran = subprocess.run([path] + words, input=script, cwd=folder, capture_output=True, check=False)
    return ran.returncode, ran.stdout.decode().splitlines()


def standing(pid):
    """What the threads of a process used of the processors, or None where one of them runs or is about to."""
    used = []
    for task in os.listdir("/proc/%d/task" % pid):
        with open("/proc/%d/task/%s/stat" % (pid, task), encoding="ascii") as stat:
            words = stat.read().rpartition(")")[2].split()
        if words[0] in "RD":
            return None
        used.append((task, words[11], words[12]))
    return sorted(used)


def watched(path, words, script, folder=".", still=20):
    """As `program`, and None where all its threads slept for so many seconds, so that none will wake another. It is
    ended then. A machine with much to do makes a call long, and not that."""
    process = subprocess.Popen([path] + words, cwd=folder, stdin=subprocess.PIPE, stdout=subprocess.PIPE,
                               stderr=subprocess.DEVNULL)
    told = []
    reader = threading.Thread(target=lambda: told.append(process.communicate(script)[0]))
    reader.start()
    seen, since = None, 0
    while reader.is_alive():
        reader.join(1)
        try:
            now = standing(process.pid)
        except OSError:
            now = None
        since = since + 1 if now is not None and now == seen else 0
        seen = now
        if since == still:
            process.kill()
            reader.join()
            return None
    return process.returncode, told[0].decode().splitlines()


def files(folder):
    """The bytes of every file at or below a folder."""
    found = {}
    for top, _, names in os.walk(folder):
        for name in names:
            with open(os.path.join(top, name), "rb") as f:
                found[os.path.relpath(os.path.join(top, name), folder)] = f.read()
    return found


def compare(one_run):
    """Calls one_run(path, rnd), which gives what differs as texts, in a folder of its own for each run.

    The arguments are PROGRAM [RUNS [SEED]]. Ends the process.
    """
    if not os.path.isdir(ORACLE):
        print("skipped: PGBACKUP_ORACLE names no folder of an independent implementation")
        sys.exit(0)
    sys.path.insert(0, ORACLE)
    arguments = sys.argv[2:] + ["300", "1"][len(sys.argv) - 2:]
    path, runs, seed = os.path.abspath(sys.argv[1]), int(arguments[0]), int(arguments[1])
    failed, home = 0, os.getcwd()
    for run in range(runs):
        folder = tempfile.mkdtemp()
        os.chdir(folder)
        for difference in one_run(path, random.Random("%d %d" % (seed, run))):
            print("run %d: %s" % (run, difference), flush=True)
            failed += 1
        os.chdir(home)
        shutil.rmtree(folder)
    print("%s: %d runs, %d differences" % (os.path.basename(sys.argv[0]), runs, failed))
    sys.exit(1 if failed else 0)
