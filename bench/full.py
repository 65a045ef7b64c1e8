"""Measures a full backup of a store of 256 MiB beside a copy of its files and their sums.

    python3 bench/full.py PROGRAM [ROUNDS]

A `run` whose script has the one line `full f1` is measured, and one of an empty script, which opens and closes the
store alone. Prints the best time of each way over rounds, in turn, the ratio of what the backup takes more to `cp` and
`sha256sum` together, and the memory that it takes beside the store.
"""
import os
import shutil
import sys
import tempfile

from wal import Best, timed

FORKS, PAGES = 8, 4096
AREAS = ["data0", "data1", "data2", "data3"]


def write(name, lines):
    with open(name, "w") as script:
        script.writelines(line + "\n" for line in lines)


def run(best, way, program, name):
    with open(name, "rb") as script:
        return best.take(way, [program, "run"], script)


def new_store(program, behind="flush 1"):
    """A store of 256 MiB: eight forks of 4,096 pages without a hole, with this line behind each. What its run printed."""
    timed([program, "init", "--system-id", "1"])
    lines = ["worker w"]
    for number in range(FORKS):
        fork = "5/%d" % (16384 + number)
        lines += ["create " + fork, "grow %s@0 %d 8192,8192,%d" % (fork, PAGES, number), behind]
    write("grow", lines)
    return run(Best(), "grow", program, "grow")


def files():
    found = []
    for area in AREAS:
        for top, _, names in os.walk(area):
            found += [os.path.join(top, name) for name in names]
    return found


def main():
    program, rounds = os.path.abspath(sys.argv[1]), int((sys.argv[2:] + ["3"])[0])
    folder, home = tempfile.mkdtemp(dir=os.getcwd()), os.getcwd()
    os.chdir(folder)
    new_store(program)
    write("empty", ["worker w"])
    write("full", ["worker w", "full f1"])
    best = Best()
    for _ in range(rounds):
        for name in ("b", "copy"):
            shutil.rmtree(name, ignore_errors=True)
        run(best, "empty", program, "empty")
        run(best, "full", program, "full")
        os.mkdir("copy")
        best.take("cp", ["cp", "-r"] + AREAS + ["copy"])
        best.take("sums", ["sha256sum"] + files())
    took, memory = best.seconds, best.memory
    more, both = took["full"] - took["empty"], took["cp"] + took["sums"]
    print("a full backup of 256 MiB: %.2f s, %.2f of cp and sha256sum (%.2f s and %.2f s), %.0f MiB beside the store" %
          (more, more / both, took["cp"], took["sums"], memory["full"] - memory["empty"]))
    os.chdir(home)
    shutil.rmtree(folder)


if __name__ == "__main__":
    main()
