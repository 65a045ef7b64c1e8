"""Many short runs of several workers, to show that none hangs.

    python3 conformance/loops.py PROGRAM [RUNS [SEED [STORES]]]

So many runs are made, on some stores side by side, each of a script of two to eight workers with a few lines each, all
over the same forks and mostly with few frames. A run hangs where all its threads sleep for twenty seconds. Each run has
to end with status 0 and an answer to each line; a store is made anew behind thirty runs, and its data areas have to be
what its WAL replays to. To have threads stop anywhere, let it run on few processors, as by `taskset -c 0,1`.
Not part of the gate.
"""
import os
import random
import shutil
import sys
import tempfile
import threading

from common import files, program, watched
from crews import DATA, crew_script, run_words

# So many runs are made of one store.
RUNS = 30


class Store(threading.Thread):
    """Runs on stores of its own, one behind the other."""

    def __init__(self, path, runs, rnd):
        super().__init__()
        self.path, self.runs, self.rnd, self.done, self.failed = path, runs, rnd, 0, 0

    def run(self):
        while self.done < self.runs:
            folder = tempfile.mkdtemp()
            program(self.path, ["init", "--segment-mib", "1", "--system-id", "7"], folder=folder)
            for run in range(min(RUNS, self.runs - self.done)):
                self.script(folder, run)
            replayed, _ = program(self.path, ["replay", "p"], folder=folder)
            held = {name: data for area in DATA for name, data in files(folder + "/" + area).items()}
            if replayed != 0 or held != files(folder + "/o/p"):
                self.differs("the data areas aren't what the WAL replays to", folder)
            shutil.rmtree(folder, ignore_errors=True)

    def script(self, folder, run):
        """One run. Its backups are of new names, and of those of the last runs."""
        names = sorted(os.listdir(folder + "/b"))[-8:] if os.path.isdir(folder + "/b") else []
        lines, words = crew_script(self.rnd, {(5, 16384, 0): 4}, names, run, self.rnd.choice([4, 4, 8, 20])), run_words(self.rnd)
        told = watched(self.path, words, "\n".join(lines).encode(), folder)
        self.done += 1
        asked = sum(not line.startswith("worker") for line in lines)
        if told is None or told[0] != 0 or len(told[1]) != asked + 2:
            self.differs("%s of %s: %s" % (words, lines, told), folder)

    def differs(self, what, folder):
        self.failed += 1
        kept = tempfile.mkdtemp(prefix="loops.")
        shutil.copytree(folder, kept, dirs_exist_ok=True)
        print("%s: %s" % (kept, what), flush=True)


def main():
    arguments = sys.argv[2:] + ["1000", "1", "4"][len(sys.argv) - 2:]
    runs, seed, count = (int(word) for word in arguments)
    stores = [Store(os.path.abspath(sys.argv[1]), (runs + n) // count, random.Random("%d %d" % (seed, n)))
              for n in range(count)]
    for store in stores:
        store.start()
    for store in stores:
        store.join()
    failed = sum(store.failed for store in stores)
    print("loops.py: %d runs, %d differences" % (sum(store.done for store in stores), failed))
    sys.exit(1 if failed else 0)


if __name__ == "__main__":
    main()
