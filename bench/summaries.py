"""Measures the summary of 256 MiB of WAL: made by a line `summarise`, and told by `walsummary`.

    python3 bench/summaries.py PROGRAM [ROUNDS]

A store of 256 MiB is made, page by page, with a checkpoint behind each of its eight forks. A `run` whose script has the
one line `summarise` is measured, and one of an empty script, which reads the same WAL and makes the pages anew; then
`walsummary` over the whole range. Prints the best time of each way over rounds, in turn, what the summaries take more
beside the sum of the same segments by `cksum`, and their memory beside the store.
"""
import os
import shutil
import sys
import tempfile

from full import new_store, run, write
from wal import Best, segments


def last_redo(text):
    """The last redo point that a run answered."""
    return [line.split()[-1] for line in text.splitlines() if " redo " in line][-1]


def main():
    program, rounds = os.path.abspath(sys.argv[1]), int((sys.argv[2:] + ["3"])[0])
    folder, home = tempfile.mkdtemp(dir=os.getcwd()), os.getcwd()
    os.chdir(folder)
    end = last_redo(new_store(program, "checkpoint"))
    write("empty", ["worker w"])
    write("summarise", ["worker w", "summarise"])
    best = Best()
    for _ in range(rounds):
        shutil.rmtree("sums", ignore_errors=True)
        run(best, "empty", program, "empty")
        run(best, "summarise", program, "summarise")
        best.take("told", [program, "walsummary", "0/1000028", end])
        best.take("cksum", ["cksum"] + segments())
    took, memory = best.seconds, best.memory
    more = took["summarise"] - took["empty"]
    print("summaries of 256 MiB of WAL: made in %.2f s, %.2f of cksum of the segments (%.2f s), %.0f MiB beside the store; "
          "told by walsummary in %.3f s" %
          (more, more / took["cksum"], took["cksum"], memory["summarise"] - memory["empty"], took["told"]))
    os.chdir(home)
    shutil.rmtree(folder)


if __name__ == "__main__":
    main()
