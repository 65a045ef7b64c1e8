"""Measures what `run` writes, and `replay` and `follow` read, beside the system's own tools.

    python3 bench/wal.py PROGRAM ARCHIVE [ROUNDS [OLD]]

PROGRAM is pgbackup, ARCHIVE the tool of archive.c, and OLD another pgbackup, whose `replay` is
measured beside that of PROGRAM. Prints the best times of each way over rounds in which they take
turns, by the clock and of the processor, their ratios, and the peak memory of the program.
"""
import os
import shutil
import statistics
import subprocess
import sys
import tempfile
import time
from collections import namedtuple

MIB = 1 << 20
PAGES = 32449
# What the program takes is told by GNU time, where it is there: of a process that a script starts, the system tells no
# less memory than the script's own.
TIME = shutil.which("time")

Taken = namedtuple("Taken", "seconds processor memory text")


def timed(words, stdin=None):
    """What a program that has to end well takes: seconds by the clock and of the processor, MiB of peak memory; and
    its standard output."""
    with tempfile.TemporaryFile() as out, tempfile.NamedTemporaryFile() as told:
        told_by = [TIME, "-f", "%M", "-o", told.name] if TIME else []
        begin = time.monotonic()
        process = subprocess.Popen(told_by + words, stdin=stdin, stdout=out)
        _, status, used = os.wait4(process.pid, 0)
        took = time.monotonic() - begin
        process.returncode = os.waitstatus_to_exitcode(status)
        out.seek(0)
        text = out.read().decode()
        if process.returncode:
            sys.exit("%s: status %d: %s" % (words, process.returncode, text[-200:]))
        memory = int(told.read()) if TIME else used.ru_maxrss
    return Taken(took, used.ru_utime + used.ru_stime, memory / 1024, text)


def size(folder):
    return sum(os.path.getsize(os.path.join(folder, name)) for name in os.listdir(folder))


def segments():
    return sorted("wal/" + name for name in os.listdir("wal") if name != "settings")


class Best:
    """The best times of each way, by the clock and of the processor, and the greatest memory; and all that was taken."""

    def __init__(self):
        self.seconds, self.processor, self.memory, self.all = {}, {}, {}, {}

    def times(self, *ways):
        """What these ways take together, as a text: by the clock and of the processor."""
        return "%.2f s (%.2f s of the processor)" % tuple(sum(took[way] for way in ways) for took in self.both())

    def ratio(self, way, *others):
        """What a way takes of what others take together, as a text."""
        return "%.2f (%.2f) of" % tuple(took[way] / sum(took[other] for other in others) for took in self.both())

    def medians(self, way, other):
        """What a way takes of what another one takes by their medians, as a text."""
        return "%.2f (%.2f) of" % tuple(
            statistics.median(taken[of] for taken in self.all[way]) / statistics.median(taken[of] for taken in self.all[other])
            for of in (0, 1))

    def both(self):
        return self.seconds, self.processor

    def take(self, way, words, stdin=None):
        taken = timed(words, stdin)
        self.seconds[way] = min(taken.seconds, self.seconds.get(way, taken.seconds))
        self.processor[way] = min(taken.processor, self.processor.get(way, taken.processor))
        self.memory[way] = max(taken.memory, self.memory.get(way, 0))
        self.all.setdefault(way, []).append(taken)
        return taken.text


def replays(best, way, program):
    """Takes one `replay` into a new output."""
    shutil.rmtree("o", ignore_errors=True)
    best.take(way, [program, "replay", "p"])


def print_replay(best):
    print("replay  %s, %.0f MiB of memory" % (best.times("replay"), best.memory["replay"]))
    if "old" in best.seconds:
        print("before  %s, %.0f MiB of memory: replay takes %s it" %
              (best.times("old"), best.memory["old"], best.ratio("replay", "old")))


def followed(best, program):
    """Takes one `follow` of the stream of the WAL into a new output."""
    shutil.rmtree("o/f", ignore_errors=True)
    with open("stream", "rb") as stream:
        best.take("follow", [program, "follow", "f"], stream)


def images(program, archive, rounds, old):
    """About 256 MiB of full-page images: written by `run`, read by `replay`, and by that of another program, and as a
    stream by `follow`."""
    best = Best()
    with open("script", "w") as script:
        script.write("worker w\ncreate 5/16384\n")
        script.writelines("change 5/16384@%d=8192,8192,%d\n" % (block, block % 251) for block in range(PAGES))
    for _ in range(rounds):
        for name in ("wal", "data0", "data1", "data2", "data3"):
            shutil.rmtree(name, ignore_errors=True)
        timed([program, "init", "--system-id", "1"])
        with open("script", "rb") as script:
            best.take("run", [program, "run"], script)
        mib = size("wal") / MIB
        best.take("dd", ["dd", "if=/dev/zero", "of=zeros", "bs=1M", "count=%d" % round(mib), "conv=fsync", "status=none"])
    with open("stream", "wb") as stream:
        for name in segments():
            with open(name, "rb") as segment:
                shutil.copyfileobj(segment, stream)
    for _ in range(rounds):
        shutil.rmtree("copy", ignore_errors=True)
        if old:
            replays(best, "old", old)
        replays(best, "replay", program)
        best.take("sum", [archive, "sum"] + segments())
        best.take("cp", ["cp", "-r", "o/p", "copy"])
        followed(best, program)
    print("%d page images, %.0f MiB of WAL" % (PAGES, mib))
    print("run     %s, %.0f MB/s, %.0f MiB of memory" %
          (best.times("run"), mib * MIB / best.seconds["run"] / 1e6, best.memory["run"]))
    print("dd      %s with one fsync: run takes %s it" % (best.times("dd"), best.ratio("run", "dd")))
    print_replay(best)
    print("sum     %s, cp %s: replay takes %s both" %
          (best.times("sum"), best.times("cp"), best.ratio("replay", "sum", "cp")))
    print("follow  %s, %.0f MiB of memory: it takes %s replay and cp" %
          (best.times("follow"), best.memory["follow"], best.ratio("follow", "replay", "cp")))


def short(program, archive, rounds, old):
    """About 64 MiB of short entries, read by `replay`, and by that of another program."""
    best = Best()
    shutil.rmtree("wal")
    os.mkdir("wal")
    entries = int(timed([archive, "make", "wal", "64"]).text)
    for _ in range(rounds):
        if old:
            replays(best, "old", old)
        replays(best, "replay", program)
    print("%d short entries, %.0f MiB of WAL, %.0f entries/s" %
          (entries, size("wal") / MIB, entries / best.seconds["replay"]))
    print_replay(best)


def grown(program, archive):
    """The peak memory of `replay` where it makes 512 MiB of pages of two forks."""
    best = Best()
    shutil.rmtree("wal")
    os.mkdir("wal")
    timed([archive, "grow", "wal", "2"])
    replays(best, "replay", program)
    mib = sum(size(top) for top, folders, _ in os.walk("o") if not folders) / MIB
    print("2 forks, %.0f MiB of pages, %.0f MiB of WAL" % (mib, size("wal") / MIB))
    print("replay  %.0f MiB of memory" % best.memory["replay"])


def main():
    program, archive = (os.path.abspath(path) for path in sys.argv[1:3])
    rounds = int(sys.argv[3]) if len(sys.argv) > 3 else 3
    old = os.path.abspath(sys.argv[4]) if len(sys.argv) > 4 else None
    folder = tempfile.mkdtemp(dir=os.path.dirname(archive))
    os.chdir(folder)
    try:
        for name in ("wal", "sums", "o"):
            os.mkdir(name)
        images(program, archive, rounds, old)
        short(program, archive, rounds, old)
        grown(program, archive)
    finally:
        os.chdir("/")
        shutil.rmtree(folder)


if __name__ == "__main__":
    main()
