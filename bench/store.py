"""Measures an open store of the program `run`: its commands, its checkpoint, its flushes, its memory, and its beginning.

    python3 bench/store.py PROGRAM [ROUNDS [OLD [WHAT..]]]

OLD is the program of another checkout, which is measured beside this one, in turn; it need not know `--frames`. WHAT
names some of `puts`, `patches`, `growth`, `checkpoint`, `flushes`, `full` and `begin`. Prints the best time of each way
over rounds, the rates, the ratio of a checkpoint to `dd` of the same bytes with one fsync, what each takes of the time
of OLD, by the clock and of the processor, best and median, and the greatest peak memory beside what the frames may take.
PART in the environment divides all counts, as for programs that are built with checks.
"""
import os
import shutil
import sys
import tempfile

from wal import MIB, Best, timed

PART = int(os.environ.get("PART", "1"))
PAGES = 20_000 // PART
PATCHES = 50_000 // PART
# A page without a hole, so that each put is a whole image; and 256 MiB of them.
SHAPE = "8192,8192,7"
BIG = 32_768 // PART // 4 * 4
# Pages that a growth adds before as many are flushed.
FLUSHED = tuple(count // PART // 4 * 4 for count in (1_000, 4_000, 8_000, 16_000)) + (BIG,)
# A full store has so many pages, in four forks, one of each partition.
FULL = 65_536 // PART // 16 * 16
# How many frames each partition has where none are asked for, and fewer; and what may be taken beside them.
FRAMES = (4_096, 64)
BESIDE = 24
# So many flushes of four pages where nothing is to be written.
IDLE = 20_000 // PART


def written(lines):
    """A script of one worker, in a file of its own."""
    with open("script", "w") as script:
        script.write("worker w\n")
        script.writelines(line + "\n" for line in lines)


def new_store(program):
    for name in ("wal", "data0", "data1", "data2", "data3"):
        shutil.rmtree(name, ignore_errors=True)
    timed([program, "init", "--system-id", "1"])


def run(best, way, program, *words):
    with open("script", "rb") as script:
        return best.take(way, [program, "run"] + list(words), script)


class Bench:
    """The programs by the name of their way, and how often each is measured."""

    def __init__(self, program, rounds, old):
        self.ways = [("now", program)] + ([("before", old)] if old else [])
        self.rounds = rounds

    def anew(self, *scripts):
        """The best of each program over new stores, of scripts by their names, each `SCRIPT WAY`."""
        best = Best()
        for _ in range(self.rounds):
            for way, program in self.ways:
                for name, lines in scripts:
                    new_store(program)
                    written(["create 5/16384"] + lines)
                    run(best, name + way, program)
        return best

    def old_of(self, best):
        """What was taken of what the program of before takes, as a text."""
        if len(self.ways) == 1:
            return ""
        return ", %s before by the best, %s it by the median" % (best.ratio("now", "before"), best.medians("now", "before"))

    def commands(self, what, lines, count):
        """How many commands a second `run` accepts, of a script of these lines on an empty store."""
        best = self.anew(("", lines))
        for way, _ in self.ways:
            took = best.seconds[way]
            print("%d %s, %s: %.2f s, %.0f commands/s, %.0f MiB of memory" %
                  (count, what, way, took, count / took, best.memory[way]))
        print("%d %s: %.2f s%s" % (count, what, best.seconds["now"], self.old_of(best)))

    def checkpoint(self):
        """What a checkpoint of dirty pages takes, beside `dd` of the same bytes with one fsync.

        Two runs put the same pages twice, and have a checkpoint at the end; one has another between the puts.
        What that run takes longer is the checkpoint.
        """
        grow = "grow 5/16384@0 %d %s" % (PAGES, SHAPE)
        best = self.anew(("one ", [grow, grow, "checkpoint"]), ("two ", [grow, "checkpoint", grow, "checkpoint"]))
        for _ in range(self.rounds):
            best.take("dd", ["dd", "if=/dev/zero", "of=zeros", "bs=8192", "count=%d" % PAGES, "conv=fsync",
                             "status=none"])
        for way, _ in self.ways:
            took, dd = best.seconds["two " + way] - best.seconds["one " + way], best.seconds["dd"]
            print("checkpoint of %d pages, %s: %.2f s, dd %.2f s: %.2f of it" % (PAGES, way, took, dd, took / dd))

    def flushes(self):
        """What `flush N` behind a growth of N whole pages takes: the run longer than one without that line.

        The pages are those of four partitions, which a flush takes in turn. What isn't flushed is written at the run's
        end, so the difference is what N flushes cost beside that.
        """
        others = ["create 5/%d" % (16384 + q) for q in range(1, 4)]
        for count in FLUSHED:
            grow = others + ["grow 5/%d@0 %d %s" % (16384 + q, count // 4, SHAPE) for q in range(4)]
            best = self.anew(("grow ", grow), ("flush ", grow + ["flush %d" % count]))
            for way, _ in self.ways:
                took, without = best.seconds["flush " + way], best.seconds["grow " + way]
                print("flush of %d pages behind their growth, %s: %.2f s, %.2f s more than without" %
                      (count, way, took, took - without))

    def full_store(self):
        """A full store, clean: what runs over it take, and their memory, by the number of frames."""
        first = self.ways[0][1]
        new_store(first)
        lines = ["create 5/%d" % (16384 + q) for q in range(4)]
        written(lines + ["grow 5/%d@0 %d 24,8192,7" % (16384 + q, FULL // 4) for q in range(4)])
        timed_run(first)
        self.memory()
        self.idle("a full store")
        new_store(first)
        self.idle("an empty store")

    def memory(self):
        """The peak memory of a run that changes each page of the store."""
        best = Best()
        written(["change " + " ".join("5/%d@%d+24:%02x" % (16384 + q, block + n, block % 251) for n in range(4))
                 for block in range(0, FULL // 4, 4) for q in range(4)])
        for _ in range(self.rounds):
            for frames in FRAMES:
                run(best, "%d" % frames, self.ways[0][1], "--frames", str(frames))
            for way, program in self.ways[1:]:
                run(best, way, program)
        for frames in FRAMES:
            most = 4 * frames * 8192 / MIB
            memory = best.memory["%d" % frames]
            print("each of %d pages changed with %d frames: %.2f s, %.0f MiB of memory, %.0f beside the frames (%d)%s" %
                  (FULL, frames, best.seconds["%d" % frames], memory, memory - most, BESIDE,
                   "" if memory - most <= BESIDE else ": MORE"))
        for way, _ in self.ways[1:]:
            print("each of %d pages changed, %s: %.2f s, %.0f MiB of memory" %
                  (FULL, way, best.seconds[way], best.memory[way]))

    def idle(self, what):
        """What a flush takes where nothing is to be written: a run of many longer than one of none."""
        best = Best()
        for _ in range(self.rounds):
            for way, program in self.ways:
                for name, lines in (("none ", []), ("many ", IDLE * ["flush 4"])):
                    written(lines)
                    run(best, name + way, program)
        for way, _ in self.ways:
            took = best.seconds["many " + way] - best.seconds["none " + way]
            print("flush 4 over %s, %s: %.1f microseconds, the difference of runs of %.2f s" %
                  (what, way, took / IDLE * 1e6, best.seconds["none " + way]))

    def begin(self):
        """What a `run` of no line takes on a store of 256 MiB: it reads the WAL, and rebuilds the data areas."""
        best, first = Best(), self.ways[0][1]
        new_store(first)
        written(["create 5/16384", "grow 5/16384@0 %d %s" % (BIG, SHAPE)])
        timed_run(first)
        written([])
        for _ in range(self.rounds):
            for way, program in self.ways:
                run(best, way, program)
            shutil.rmtree("copy", ignore_errors=True)
            best.take("cp", ["cp", "-r", "data0", "copy"])
        for way, _ in self.ways:
            took = best.seconds[way]
            print("begin over %.0f MiB of pages, %s: %.2f s, %.2f of cp of the data area, %.0f MiB of memory" %
                  (BIG * 8192 / MIB, way, took, took / best.seconds["cp"], best.memory[way]))
        print("begin: %.2f s%s" % (best.seconds["now"], self.old_of(best)))


def timed_run(program):
    """A run of the script that isn't measured."""
    with open("script", "rb") as script:
        timed([program, "run"], script)


def main():
    program = os.path.abspath(sys.argv[1])
    rounds = int(sys.argv[2]) if len(sys.argv) > 2 else 3
    old = os.path.abspath(sys.argv[3]) if len(sys.argv) > 3 else None
    bench = Bench(program, rounds, old)
    folder = tempfile.mkdtemp(dir=os.getcwd())
    os.chdir(folder)
    few = ["grow 5/16384@0 %d 8192,8192,0" % PAGES]
    patches = ["change 5/16384@%d+%d:%016x" % (n * 7919 % PAGES, 24 + n % 8160, n) for n in range(PATCHES)]
    parts = {
        "puts": lambda: bench.commands(
            "puts of new pages", ["change 5/16384@%d=%s" % (block, SHAPE) for block in range(PAGES)], PAGES),
        "patches": lambda: bench.commands(
            "small patches and %d pages that are grown first" % PAGES, few + patches, PAGES + PATCHES),
        "growth": lambda: bench.commands("blocks grown", ["grow 5/16384@0 %d %s" % (BIG, SHAPE)], BIG),
        "checkpoint": bench.checkpoint, "flushes": bench.flushes, "full": bench.full_store, "begin": bench.begin}
    try:
        for name in ("sums", "o"):
            os.mkdir(name)
        for part in sys.argv[4:] or parts:
            parts[part]()
    finally:
        os.chdir("/")
        shutil.rmtree(folder)


if __name__ == "__main__":
    main()
