"""Measures four writers on four partitions beside one writer of the same commands, and a full backup beside writers.

    python3 bench/crews.py PROGRAM [ROUNDS]

Each way runs on a new store, in turn. Prints the best time of each over rounds, by the clock and of the processor,
and accepted commands a second; and of a `full` of 256 MiB what it takes alone and while four writers patch its pages.
"""
import os
import shutil
import sys
import tempfile

from wal import timed

PUTS = 20_000
GROWN = 8_192
PATCHES = 10_000
RELATIONS = range(16_384, 16_388)


def run(program, script=""):
    with open("script", "w") as out:
        out.write(script)
    with open("script", "rb") as lines:
        return timed([program, "run"], lines)


def new_store(program, script=""):
    for name in ("wal", "data0", "data1", "data2", "data3", "sums", "b"):
        shutil.rmtree(name, ignore_errors=True)
    timed([program, "init", "--system-id", "1"])
    if script:
        run(program, script)


def puts(relation):
    return [f"create 5/{relation}"] + [f"change 5/{relation}@{block}=8192,8192,7" for block in range(PUTS // 4)]


def patches(relation):
    return [f"change 5/{relation}@{k * 7 % GROWN}+{4096 + k % 64 * 8}:0123456789ABCDEF" for k in range(PATCHES)]


def one(parts):
    return "\n".join(["worker w"] + [line for lines in zip(*parts) for line in lines]) + "\n"


def four(parts, more=""):
    return "".join(f"worker w{k}\n" + "\n".join(lines) + "\n" for k, lines in enumerate(parts)) + more


def best(rounds, program, before, script):
    taken = []
    for _ in range(rounds):
        new_store(program, before)
        taken.append(run(program, script))
    return min(each.seconds for each in taken), min(each.processor for each in taken)


def main():
    program, rounds = os.path.abspath(sys.argv[1]), int(sys.argv[2]) if len(sys.argv) > 2 else 3
    os.chdir(tempfile.mkdtemp())
    parts = [puts(relation) for relation in RELATIONS]
    empty = best(rounds, program, "", "")
    rates = {}
    for name, script in (("one writer", one(parts)), ("four writers", four(parts))):
        clock, spent = best(rounds, program, "", script)
        rates[name] = PUTS / (clock - empty[0])
        print(f"{name}: {PUTS} puts in {clock:.2f} s ({spent:.2f} s of the processor), {rates[name]:.0f} a second")
    print(f"four writers: {rates['four writers'] / rates['one writer']:.2f} times the commands a second of one")
    grown = "".join(f"worker g{r}\ncreate 5/{r}\ngrow 5/{r}@0 {GROWN} 8192,8192,7\n" for r in RELATIONS)
    begun = best(rounds, program, grown, "")
    alone = best(rounds, program, grown, "worker b\nfull sun\n")
    work = four([patches(relation) for relation in RELATIONS])
    writers = best(rounds, program, grown, work)
    both = best(rounds, program, grown, work + "worker b\nfull sun\n")
    print(f"begin {begun[0]:.2f} s; full alone {alone[0]:.2f} s ({alone[1]:.2f}); {4 * PATCHES} patches by four writers "
          f"{writers[0]:.2f} s ({writers[1]:.2f}); both at once {both[0]:.2f} s ({both[1]:.2f})")


main()
