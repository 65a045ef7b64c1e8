"""Random archives as streams through `pgbackup follow`, through `replay` and through an independent implementation.

    python3 conformance/follows.py PROGRAM [RUNS [SEED]]

Each run makes an archive with the independent implementation, as `archives.py` does, and joins its segment files to
a stream, which the program is handed through a pipe: whole, or cut into pieces of 1, 7 or 8191 bytes or of random
lengths, with waits between them. Line, status and files have to be those of the independent implementation, and,
where the stream is followed, the line and the files of `replay` of the stream's archive, which the program makes of
segment files that are cut of the stream. Then the stream is damaged five times, each time anew: a byte of an entry's
head, of its blocks, of its data, of a page's head or anywhere changed, with the sum made again or not; cut short, at
times within an entry's or a page's head; zeros or other bytes put behind it, or a piece of it left out; followed with
another segment size; or followed to an output that holds a file.
A refusal of `follow` is that of `replay`, but for a delta that can't be applied, which `follow` tells before damage
that stands behind it.
Once, streams of as many bytes as are followed, and of one more, are a short archive with zeros behind it.
Not part of the gate. Skipped where the independent implementation (PGBACKUP_ORACLE) isn't there.
"""
import os
import shutil
import subprocess
import time

from archives import segments, write_archive
from common import SEGMENT, compare, files, oracle, program

MIB = 1 << 20
# The most bytes of an input that are followed.
MOST = 256 * MIB


def pieces_of(rnd, stream):
    """The stream, cut in one of several ways."""
    most = rnd.choice([None, 1, 7, 8191, 8192, 65536, 0])
    if most is None:
        return [stream]
    if most == 1 or most == 7:
        # a few such pieces at a random place, since each one is a call of the system
        at = rnd.randrange(len(stream) + 1)
        end = min(len(stream), at + 40 * most)
        return [stream[:at]] + [stream[k:min(k + most, end)] for k in range(at, end, most)] + [stream[end:]]
    found, at = [], 0
    while at < len(stream):
        size = most or rnd.randrange(1, 30000)
        found.append(stream[at:at + size])
        at += size
    return found


def follow(path, words, pieces, wait):
    """(status, lines) of the program, which is handed these pieces of its input one by one."""
    ran = subprocess.Popen([path] + words, stdin=subprocess.PIPE, stdout=subprocess.PIPE, stderr=subprocess.DEVNULL)
    try:
        for piece in pieces:
            if piece:
                view = memoryview(piece)
                while view:
                    view = view[os.write(ran.stdin.fileno(), view):]
                if wait:
                    time.sleep(0.0005)
    except BrokenPipeError:
        pass
    ran.stdin.close()
    out = ran.stdout.read()
    return ran.wait(), out.decode().splitlines()


def stream_of():
    """The bytes of the archive in the folder `wal`, whose files follow each other."""
    bytes_of = []
    for name in segments():
        with open("wal/" + name, "rb") as f:
            bytes_of.append(f.read())
    return b"".join(piece.ljust(MIB, b"\0") for piece in bytes_of[:-1]) + b"".join(bytes_of[-1:])


def write_stream(stream, mib, blocks):
    """The archive of a stream, with settings, in the folder `wal`."""
    shutil.rmtree("wal", ignore_errors=True)
    os.mkdir("wal")
    size = mib * MIB
    for at in range(0, max(len(stream), 1), size):
        number, each = at // size + 1, (1 << 32) // size
        with open("wal/%08X%08X%08X" % (1, number // each, number % each), "wb") as f:
            f.write(stream[at:at + size])
    with open("wal/settings", "w", encoding="ascii") as f:
        f.write("segment-mib %d\nblocks-per-segment %d\n" % (mib, blocks))


def damaged(rnd, stream, places):
    """The stream with something else in it."""
    found = bytearray(stream)
    pick = rnd.random()
    begins = [begin - MIB for begin, *_ in places if begin - MIB < len(found)]
    if pick < 0.45 and found:
        for _ in range(rnd.randrange(1, 3)):
            at = rnd.randrange(len(found))
            kind = rnd.randrange(4)
            if kind == 0 and begins:
                at = rnd.choice(begins) + rnd.randrange(24)
            elif kind == 1 and begins:
                at = rnd.choice(begins) + 24 + rnd.randrange(60)
            elif kind == 2:
                at = at // 8192 * 8192 + rnd.randrange(40)
            if at < len(found):
                found[at] ^= rnd.choice([1, 2, 4, 8, 16, 32, 64, 128, rnd.randrange(1, 256)])
        return bytes(found)
    if pick < 0.75:
        at = rnd.randrange(len(found) + 1)
        kind = rnd.randrange(3)
        if kind == 0 and begins:
            at = min(len(found), rnd.choice(begins) + rnd.randrange(30))
        elif kind == 1:
            at = min(len(found), at // 8192 * 8192 + rnd.randrange(44))
        return bytes(found[:at])
    if pick < 0.9:
        more = bytes(rnd.choice([1, 7, 8, 40, 8192, rnd.randrange(30000)]))
        return bytes(found) + more + rnd.choice([b"", b"\1", rnd.randbytes(rnd.randrange(1, 60))])
    at = rnd.randrange(len(found) + 1)
    return bytes(found[:at] + found[at + rnd.choice([1, 8, 8192]):])


def is_judged_early(line):
    return line.startswith("refused 14 ") and line.endswith(" BadDelta")


def once(path, rnd, stream, mib, blocks, said):
    """What differs for one stream, where it is followed by the program, by the other implementation, and replayed."""
    shutil.rmtree("o", ignore_errors=True)
    full = rnd.random() < 0.05
    if full:
        for name in ("p", "q"):
            os.makedirs("o/" + name)
            with open("o/%s/x" % name, "wb"):
                pass
    options = ["--segment-mib", str(mib), "--relseg", str(blocks)]
    if rnd.random() < 0.3:
        options = options[2:] + options[:2]
    words = options + ["p"] if rnd.random() < 0.7 else ["p"] + options
    pieces = pieces_of(rnd, stream)
    ours = follow(path, ["follow"] + words, pieces, rnd.random() < 0.5)
    theirs = oracle(["follow"] + ["q" if word == "p" else word for word in words], stream)
    theirs = (theirs[0], [line.replace("o/q", "o/p") for line in theirs[1]])
    found = []
    if ours != theirs:
        found.append("%s: program %s, other %s" % (said, ours, theirs))
    if files("o/p") != files("o/q"):
        found.append("%s: files of o differ: %s, %s" % (said, sorted(files("o/p")), sorted(files("o/q"))))
    if full:
        return found
    if stream:
        write_stream(stream, mib, blocks)
        ran = subprocess.run([path, "replay", "r"], capture_output=True, check=False)
        again = (ran.returncode, [line.replace("replayed", "followed") for line in ran.stdout.decode().splitlines()])
        if again != ours and not is_judged_early(ours[1][0]):
            found.append("%s: follow %s, replay %s" % (said, ours, again))
        if files("o/p") != files("o/r"):
            found.append("%s: follow's files aren't replay's" % said)
    return found


def long_streams(path):
    """What differs of the longest streams."""
    for words, script in ((["init", "--segment-mib", "1", "--system-id", "7"], b""), (["run"], b"worker w\ncreate 5/16384\n")):
        program(path, words, script)
    with open("wal/" + SEGMENT, "rb") as f:
        stream = f.read()
    turned = bytearray(stream)
    turned[0x60 + 24] ^= 1
    found = []
    for front, more, wanted in ((stream, 0, "followed 0/100090 1 0"), (stream, 1, "refused 18 InputLong %d" % MOST),
                                (bytes(turned), 1, "refused 11 WalDamaged 0/100060 Crc")):
        shutil.rmtree("o", ignore_errors=True)
        ran = follow(path, ["follow", "--segment-mib", "1", "p"], [front, bytes(MOST - len(front) + more)], False)
        if ran != (0 if wanted.startswith("followed") else 1, [wanted]):
            found.append("of %d bytes: %s, and not %s" % (MOST + more, ran, wanted))
    for folder in ("wal", "data0", "data1", "data2", "data3", "sums", "o"):
        shutil.rmtree(folder, ignore_errors=True)
    return found


LONG = [long_streams]


def one_run(path, rnd):
    """What differs, as a list of texts."""
    if LONG:
        return LONG.pop()(path) + one_run(path, rnd)
    places = write_archive(rnd) or []
    stream = stream_of() if segments() else b""
    blocks = rnd.choice([1, 2, 3, 7, 131072])
    found = once(path, rnd, stream, 1, blocks, "whole")
    for turn in range(5):
        mib = 1 if rnd.random() < 0.9 else rnd.choice([2, 16])
        found += once(path, rnd, damaged(rnd, stream, places), mib, blocks, "damaged %d" % turn)
    return found


if __name__ == "__main__":
    compare(one_run)
