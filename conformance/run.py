"""Random scripts through `pgbackup init`, `run` and `replay` and through an independent implementation.

    python3 conformance/run.py PROGRAM [RUNS [SEED]]

Each run makes a store with random options, runs one to three scripts of one worker on it, and
replays its WAL, with both, each in a folder of its own. After each call the lines, the status and
the bytes of `wal`, `sums`, `o`, `b` and the data areas are compared, and at the end what the data
areas hold with what `replay` wrote, and what `verify` of each backup prints. Some scripts have one
broken line, some stores can't be made.
Lines change one to four blocks by pages and fragments, grow and cut forks, drop relations of one fork
or of two, which at times are made anew or dropped again, or are refused in each way that a small store
knows; checkpoints, flushes, summaries and full backups stand between them, these at times into a folder
that isn't empty. Entries go on over pages; now and then one ends just at a page's
end, or a few bytes before it. The other implementation is told the moment of the program's backups and
summaries.
At times a script is run by the program in one call and in two, which must write the same WAL. Most runs
have few frames, other ones each time. The other implementation counts none, so where pages were written
for room a flush may have fewer to write than there; all else has to be the same.
Not part of the gate. Skipped where the independent implementation (PGBACKUP_ORACLE) isn't there.
"""
import calendar
import copy
import os
import re
import time

from common import ROOM, compare, files, oracle, program

TOP = (1 << 32) - 1
DATA = ("data0", "data1", "data2", "data3")
NOT_ALLOWED = [0, 1, 8, 11, 12, 13, 27, 31, 127, 128, 195, 255]
# Lines whose words are not taken.
BROKEN = """
 
\t \t
 # a comment begins in the first column
worker
worker W
worker a-b
worker one two
worker abcdefghijklmnopqrstuvwxyz0123456
Create 1/2
creates 1/2
create
create 1/2 1/3
create 0/2
create 1/0
create 1
create /2
create 1/
create 1/2/3
create +1/2
create 1/2_
create 1/2_ini
create 1/2_INIT
create 1/2_init_init
create _init
create 4294967296/1
create 1/4294967296
create 00000000001/2
create 0x1/2
create 1/2@0
change
change 1/2
change 1/2@0
change 1/2@=24,8192,0
change @0=24,8192,0
change 1/2=24,8192,0
change 1/2@0=
change 1/2@0=24
change 1/2@0=24,8192
change 1/2@0=24,8192,
change 1/2@0=24,8192,0,
change 1/2@0=24,8192,0,0
change 1/2@0=23,8192,0
change 1/2@0=24,8193,0
change 1/2@0=101,100,0
change 1/2@0=24,8192,256
change 1/2@0=24, 8192,0
change 1/2@0==24,8192,0
change 1/2@0@1=24,8192,0
change 1/2@4294967296=24,8192,0
change 1/2@00000000000=24,8192,0
change 0/2@0=24,8192,0
change 1/2_init0@0=24,8192,0
change 1/2@-1=24,8192,0
change 1/2@0+
change 1/2@0+24
change 1/2@0+24:
change 1/2@0+:61
change 1/2@0+24:6
change 1/2@0+24:616
change 1/2@0+24:6g
change 1/2@0+24:0x61
change 1/2@0+24: 61
change 1/2@0+65536:61
change 1/2@0+00000000024:61
change 1/2@0+24:61,
change 1/2@0+,24:61
change 1/2@0+24:61,,24:61
change 1/2@0+24:61,24
change 1/2@0+24:61:61
change 1/2@0+24=61
change 1/2@0+24,8192,0
change 1/2@0=24:61
change 1/2+0@24:61
change 1/2@0+24:61+24:61
change 1/2@0+24:61 1/2@1
change 1/2@0+24:61 create
change 1/2@0=24,8192,0 1/2@1=24,8192,256
truncate
truncate 1/2
truncate 1/2 1 1
truncate 1/2_init 0
truncate 1/2@0 0
truncate 0/2 0
truncate 1/2 4294967296
truncate 1/2 -1
truncate 1/2 x
drop
drop 1
drop 1/
drop /2
drop 0/2
drop 1/0
drop 1/2 1/3
drop 1/2 0
drop 1/2_init
drop 1/2_
drop 1/2@0
drop 1/2/3
drop 4294967296/1
drop 00000000001/2
Drop 1/2
drops 1/2
grow
grow 1/2@0
grow 1/2@0 1
grow 1/2@0 1 24,8192,0 1
grow 1/2@0 0 24,8192,0
grow 1/2@0 65537 24,8192,0
grow 1/2@0 1 23,8192,0
grow 1/2@0 1 24,8192
grow 1/2 1 24,8192,0
grow 1/2@ 1 24,8192,0
grow 1/2@4294967296 1 24,8192,0
grow 1/2@0=24,8192,0 1
grow 1/2@0 1 =24,8192,0
checkpoint 1
checkpoint checkpoint
Checkpoint
flush
flush 0
flush 1000001
flush 1 1
flush -1
flush 00000000001
full
summarise 1
summarise summarise
Summarise
full A
full a b
full a-b
full a.b
full abcdefghijklmnopqrstuvwxyz0123456
incr
incr a
incr a a
incr a b c
incr A b
incr a B
incr a a.b
Incr a b
Full a
summarize
""".strip("\n").split("\n")
BROKEN.append("change" + 17 * " 1/2@0+24:61")
BROKEN.append("change 1/2@0+24:" + 8193 * "61")
# Fragments of which one is bad, though each is written well.
BAD_FRAGMENTS = ["8192:61", "8191:6162", "65535:61", "24:61,8192:61", "0:" + 8192 * "00" + ",1:" + 8192 * "00",
                 ",".join(8 * ["24:" + 8168 * "00"] + ["24:" + 156 * "00"])]


class Store:
    """What the scripts so far made: the blocks of each fork, the relations that were dropped and not made anew, and
    the room on the WAL's last page."""

    def __init__(self):
        self.blocks, self.gone, self.room = {}, [], ROOM

    def rels(self):
        """The relations of which a fork is there."""
        return sorted({fork[:2] for fork in self.blocks})

    def create(self, fork):
        """A fork is made, if it isn't there."""
        if fork not in self.blocks:
            self.blocks[fork] = 0
            self.gone = [rel for rel in self.gone if rel != fork[:2]]
            self.take(48)

    def drop(self, rel):
        """All forks of a relation are taken away, if it has one."""
        if rel in self.rels():
            self.blocks = {fork: length for fork, length in self.blocks.items() if fork[:2] != rel}
            self.gone.append(rel)
            self.take(56)

    def grow(self, fork, at, count, size):
        """So many entries of a size put blocks from a place on, if the fork has that."""
        if fork in self.blocks and at <= self.blocks[fork]:
            self.blocks[fork] = max(self.blocks[fork], at + count)
            for _ in range(count):
                self.take(size)

    def take(self, size):
        """An entry takes so much room, of further pages too where it has to."""
        self.room -= size
        while self.room <= 0:
            self.room += 8192 - 24


def digits(rnd, number):
    """The number, at times with leading zeros."""
    text = str(number)
    return text.zfill(rnd.randrange(len(text), 11)) if rnd.random() < 0.1 else text


def fork_word(rnd, fork):
    db, rel, last = fork
    return "%s/%s%s" % (digits(rnd, db), digits(rnd, rel), last)


def a_fork(rnd):
    high = rnd.choice([3, 3, 3, TOP])
    return rnd.randrange(1, high + 1), rnd.randrange(1, high + 1), rnd.choice(["", "_init"])


def place_word(rnd, fork, block):
    return "%s@%s" % (fork_word(rnd, fork), digits(rnd, block))


def put_word(rnd, shape):
    return "=" + ",".join(digits(rnd, n) for n in shape + (rnd.randrange(256),))


def hex_word(rnd, size):
    return "".join(rnd.choice("0123456789abcdefABCDEF") for _ in range(2 * size))


def change(rnd, fork, block, shape):
    return "change " + place_word(rnd, fork, block) + put_word(rnd, shape)


def any_shape(rnd):
    lower = rnd.randrange(24, 8193)
    return lower, rnd.randrange(lower, 8193)


def a_shape(rnd, room):
    """The bounds of a page, mostly of a small image; at times one that fills the room."""
    kind = rnd.random()
    if kind < 0.1:
        return any_shape(rnd)
    if kind < 0.2 and 80 <= room <= 8100:
        image = room - 49 - rnd.randrange(min(8, room - 72))
        lower = rnd.randrange(24, image + 1)
        return lower, lower + 8192 - image
    return rnd.choice([24, rnd.randrange(24, 300)]), rnd.choice([8192, rnd.randrange(7892, 8193)])


def a_creation(rnd, store):
    fork = a_fork(rnd)
    if store.gone and rnd.random() < 0.3:
        fork = rnd.choice(store.gone) + (rnd.choice(["", "_init"]),)
    store.create(fork)
    return "create " + fork_word(rnd, fork)


def a_put(rnd, room):
    """A page, and how much room its image takes."""
    shape = a_shape(rnd, room)
    return put_word(rnd, shape), 5 + 8192 - (shape[1] - shape[0])


def a_patch(rnd, room):
    """Fragments behind the header, and how much room they take; at times as much as is left."""
    words, taken = [], 0
    for _ in range(rnd.choice([1, 1, 1, 2, 3, 9])):
        size = rnd.choice([1, 2, rnd.randrange(1, 40), rnd.randrange(1, 40), rnd.randrange(1, 2000)])
        if rnd.random() < 0.1 and 20 < room - taken < 8000:
            size = room - taken - 4 - rnd.randrange(8)
        at = 24 + rnd.choice([0, 8168 - size, rnd.randrange(8169 - size)])
        words.append("%s:%s" % (digits(rnd, at), hex_word(rnd, size)))
        taken += 4 + size
    return "+" + ",".join(words), taken


def some_items(rnd, store, forks):
    """1 to 4 items of these forks, which are of one relation and are there: their words, the blocks that they
    name, how long the forks are behind them, and how much room they take."""
    words, named, lengths, size = [], [], {fork: store.blocks[fork] for fork in forks}, 24 + 12
    for _ in range(rnd.choice([1, 1, 2, 3, 4])):
        fork = rnd.choice(forks)
        block = rnd.choice([lengths[fork], rnd.randrange(lengths[fork] + 1)])
        if (fork, block) in named:
            continue
        patched = block < store.blocks[fork] and rnd.random() < 0.6
        edit, taken = (a_patch if patched else a_put)(rnd, store.room - size - 8)
        words.append(place_word(rnd, fork, block) + edit)
        named.append((fork, block))
        lengths[fork] = max(lengths[fork], block + 1)
        size += 8 + taken
    return words, named, lengths, size


def a_refused_item(rnd, store, forks, named):
    """An item for which a change of these blocks is refused, mostly."""
    fork, (db, rel, last) = rnd.choice(forks), rnd.choice(forks)
    length = store.blocks[fork]
    put, patch = put_word(rnd, any_shape(rnd)), a_patch(rnd, 0)[0]
    other = rnd.choice([(db, rel % TOP + 1, last), (db % TOP + 1, rel, last), (db, rel, "" if last else "_init")])
    header = "+%d:%s" % (rnd.randrange(8, 24), hex_word(rnd, rnd.randrange(1, 10)))
    return rnd.choice([
        place_word(rnd, *rnd.choice(named)) + rnd.choice([put, patch]),
        place_word(rnd, other, 0) + rnd.choice([put, patch]),
        place_word(rnd, fork, length + rnd.choice([4, rnd.randrange(4, TOP - length + 1)])) + put,
        place_word(rnd, fork, length + rnd.choice([0, 4])) + patch,
        place_word(rnd, fork, rnd.randrange(length + 1)) + "+" + rnd.choice(BAD_FRAGMENTS),
        place_word(rnd, fork, rnd.randrange(length + 1)) + rnd.choice(["+12:FFFF", "+14:0000", "+18:0000", header]),
    ])


def a_change(rnd, store):
    """A change in range, or one that is refused."""
    kind = rnd.random()
    if kind < 0.05:
        fork = a_fork(rnd)
        if fork not in store.blocks:
            return change(rnd, fork, rnd.choice([0, rnd.randrange(TOP + 1)]), any_shape(rnd))
    if not store.blocks:
        return None
    rel = rnd.choice(sorted(store.blocks))[:2]
    forks = [fork for fork in sorted(store.blocks) if fork[:2] == rel]
    words, named, lengths, size = some_items(rnd, store, forks)
    if kind < 0.1:
        words += [place_word(rnd, forks[0], block) + "+24:61" for block in range(rnd.randrange(4, 17 - len(words)))]
    elif kind < 0.35:
        words.insert(rnd.randrange(len(words) + 1), a_refused_item(rnd, store, forks, named))
    else:
        store.blocks.update(lengths)
        store.take((size + 7) // 8 * 8)
    return "change " + " ".join(words)


def a_truncation(rnd, store):
    """A cut in range, or one that is refused."""
    mains = [fork for fork in sorted(store.blocks) if not fork[2]]
    if not mains or rnd.random() < 0.1:
        return "truncate %s %s" % (fork_word(rnd, a_fork(rnd)[:2] + ("",)), digits(rnd, rnd.randrange(4)))
    fork = rnd.choice(mains)
    length = store.blocks[fork]
    to = rnd.choice([0, length, rnd.randrange(length + 1), rnd.randrange(length + 1), length + 1, TOP])
    if to <= length:
        store.blocks[fork] = to
        store.take(48)
    return "truncate %s %s" % (fork_word(rnd, fork), digits(rnd, to))


def a_growth(rnd, store):
    """Blocks put from a place on, all or none of them."""
    forks = sorted(store.blocks)
    fork = a_fork(rnd) if not forks or rnd.random() < 0.1 else rnd.choice(forks)
    length = store.blocks.get(fork, 0)
    return growth_at(rnd, store, fork, rnd.choice([length, length, rnd.randrange(length + 1), length + 1, TOP]))


def growth_at(rnd, store, fork, at):
    count = rnd.choice([1, 2, 3] + 4 * [rnd.randrange(1, 12)] + [rnd.randrange(12, 80)])
    lower, upper = a_shape(rnd, store.room)
    store.grow(fork, at, count, (49 + 8192 - (upper - lower) + 7) // 8 * 8)
    shape = ",".join(digits(rnd, n) for n in (lower, upper, rnd.randrange(256)))
    return "grow %s %s %s" % (place_word(rnd, fork, at), digits(rnd, count), shape)


def a_drop(rnd, store, rel=None):
    """A relation is dropped: this one, or one that is there, that was dropped before, or any."""
    if rel is None:
        rels = rnd.choice([store.rels()] * 4 + [store.gone, []])
        rel = rnd.choice(rels) if rels else a_fork(rnd)[:2]
    store.drop(rel)
    return "drop " + fork_word(rnd, rel + ("",))


def a_renewal(rnd, store):
    """A relation is dropped, and forks of it are made anew, at times with blocks; at times its removal is written
    between, or the drop stands there again."""
    if not store.rels():
        return []
    rel = rnd.choice(store.rels())
    lines = [a_drop(rnd, store, rel)]
    if rnd.random() < 0.3:
        lines.append(rnd.choice([a_write, a_drop])(rnd, store))
    for last in rnd.choice([[""], ["_init"], ["", "_init"], ["_init", ""]]):
        fork = rel + (last,)
        store.create(fork)
        lines.append("create " + fork_word(rnd, fork))
        if rnd.random() < 0.7:
            lines.append(growth_at(rnd, store, fork, 0))
    return lines


def a_write(rnd, store):
    """A checkpoint, a flush, or summaries of what is finished."""
    kind = rnd.random()
    if kind < 0.45:
        store.take(32 + 56)
        return "checkpoint"
    if kind < 0.65:
        return "summarise"
    return "flush " + digits(rnd, rnd.choice([1, 2, 4, 7, rnd.randrange(1, 40), 1000]))


def a_backup(rnd, store):
    """A backup, full or on another one, at times under a name that is taken, or on one that is none. One is of
    fewer entries where it is refused."""
    names = ["f1", "f2", "f_3", "x" * 32, "busy"]
    store.take(32 + 56 + 40)
    name = rnd.choice(names)
    if rnd.random() < 0.5:
        return "full " + name
    return "incr %s %s" % (name, rnd.choice([other for other in names + ["none"] if other != name]))


def a_line(rnd, store):
    """A line of a worker, or None where this store knows none of its kind."""
    kind = rnd.random()
    if kind > 0.94:
        return a_backup(rnd, store)
    if kind > 0.9:
        return a_drop(rnd, store)
    if kind < 0.25:
        return a_creation(rnd, store)
    if kind < 0.35:
        return a_truncation(rnd, store)
    if kind < 0.5:
        return a_growth(rnd, store)
    if kind < 0.65:
        return a_write(rnd, store)
    return a_change(rnd, store)


def some_lines(rnd, store, count):
    """About so many lines of a worker, at times with a relation among them that is dropped and made anew."""
    lines = []
    while len(lines) < count:
        if rnd.random() < 0.05:
            lines += a_renewal(rnd, store)
        lines.append(a_line(rnd, store))
    return [line for line in lines if line is not None]


def a_comment(rnd):
    return "#" + "".join(chr(rnd.choice([9] + list(range(32, 127)))) for _ in range(rnd.randrange(20)))


def spaced(rnd, line):
    """The same words, at times with other blanks."""
    if rnd.random() < 0.8:
        return line

    def blanks(least):
        return "".join(rnd.choice(" \t") for _ in range(rnd.randrange(least, 4)))

    return blanks(0) + blanks(1).join(line.split()) + blanks(0)


def good_lines(rnd, store):
    """The lines of a script that is taken, and the place of its worker's line."""
    name = "".join(rnd.choice("abcxyz019_") for _ in range(rnd.choice([1, 4, 32])))
    lines = [rnd.choice(["", a_comment(rnd)]) for _ in range(rnd.choice([0, 0, 0, 2]))]
    at = len(lines)
    lines.append(spaced(rnd, "worker " + name))
    for line in some_lines(rnd, store, rnd.choice([0, 5, 20, 40])):
        if rnd.random() < 0.1:
            lines.append(rnd.choice(["", a_comment(rnd)]))
        lines.append(spaced(rnd, line))
    return lines, at


def broken_bytes(rnd, lines, worker):
    """One more line or byte, for which the script is refused. Gives the lines as bytes."""
    why, lines = rnd.choice(["Bytes", "Word", "NoWorker", "Twice"]), [line.encode() for line in lines]
    if why == "Bytes":
        n = rnd.randrange(len(lines))
        at = rnd.randrange(len(lines[n]) + 1)
        lines[n] = lines[n][:at] + bytes([rnd.choice(NOT_ALLOWED)]) + lines[n][at:]
    elif why == "Word":
        lines.insert(rnd.randrange(len(lines) + 1), rnd.choice(BROKEN).encode())
    elif why == "NoWorker":
        lines.insert(rnd.randrange(worker + 1), rnd.choice([b"create 1/2", b"change 1/2@0=24,8192,7 1/2@1+24:61"]))
    else:
        lines.insert(rnd.randrange(worker + 1, len(lines) + 1), lines[worker].strip())
    return lines


def a_script(rnd, store):
    if rnd.random() < 0.03:
        return rnd.choice([b"", b"\n", b"\n\n", b"# nothing", b"worker w"])
    if rnd.random() < 0.25:
        lines, worker = good_lines(rnd, copy.deepcopy(store))
        lines = broken_bytes(rnd, lines, worker)
    else:
        lines = [line.encode() for line in good_lines(rnd, store)[0]]
    return b"\n".join(lines) + rnd.choice([b"", b"\n", b"\n", b"\n"])


def init_words(rnd):
    """`init` with random options, always with a system identifier; at times not taken."""
    options = [["--system-id", str(rnd.choice([0, 7, (1 << 64) - 1, rnd.randrange(1 << 64)]))]]
    if rnd.random() < 0.7:
        options.append(["--segment-mib", str(1 << rnd.randrange(11))])
    if rnd.random() < 0.7:
        options.append(["--relseg", str(rnd.choice([rnd.randrange(1, 131073), 131072] + 3 * [rnd.randrange(1, 8)]))])
    if rnd.random() < 0.07:
        options += rnd.choice([[["--segment-mib", rnd.choice(["0", "3", "016", "2048", "1m", ""])]],
                               [["--relseg", rnd.choice(["0", "131073", "01", "-1"])]],
                               [["--system-id", "7"]], [["--frames", "4"]], [["--relseg"]], [["more"]]])
    rnd.shuffle(options)
    return ["init"] + [word for option in options for word in option]


def run_words(rnd):
    """`run`, mostly with few frames; at times not taken."""
    if rnd.random() < 0.03:
        return ["run"] + rnd.choice([["--frames"], ["--frames", "3"], ["--frames", "16385"], ["--frames", "04"],
                                     ["--frames", "x"], ["--frames", ""], ["--frames", "4", "--frames", "4"],
                                     ["--frames", "4", "x"], ["x"], ["--relseg", "4"]])
    if rnd.random() < 0.1:
        return ["run"] + rnd.choice([[], ["--frames", "16384"]])
    return ["run", "--frames", str(rnd.choice([4, 5, rnd.randrange(4, 17), rnd.randrange(4, 65)]))]


def is_less(line, wanted):
    """Both lines answer a flush, and this one wrote fewer pages."""
    ours, theirs = (re.fullmatch(r"(\S+ \d+ wrote )(\d+)", text) for text in (line, wanted))
    return bool(ours and theirs and ours[1] == theirs[1] and int(ours[2]) < int(theirs[2]))


def are_alike(got, wanted):
    """The same status and lines, but for flushes that found less to write."""
    (status, lines), (same, other) = got, wanted
    return status == same and len(lines) == len(other) and all(
        line == text or is_less(line, text) for line, text in zip(lines, other))


def labels():
    """The labels of our backups, by their files."""
    return {name: data for name, data in files("ours/b").items() if name.endswith("/backup_label")}


def moment_in(told):
    """The seconds of a time's text that was found in a file; 0 where damage left none, or none that there is."""
    try:
        return calendar.timegm(time.strptime(told[1].decode(), "%Y-%m-%d %H:%M:%S")) if told else 0
    except ValueError:
        return 0


def moment_of(label):
    """When a backup was taken, in seconds; 0 where a damaged label doesn't tell it."""
    return moment_in(re.search(rb"START TIME: (\d+-\d+-\d+ \d+:\d+:\d+) UTC\n", label))


def manifest_moments():
    """When the manifests of our backups were written, in seconds, by their files, where they tell it."""
    found = {}
    for name, data in files("ours/b").items():
        moment = moment_in(re.search(rb'"Last-Modified": "(\d+-\d+-\d+ \d+:\d+:\d+) GMT"', data))
        if moment and name.endswith("/backup_manifest"):
            found[name] = moment
    return found


def moments():
    """The moments of our backups and summaries, by their files."""
    found = {name: moment_of(data) for name, data in labels().items()}
    found.update(manifest_moments())
    summaries = {name: data for name, data in files("ours/sums").items() if len(data) >= 28}
    found.update({name: int.from_bytes(data[20:28], "little") for name, data in summaries.items()})
    return found


def both(path, words, script=b"", few=False):
    """Calls both, and gives what differs as texts. The files that a call writes are of one moment, but the label of
    what is combined, which is of an earlier one. With few frames a flush may write less."""
    before = moments()
    got = program(path, words, script, "ours")
    new = {moment for name, moment in moments().items() if before.get(name) != moment}
    os.chdir("theirs")
    wanted = oracle(words, script, max(new, default=1700000000))
    os.chdir("..")
    same = are_alike(got, wanted) if few else got == wanted
    differences = [] if same else ["%s, not %s" % (got, wanted)]
    for folder in ("wal", "sums", "o", "b") + DATA:
        if files("theirs/" + folder) != files("ours/" + folder):
            differences.append("the files of %s differ" % folder)
    return ["%s %s: %s" % (" ".join(words), script, difference) for difference in differences]


def held(folders):
    """The files of several folders, together."""
    return {name: data for folder in folders for name, data in files(folder).items()}


def in_two_calls(path, rnd):
    """Runs a script in one call and in two, and gives what differs in the WAL."""
    words, (lines, worker) = init_words(rnd), good_lines(rnd, Store())
    cut = rnd.randrange(worker + 1, len(lines) + 1)
    parts = [lines[:cut], [lines[worker]] + lines[cut:]]
    for folder, scripts in (("whole", [lines]), ("parts", parts)):
        os.mkdir(folder)
        program(path, words, folder=folder)
        for script in scripts:
            program(path, ["run", "--frames", str(rnd.randrange(4, 65))], "\n".join(script).encode(), folder)
    same = files("whole/wal") == files("parts/wal")
    return [] if same else ["%s %s: two calls, cut at %d, write another WAL" % (" ".join(words), lines, cut)]


def one_run(path, rnd):
    """What differs, as a list of texts."""
    for folder in ("ours", "theirs"):
        os.mkdir(folder)
    if rnd.random() < 0.03:
        for folder in ("ours", "theirs"):
            os.mkdir(folder + "/sums")
            open(folder + "/sums/x", "wb").close()
    if rnd.random() < 0.5:
        for folder in ("ours", "theirs"):
            os.makedirs(folder + "/b/busy/pg_wal")
            open(folder + "/b/busy/pg_wal/x", "wb").close()
    differences, store = both(path, init_words(rnd)), Store()
    for _ in range(rnd.randrange(1, 4)):
        words = run_words(rnd)
        differences += both(path, words, a_script(rnd, store), "--frames" in words)
    if rnd.random() < 0.1:
        differences += both(path, init_words(rnd))
    good, bad = ["p", "a_9", "x" * 32], ["x" * 33, "P", "a.b", "", "p/q"]
    out = rnd.choice(bad if rnd.random() < 0.1 else good)
    differences += both(path, ["replay", out])
    if os.path.isdir("ours/data0") and os.path.isdir("ours/o/" + out):
        if held("ours/" + folder for folder in DATA) != files("ours/o/" + out):
            differences.append("the data areas and %s differ" % out)
    if rnd.random() < 0.1:
        differences += both(path, ["replay", out])
    for name in sorted(os.listdir("ours/b") if os.path.isdir("ours/b") else []):
        differences += both(path, ["verify", name])
    if rnd.random() < 0.3:
        differences += in_two_calls(path, rnd)
    return differences


if __name__ == "__main__":
    compare(one_run)
