"""Scripts of several workers through `pgbackup run`, judged by what has to hold in whatever order their steps came.

    python3 conformance/crews.py PROGRAM [RUNS [SEED]]

Each run makes a store and runs one to four scripts on it. Up to eight workers create, change, grow, cut and drop the
same forks, and take checkpoints, flushes, summaries, and full and incremental backups meanwhile, mostly with few
frames. The WAL tells the order: each entry has to be the next one of some worker's answers, and the one that an
independent implementation makes of the line on the store of the entries before; each refusal has to be the one that it
gives on the store of as many entries as the refusal tells; and no entry may be left over. The segments have to be
those of these entries, the data areas what they replay to, and each new summary that of its range, as many and as far as
was answered. Which backups are refused the worker's own lines tell. Each other one has to verify, by both, and each
chain to restore to its end, to the WAL's end and to two places between as `replay` does and as the entries say. At
times a script is broken, or a summary was removed.
Not part of the gate. Skipped where the independent implementation (PGBACKUP_ORACLE) isn't there.
"""
import os
import shutil
import tempfile

from common import compare, files, oracle, program, watched

DATA = ("data0", "data1", "data2", "data3")
FORKS = [(5, 16384 + rel, kind) for rel in range(5) for kind in (0, 3)]
BROKEN = ["worker w0", "worker w_0 x", "create 0/1", "drop 5/16384_init", "full r0_0", "incr r0_0 r0_0", "grow", "\x7f"]


def fork_word(fork):
    return "%d/%d%s" % (fork[0], fork[1], "_init" if fork[2] else "")


class Plan:
    """Lines of workers, drawn in some order of theirs, over forks that are as long as that order leaves them."""

    def __init__(self, rnd, lengths, names, run, count):
        """Names are those of backups, of which each worker has some; of its own each worker has some more."""
        self.rnd, self.lengths, self.run = rnd, dict(lengths), run
        self.lines = [[] for _ in range(count)]
        self.names = [names[worker::count] for worker in range(count)]

    def fork(self):
        """A fork that is there, mostly."""
        there = sorted(self.lengths)
        return self.rnd.choice(there if there and self.rnd.random() < 0.95 else FORKS)

    def page(self, worker):
        """A page that tells its worker."""
        fill = 8 * self.rnd.randrange(32) + worker
        lower, upper = self.rnd.choice([24, self.rnd.randrange(24, 300)]), self.rnd.randrange(7900, 8192)
        return "%d,%d,%d" % ((lower, upper, fill) if self.rnd.random() < 0.95 else (8192, 8192, fill))

    def patch(self):
        words = []
        for _ in range(self.rnd.choice([1, 1, 2, 5])):
            size = self.rnd.choice([1, 4, 8, self.rnd.randrange(1, 400)])
            words.append("%d:%s" % (self.rnd.randrange(24, 8193 - size), self.rnd.randbytes(size).hex()))
        if self.rnd.random() < 0.05:
            words.append(self.rnd.choice(["12:FFFF", "8192:00", "8191:0000"]))
        return "+" + ",".join(words)

    def item(self, worker, fork):
        length = self.lengths.get(fork, 0)
        block = self.rnd.choice([length, self.rnd.randrange(length + 1), self.rnd.randrange(length + 1)])
        if block < length and self.rnd.random() < 0.7:
            return "%s@%d%s" % (fork_word(fork), block, self.patch())
        self.lengths[fork] = max(length, block + 1)
        return "%s@%d=%s" % (fork_word(fork), block, self.page(worker))

    def change(self, worker):
        fork = self.fork()
        both = [fork] + [fork[:2] + (kind,) for kind in (0, 3) if fork[:2] + (kind,) in self.lengths]
        return "change " + " ".join(self.item(worker, self.rnd.choice(both))
                                    for _ in range(self.rnd.choice([1, 1, 1, 1, 2, 3, 4, 5])))

    def grow(self, worker):
        fork, count = self.fork(), self.rnd.choice([1, 1, 2, 3, 9, 30])
        block = self.lengths.get(fork, 0) - self.rnd.choice([0, 0, 0, 2])
        self.lengths[fork] = max(block, 0) + count
        return "grow %s@%d %d %s" % (fork_word(fork), max(block, 0), count, self.page(worker))

    def create(self, _):
        fork = self.rnd.choice(FORKS)
        self.lengths.setdefault(fork, 0)
        return "create " + fork_word(fork)

    def truncate(self, _):
        fork = self.fork()[:2] + (0,)
        length = self.lengths.get(fork, 0)
        self.lengths[fork] = self.rnd.choice([length, self.rnd.randrange(length + 1)])
        return "truncate %s %d" % (fork_word(fork), self.lengths[fork])

    def drop(self, _):
        fork = self.fork()
        for kind in (0, 3):
            self.lengths.pop(fork[:2] + (kind,), None)
        return "drop %d/%d" % fork[:2]

    def flush(self, _):
        return "flush %d" % self.rnd.choice([1, 4, 20, 200, 2000])

    def backup(self, worker):
        """A backup, mostly of a new name, and mostly on the last one."""
        names = self.names[worker]
        name = "r%d_%d_%d" % (self.run, worker, len(self.lines[worker]))
        if self.rnd.random() < 0.1:
            name = self.rnd.choice(names + ["busy" if worker == 0 else name])
        others = [other for other in names if other != name]
        names.append(name)
        if not others or self.rnd.random() < 0.3:
            return "full " + name
        return "incr %s %s" % (name, self.rnd.choice([others[-1], self.rnd.choice(others)]))

    def line(self, worker, kinds):
        kind = self.rnd.choice(kinds)
        self.lines[worker].append(getattr(self, kind)(worker) if hasattr(self, kind) else kind)


# How often each kind of line comes: of all kinds, of writers and those beside them, and of backups above all.
KINDS = (
    11 * ["change"] + 4 * ["grow"] + 3 * ["create"] + 2 * ["truncate", "backup", "flush"]
    + ["drop", "checkpoint", "summarise"],
    30 * ["change"] + 6 * ["grow"] + 2 * ["create", "truncate", "flush"] + ["checkpoint", "drop"],
    6 * ["change"] + 4 * ["backup"] + ["grow", "create", "checkpoint", "summarise", "flush", "drop"],
)


def crew_script(rnd, lengths, names, run, most):
    """A script of two to eight workers, at times of one, each with so many lines at the most."""
    count = rnd.choice([1, 2, 2, 3, 4, 8, rnd.randrange(2, 9)])
    plan = Plan(rnd, lengths, names, run, count)
    kinds = [KINDS[0]] * count if rnd.random() < 0.5 else [rnd.choice(KINDS) for _ in range(count)]
    left = [worker for worker in range(count) for _ in range(rnd.choice([1, most // 4, most]))]
    rnd.shuffle(left)
    if not lengths:
        for worker in range(count):
            plan.lines[worker] += [plan.create(worker), plan.grow(worker)]
    for worker in left:
        plan.line(worker, kinds[worker])
    return [line for worker in range(count) for line in ["worker w%d" % worker] + plan.lines[worker]]


def broken(rnd, lines):
    """One line or some more, for which the script is refused, mostly."""
    at = rnd.randrange(len(lines) + 1)
    named = [line.split()[1] for line in lines if line.startswith("full ")] or ["x"]
    more = [rnd.choice(BROKEN)] if rnd.random() < 0.5 else rnd.choice([
        ["worker v%d" % n for n in range(8)], ["worker v", "full " + rnd.choice(named)],
        ["worker v", "incr v " + rnd.choice(named)]])
    return lines[:at] + more + lines[at:]


def run_words(rnd):
    frames = rnd.choice([4, 5, 8, rnd.randrange(4, 65)])
    return ["run"] + (["--frames", str(frames)] if rnd.random() < 0.7 else [])


def whole_state():
    return {folder: files(folder) for folder in ("wal", "sums", "b") + DATA}


class Crew:
    """A store: its backups as (start, end, prior) by their names, and the areas of backups that hold a file."""

    def __init__(self, path, rnd):
        self.path, self.rnd, self.taken, self.held = path, rnd, {}, set()

    def begin(self):
        words = ["--segment-mib", "1", "--system-id", "7", "--relseg", str(self.rnd.choice([1, 3, 7, 131072]))]
        program(self.path, ["init"] + words)
        if self.rnd.random() < 0.3:
            os.makedirs("b/busy")
            open("b/busy/x", "wb").close()
            self.held.add("busy")

    def script(self, run):
        """Runs one script and judges it."""
        from oracle.base import Fault
        from oracle.script import read_script
        from wal_order import Behind, Differs, read_wal

        if self.rnd.random() < 0.05 and files("sums"):
            os.remove("sums/" + self.rnd.choice(sorted(files("sums"))))
        store, before = Behind(read_wal()[1]), whole_state()
        lengths = {fork: len(pages) for fork, pages in store.pages.items()}
        lines = crew_script(self.rnd, lengths, sorted(self.taken), run, self.rnd.choice([2, 8, 24]))
        if self.rnd.random() < 0.1:
            lines = broken(self.rnd, lines)
        text, words = "\n".join(lines).encode(), run_words(self.rnd)
        told = watched(self.path, words, text)
        try:
            if told is None:
                raise Differs("no thread goes on")
            try:
                script = read_script(text)
            except Fault as f:
                if told != (2, [f.line().decode()]) or before != whole_state():
                    raise Differs("%s, not %s" % (told, f.line())) from None
                return
            self.judged(script, store, before, told)
        except Differs as differs:
            with tempfile.NamedTemporaryFile(prefix="script.", delete=False) as kept:
                kept.write(text)
            raise Differs("%s < %s: %s" % (" ".join(words), kept.name, differs)) from None

    def judged(self, script, store, before, told):
        """Judges a script that was run."""
        from wal_order import Differs, Worker, follow, read_wal, spelled, steps_of, summaries

        old = len(store.records)
        st, records = read_wal()
        answers = self.answers(script, told, store.records[-1].end, records[-1].end)
        if records[:old] != store.records:
            raise Differs("entries that were there have changed")
        workers = [Worker(name.decode(), [step for (_, command), answer in zip(lines, told)
                                          for step in steps_of(command, answer)])
                   for (name, lines), told in zip(script, answers)]
        follow(store, records[old:], workers)
        now = whole_state()
        now["wal"].pop("settings")
        if now["wal"] != spelled(st, records):
            raise Differs("the segments aren't those of the entries")
        self.areas(store, st, now)
        summaries(before["sums"], now["sums"], records, script, answers)
        self.backups(script, answers)
        names = {name.split("/")[0] for name in now["b"]}
        if names != self.held or any(now["b"].get(name) != data for name, data in before["b"].items()):
            raise Differs("b has %s, not %s, or what was there changed" % (names, self.held))

    def answers(self, script, told, opened, end):
        """The answers of each worker."""
        from wal_order import Differs

        status, lines = told
        heads = ["%s %d " % (name.decode(), n) for name, lines in script for n, _ in lines]
        if status != 0 or lines[0] != "opened %s" % opened or lines[-1] != "wal %s" % end or len(lines) != len(heads) + 2:
            raise Differs("status %d, and %s .. %s" % (status, lines[:1], lines[-1:]))
        if any(not line.startswith(head) for line, head in zip(lines[1:], heads)):
            raise Differs("lines of another order: %s" % lines)
        rest = iter(line[len(head):] for line, head in zip(lines[1:], heads))
        return [[next(rest) for _ in lines] for _, lines in script]

    def areas(self, store, st, now):
        """The data areas hold the store's files, each in its partition's."""
        from oracle.history import files_of
        from wal_order import Differs

        for q, area in enumerate(DATA):
            mine = {fork: pages for fork, pages in store.pages.items() if fork[1] % 4 == q}
            if now[area] != {name.decode(): data for name, data in files_of(mine, st.relseg).items()}:
                raise Differs("%s isn't what the WAL makes" % area)

    def backups(self, script, answers):
        """Judges the answers of backups, and keeps those that were taken."""
        from wal_order import Differs, gap_behind, place

        for (_, lines), told in zip(script, answers):
            for (n, command), answer in zip(lines, told):
                if command[0] not in ("full", "incr"):
                    continue
                name, prior = [word.decode() for word in command[1:]] + [None] * (3 - len(command))
                wanted = self.refusal(name, prior) or (gap_behind(self.taken[prior][0]) if prior else None)
                words = answer.split()
                if words[0] == "backup" and not wanted:
                    self.taken[name] = place(words[1]), place(words[2]), prior
                    self.held.add(name)
                    self.verified(name)
                elif answer != wanted:
                    raise Differs("line %d was answered %s, not %s" % (n, answer, wanted))

    def refusal(self, name, prior):
        if name in self.held:
            return "refused 41 AreaNotEmpty b/" + name
        return None if prior is None or prior in self.taken else "refused 20 NoManifest " + prior

    def verified(self, name):
        from wal_order import Differs

        start, end, prior = self.taken[name]
        got, wanted = program(self.path, ["verify", name]), oracle(["verify", name])
        head = "verified %s %s %s %s " % (name, "incremental" if prior else "full", start, end)
        if got != wanted or not got[1][0].startswith(head):
            raise Differs("%s, not %s or %s" % (got, wanted, head))

    def chain(self, name):
        prior = self.taken[name][2]
        return (self.chain(prior) if prior else []) + [name]

    def chains(self):
        """Restores some of the chains, each to some places."""
        from wal_order import read_wal

        st, records = read_wal()
        names = sorted(self.taken)
        self.rnd.shuffle(names)
        for name in names[:4]:
            end = self.taken[name][1]
            later = [rec.end for rec in records if rec.end >= end]
            for target in [end, None, self.rnd.choice(later), self.rnd.randrange(end, later[-1] + 1)]:
                self.restored(st, records, self.chain(name), target)

    def restored(self, st, records, members, target):
        """Restores a chain, and replays the WAL, to the same place."""
        from oracle.base import Lsn
        from oracle.history import counts, files_of, whole
        from wal_order import Differs

        option = [] if target is None else ["--target", str(Lsn(target))]
        kept = [rec for rec in records if target is None or rec.end <= target]
        store = whole(kept)
        wanted = {name.decode(): data for name, data in files_of(store, st.relseg).items()}
        line = "%s %d %d" % ((kept[-1].end,) + counts(store))
        calls = [("restored", ["restore"] + option + ["r"] + members), ("replayed", ["replay"] + option + ["p"])]
        for word, words in calls:
            got = program(self.path, words)
            if got != (0, ["%s %s" % (word, line)]) or files("o/" + ("r" if word == "restored" else "p")) != wanted:
                raise Differs("%s: %s, not %s, or other files" % (" ".join(words), got, line))
        if self.rnd.random() < 0.2:
            got = oracle(["restore"] + option + ["t"] + members)
            if got != (0, ["restored " + line]) or files("o/t") != wanted:
                raise Differs("%s differs where it is restored by the other one: %s" % (members, got))
        shutil.rmtree("o", ignore_errors=True)


def one_run(path, rnd):
    """What differs, as a list of texts."""
    from wal_order import Differs

    crew = Crew(path, rnd)
    crew.begin()
    try:
        for run in range(rnd.randrange(1, 5)):
            crew.script(run)
        crew.chains()
    except Differs as differs:
        return [str(differs)]
    return []


if __name__ == "__main__":
    compare(one_run)
