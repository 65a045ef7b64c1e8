"""What a run of several workers printed, judged by the order that its WAL tells. Needs the independent implementation."""
import re
from collections import deque, namedtuple

from oracle.area import Area
from oracle.base import Fault, Lsn, lsn_read
from oracle.history import redo_points, summary_of, whole
from oracle.page import zero_hole
from oracle.store import Store
from oracle.summary import Kept, Summary, decode_summary, encode_summary, summary_name
from oracle.wal import Cursor, lay_out, open_archive, read_to, segment_files

INSERTS = ("create", "truncate", "drop", "change", "grow")
# The refusals of an insert that end with the number of entries on whose store they were judged.
NUMBERED = ("1", "2", "3", "4", "5", "9", "10", "11", "15")

# What a worker did next: an op or the name of a mark; where its entry starts and ends, as far as the answer tells; and
# the text of a refusal, with its number of entries.
Step = namedtuple("Step", "act start end text number")


class Differs(Exception):
    """What can't be."""


def read_wal():
    """The settings and the entries of the folder `wal`."""
    try:
        st, archive = open_archive(Area("wal"))
        return st, read_to(Cursor(archive), None)[1]
    except Fault as f:
        raise Differs("the WAL can't be read: " + f.tail().decode()) from None


def spelled(st, records):
    """The segments in which these entries are written."""
    data, _ = lay_out([rec.kind for rec in records], st)
    return {name.decode(): piece for name, piece in segment_files(data, st).items()}


# ---- Steps of a worker

def place(text):
    return lsn_read(text.encode())


def appended(acts, start, end):
    """Steps that append an entry each; the first one's start and the last one's end are told, or are None."""
    last = len(acts) - 1
    return [Step(act, start if i == 0 else None, end if i == last else None, None, None) for i, act in enumerate(acts)]


def refused(act, text):
    words = text.split()
    return Step(act, None, None, text, int(words[-1]) if words[0] in NUMBERED else None)


def inserted(acts, count, answer):
    """The steps of a line that inserts; the count is what its answer tells beside the places."""
    done = re.fullmatch(r"ok %s(\S+/\S+) (\S+/\S+)" % count, answer)
    if done:
        return appended(acts, place(done[1]), place(done[2]))
    stopped = re.fullmatch(r"stopped (\d+) (.+)" if count else r"refused() (.+)", answer)
    taken = int(stopped[1] or 0) if stopped else len(acts)
    if taken >= len(acts):
        raise Differs("no answer of an insert")
    return appended(acts[:taken], None, None) + [refused(acts[taken], stopped[2])]


def steps_of(command, answer):
    """What a line did by its answer."""
    word = command[0]
    if word == "grow":
        _, fork, block, count, page = command
        puts = [("change", [(fork, block + k, ("Put", page))]) for k in range(count)]
        return inserted(puts, "%d " % count, answer)
    if word in INSERTS:
        return inserted([command], "", answer)
    told = re.fullmatch({"checkpoint": r"redo (\S+/\S+)", "flush": r"wrote (\d+)", "summarise": r"published \d+"}.get(
        word, r"backup (\S+/\S+) (\S+/\S+)|refused (\d+) .+"), answer)
    if not told or word == "flush" and int(told[1]) > command[1]:
        raise Differs("no answer of %s" % word)
    if word == "checkpoint":
        return appended(["RedoMark", "Online"], place(told[1]), None)
    if word in ("flush", "summarise"):
        return []
    if told[1]:
        return appended(["RedoMark", "Online", "BackupEnd"], place(told[1]), place(told[2]))
    return appended(["RedoMark", "Online"], None, None) if told[3] in ("35", "50") else []


class Behind(Store):
    """The store behind the entries that were followed so far. It writes no area."""

    def __init__(self, records):
        self.records, self.pages, self.redo = list(records), whole(records), redo_points(records)[-1]
        self.pending, self.dirty = [[] for _ in range(4)], [set() for _ in range(4)]

    def judged(self, op):
        """The kind of the op's entry and its new pages, or a Fault."""
        n = len(self.records)
        return self.judge_change(op[1], n) if op[0] == "change" else (self.judge_storage(op, n), {})

    def refusal(self, op):
        try:
            self.judged(op)
        except Fault as f:
            return f.tail().decode()
        return None


class Worker:
    """A worker's steps that weren't found yet, and the start of its last checkpoint."""

    def __init__(self, name, steps):
        self.name, self.steps, self.redo = name, deque(steps), None

    def refusals(self, store):
        """Judges what was refused on this store."""
        while self.steps and self.steps[0].text and self.steps[0].number in (None, len(store.records)):
            step = self.steps.popleft()
            wanted = store.refusal(step.act)
            if wanted != step.text:
                raise Differs("%s was refused %s, not %s" % (self.name, step.text, wanted))

    def spelled(self, act):
        """The entry of a step whose place isn't told: a mark, or a page that a growth put."""
        if act == "RedoMark":
            return act, 1
        if isinstance(act, str):
            return act, self.redo
        (fork, block, (_, page)), = act[1]
        return "Generic", [(fork, block, ("Image", zero_hole(page)))]

    def fits(self, rec):
        """2 where the next step tells this entry's place, 1 where it tells none and may be this entry, and else 0."""
        if not self.steps or self.steps[0].text:
            return 0
        step = self.steps[0]
        if step.start is not None:
            return 2 if step.start == rec.start else 0
        return 1 if self.spelled(step.act) == rec.kind else 0

    def takes(self, store, rec):
        """The entry is that of the next step."""
        step, new = self.steps.popleft(), {}
        try:
            kind, new = (self.spelled(step.act), {}) if isinstance(step.act, str) else store.judged(step.act)
        except Fault as f:
            kind = f.tail().decode()
        if kind != rec.kind or step.end not in (None, rec.end) or rec.xid:
            raise Differs("%s wrote %s up to %s, not %s up to %s" % (self.name, rec.kind, rec.end, kind, step.end))
        store.records.append(rec)
        if step.act == "RedoMark":
            store.redo = self.redo = rec.start
        if not isinstance(step.act, str):
            store.enter(step.act, rec, new)


def follow(store, records, workers):
    """Finds each of these entries among the workers' steps, and each refusal between them."""
    for rec in records:
        for worker in workers:
            worker.refusals(store)
        worker = max(workers, key=lambda w: w.fits(rec), default=None)
        if worker is None or not worker.fits(rec):
            raise Differs("entry %d at %s is no worker's next: %s" % (len(store.records), rec.start, rec.kind))
        worker.takes(store, rec)
    for worker in workers:
        worker.refusals(store)
        if worker.steps:
            raise Differs("%s answered what isn't there: %s" % (worker.name, worker.steps[0]))


# ---- Summaries

def up_to(script, answers):
    """Up to where summaries were published at the least, how many lines published, and whether incremental backups
    may have published more."""
    least, count, more = 0, 0, False
    for (_, lines), told in zip(script, answers):
        redo = 0
        for (_, command), answer in zip(lines, told):
            words = answer.split()
            if words[0] in ("redo", "backup"):
                redo = place(words[1])
            if command[0] == "summarise":
                count += int(words[1])
            incr = command[0] == "incr" and words[1] not in ("41", "20")
            more = more or incr
            if incr or command[0] == "summarise":
                least = max(least, redo)
    return least, count, more


def summaries(before, now, records, script, answers):
    """What differs in the files of `sums`."""
    if any(now.get(name) != data for name, data in before.items()):
        raise Differs("a summary that was there has changed")
    points, least = redo_points(records), up_to(script, answers)
    at = max([decode_summary(data).end for data in before.values()], default=points[0])
    ranges = [(a, b) for a, b in zip(points, points[1:]) if a >= at]
    new = sorted(set(now) - set(before))
    if [summary_name(a, b).decode() for a, b in ranges[:len(new)]] != new:
        raise Differs("%s aren't the next ranges between redo points" % new)
    for name, (a, b) in zip(new, ranges):
        made = int.from_bytes(now[name][20:28], "little")
        if now[name] != encode_summary(Summary(a, b, made, summary_of(records, a, b))):
            raise Differs("%s isn't the summary of its range" % name)
    if ranges[len(new):] and ranges[len(new)][0] < least[0]:
        raise Differs("the summaries don't reach %s" % Lsn(least[0]))
    if len(new) < least[1] or len(new) > least[1] and not least[2]:
        raise Differs("%d summaries are new, and %d were answered" % (len(new), least[1]))


def gap_behind(start):
    """The refusal where the kept summaries don't cover what comes behind this place."""
    kept = Kept(Area("sums"))
    try:
        if kept.list and start < kept.list[-1].end:
            kept.covering(start, kept.list[-1].end)
    except Fault as f:
        return "refused " + f.tail().decode()
    return None
