"""What the program says on standard error.

    python3 conformance/stderr.py PROGRAM

How far a long command has come: a `replay` is held up, so that it takes three seconds and more on any machine, and its
lines are counted, read and timed; so is a `run` of five workers. With PGBACKUP_PROGRESS=1, and in a terminal, there is at
most one line a second, the first one a second behind the beginning; none with PGBACKUP_PROGRESS=0, and none where standard
error is no terminal and the variable isn't 1. Standard output has the line of the answer alone, whatever it is. Then
refusals, of which each has to say what was found and what to do next, in the words of CASES; and calls that are done, which
say nothing.
Not part of the gate.
"""
import os
import pty
import re
import shutil
import signal
import subprocess
import sys
import tempfile
import threading
import time

from common import SEGMENT

LINE = re.compile(r"pgbackup: (wal|data[0-3]|sums|[bo]/\w+): (\d+) MiB read, (\d+) MiB written; in all (\d+) MiB read, (\d+) MiB written")
HELD = 3.6
# So much may a line be printed later than the next one.
LATE = 0.3


class Told:
    """What a call printed: its status, its standard output, and the lines of standard error with their moments."""

    def __init__(self):
        self.status, self.out, self.lines, self.seconds = None, "", [], 0.0

    def read(self, fd, began):
        """Takes lines until there are no more; a terminal ends with an error."""
        rest = b""
        while True:
            try:
                piece = os.read(fd, 4096)
            except OSError:
                piece = b""
            if not piece:
                break
            *lines, rest = (rest + piece).split(b"\n")
            self.lines += [(time.monotonic() - began, line.decode().rstrip("\r")) for line in lines]
        os.close(fd)
        if rest:
            self.lines.append((time.monotonic() - began, "unended: " + rest.decode()))


def hold_up(process, began):
    """Lets a process work a twentieth of the time, until the seconds are over."""
    while process.poll() is None and time.monotonic() - began < HELD:
        process.send_signal(signal.SIGCONT)
        time.sleep(0.005)
        process.send_signal(signal.SIGSTOP)
        time.sleep(0.095)
    process.send_signal(signal.SIGCONT)


def call(words, variable=None, terminal=False, shown=False, held=False, script=b""):
    """A call with the variable, standard error or standard output in a terminal, at times held up."""
    env = {key: value for key, value in os.environ.items() if key != "PGBACKUP_PROGRESS"}
    env.update({} if variable is None else {"PGBACKUP_PROGRESS": variable})
    error, out = pty.openpty() if terminal else os.pipe(), pty.openpty() if shown else os.pipe()
    told, printed, began = Told(), Told(), time.monotonic()
    process = subprocess.Popen(words, env=env, stdin=subprocess.PIPE, stdout=out[1], stderr=error[1])
    os.close(error[1])
    os.close(out[1])
    readers = [threading.Thread(target=it.read, args=(fd, began)) for it, fd in ((told, error[0]), (printed, out[0]))]
    for reader in readers:
        reader.start()
    process.stdin.write(script)
    process.stdin.close()
    if held:
        hold_up(process, began)
    told.status, told.seconds = process.wait(), time.monotonic() - began
    for reader in readers:
        reader.join()
    told.out = "\n".join(line for _, line in printed.lines)
    return told


def new_store(program, pages):
    """A store with a WAL of so many pages without a hole."""
    for name in os.listdir("."):
        shutil.rmtree(name)
    call([program, "init", "--system-id", "7"])
    call([program, "run"], script=b"worker w\ncreate 5/1\ngrow 5/1@0 %d 8192,8192,7\n" % pages)


def replay(program, **options):
    shutil.rmtree("o", ignore_errors=True)
    return call([program, "replay", "p"], held=True, **options)


def long_store(program):
    """A store whose `replay` takes as long as it is held up; the number of its pages."""
    pages = 4096
    while True:
        new_store(program, pages)
        if replay(program, variable="0").seconds >= HELD:
            return pages
        pages *= 2


def progress(told, behind=0):
    """What differs of a call that has to tell how far it is, with so many lines behind those."""
    lines = told.lines[:len(told.lines) - behind]
    found, moments = [LINE.fullmatch(text) for _, text in lines], [0.0] + [moment for moment, _ in lines]
    if None in found:
        return ["no such line: %s" % lines]
    numbers = [[int(number) for number in it.groups()[1:]] for it in found]
    differences = []
    if not 2 <= len(lines) <= told.seconds + LATE:
        differences.append("%d lines in %.1f seconds" % (len(lines), told.seconds))
    if any(later - before < 1 - LATE for before, later in zip(moments, moments[1:])):
        differences.append("lines at %s" % moments)
    if any(own > every for it in numbers for own, every in zip(it[:2], it[2:])):
        differences.append("an area with more than all: %s" % lines)
    if any(a > b for before, later in zip(numbers, numbers[1:]) for a, b in zip(before[2:], later[2:])):
        differences.append("less than before: %s" % lines)
    return differences


def silence(told):
    return ["it said %s" % told.lines] if told.lines else []


# Whether lines are to come: the variable, whether standard error is a terminal, and whether standard output is.
WAYS = [
    (progress, "1", False, False), (silence, None, False, False), (silence, "0", False, False), (silence, "2", False, False),
    (progress, None, True, False), (silence, "0", True, False), (progress, "yes", True, False), (progress, "1", True, True),
    (silence, None, False, True),
]


def long_calls(program):
    """What differs of calls that take long, as a list of texts."""
    pages, differences = long_store(program), []
    for judge, variable, terminal, shown in WAYS:
        told = replay(program, variable=variable, terminal=terminal, shown=shown)
        wrong = judge(told)
        if told.status or not re.fullmatch(r"replayed 0/[0-9A-F]+ 1 %d" % pages, told.out):
            wrong.append("status %s, printed %s" % (told.status, told.out))
        differences += ["PGBACKUP_PROGRESS=%s, standard error %s: %s" % (variable, "a terminal" if terminal else "a pipe", it)
                        for it in wrong]
    last = "wal/" + max(name for name in os.listdir("wal") if name != "settings")
    os.truncate(last, os.path.getsize(last) - 8)
    told = replay(program, variable="1")
    wrong = progress(told, 2) + refusal(told, 1, r"11 WalDamaged 0/[0-9A-F]+ Torn", "", "")
    return differences + ["a damaged WAL: %s" % it for it in wrong] + crew(program)


def crew(program):
    """What differs of a run by four workers and one that takes a backup, whose lines come by all threads."""
    pages, told = 1024, Told()
    while told.seconds < HELD:
        pages *= 2
        lines = ["worker copier", "full f1", "full f2"]
        for number in range(4):
            lines += ["worker w%d" % number, "create 5/%d" % (16384 + number), "grow 5/%d@0 %d 8192,8192,7" % (16384 + number, pages)]
        for name in os.listdir("."):
            shutil.rmtree(name)
        call([program, "init"])
        told = call([program, "run"], variable="1", held=True, script="\n".join(lines).encode() + b"\n")
    wrong = progress(told)
    if told.status or not re.search(r"\nwal 0/[0-9A-F]+$", told.out) or "MiB" in told.out:
        wrong.append("status %d, printed %s" % (told.status, told.out))
    return ["a run of five workers: %s" % it for it in wrong]


def refusal(told, status, answer, error, hint):
    """What differs of a refused call; an empty text stands for any."""
    said, wrong = [text for _, text in told.lines[-2:]], []
    if told.status != status or not re.search(r"(?s)(^|\n)refused %s$" % answer, told.out):
        wrong.append("status %s, printed %s" % (told.status, told.out))
    for text, begin, wanted in zip(said + ["", ""], ("pgbackup: error: ", "pgbackup: hint: "), (error, hint)):
        if not text.startswith(begin + wanted) or wanted and text != begin + wanted:
            wrong.append("said %s, not %s%s" % (told.lines, begin, wanted))
    return wrong


# Each case: words, script, what is done before in the folder of a store with two backups, answer, error, hint.


def nothing():
    pass


def no_store():
    shutil.rmtree("wal")


def other_settings():
    with open("wal/settings", "w", encoding="ascii") as f:
        f.write("x\n")


def a_torn_wal():
    os.truncate("wal/" + SEGMENT, os.path.getsize("wal/" + SEGMENT) - 8)


def a_file(path):
    def made():
        os.makedirs(os.path.dirname(path), exist_ok=True)
        with open(path, "ab") as f:
            f.write(b"x")
    return made


def gone(path):
    return lambda: os.remove(path)


USE = "bring the file back from a copy of the backup, or use another backup"
ORDER = "name the backups of one chain in their order"
CASES = [
    ("init", "", nothing, "42 AlreadyInit", "folder wal holds a file: there is a store here, or what is left of one",
     "run init in another folder, or empty wal first if it holds no WAL that is needed"),
    ("run", "", no_store, "43 NotInit", "there is no store here: folder wal has no WAL with an entry",
     "run init first, or change to the folder of the store"),
    ("run", "", other_settings, "15 SettingsDamaged", "file wal/settings is not as init wrote it",
     "bring it back from a copy, or write its two lines anew (docs/FORMATS.md)"),
    ("run", "worker w\nvacuum\n", nothing, "2 ScriptLine 2 Word",
     "line 2 of the script is refused: it is no command, or a number, name, page or fork is out of its range",
     "docs/FORMATS.md has the lines of a script"),
    ("run", "", a_torn_wal, "11 WalDamaged 0/[0-9A-F]+ Torn", "", ""),
    ("replay p", "", a_file("o/p/x"), "41 AreaNotEmpty o/p", "folder o/p is not empty",
     "empty it if nothing there is needed, or choose another name"),
    ("replay --target 7/0 p", "", nothing, "13 .*", "",
     "give a target at or before that end, or bring the later segment files to wal"),
    ("verify none", "", nothing, "20 NoManifest none", "backup b/none has no file backup_manifest (listed files checked before: 0)",
     "it was not completed, or is no backup: take another one"),
    ("verify f1", "", a_file("b/f1/backup_manifest"), "21 ManifestDamaged f1 Lines",
     "file b/f1/backup_manifest is refused: its last line is no checksum of the lines before it "
     "(listed files checked before: 0)", USE),
    ("verify f1", "", gone("b/f1/base/5/1"), "23 FileMissing f1 base/5/1",
     "file b/f1/base/5/1 is missing, or is the label and not listed (listed files checked before: 1)", USE),
    ("verify f1", "", a_file("b/f1/x"), "24 FileExtra f1 x", "file b/f1/x is not listed (listed files checked before: 2)",
     "take it out of the backup, if it doesn't belong there"),
    ("verify f1", "", a_file("b/f1/base/5/1"), "25 FileSize f1 base/5/1 16385 16384",
     "file b/f1/base/5/1 has 16385 bytes, and 16384 are listed (listed files checked before: 1)", USE),
    ("combine c i1 f1", "", nothing, "30 FirstIncremental i1", "backup b/i1 is incremental: its label names a prior",
     ORDER + ", a full one first"),
    ("combine c f1 f1", "", nothing, "31 LaterFull f1", "backup b/f1 is no incremental one: its label names no prior", ORDER),
    ("combine c " + "f1 " * 65, "", nothing, "37 TooManyMembers", "more than 64 backups are named", "take a full backup"),
    ("restore --target 0/100028 r f1 i1", "", nothing, "40 TargetEarly .*", "",
     "give a target at or past the backup's end, or bring the later segment files to wal"),
    ("merge-incr m f1 i1", "", nothing, "31 LaterFull f1", "", ""),
    ("walsummary 0/1 0/2", "", nothing, "50 .*", "no summary in sums covers 0/1", ""),
]
QUIET = ["verify f1", "verify i1", "combine c f1 i1", "restore r f1 i1", "replay p", "drill 7"]


def short_calls(program):
    """What differs of refused calls and of such that are done, as a list of texts."""
    differences, home = [], os.getcwd()
    script = b"worker w\ncreate 5/1\ngrow 5/1@0 2 24,8192,1\nfull f1\nchange 5/1@0+24:07\nincr i1 f1\n"
    for words, lines, before, answer, error, hint in CASES + [(it, "", nothing, None, "", "") for it in QUIET]:
        os.mkdir("store")
        os.chdir("store")
        call([program, "init", "--segment-mib", "1", "--system-id", "7"])
        made = call([program, "run"], script=script)
        before()
        if words.startswith("drill"):
            os.chdir(tempfile.mkdtemp(dir="."))
        told = call([program] + words.split(), script=lines.encode())
        if made.lines or made.status:
            differences.append("the store: %s" % made.lines)
        if answer is None:
            wrong = silence(told) + (["status %d" % told.status] if told.status else [])
        else:
            wrong = refusal(told, 2 if answer[:2] == "2 " else 1, answer, error, hint)
            wrong += ["said %s" % told.lines] if len(told.lines) != 2 else []
        differences += ["%s: %s" % (words[:40], it) for it in wrong]
        os.chdir(home)
        shutil.rmtree("store")
    return differences + usages(program)


def usages(program):
    """What differs where the words aren't taken, and where a line of a script is refused, which nothing is said of."""
    differences = []
    for words in ([], ["help"], ["--version"], ["init", "x"], ["verify"], ["vacuum"]):
        told = call([program] + words)
        said = [text for _, text in told.lines]
        unknown = [it for it in said if "error:" in it]
        if told.status != 2 or told.out != "refused 1 Usage" or not said or \
                unknown != (["pgbackup: error: there is no command vacuum"] if words == ["vacuum"] else []):
            differences.append("%s: status %d, printed %s, said %s" % (words, told.status, told.out, said))
        if words != ["--version"] and not any("usage: pgbackup" in it for it in said):
            differences.append("%s: no usage: %s" % (words, said))
    call([program, "init"])
    told = call([program, "run"], script=b"worker w\ndrop 5/1\n")
    return differences + (["a refused line: %s" % told.lines] if told.lines or told.status else [])


def main():
    program, home = os.path.abspath(sys.argv[1]), os.getcwd()
    with tempfile.TemporaryDirectory() as folder:
        os.chdir(folder)
        differences = short_calls(program) + long_calls(program)
        os.chdir(home)
    for difference in differences:
        print(difference)
    print("%s: %d calls that take long, %d refusals, %d differences" %
          (os.path.basename(sys.argv[0]), len(WAYS) + 2, len(CASES), len(differences)))
    sys.exit(1 if differences else 0)


if __name__ == "__main__":
    main()
