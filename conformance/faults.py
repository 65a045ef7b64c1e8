"""What the program says where the system refuses a call: `pgbackup: CALL PATH: ERROR` on standard error.

    python3 conformance/faults.py PROGRAM

Each case makes a store or none, takes something away from the program (a folder that may not be
written, a disk without room, a folder in a file's place ..), and calls it once. It then has to end
with status 3, to print `refused 60 DeviceFault AREA`, and to name the call, the path and the error on
one line of standard error, before two that say what was found and what to do next. As root, which may write any folder, the program runs as nobody where a
folder is read-only. A case that needs more than this machine allows is skipped with a word.
Not part of the gate.
"""
import contextlib
import os
import shutil
import subprocess
import sys
import tempfile

from common import SEGMENT

NOBODY = 65534
# Four creations: an entry each, and a file each once they are replayed.
CREATIONS = "worker w\n" + "".join("create 5/%d\n" % rel for rel in range(1, 5))
# And a page, whose file is larger than the disk that it is to stand on.
PAGE = CREATIONS + "change 5/1@0=24,8192,65\n"


class Skipped(Exception):
    """Why a case can't be shown on this machine."""


class Program:
    """The program, a copy of which stands beside the folder in which it is called."""

    def __init__(self, path, folder):
        self.path, self.folder = path, folder

    def call(self, words, script="", **options):
        """(status, lines, lines of standard error) of one call."""
        pipes = {"input": script, "stdout": subprocess.PIPE}
        if "stdin" in options:
            del pipes["input"]
        try:
            ran = subprocess.run([self.path] + words, cwd=self.folder, text=True, check=False,
                                 stderr=subprocess.PIPE, **{**pipes, **options})
        except PermissionError as why:
            raise Skipped("the program can't run as nobody") from why
        return ran.returncode, (ran.stdout or "").splitlines(), ran.stderr.splitlines()

    def at(self, *parts):
        return os.path.join(self.folder, *parts)

    def store(self, script=None):
        """Makes a store, and runs a script on it."""
        made = self.call(["init", "--segment-mib", "1", "--system-id", "7"])
        ran = self.call(["run"], script) if script else (0, [], [])
        if made[0] or ran[0]:
            raise RuntimeError("no store: %s %s" % (made, ran))


@contextlib.contextmanager
def read_only(folder):
    """In it the folder may not be written by whom it names, as an argument of `subprocess.run`."""
    os.chmod(folder, 0o555)
    try:
        yield {"user": NOBODY, "group": NOBODY, "extra_groups": []} if os.geteuid() == 0 else {}
    finally:
        os.chmod(folder, 0o755)


@contextlib.contextmanager
def mounted(folder, options):
    """In it a file system in memory is mounted at the folder."""
    if os.geteuid() != 0:
        raise Skipped("only root may mount")
    command = ["mount", "-t", "tmpfs", "-o", options, "tmpfs", folder]
    if subprocess.run(command, capture_output=True, check=False).returncode:
        raise Skipped("nothing can be mounted here")
    try:
        yield
    finally:
        subprocess.run(["umount", folder], check=True)


# Each case gives what was to be answered (area, call, path, error) and what was.


def init_in_a_read_only_folder(program):
    with read_only(program.folder) as who:
        called = program.call(["init"], **who)
    return ("wal", "mkdir", "wal", "Permission denied (os error 13)"), called


def run_on_a_read_only_wal(program):
    program.store()
    os.chmod(program.at("wal", SEGMENT), 0o444)
    for q in range(4):
        os.mkdir(program.at("data%d" % q))
        os.chmod(program.at("data%d" % q), 0o777)
    with read_only(program.at("wal")) as who:
        called = program.call(["run"], CREATIONS, **who)
    return ("wal", "open", "wal/" + SEGMENT, "Permission denied (os error 13)"), called


def run_where_a_data_area_is_a_file(program):
    program.store()
    with open(program.at("data2"), "wb"):
        pass
    called = program.call(["run"], CREATIONS)
    return ("data2", "readdir", "data2/", "Not a directory (os error 20)"), called


def run_where_the_mark_is_a_folder(program):
    program.store()
    os.makedirs(program.at("data0", "rebuilding"))
    called = program.call(["run"], CREATIONS)
    return ("data0", "open", "data0/rebuilding", "Is a directory (os error 21)"), called


def run_over_a_full_data_area(program):
    program.store(CREATIONS)
    with mounted(program.at("data1"), "size=4k"):
        called = program.call(["run"], "worker w\nchange 5/1@0=24,8192,65\ncheckpoint\n")
    return ("data1", "write", "data1/base/5/1", "No space left on device (os error 28)"), called


def run_over_a_full_wal(program):
    """A command before which the WAL that waits is flushed names the area; 6 MiB have no room for six segments."""
    os.mkdir(program.at("wal"))
    with mounted(program.at("wal"), "size=6m"):
        program.store()
        called = program.call(["run"], "worker w\ncreate 5/1\n" + "grow 5/1@0 200 8192,8192,7\n" * 6)
    if not called[1][-2:-1] or not called[1][-2].endswith(" 12 DeviceFault wal"):
        raise RuntimeError("no command failed: %s" % (called,))
    return ("wal", "write", "wal/" + SEGMENT[:-1] + "6", "No space left on device (os error 28)"), called


def run_without_room_for_a_page(program):
    """A command that needs the frame of a page which can't be written names the area; 16 KiB have room for two pages."""
    program.store(CREATIONS)
    with mounted(program.at("data1"), "size=16k"):
        called = program.call(["run", "--frames", "4"], "worker w\ngrow 5/1@0 12 24,8192,65\n")
    if called[1][-2:-1] != ["w 2 stopped 6 12 DeviceFault data1"]:
        raise RuntimeError("no command failed: %s" % (called,))
    return ("data1", "write", "data1/base/5/1", "No space left on device (os error 28)"), called


def replay_into_a_read_only_folder(program):
    program.store(CREATIONS)
    os.mkdir(program.at("o"))
    with read_only(program.at("o")) as who:
        called = program.call(["replay", "p"], **who)
    return ("o/p", "mkdir", "o/p/base/5", "Permission denied (os error 13)"), called


def replay_onto_a_read_only_disk(program):
    program.store(CREATIONS)
    os.mkdir(program.at("o"))
    with mounted(program.at("o"), "ro"):
        called = program.call(["replay", "p"])
    return ("o/p", "mkdir", "o/p/base/5", "Read-only file system (os error 30)"), called


def replay_onto_a_full_disk(program):
    program.store(PAGE)
    os.mkdir(program.at("o"))
    with mounted(program.at("o"), "size=4k"):
        called = program.call(["replay", "p"])
    return ("o/p", "write", "o/p/base/5/1", "No space left on device (os error 28)"), called


def init_on_a_full_disk(program):
    os.mkdir(program.at("wal"))
    with mounted(program.at("wal"), "size=4k"):
        called = program.call(["init"])
    return ("wal", "write", "wal/" + SEGMENT, "No space left on device (os error 28)"), called


def init_where_settings_is_a_folder(program):
    os.makedirs(program.at("wal", "settings"))
    called = program.call(["init"])
    return ("wal", "open", "wal/settings", "Is a directory (os error 21)"), called


def replay_where_a_fork_is_a_folder(program):
    program.store(CREATIONS)
    os.makedirs(program.at("o", "p", "base", "5", "1"))
    called = program.call(["replay", "p"])
    return ("o/p", "open", "o/p/base/5/1", "Is a directory (os error 21)"), called


def replay_where_a_folder_is_a_file(program):
    program.store(CREATIONS)
    with open(program.at("o"), "wb"):
        pass
    called = program.call(["replay", "p"])
    return ("o/p", "readdir", "o/p/", "Not a directory (os error 20)"), called


def run_where_input_is_a_folder(program):
    program.store()
    folder = os.open(program.folder, os.O_RDONLY)
    try:
        called = program.call(["run"], stdin=folder)
    finally:
        os.close(folder)
    return ("input", "read", "standard input", "Is a directory (os error 21)"), called


def init_where_output_is_full(program):
    if not os.path.exists("/dev/full"):
        raise Skipped("there is no /dev/full")
    with open("/dev/full", "wb") as full:
        called = program.call(["init"], stdout=full)
    return (None, "write", "standard output", "No space left on device (os error 28)"), called


CASES = [
    init_in_a_read_only_folder,
    run_on_a_read_only_wal,
    run_where_a_data_area_is_a_file,
    run_where_the_mark_is_a_folder,
    run_over_a_full_data_area,
    run_over_a_full_wal,
    run_without_room_for_a_page,
    replay_into_a_read_only_folder,
    replay_onto_a_read_only_disk,
    replay_onto_a_full_disk,
    init_on_a_full_disk,
    init_where_settings_is_a_folder,
    replay_where_a_fork_is_a_folder,
    replay_where_a_folder_is_a_file,
    run_where_input_is_a_folder,
    init_where_output_is_full,
]


def differences(wanted, called):
    """What differs, as a list of texts."""
    area, call, path, error = wanted
    status, lines, said = called
    found = []
    if status != 3:
        found.append("status %d, not 3" % status)
    if area is not None and "refused 60 DeviceFault " + area not in lines[-1:]:
        found.append("printed %s, not a fault of %s" % (lines, area))
    begins = ["pgbackup: %s %s: %s" % (call, path, error)]
    if area is not None:
        begins += ["pgbackup: error: ", "pgbackup: hint: "]
    if len(said) != len(begins) or said[0] != begins[0] or not all(map(str.startswith, said, begins)):
        found.append("said %s, not %s %s: %s" % (said, call, path, error))
    return found


def shown(case, path):
    """What differs at a case, in a folder of its own, as a list of texts."""
    room = tempfile.mkdtemp()
    try:
        # `nobody` has to reach the program.
        os.chmod(room, 0o755)
        program = Program(shutil.copy(path, os.path.join(room, "pgbackup")), os.path.join(room, "site"))
        os.mkdir(program.folder)
        return differences(*case(program))
    finally:
        shutil.rmtree(room)


def main():
    failed = skipped = 0
    for case in CASES:
        try:
            found = shown(case, sys.argv[1])
        except Skipped as why:
            print("skipped %s: %s" % (case.__name__, why))
            skipped += 1
            continue
        for difference in found:
            print("%s: %s" % (case.__name__, difference))
            failed += 1
    ran = len(CASES) - skipped
    print("%s: %d cases, %d skipped, %d differences" % (os.path.basename(sys.argv[0]), ran, skipped, failed))
    sys.exit(1 if failed else 0)


if __name__ == "__main__":
    main()
