"""Measures `verify` of a backup of 256 MiB, whose work is SHA-256, beside `sha256sum` and `openssl dgst` over the same
files.

    python3 bench/verify.py PROGRAM [ROUNDS [OLD]]

OLD is another pgbackup, whose `verify` is measured too. Prints the best times of each way over rounds, in turn, by the
clock and of the processor, the ratios, and the peak memory of the program.
"""
import hashlib
import json
import os
import shutil
import sys
import tempfile

from wal import Best

FILES = 8
PAGE = bytes(12) + (24).to_bytes(2, "little") + (8192).to_bytes(2, "little") * 2 + (8196).to_bytes(2, "little")
LABEL = b"""START WAL LOCATION: 0/100090 (file 000000010000000000000001)
CHECKPOINT LOCATION: 0/1000B8
BACKUP METHOD: streamed
BACKUP FROM: primary
START TIME: 2023-11-14 22:13:20 UTC
LABEL: f1
START TIMELINE: 1
"""


def put(rows, path, piece, count):
    """A file of the backup, so many times this piece, and its row."""
    os.makedirs(os.path.dirname("b/f1/" + path), exist_ok=True)
    made = hashlib.sha256()
    with open("b/f1/" + path, "wb") as f:
        for _ in range(count):
            f.write(piece)
            made.update(piece)
    rows.append({"Path": path, "Size": len(piece) * count, "Last-Modified": "2023-11-14 22:13:20 GMT",
                 "Checksum-Algorithm": "SHA256", "Checksum": made.hexdigest()})


def backup():
    """A full backup of 256 MiB in files of 32 MiB; gives the paths of its files."""
    rows = []
    put(rows, "backup_label", LABEL, 1)
    for number in range(FILES):
        put(rows, "base/5/%d" % (16384 + number), PAGE + os.urandom(8192 - len(PAGE)), 4096)
    top = {"PostgreSQL-Backup-Manifest-Version": 2, "System-Identifier": 7, "Files": rows,
           "WAL-Ranges": [{"Timeline": 1, "Start-LSN": "0/100090", "End-LSN": "0/100110"}]}
    lines = json.dumps(top)[:-1].encode() + b",\n"
    with open("b/f1/backup_manifest", "wb") as f:
        f.write(lines + b'"Manifest-Checksum": "' + hashlib.sha256(lines).hexdigest().encode() + b'"}\n')
    return ["b/f1/" + row["Path"] for row in rows]


def main():
    program, rounds = os.path.abspath(sys.argv[1]), int((sys.argv[2:] + ["5"])[0])
    old = os.path.abspath(sys.argv[3]) if len(sys.argv) > 3 else None
    folder, home = tempfile.mkdtemp(dir=os.getcwd()), os.getcwd()
    os.chdir(folder)
    paths, best = backup(), Best()
    for _ in range(rounds):
        if old:
            best.take("old", [old, "verify", "f1"])
        best.take("verify", [program, "verify", "f1"])
        best.take("sha256sum", ["sha256sum"] + paths)
        best.take("openssl", ["openssl", "dgst", "-sha256"] + paths)
    print("verify of 256 MiB: %s, %.0f MiB of memory" % (best.times("verify"), best.memory["verify"]))
    for way, name in (("old", "verify of before"), ("sha256sum", "sha256sum"), ("openssl", "openssl dgst")):
        if way in best.seconds:
            print("    %s: %s; verify takes %s it" % (name, best.times(way), best.ratio("verify", way)))
    os.chdir(home)
    shutil.rmtree(folder)


if __name__ == "__main__":
    main()
