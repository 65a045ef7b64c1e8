"""Manifests made by hand through `pgbackup verify` and through an independent implementation.

    python3 conformance/manifests.py PROGRAM RUNS [SEED]

One backup that the independent implementation takes, with its manifest written in other ways each time, the sum made
again: free spacing, orders of keys and rows, a key twice, nested values of 125 to 130 levels, numbers as 1.0 and 1e3,
escapes, bytes that are no UTF-8, each kind of sum in either case, each of these in version 1 too, and a directory of 10,000 rows, whole, with a file
that is missing and with one more. Line and status have to be the same each time.
Not part of the gate. Skipped where the independent implementation (PGBACKUP_ORACLE) isn't there.
"""
import hashlib
import os
import re

from backups import KINDS, Backup, text_of, with_sum
from common import compare, oracle, program

SCRIPT = b"worker w\ncreate 5/16384\ngrow 5/16384@0 10 24,8192,0\nfull f1\n"
BACKUP = Backup("b/f1")


def lines_of():
    """The manifest's lines before that of its sum."""
    text = BACKUP.read("backup_manifest")
    return text[:text.rindex(b'"Manifest-Checksum"')]


def replaced(old, new):
    """The manifest with one text in another's place."""
    lines = lines_of()
    assert old in lines, old
    return with_sum(lines.replace(old, new, 1))


def first_version():
    """The manifest as one of version 1, which has no system identifier."""
    lines = lines_of().replace(b'Version": 2', b'Version": 1')
    return with_sum(lines.replace(b'"System-Identifier": 7,\n', b""))


def nested(levels):
    """A key of the top whose value has so many levels."""
    value = b"[" * levels + b"]" * levels
    return replaced(b'"Files": ', b'"More": ' + value + b',\n"Files": ')


def with_kind(kind, upper, rnd):
    """Each row with a right sum of this kind."""
    manifest = BACKUP.manifest()
    for row in manifest["Files"]:
        digits = hashlib.new(kind.lower(), BACKUP.read(row["Path"])).hexdigest()
        row["Checksum-Algorithm"] = kind
        row["Checksum"] = digits.upper() if upper else digits
    return text_of(manifest, rnd)


def in_order(key, rnd):
    """The rows and the keys of each in some other order."""
    manifest = BACKUP.manifest()
    manifest["Files"] = [dict(sorted(row.items(), key=key)) for row in reversed(manifest["Files"])]
    return text_of(dict(sorted(manifest.items(), key=key)), rnd)


def manifests(rnd):
    """Names, and manifests."""
    size = b'"Size": 81920'
    yield "as it is", BACKUP.read("backup_manifest")
    yield "tabs", with_sum(lines_of().replace(b" ", b"\t"))
    yield "carriage returns", with_sum(lines_of().replace(b"\n", b"\r\n"))
    yield "form feeds", with_sum(lines_of().replace(b" ", b"\f"))
    yield "one line", with_sum(lines_of().replace(b"\n", b" ") + b"\n")
    yield "keys in order", in_order(lambda item: item[0], rnd)
    yield "keys in reverse", in_order(lambda item: [-ord(c) for c in item[0]], rnd)
    for levels in range(125, 131):
        yield "%d levels" % levels, nested(levels)
    for number in [b"81920.0", b"8.192e4", b"81920e0", b"081920", b"+81920", b"-0", b"1e3", b"1e400", b"18446744073709551616"]:
        yield "size " + number.decode(), replaced(size, b'"Size": ' + number)
    for version in [b"0", b"1", b"2", b"2.0", b"1e0", b"02", b"3", b"18446744073709551616"]:
        lines = re.sub(rb'Version": \d', b'Version": ' + version, lines_of(), count=1)
        yield "version " + version.decode(), with_sum(lines)
    yield "a row's key twice", replaced(size, size + b", " + size)
    yield "a key of the top twice", replaced(b'"Files": ', b'"System-Identifier": 7,\n"Files": ')
    yield "an escape in a path", replaced(b"base/5/16384", b"base\\/5\\/\\u00316384")
    yield "half a pair", replaced(b"base/5/16384", b"base/5/\\ud800")
    yield "a pair", replaced(b"base/5/16384", b"base/5/\\ud83d\\ude00")
    yield "no UTF-8 in a path", replaced(b"base/5/16384", b"base/5/\xff")
    yield "no UTF-8 in a key", replaced(b'"Size"', b'"Siz\xc0"')
    yield "a mark of the byte order", with_sum(b"\xef\xbb\xbf" + lines_of())
    yield "a zero", replaced(b"base/5/16384", b"base/5/16384\\u0000")
    for kind in KINDS:
        yield kind, with_kind(kind, False, rnd)
        yield kind + " in capitals", with_kind(kind, True, rnd)


def compared(path, name):
    """What differs of one check by both."""
    wanted, got = oracle(["verify", "f1"]), program(path, ["verify", "f1"])
    return [] if wanted == got else ["%s: %s, not %s" % (name, got, wanted)]


def long_directory(path, rnd):
    """A directory of 10,000 rows: whole, without one file, and with one more."""
    manifest = BACKUP.manifest()
    row = dict(manifest["Files"][-1])
    for number in range(len(manifest["Files"]), 10000):
        content = b"%d" % number
        BACKUP.write("more/%d" % number, content)
        new = {"Path": "more/%d" % number, "Size": len(content), "Checksum": hashlib.sha256(content).hexdigest()}
        manifest["Files"].append({**row, **new})
    BACKUP.write("backup_manifest", text_of(manifest, rnd))
    differences = compared(path, "10,000 rows")
    os.remove("b/f1/more/5000")
    differences += compared(path, "a file of 10,000 is missing")
    BACKUP.write("more/5000", b"5000")
    BACKUP.write("more/x", b"")
    return differences + compared(path, "a file beside 10,000")


def one_run(path, rnd):
    """What differs, as a list of texts."""
    oracle(["init", "--segment-mib", "1", "--system-id", "7"])
    oracle(["run"], SCRIPT)
    kept, differences = BACKUP.read("backup_manifest"), []
    for version, base in [(2, kept), (1, first_version())]:
        BACKUP.write("backup_manifest", base)
        for name, text in list(manifests(rnd)):
            BACKUP.write("backup_manifest", text)
            differences += compared(path, "%s, in version %d" % (name, version))
    BACKUP.write("backup_manifest", kept)
    return differences + long_directory(path, rnd)


if __name__ == "__main__":
    compare(one_run)
