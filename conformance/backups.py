"""Damaged backups through `pgbackup verify` and through an independent implementation.

    python3 conformance/backups.py PROGRAM [RUNS [SEED]]

Each run has the independent implementation make a store of one to three forks, and take a full backup and an
incremental one of it while the script goes on. Both are verified; then one of them is damaged six times, each time
anew: bytes of a file changed, a file cut, made longer, removed, added or renamed; the label's lines or the manifest's
text changed, with the sums made again or not; a row taken out, doubled, moved, or of another kind of sum, with other
spacing and order of keys; and the head of an incremental file changed, its blocks put out of order, the file cut, or
its plain form put beside it, with its row made again. Line and status have to be the same each time. Some manifests
are of version 1, with a system identifier and without.
Not part of the gate. Skipped where the independent implementation (PGBACKUP_ORACLE) isn't there.
"""
import hashlib
import json
import os
import shutil
import struct

from common import compare, oracle, program

KINDS = ["SHA224", "SHA256", "SHA384", "SHA512"]
# The number at the front of an incremental file.
MAGIC = 0xD3AE1F0D
# The most blocks of a file that a head may name, whatever the store's segments are.
MOST = 131072


def script_of(rnd):
    """Lines that make forks and pages, with a full backup among them and an incremental one behind that."""
    lines = ["worker w"]
    for number in range(rnd.randrange(1, 4)):
        fork = "5/%d%s" % (16384 + number, rnd.choice(["", "", "_init"]))
        blocks = rnd.randrange(1, 12)
        lines += ["create " + fork, "grow %s@0 %d 424,8192,%d" % (fork, blocks, rnd.randrange(256))]
        for _ in range(rnd.randrange(4)):
            lines.append("change %s@%d+424:00112233" % (fork, rnd.randrange(blocks)))
    full = rnd.randrange(1, len(lines) + 1)
    lines.insert(full, "full f1")
    lines.insert(rnd.randrange(full + 1, len(lines) + 1), "incr i1 f1")
    return "\n".join(lines).encode()


class Backup:
    """The files of a backup in its folder."""

    def __init__(self, home):
        self.home = home

    def place(self, path):
        return os.path.join(self.home, path)

    def paths(self):
        """The paths of all files."""
        found = []
        for top, _, names in os.walk(self.home):
            found += [os.path.relpath(os.path.join(top, name), self.home) for name in names]
        return sorted(found)

    def holds(self, path):
        return os.path.exists(self.place(path))

    def read(self, path):
        with open(self.place(path), "rb") as f:
            return f.read()

    def write(self, path, content):
        os.makedirs(os.path.dirname(self.place(path)), exist_ok=True)
        with open(self.place(path), "wb") as f:
            f.write(content)

    def remove(self, path):
        os.remove(self.place(path))

    def rename(self, path, other, rnd):
        """Gives a file another path, and its row."""
        os.rename(self.place(path), self.place(other))
        manifest = self.manifest()
        for row in manifest["Files"]:
            if row["Path"] == path:
                row["Path"] = other
        self.write_manifest(manifest, rnd)

    def manifest(self):
        """What the manifest says, but its own sum."""
        found = json.loads(self.read("backup_manifest"))
        del found["Manifest-Checksum"]
        return found

    def write_manifest(self, manifest, rnd):
        self.write("backup_manifest", text_of(manifest, rnd))

    def list_again(self, path, rnd):
        """Makes size and sum of a file's row again, or a row for a file that has none."""
        content, manifest = self.read(path), self.manifest()
        rows = [row for row in manifest["Files"] if row["Path"] == path]
        if not rows:
            rows = [dict(manifest["Files"][0], Path=path)]
            manifest["Files"] += rows
        for row in rows:
            row["Size"], row["Checksum"] = len(content), hashlib.sha256(content).hexdigest()
        self.write_manifest(manifest, rnd)


def text_of(manifest, rnd):
    """The manifest's text with its sum, spaced in some way."""
    text = json.dumps(manifest, indent=rnd.choice([None, 0, 1, 3])).rstrip()[:-1].rstrip().encode() + b",\n"
    return with_sum(text)


def with_sum(lines):
    return lines + b'"Manifest-Checksum": "' + hashlib.sha256(lines).hexdigest().encode() + b'"}\n'


def change_bytes(rnd, backup, path):
    """A byte of a file changed, the file cut or made longer."""
    content, pick = backup.read(path), rnd.randrange(4)
    if pick == 0:
        content = content[:rnd.randrange(len(content) + 1)]
    elif pick == 1:
        content += bytes([rnd.randrange(256)]) * rnd.choice([1, 8192])
    elif content:
        at = rnd.randrange(len(content))
        content = content[:at] + bytes([content[at] ^ rnd.randrange(1, 256)]) + content[at + 1:]
    backup.write(path, content)


def change_names(rnd, backup):
    """A file removed, added or renamed."""
    path, pick = rnd.choice(backup.paths()), rnd.randrange(3)
    added = rnd.choice([
        "base/5/9", "x", "pg_wal/000000010000000000000001", "backup_manifesto", "base/5/16384.1",
        "base/5/INCREMENTAL.16384", "base/5/INCREMENTAL.16384_init", "x/INCREMENTAL.16384"])
    if pick == 0:
        backup.remove(path)
    elif pick == 1:
        backup.write(added, rnd.randbytes(rnd.choice([0, 7, 8192])))
    else:
        content = backup.read(path)
        backup.remove(path)
        backup.write(added, content)


def label_line(rnd, lines):
    """One line of a label changed, taken out, doubled or moved."""
    at, pick = rnd.randrange(len(lines)), rnd.randrange(4)
    if pick == 0:
        lines[at] = rnd.choice([
            b"START WAL LOCATION: 0/1003B8 (file 000000010000000000000001)", b"CHECKPOINT LOCATION: 0/x",
            b"BACKUP METHOD: pg_start_backup", b"BACKUP FROM: standby", b"START TIME: any", b"LABEL: ", b"START TIMELINE: 2",
            b"START TIMELINE: 01", b"INCREMENTAL FROM LSN: 0/1003B0", b"", b"x"])
    elif pick == 1:
        del lines[at]
    elif pick == 2:
        lines.insert(at, lines[at])
    else:
        lines.append(rnd.choice([b"INCREMENTAL FROM LSN: 0/1003B0", b"x"]))
    return lines


def change_label(rnd, backup):
    """A line of the label, with its row made again."""
    lines = label_line(rnd, backup.read("backup_label").split(b"\n")[:-1])
    backup.write("backup_label", b"\n".join(lines) + rnd.choice([b"\n", b"\n", b"\n", b""]))
    backup.list_again("backup_label", rnd)


def head_of(content):
    """The truncation length and the blocks that the head of an incremental file names; none where it was damaged
    before and isn't whole."""
    _, count, length = struct.unpack("<III", content[:12].ljust(12, b"\0"))
    if 12 + 4 * count > len(content):
        return length, []
    return length, list(struct.unpack_from("<%dI" % count, content, 12))


def file_of(magic, count, length, blocks, rnd):
    """An incremental file of this head, with pages behind it where it names blocks."""
    head = struct.pack("<III%dI" % len(blocks), magic, count, length, *blocks)
    if blocks:
        head += bytes(-len(head) % 8192)
    return head + rnd.randbytes(8192 * len(blocks))


def change_head(rnd, content):
    """The head of an incremental file changed, or the file made anew with another head."""
    length, blocks = head_of(content)
    pick, near = rnd.randrange(8), [0, 1, length, length + 1, MOST - 1, MOST, MOST + 1, 2 ** 32 - 1]
    if pick == 0:
        count = rnd.choice([0, 1, len(blocks) + 1, max(len(blocks), 1) - 1, 2 ** 31, 2 ** 32 - 1])
        return content[:4] + struct.pack("<I", count) + content[8:]
    if pick == 1:
        return content[:rnd.choice([0, 4, 11, 12, len(content) - 1])]
    if pick == 2:
        return content + bytes(rnd.choice([1, 8192]))
    if pick == 3:
        return struct.pack("<I", MAGIC ^ 1 << rnd.randrange(32)) + content[4:]
    if pick == 4:
        return file_of(MAGIC, len(blocks), rnd.choice(near), blocks, rnd)
    if pick == 5:
        blocks = sorted(blocks + [rnd.choice(near)])
    elif pick == 6:
        blocks = blocks + [rnd.choice(blocks + [0])]
    else:
        blocks = sorted(rnd.sample(range(MOST), rnd.choice([0, 1, 7])))
        rnd.choice([blocks.sort, blocks.reverse])()
    return file_of(rnd.choice([MAGIC] * 5 + [0]), len(blocks), rnd.choice([length] * 5 + near), blocks, rnd)


def change_form(rnd, backup):
    """An incremental file's head changed, or its plain form put beside it, with their rows; where the backup has
    no such file, one in the place of a plain file."""
    forms = [path for path in backup.paths() if "/INCREMENTAL." in path]
    plain = [path for path in backup.paths() if path.startswith("base/") and path not in forms]
    if not forms and not plain:
        return
    if forms:
        path = rnd.choice(forms)
    else:
        path = rnd.choice(plain).replace("base/5/", "base/5/INCREMENTAL.")
        backup.rename(path.replace("INCREMENTAL.", ""), path, rnd)
        backup.write(path, file_of(MAGIC, 2, rnd.randrange(12), [0, rnd.randrange(1, 12)], rnd))
    if rnd.random() < 0.1:
        beside = path.replace("INCREMENTAL.", "")
        backup.write(beside, bytes(rnd.choice([0, 8192, 7])))
        if rnd.random() < 0.8:
            backup.list_again(beside, rnd)
    if rnd.random() < 0.9:
        backup.write(path, change_head(rnd, backup.read(path)))
    backup.list_again(path, rnd)


def summed_again(rnd, backup, row):
    """Another kind of sum, right or not."""
    kind = rnd.choice(KINDS + ["CRC32C", "sha256", "MD5"])
    content = backup.read(row["Path"]) if backup.holds(row["Path"]) else b""
    name = kind.lower() if kind in KINDS else "sha256"
    digits = hashlib.new(name, content).hexdigest()
    row["Checksum-Algorithm"] = kind
    row["Checksum"] = rnd.choice([digits, digits, digits.upper(), digits[1:], "g" + digits[1:]])


def change_row(rnd, backup, manifest):
    """A row of the manifest."""
    rows, pick = manifest["Files"], rnd.randrange(8)
    if not rows:
        return
    at = rnd.randrange(len(rows))
    if pick == 0:
        del rows[at]
    elif pick == 1:
        rows.append(dict(rows[at]))
    elif pick == 2:
        rnd.shuffle(rows)
    elif pick == 3:
        rows[at]["Path"] = rnd.choice(["../x", "a//b", "/a", "", ".", "base/5", "base/5/16384", "pg_wal/x", "x"])
    elif pick == 4:
        rows[at]["Size"] = rnd.choice([0, 1, -1, 1.0, "0", None, True, 2 ** 64, rows[at]["Size"] + 1])
    elif pick == 5:
        key = rnd.choice(list(rows[at]))
        rows[at][rnd.choice([key, key + "s"])] = rows[at].pop(key)
    elif pick == 6:
        rows[at][rnd.choice(list(rows[at]))] = rnd.choice([1, "", None, [], {}])
    else:
        summed_again(rnd, backup, rows[at])


def change_top(rnd, manifest):
    """What stands beside the rows."""
    pick, range_of = rnd.randrange(6), manifest["WAL-Ranges"]
    if pick == 0:
        manifest["PostgreSQL-Backup-Manifest-Version"] = rnd.choice([1, 1, 2, 3, 2.0, "2", 2 ** 64, -2])
        if rnd.random() < 0.5:
            del manifest["System-Identifier"]
    elif pick == 1:
        manifest["System-Identifier"] = rnd.choice([0, 8, 2 ** 64 - 1, 2 ** 64, "7", None])
    elif pick == 2:
        range_of[0]["Timeline"] = rnd.choice([0, 1, 2, 2 ** 33, "1", 1.0])
    elif pick == 3:
        range_of[0][rnd.choice(["Start-LSN", "End-LSN"])] = rnd.choice(["0/1003B0", "0/0", "x", 5, "1/0", "0/fFfFfF"])
    elif pick == 4:
        range_of.append(dict(range_of[0]))
    else:
        manifest[rnd.choice(["More", "Files", "WAL-Ranges"])] = rnd.choice([[], {}, 1, "x"])


def change_manifest(rnd, backup):
    """The manifest, with its sum made again, or its text alone."""
    if rnd.random() < 0.2:
        return change_bytes(rnd, backup, "backup_manifest")
    manifest = backup.manifest()
    if rnd.random() < 0.7:
        change_row(rnd, backup, manifest)
    else:
        change_top(rnd, manifest)
    text = text_of(manifest, rnd)
    if rnd.random() < 0.1:
        lines = text[:text.rindex(b'"Manifest-Checksum"')]
        at = rnd.randrange(len(lines))
        text = with_sum(lines[:at] + rnd.choice([b"\xff", b"[", b'"', b",", b" "]) + lines[at:])
    backup.write("backup_manifest", text)


def damage(rnd, backup):
    pick = rnd.random()
    if pick < 0.15:
        change_bytes(rnd, backup, rnd.choice(backup.paths()))
    elif pick < 0.25:
        change_names(rnd, backup)
    elif pick < 0.4:
        change_label(rnd, backup)
    elif pick < 0.7:
        change_form(rnd, backup)
    else:
        change_manifest(rnd, backup)


def verified(path, name):
    """What differs of one check by both."""
    wanted, got = oracle(["verify", name]), program(path, ["verify", name])
    return [] if wanted == got else ["%s, not %s" % (got, wanted)]


def one_run(path, rnd):
    """What differs, as a list of texts."""
    oracle(["init", "--segment-mib", "1", "--system-id", "7", "--relseg", str(rnd.choice([1, 3, 7, 131072]))])
    oracle(["run"], script_of(rnd))
    differences = verified(path, "f1") + verified(path, "i1")
    shutil.copytree("b", "kept")
    for _ in range(6):
        shutil.rmtree("b")
        shutil.copytree("kept", "b")
        name = rnd.choice(["f1", "i1", "i1"])
        damage(rnd, Backup("b/" + name))
        differences += verified(path, name)
    return differences


if __name__ == "__main__":
    compare(one_run)
