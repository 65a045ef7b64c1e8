"""Ways to damage a chain of real clusters, and what is to be answered of each."""
import hashlib
import os
import random
import struct

from backups import Backup


class Undone(Backup):
    """A backup that can be made what it was."""

    def __init__(self, home):
        super().__init__(home)
        self.before = {}

    def note(self, path):
        self.before.setdefault(path, self.read(path) if self.holds(path) else None)

    def write(self, path, content):
        self.note(path)
        super().write(path, content)

    def remove(self, path):
        self.note(path)
        super().remove(path)

    def undo(self):
        for path, content in self.before.items():
            if content is not None:
                super().write(path, content)
            elif self.holds(path):
                super().remove(path)

    def list_again(self, path, rnd):
        """As that of all backups, whatever the kind of its sums."""
        content, manifest = self.read(path), self.manifest()
        rows = [row for row in manifest["Files"] if row["Path"] == path]
        if not rows:
            rows = [dict(manifest["Files"][0], Path=path)]
            manifest["Files"] += rows
        for row in rows:
            row["Size"] = len(content)
            row["Checksum"] = hashlib.new(row["Checksum-Algorithm"].lower(), content).hexdigest()
        self.write_manifest(manifest, rnd)


class Damage:
    """The members of a chain, which are damaged one way and brought back."""

    def __init__(self, folders, out):
        self.names, self.out, self.rnd = [os.path.basename(it) for it in folders], Undone(out), random.Random(7)
        self.full, self.first, self.second = (Undone(it) for it in folders)
        rows = [row["Path"] for row in self.second.manifest()["Files"]]
        parts = [it for it in rows if os.path.basename(it).startswith("INCREMENTAL.")]
        self.long = max(parts, key=lambda it: len(self.second.read(it)))
        self.wide = next((it for it in parts if it.startswith("pg_tblspc/")),
                         next(it for it in parts if it.startswith("global/")))
        self.plain = next(it for it in rows if it.startswith("base/") and os.path.basename(it).isdigit()
                          and self.second.read(it))

    def undo(self):
        for backup in (self.full, self.first, self.second, self.out):
            backup.undo()

    def exchange(self, backup, path, at, content):
        """Other bytes at a place of a file, its row made again."""
        old = backup.read(path)
        backup.write(path, old[:at] + content + old[at + len(content):])
        backup.list_again(path, self.rnd)

    def change(self, backup, change):
        """A manifest that is changed, with its own sum made again."""
        manifest = backup.manifest()
        change(manifest)
        backup.write_manifest(manifest, self.rnd)


# Each way damages a chain and gives what is to be answered.


def no_manifest(it):
    it.first.remove("backup_manifest")
    return "20 NoManifest %s" % it.names[1]


def a_byte_of_the_manifest(it):
    it.full.write("backup_manifest", it.full.read("backup_manifest").replace(b"PG_VERSION", b"PG_VERSIOM"))
    return "21 ManifestDamaged %s Sum" % it.names[0]


def the_manifest_ends_early(it):
    it.second.write("backup_manifest", it.second.read("backup_manifest")[:-1])
    return "21 ManifestDamaged %s Lines" % it.names[2]


def another_kind_of_sum(it):
    it.change(it.first, lambda manifest: manifest["Files"][0].update({"Checksum-Algorithm": "CRC32C", "Checksum": "0" * 8}))
    return "21 ManifestDamaged %s SumKind" % it.names[1]


def an_older_version(it):
    def change(manifest):
        del manifest["System-Identifier"]
        manifest["PostgreSQL-Backup-Manifest-Version"] = 1
    it.change(it.full, change)
    return "22 ManifestVersion %s 1" % it.names[0]


def another_timeline(it):
    it.change(it.second, lambda manifest: manifest["WAL-Ranges"][0].update({"Timeline": 2}))
    return "34 TimelineDiffers %s 2" % it.names[2]


def a_file_less(it):
    it.first.remove(it.wide)
    return "23 FileMissing %s %s" % (it.names[1], it.wide)


def a_file_more(it):
    it.second.write("base/1/999999", b"")
    return "24 FileExtra %s base/1/999999" % it.names[2]


def a_byte_more(it):
    size = len(it.second.read(it.plain))
    it.second.write(it.plain, it.second.read(it.plain) + b"x")
    return "25 FileSize %s %s %d %d" % (it.names[2], it.plain, size + 1, size)


def a_bit_of_a_block(it):
    content = bytearray(it.second.read(it.long))
    content[-5000] ^= 16
    it.second.write(it.long, bytes(content))
    return "26 FileSum %s %s" % (it.names[2], it.long)


def a_bit_of_another_file(it):
    content = it.full.read("global/pg_control")
    it.full.write("global/pg_control", bytes([content[0] ^ 1]) + content[1:])
    return "26 FileSum %s global/pg_control" % it.names[0]


def a_line_of_the_label(it):
    it.first.write("backup_label", it.first.read("backup_label").replace(b"FROM: primary", b"FROM: standby"))
    it.first.list_again("backup_label", it.rnd)
    return "27 LabelDamaged %s 4" % it.names[1]


def another_start_in_the_label(it):
    lines = it.first.read("backup_label").split(b"\n")
    lines[0] = lines[0].replace(b"LOCATION: 0/", b"LOCATION: 1/")
    it.first.write("backup_label", b"\n".join(lines))
    it.first.list_again("backup_label", it.rnd)
    return "27 LabelDamaged %s 1" % it.names[1]


def no_number_in_front(it):
    it.exchange(it.second, it.wide, 0, b"\0")
    return "28 FileDamaged %s %s Magic" % (it.names[2], it.wide)


def a_block_less(it):
    it.second.write(it.long, it.second.read(it.long)[:-8192])
    it.second.list_again(it.long, it.rnd)
    return "28 FileDamaged %s %s Length" % (it.names[2], it.long)


def a_length_too_great(it):
    it.exchange(it.second, it.wide, 8, struct.pack("<I", 131073))
    return "28 FileDamaged %s %s Range" % (it.names[2], it.wide)


def blocks_out_of_order(it):
    head = it.second.read(it.long)[12:20]
    it.exchange(it.second, it.long, 12, head[4:] + head[:4])
    return "28 FileDamaged %s %s Order" % (it.names[2], it.long)


def both_forms(it):
    plain = it.long.replace("INCREMENTAL.", "")
    it.second.write(plain, bytes(8192))
    it.second.list_again(plain, it.rnd)
    return "28 FileDamaged %s %s Both" % (it.names[2], it.long)


def no_full_backup(it):
    del it.names[0]
    return "30 FirstIncremental %s" % it.names[0]


def a_full_backup_later(it):
    it.names.insert(1, it.names[0])
    return "31 LaterFull %s" % it.names[0]


def a_member_less(it):
    del it.names[1]
    return "32 WrongPrior %s" % it.names[1]


def members_in_another_order(it):
    it.names[1:] = it.names[:0:-1]
    return "32 WrongPrior %s" % it.names[1]


def another_system(it):
    it.change(it.second, lambda manifest: manifest.update({"System-Identifier": 7}))
    return "33 SystemDiffers %s 7" % it.names[2]


def another_timeline_in_the_label(it):
    it.first.write("backup_label", it.first.read("backup_label").replace(b"FROM TLI: 1", b"FROM TLI: 2"))
    it.first.list_again("backup_label", it.rnd)
    return "34 TimelineDiffers %s 2" % it.names[1]


def a_later_end(it):
    it.change(it.first, lambda manifest: manifest["WAL-Ranges"][0].update({"End-LSN": "7/0"}))
    return "35 Overlap %s" % it.names[2]


def a_file_that_no_earlier_member_has(it):
    plain = it.wide.replace("INCREMENTAL.", "")
    path = it.wide if it.first.holds(it.wide) else plain
    it.first.remove(path)
    it.change(it.first, lambda manifest: manifest["Files"].remove(
        next(row for row in manifest["Files"] if row["Path"] == path)))
    return "36 NoPriorFile %s %s" % (it.names[2], it.wide)


def too_many_members(it):
    it.names += [it.names[-1]] * 62
    return "37 TooManyMembers"


def an_output_with_a_file(it):
    it.out.write("pg_wal/x", b"")
    return "41 AreaNotEmpty b/%s" % os.path.basename(it.out.home)


DAMAGES = [
    no_manifest, a_byte_of_the_manifest, the_manifest_ends_early, another_kind_of_sum, an_older_version, another_timeline,
    a_file_less, a_file_more, a_byte_more, a_bit_of_a_block, a_bit_of_another_file, a_line_of_the_label,
    another_start_in_the_label, no_number_in_front, a_block_less, a_length_too_great, blocks_out_of_order, both_forms,
    no_full_backup, a_full_backup_later, a_member_less, members_in_another_order, another_system,
    another_timeline_in_the_label, a_later_end, a_file_that_no_earlier_member_has, too_many_members, an_output_with_a_file,
]
