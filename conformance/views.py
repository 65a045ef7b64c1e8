"""Listings of `pgbackup-chains` of random chains, and what labels and manifests say, read here anew.

    python3 conformance/views.py PGBACKUP PGBACKUP_CHAINS [RUNS [SEED]]

Each run makes a store, takes random full and incremental backups of it, combines some chains, and then
damages, renames, copies or removes some of the directories. The listing as text and as JSON, and the
members for random places, have to be what this script makes of the labels and manifests by itself.
Where no directory was changed, `restore` has to take the members for the WAL's end, up to that end.
Not part of the gate. It needs no independent implementation.
"""
import hashlib
import json
import os
import random
import re
import shutil
import sys
import tempfile

from common import program

NAME = re.compile(rb"[a-z0-9_]{1,32}\Z")
LSN = rb"[0-9A-Fa-f]{1,8}/[0-9A-Fa-f]{1,8}"
NUMBER = rb"(?:0|[1-9][0-9]*)"
KEYS = ["chain", "name", "kind", "start", "end", "prior", "files", "bytes", "fault"]
LABEL = [
    rb"START WAL LOCATION: (%s) \(file [0-9A-Fa-f]{24}\)" % LSN, rb"CHECKPOINT LOCATION: %s" % LSN,
    rb"BACKUP METHOD: streamed", rb"BACKUP FROM: primary", rb"START TIME: [^\n]*", rb"LABEL: ([^\n]*)",
    rb"START TIMELINE: (%s)" % NUMBER, rb"INCREMENTAL FROM LSN: (%s)" % LSN,
    rb"INCREMENTAL FROM TLI: (%s)" % NUMBER]


def place(text):
    """The place that a text of an LSN is."""
    high, low = text.split("/") if isinstance(text, str) else text.decode().split("/")
    return int(high, 16) << 32 | int(low, 16)


def lsn(at):
    """The text of an LSN."""
    return "%X/%X" % (at >> 32, at & 0xffffffff)


class Fault(Exception):
    """Why a directory is no backup."""


def manifest_of(path):
    """The object of a manifest."""
    if not os.path.isfile(path):
        raise Fault("NoManifest")
    with open(path, "rb") as f:
        text = f.read()
    last = re.search(rb'\n"Manifest-Checksum": "([0-9a-fA-F]{64})"}\n\Z', text)
    if last is None:
        raise Fault("ManifestDamaged Lines")
    if hashlib.sha256(text[:last.start() + 1]).hexdigest() != last.group(1).decode().lower():
        raise Fault("ManifestDamaged Sum")
    found = json.loads(text)
    if found["PostgreSQL-Backup-Manifest-Version"] not in (1, 2):
        raise Fault("ManifestVersion %d" % found["PostgreSQL-Backup-Manifest-Version"])
    if found["WAL-Ranges"][0]["Timeline"] != 1:
        raise Fault("TimelineDiffers %d" % found["WAL-Ranges"][0]["Timeline"])
    return found


def label_of(path, start, version):
    """(label, prior's start) of a label that tells this start, of a backup whose manifest has this version."""
    text = b""
    if os.path.isfile(path):
        with open(path, "rb") as f:
            text = f.read()
    lines, found = text.split(b"\n"), []
    for number, grammar in enumerate(LABEL):
        if number == 7 and lines[7:] == [b""]:
            break
        # The last piece has no line feed behind it.
        match = re.fullmatch(grammar, lines[number]) if number + 1 < len(lines) else None
        if match is None or (number in (6, 8) and int(match.group(1)) >= 1 << 32):
            raise Fault("LabelDamaged %d" % (number + 1))
        found.append(match)
    if lines[len(found):] != [b""]:
        raise Fault("LabelDamaged %d" % (len(found) + 1))
    if place(found[0].group(1)) != start:
        raise Fault("LabelDamaged 1")
    if version != 2:
        raise Fault("ManifestVersion %d" % version)
    for match in found[6:7] + found[8:]:
        if int(match.group(1)) != 1:
            raise Fault("TimelineDiffers %d" % int(match.group(1)))
    return found[5].group(1), place(found[7].group(1)) if len(found) > 7 else None


def shown(folder):
    """What is listed of a directory but its chain, or its fault."""
    name = os.path.basename(folder).encode()
    if not NAME.match(name):
        raise Fault("Name")
    manifest = manifest_of(folder + "/backup_manifest")
    start = place(manifest["WAL-Ranges"][0]["Start-LSN"])
    label, prior = label_of(folder + "/backup_label", start, manifest["PostgreSQL-Backup-Manifest-Version"])
    kind = "incremental" if prior is not None else "combined" if NAME.match(label) and label != name else "full"
    return {"name": name.decode(), "kind": kind, "start": start, "end": place(manifest["WAL-Ranges"][0]["End-LSN"]),
            "named": prior, "files": len(manifest["Files"]), "bytes": sum(f["Size"] for f in manifest["Files"]),
            "system": manifest["System-Identifier"]}


def prior_of(backups, member):
    """The backup that a member stands on."""
    fits = [b for b in backups if b["start"] == member["named"] and b["end"] <= member["start"]
            and b["system"] == member["system"]]
    return fits[0] if fits else None


def chain_of(backups, last):
    """The chain that a backup ends, the oldest member first, or None."""
    members = [last]
    while members[0]["named"] is not None:
        prior = prior_of(backups, members[0])
        if prior is None or len(members) == 64:
            return None
        members.insert(0, prior)
    return members


def listing():
    """(backups, rows) of the directories in b."""
    backups, damaged = [], []
    folders = sorted(n for n in os.listdir("b") if any(files for _, _, files in os.walk("b/" + n)))
    for name in sorted(folders, key=lambda n: n + "/"):
        try:
            backups.append(shown("b/" + name))
        except Fault as fault:
            plain = "".join(chr(b) if 33 <= b <= 126 else "?" for b in name.encode())
            damaged.append({"name": plain, "kind": "damaged", "fault": str(fault)})
    backups.sort(key=lambda b: (b["end"], b["named"] is not None, b["name"]))
    rows = []
    for backup in backups:
        chain, prior = chain_of(backups, backup), prior_of(backups, backup)
        row = {key: backup[key] for key in ("name", "kind", "files", "bytes")}
        row.update(start=lsn(backup["start"]), end=lsn(backup["end"]), prior=prior and prior["name"],
                   chain=chain and chain[0]["name"])
        if chain is None:
            row["fault"] = "NoChain" if prior else "NoPrior " + lsn(backup["named"])
        rows.append(row)
    grouped = [row for root in rows if root["chain"] == root["name"] for row in rows if row["chain"] == root["name"]]
    grouped += [row for row in rows if row["chain"] is None] + damaged
    return backups, [{key: row.get(key) for key in KEYS} for row in grouped]


def table(rows):
    """The text of rows."""
    cells = [[key.upper() for key in KEYS]]
    cells += [["-" if row[key] is None else str(row[key]) for key in KEYS] for row in rows]
    widths = [max(len(line[at]) for line in cells) for at in range(len(KEYS))]
    return ["  ".join([c.ljust(w) for c, w in zip(line, widths)][:-1] + line[-1:]) for line in cells]


def a_store(path, rnd):
    """Makes backups; their names."""
    program(path, ["init", "--segment-mib", "1", "--system-id", str(rnd.choice([7, 8]))])
    names, script = [], ["worker w", "create 5/1"]
    for count in range(rnd.randrange(1, 12)):
        script += ["change 5/1@%d=32,8160,%d" % (rnd.randrange(6), rnd.randrange(9)) for _ in range(rnd.randrange(4))]
        name = "%s%d" % (rnd.choice("abc"), count)
        prior = names[-1] if names and rnd.random() < 0.7 else rnd.choice(names + ["none"])
        script.append("incr %s %s" % (name, prior) if names and rnd.random() < 0.8 else "full " + name)
        names.append(name)
    program(path, ["run"], "\n".join(script + [""]).encode())
    backups = listing()[0]
    for count in range(rnd.randrange(3)):
        chain = chain_of(backups, rnd.choice(backups)) if backups else None
        if chain and len(chain) > 1:
            program(path, ["combine", "d%d" % count] + [member["name"] for member in chain])
    return sorted(os.listdir("b"))


def first_version(path):
    """Makes a manifest one of version 1, which has no system identifier, unless it is damaged."""
    try:
        manifest_of(path)
    except Fault:
        return
    with open(path, "rb") as f:
        text = f.read()
    lines = text[:text.rindex(b'"Manifest-Checksum"')]
    lines = re.sub(rb'"System-Identifier": \d+,\n', b"", lines.replace(b'Version": 2', b'Version": 1'))
    with open(path, "wb") as f:
        f.write(lines + b'"Manifest-Checksum": "%s"}\n' % hashlib.sha256(lines).hexdigest().encode())


def change(rnd, names):
    """Changes a directory."""
    name = "b/" + rnd.choice(names)
    if not os.path.isdir(name):
        return
    what = rnd.randrange(7)
    if what == 0:
        shutil.rmtree(name)
    elif what == 1:
        shutil.copytree(name, "b/" + rnd.choice(["copy", "Copy", "a.copy", "copy copy", "x" * 33]), dirs_exist_ok=True)
    elif what == 2:
        path = name + "/" + rnd.choice(["backup_label", "backup_manifest"])
        if os.path.exists(path):
            os.remove(path)
    elif what == 3:
        os.rename(name, name + "_old")
    elif what == 4:
        first_version(name + "/backup_manifest")
    else:
        path = name + "/" + rnd.choice(["backup_label", "backup_manifest"])
        if os.path.exists(path):
            with open(path, "rb") as f:
                content = bytearray(f.read())
            content[rnd.randrange(len(content))] = rnd.choice(b"\n0129aF\"/ ")
            with open(path, "wb") as f:
                f.write(content)


def one_run(path, view, rnd):
    """What differs, as a list of texts."""
    names, differences = a_store(path, rnd), []
    changes = rnd.choice([0, 0, 1, 3])
    for _ in range(changes):
        change(rnd, names)
    backups, rows = listing()
    if program(view, ["b"]) != (0, table(rows)):
        differences.append("text %s, expected %s" % (program(view, ["b"]), table(rows)))
    status, lines = program(view, ["b", "--json"])
    if status != 0 or len(lines) != 1 or json.loads(lines[0]) != rows:
        differences.append("JSON %s, expected %s" % (lines, rows))
    for upto in [1 << 40] + [b["end"] + rnd.choice([-1, 0, 1]) for b in backups]:
        reached = [b for b in backups if b["end"] <= upto and chain_of(backups, b)]
        newest = [b for b in reached if b["end"] == max(r["end"] for r in reached)][:1]
        members = [[m["name"] for m in chain_of(backups, b)] for b in newest]
        wanted = (0, [" ".join(members[0])]) if members else (1, [])
        if program(view, ["--for", lsn(upto), "b"]) != wanted:
            differences.append("for %s, expected %s" % (lsn(upto), wanted))
        if members and json.loads(program(view, ["--json", "--for", lsn(upto), "b"])[1][0]) != members[0]:
            differences.append("JSON for %s, expected %s" % (lsn(upto), members))
        if members and upto == 1 << 40 and changes == 0 and program(path, ["restore", "o"] + members[0])[0] != 0:
            differences.append("restore refuses %s" % members)
    return differences


def main():
    """Calls one_run in a folder of its own for each run."""
    arguments = sys.argv[3:] + ["100", "1"][len(sys.argv) - 3:]
    path, view, failed, home = os.path.abspath(sys.argv[1]), os.path.abspath(sys.argv[2]), 0, os.getcwd()
    for run in range(int(arguments[0])):
        folder = tempfile.mkdtemp()
        os.chdir(folder)
        os.mkdir("b")
        for difference in one_run(path, view, random.Random("%s %d" % (arguments[1], run))):
            print("run %d: %s" % (run, difference))
            failed += 1
        os.chdir(home)
        shutil.rmtree(folder)
    print("views.py: %s runs, %d differences" % (arguments[0], failed))
    sys.exit(1 if failed else 0)


if __name__ == "__main__":
    main()
