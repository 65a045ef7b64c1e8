"""Random archives of all kinds of entries through `pgbackup replay` and through an independent implementation.

    python3 conformance/archives.py PROGRAM [RUNS [SEED]]

Each run makes an archive with the independent implementation: creations, truncations, commits that
drop none, one or more relations, images, deltas, entries of several blocks, checkpoints, marks and
no-ops, over one or more segments, mostly with 1 to 7 blocks in each file of a relation. It is replayed
with and without a target. Then it is damaged three times, each time anew: one to three bytes changed,
with the sum made again or not; an entry written otherwise than the store writes it; a file cut, made
longer, removed, put in another's place or given another timeline; other settings or none. Line, status
and files have to be the same each time.
Not part of the gate. Skipped where the independent implementation (PGBACKUP_ORACLE) isn't there.
"""
import os
import shutil

from common import compare, files, oracle, program

FORKS = [(5, 16384, 0), (5, 16384, 3), (5, 16385, 0), (6, 7, 0), (1, 4294967295, 3)]


def page_of(rnd):
    """A page with a good header; now and then one whose hole isn't zero or whose LSN is high."""
    from oracle import page

    lower = rnd.choice([24, 28, rnd.randrange(24, 8193)])
    upper = rnd.choice([8192, 8160, rnd.randrange(lower, 8193)])
    made = bytearray(page.make_page(lower, max(lower, upper), rnd.randrange(256)))
    if rnd.random() < 0.2:
        made[0:8] = page.lsn_bytes(rnd.randrange(1 << 40))
    return bytes(made)


def frags_of(rnd):
    """One to three good fragments, seldom on the page's header."""
    found = []
    for _ in range(rnd.choice([1, 1, 2, 3])):
        length = rnd.choice([1, 8, rnd.randrange(1, 600)])
        least = 0 if rnd.random() < 0.05 else 24
        found.append((rnd.randrange(least, 8193 - length), rnd.randbytes(length)))
    return found


def blocks_of(rnd, images):
    """The blocks of one entry, each with an image or a delta."""
    count = rnd.choice([1, 1, 1, 2, 3, 4, 33 if rnd.random() < 0.1 else 5])
    found = []
    for _ in range(count):
        number = rnd.choice([0, 0, 1, 2, rnd.randrange(6)])
        if images or rnd.random() < 0.4:
            body = ("Image", page_of(rnd))
        else:
            body = ("Delta", frags_of(rnd))
        found.append((rnd.choice(FORKS), number, body))
    return found


def dropped(rnd):
    """The relations that a commit names: none, one, a few, or more than fit into 255 bytes of main data; at times
    one twice, or one that isn't there."""
    count = rnd.choice([0, 1, 1, 1, 2, 3, 19, 20, 21])
    return [rnd.choice([fork[:2] for fork in FORKS] * 2 + [(9, 9)]) for _ in range(count)]


def kind_of(rnd, most):
    """An entry's kind; a no-op has up to so many bytes."""
    pick = rnd.random()
    if pick < 0.15:
        return ("Create", rnd.choice(FORKS))
    if pick < 0.25:
        return ("Truncate", rnd.choice(FORKS)[:2], rnd.randrange(5), rnd.choice([7, 7, rnd.randrange(8)]))
    if pick < 0.55:
        return ("Generic", blocks_of(rnd, False))
    if pick < 0.7:
        return ("Images", blocks_of(rnd, True))
    if pick < 0.8:
        return ("Commit", rnd.choice([0, 1, -1, rnd.randrange(-1 << 63, 1 << 63)]), dropped(rnd))
    return rnd.choice([
        ("Online", rnd.randrange(1 << 40)),
        ("Shutdown", rnd.randrange(1 << 40)),
        ("RedoMark", rnd.randrange(1 << 32)),
        ("BackupEnd", rnd.randrange(1 << 40)),
        ("NoOp", bytes(rnd.randrange(1, most))),
    ])


def strange_block(rnd):
    """The head and the bytes of a block with something that may be refused."""
    from oracle import hand

    image = page_of(rnd)
    forms = [
        dict(image=image, info=rnd.choice([0, 1, 2, 3, 4, 6, 7, 34])),
        dict(image=image[:100] + image[200:], offset=100, info=3),
        dict(image=image, offset=rnd.choice([0, 1, 8192]), info=rnd.choice([2, 3])),
        dict(image=bytes(8192)),
        dict(data=b"\x18\0\x02\0ab"),
        dict(data=rnd.randbytes(rnd.randrange(1, 12))),
        dict(image=image, data=b"\x18\0\x02\0ab"),
        dict(),
        dict(image=image, hole_len=rnd.randrange(9000), info=5),
        dict(data=b"\x18\0\x02\0ab", data_len=rnd.choice([0, 5, 7])),
    ]
    form = rnd.choice(forms)
    rest = dict(
        number=rnd.choice([0, 0, 1, 32767, 32768, 4294967295]),
        rel=rnd.choice([(1663, 5, 16384)] * 5 + [(1664, 5, 16384), (1663, 0, 1), (1663, 1, 0)]),
        fork_no=rnd.choice([0, 0, 0, 0, 1, 2, 3, 4, 15]),
        flags=rnd.choice([0, 0, 0, 0x40, 0x20]),
        same=rnd.random() < 0.15,
    )
    return hand.block(rnd.choice([0, 0, 0, 1, 2, 32, 33, 253]), **form, **rest)


def strange_commit(rnd):
    """A commit with a right sum, spelled in a way that the store doesn't write: other information bits, a count that
    is negative or of other names, names that are refused, a length that doesn't fit, blocks; at times several of
    these, or none."""
    from oracle import hand

    def mostly(good, others):
        return good if rnd.random() < 0.7 else rnd.choice(others)

    names = [(1663,) + rel for rel in dropped(rnd)]
    for _ in range(rnd.choice([0, 0, 1, 2])):
        names.insert(rnd.randrange(len(names) + 1), rnd.choice([(1664, 5, 16384), (1663, 0, 1), (1663, 1, 0), (0, 0, 0)]))
    bits = mostly(4, [0, 5, 6, 12, 0x84, 0x104, 0x80000004, 0xFFFFFFFF, rnd.randrange(1 << 32)])
    count = mostly(len(names), [0, 1, len(names) + 1, max(0, len(names) - 1), 0x80000000, 0x80000000 + len(names),
                                0xFFFFFFFF, 0x15555556, 0x55555555])
    main = rnd.randbytes(8) + bits.to_bytes(4, "little") + count.to_bytes(4, "little")
    main += b"".join(n.to_bytes(4, "little") for name in names for n in name)
    main = mostly(main, [main[:rnd.randrange(len(main) + 1)], main[:8], main[:11], main[:12], main[:15], main + b"x",
                         main + bytes(12)])
    info = rnd.choice([0x80, 0x80, 0x80, 0x81, 0x8F, 0x00, 0x01, 0x0F])
    if info < 0x10:
        main = mostly(main[:8], [main, main[:7], main[:9], b""])
    blocks = mostly([], [[strange_block(rnd)]])
    manager, info = mostly((1, info), [(1, info ^ 1 << rnd.randrange(4, 8)), (2, info)])
    return hand.entry(manager, info, blocks, main, rnd.choice([0, 7]))


def strange(rnd):
    """An entry with a right sum, spelled in a way that the store doesn't write, and seldom right."""
    from oracle import hand

    if rnd.random() < 0.3:
        return strange_commit(rnd)
    managers = [(0, 0x00), (0, 0x10), (0, 0x20), (0, 0x50), (0, 0xB0), (0, 0xE0), (2, 0x10), (2, 0x20), (20, 0x00)]
    manager, info = rnd.choice(managers)
    if rnd.random() < 0.1:
        manager, info = rnd.randrange(256), rnd.randrange(256)
    rel = rnd.choice([(1663, 5, 16384)] * 4 + [(1664, 5, 16384), (1663, 0, 1), (1663, 1, 0)])
    three = b"".join(n.to_bytes(4, "little") for n in rel)
    count = rnd.choice([0, 3, 0xFFFFFFFF]).to_bytes(4, "little")
    mains = [
        b"", bytes(24), bytes(8), bytes(4), rnd.randbytes(24),
        bytes(8) + b"\1\0\0\0\1\0\0\0\1" + bytes(rnd.choice([7, 6, 8])),
        three + rnd.choice([0, 1, 2, 3, 4, 0xFFFFFFFF]).to_bytes(4, "little"),
        count + three + rnd.choice([0, 1, 7, 8, 0xFFFFFFFF]).to_bytes(4, "little"),
        bytes(300),
    ]
    if manager == 20 or info == 0xB0 or rnd.random() < 0.2:
        blocks = [strange_block(rnd) for _ in range(rnd.choice([0, 1, 1, 2]))]
        main = rnd.choice([b"", b"", b"", b"x", b"y"])
    else:
        blocks, main = [], rnd.choice(mains)
    after = None
    if rnd.random() < 0.1:
        after = rnd.randbytes(rnd.randrange(40))
    previous = None if rnd.random() < 0.95 else rnd.randrange(1 << 32)
    return hand.entry(manager, info | rnd.choice([0, 0, 1, 15]), blocks, main, rnd.choice([0, 7]), previous, after=after)


def write_archive(rnd):
    """Writes a WAL into the folder `wal`; gives where its entries stand."""
    from oracle import hand

    count, most = rnd.randrange(30), rnd.choice([40, 300, 9000])
    long = rnd.random() < 0.25
    items = [kind_of(rnd, most) for _ in range(count)]
    if long:
        for _ in range(rnd.randrange(1, 4)):
            items.insert(rnd.randrange(len(items) + 1), ("NoOp", bytes(rnd.randrange(300000, 1100000))))
    if rnd.random() < 0.4:
        items.insert(rnd.randrange(len(items) + 1), strange(rnd))
    first = rnd.random() < 0.98
    blocks = rnd.choice([64, 131072] + 3 * [rnd.randrange(1, 8)])
    return hand.write_wal(items, 1, blocks, rnd.randrange(1 << 64), first=first)


def segments():
    return sorted(name for name in os.listdir("wal") if name != "settings")


def change_bytes(rnd, places):
    """Changes one to three bytes, and makes the sum of an entry again half the time."""
    from oracle import hand

    for _ in range(rnd.randrange(1, 4)):
        name = "wal/" + rnd.choice(segments())
        size = os.path.getsize(name)
        if size == 0:
            continue
        at = rnd.choice([rnd.randrange(size), rnd.randrange(min(size, 200))])
        if places and rnd.random() < 0.7:
            begin = rnd.choice(places)[0]
            number = begin >> 20
            name, at = "wal/%08X%08X%08X" % (1, number >> 12, number & 4095), begin % (1 << 20) + rnd.randrange(90)
            if at >= os.path.getsize(name):
                continue
        with open(name, "r+b") as f:
            f.seek(at)
            old = f.read(1)[0]
            f.seek(at)
            f.write(bytes([old ^ rnd.choice([1, 2, 4, 8, 16, 32, 64, 128, rnd.randrange(1, 256)])]))
    if places and rnd.random() < 0.5:
        try:
            hand.recrc(rnd.choice(places)[0])
        except Exception:  # the entry's length was changed
            pass


def change_files(rnd):
    """Cuts, fills, removes or renames a file."""
    name = rnd.choice(segments())
    path, pick = "wal/" + name, rnd.randrange(8)
    if pick == 0:
        os.truncate(path, rnd.randrange(os.path.getsize(path) + 1))
    elif pick == 1:
        with open(path, "ab") as f:
            f.write(bytes(rnd.randrange(20000)) + rnd.choice([b"", b"\1"]))
    elif pick == 2:
        os.remove(path)
    elif pick == 3:
        other = "wal/" + rnd.choice(segments())
        os.rename(path, "wal/x")
        os.rename(other if other != path else "wal/x", path)
        if os.path.exists("wal/x"):
            os.rename("wal/x", other)
    elif pick == 4:
        os.rename(path, "wal/%08X%s" % (rnd.choice([0, 2, 1]), name[8:]))
    elif pick == 5:
        extra = rnd.choice(["00000001FFFFFFFF00000000", "000000010000000000001000", "000000020000000000000005",
                            "00000001000000000000000a", "000000010000000000000000", "x", name[:23],
                            "000000010000000000000009"])
        with open("wal/" + extra, "wb") as f:
            f.write(bytes(rnd.randrange(3)) + rnd.choice([b"", b"\1"]))
    elif pick == 6:
        os.remove("wal/settings")
    else:
        with open("wal/settings", "wb") as f:
            f.write(rnd.choice([b"", b"segment-mib 1\nblocks-per-segment 0\n", b"segment-mib 1\nblocks-per-segment 9\n",
                                b"segment-mib 2\nblocks-per-segment 9\n", b"segment-mib 1\nblocks-per-segment 9"]))


def replayed(path, words):
    """What differs of one replay by both."""
    wanted, got = oracle(["replay"] + words + ["p"]), program(path, ["replay"] + words + ["q"])
    differences = [] if wanted == got else ["%s: %s, not %s" % (words, got, wanted)]
    if files("o/p") != files("o/q"):
        differences.append("%s: the files differ" % words)
    shutil.rmtree("o", ignore_errors=True)
    return differences


def target_of(rnd, places):
    """An LSN at or near an entry's end, or any."""
    end = rnd.choice(places)[1] if places else 1 << 20
    at = max(0, rnd.choice([end, end - 1, end + 1, end - 8, rnd.randrange(1 << 33)]))
    return "%X/%X" % (at >> 32, at & 0xFFFFFFFF)


def one_run(path, rnd):
    """What differs, as a list of texts."""
    places = write_archive(rnd)
    differences = replayed(path, [])
    differences += replayed(path, ["--target", target_of(rnd, places)])
    shutil.copytree("wal", "kept")
    for _ in range(3):
        shutil.rmtree("wal")
        shutil.copytree("kept", "wal")
        if rnd.random() < 0.6:
            change_bytes(rnd, places)
        else:
            change_files(rnd)
        words = [] if rnd.random() < 0.8 else ["--target", target_of(rnd, places)]
        differences += replayed(path, words)
    return differences


if __name__ == "__main__":
    compare(one_run)
