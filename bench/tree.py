#!/usr/bin/env python3
"""Makes a tree of directories, files and links below a new folder, as root: python3 tree.py DIRS ENTRIES FOLDER

Owners, groups and modes are those of a shared file system, directories that nobody may read or search among them; names have
blanks, leading dots and dashes, bytes that are no UTF-8, control characters and some newlines. The same numbers give the same
tree. It is there to be timed over; `live.py` and `renewal.py` make trees of their own.
"""
import os
import random
import sys

MODES = (0o755,) * 16 + (0o750, 0o700, 0o711, 0o744, 0o770, 0o2775, 0o1777, 0o000, 0o050)
NAMES = (b"run", b"run.1", b"run-1", b"run 2", b".hidden", b"-dash", b"\xff\xfe", b"caf\xc3\xa9", b"tab\there", b"quote'\"$", b"*[a]?", b"back\\slash")
ODD = (b"new\nline", b"record\x1eseparator", b"\x01low", b"pipe|bar")


def name(rng, number):
    """A name that no other number has."""
    return rng.choice(ODD if rng.random() < 0.005 else NAMES) + b"%d" % number


def own(rng, path, mode):
    os.chown(path, 2000 + rng.randrange(20), 5000 + rng.randrange(10), follow_symlinks=False)
    if mode is not None:
        os.chmod(path, mode)


def main(dirs, entries, folder):
    rng = random.Random(1)
    os.mkdir(folder)
    os.chmod(folder, 0o755)
    paths = [folder]
    for number in range(1, dirs):
        paths.append(os.path.join(rng.choice(paths), name(rng, number)))
        os.mkdir(paths[-1])
    for number in range(entries):
        path = os.path.join(rng.choice(paths), name(rng, number) + b".f")
        kind = rng.random()
        if kind < 0.1:
            os.symlink(rng.choice((b"..", b"nowhere", b"/etc/passwd", b"a\nb")) if kind < 0.01 else b"../run", path)
            own(rng, path, None)
        elif kind < 0.11:
            os.mkfifo(path)
            own(rng, path, 0o600)
        else:
            open(path, "wb").close()
            os.truncate(path, rng.randrange(100000))
            own(rng, path, rng.choice((0o644, 0o600, 0o4755)))
            os.utime(path, (1700000000 - number, -number if kind < 0.12 else 1700000000 - number))
    for number in range(dirs - 1, 0, -1):
        own(rng, paths[number], 0o755 if number < dirs // 100 else rng.choice(MODES))


if __name__ == "__main__":
    main(int(sys.argv[1]), int(sys.argv[2]), os.fsencode(sys.argv[3]))
