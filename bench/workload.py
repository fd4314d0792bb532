#!/usr/bin/env python3
"""Writes a trace of many directories and entries, for the benchmarks: python3 workload.py DIRS ENTRIES FILE

The delimiter is 0x1E. Stanzas come in breadth-first order and entries in a shuffled order, as a reader of directories
gives them; owners, groups and modes are those of a shared file system with private homes. The same numbers give the
same bytes.
"""
import random
import sys

MODES = (0o755, 0o755, 0o750, 0o700, 0o711, 0o755, 0o770, 0o755)
ENDINGS = ("h5", "txt", "log", "dat", "c", "py", "csv")
DELIMITER = "\x1e"


def line(path, kind, inode, mode, uid, gid, size, time):
    fields = (path, kind, inode, mode, 1, uid, gid, size, 4096, (size + 511) // 512, time, time, time, "")
    return DELIMITER.join(map(str, fields)) + "\n"


def main(dirs, entries, out):
    rng = random.Random(1)
    paths = ["/fs"]
    for i in range(1, dirs):
        paths.append("%s/%s%d" % (paths[(i - 1) // 6], rng.choice(("src", "data", "run", "run.", "tmp")), i))
    left = entries
    inode = 1
    for i, path in enumerate(paths):
        uid, gid = 2000 + rng.randrange(400), 5000 + rng.randrange(150)
        mode = 0o755 if i < 50 else rng.choice(MODES)
        out.write(line(path, "d", inode, mode, uid, gid, 4096, 1700000000 - i))
        inode += 1
        count = min(left, left if i == dirs - 1 else min(int(rng.expovariate(dirs / entries)), 4000))
        left -= count
        names = ["f%d.%s" % (j, rng.choice(ENDINGS)) for j in range(count)]
        rng.shuffle(names)
        for name in names:
            out.write(line(path + "/" + name, "f", inode, 0o644, uid, gid, int(rng.lognormvariate(9, 2)), 1700000000 - i))
            inode += 1


if __name__ == "__main__":
    with open(sys.argv[3], "w") as file:
        main(int(sys.argv[1]), int(sys.argv[2]), file)
