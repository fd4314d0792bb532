#!/usr/bin/env python3
"""Holds `index2trace`, `refresh` and `info` against what is worked out of random trees.

  bench/indexes.py [--program PROGRAM] [--trees 500] [--seed 1]

Each tree is random, with odd names, links, names of extended attributes and access control lists. Its image under a random limit has to come
back from its trace, byte for byte, and a trace's trace is written with its root as `/`. A directory of it is replaced by another random
tree: the image has to be that of the lines of both put together by this script, read from nothing, and a place that isn't there is
refused. What `info` tells is counted over the rows, and what is rolled up is what `rollup` reports. The status is 1 where something differs.
"""
import argparse
import os
import random
import subprocess
import sys
import tempfile

from forms import TOP, trace_line, tree

LISTS = (b"", b"", b"", b"user::rwx,user:1002:r-x,group::---,group:600:r-x,mask::r-x,other::---", b"user::rw-,group::r--,other::---")
TIMES = ("atime", "mtime", "ctime")


def components(row):
    return [] if row["path"] == b"/" else row["path"].split(b"/")[1:]


def with_lists(rng, rows):
    for row in rows:
        row["acl"] = rng.choice(LISTS)
    return rows


def line(row):
    """The line of a row, whose root is `/t`, with its access control list."""
    if not row["acl"]:
        return trace_line(row)
    front = trace_line(row)[:-1]
    return front + (b"" if row["xattrs"] else b"\x1e") + b"\x1eacl/" + row["acl"] + b"\n"


def from_root(row):
    """The same, whose root is `/`, without its newline."""
    behind = line(row)[len(b"/t") : -1]
    return behind if row["path"] != b"/" else b"/" + behind


def stanzas(rows):
    """Each directory's line in path order, and behind it its entries."""
    held = {}
    for row in rows:
        if row["type"] != b"d":
            held.setdefault(tuple(components(row)[:-1]), []).append(row)
    for row in sorted((row for row in rows if row["type"] == b"d"), key=components):
        yield row
        yield from sorted(held.get(tuple(components(row)), []), key=components)


def trace(rows):
    return b"".join(line(row) for row in stanzas(rows))


def replaced(rows, at, part):
    """The rows with a directory, and all below it, replaced by others."""
    below = [row for row in rows if components(row)[: len(at)] != at]
    return below + [{**row, "path": b"/" + b"/".join(at + components(row))} for row in part]


def told(rows, image, size, limit, report):
    """What `info` has to tell of a file of that size."""
    words = report.split()
    directories = sum(row["type"] == b"d" for row in rows)
    times = b"".join(b"%s %d %d\n" % (time.encode(), min(row[time] for row in rows), max(row[time] for row in rows)) for time in TIMES)
    version = b"3" if any(row["acl"] for row in rows) else b"2" if any(row["xattrs"] for row in rows) else b"1"
    return b"version %s\nbytes %d\nlimit %d\ndirectories %d\nentries %d\ndepth %d\nrolled %s\ntops %s\nrows %s\n%sacls %s\nxattrs %s\n" % (
        version if image else b"-",
        size,
        limit,
        directories,
        len(rows) - directories,
        max(len(components(row)) for row in rows),
        words[1],
        words[5],
        words[7],
        times,
        b"yes" if any(row["acl"] for row in rows) else b"no",
        b"yes" if any(row["xattrs"] for row in rows) else b"no",
    )


class Site:
    """A folder with files, and what the program makes of them."""

    def __init__(self, program, folder):
        self.program, self.folder = program, folder

    def put(self, file, text):
        with open(os.path.join(self.folder, file), "wb") as out:
            out.write(text)

    def ran(self, *words):
        run = subprocess.run([self.program, *words], cwd=self.folder, capture_output=True)
        return run.returncode, run.stdout, run.stderr

    def made(self, *words):
        status, text, note = self.ran(*words)
        if status:
            sys.exit("%r: status %d, %r" % (words, status, note))
        return text, note


def differing(site, rng):
    """What differs of one random tree."""
    rows, part, limit, other = with_lists(rng, tree(rng)[0]), with_lists(rng, tree(rng)[0]), rng.choice((0, 3, 10, 1000)), rng.choice((0, 2, 20))
    text = trace(rows)
    site.put("t", text)
    site.put("part", trace(part))
    image, report = site.made("rollup", "--limit=%d" % limit, "t")
    site.put("i", image)
    back = site.made("index2trace", "i")[0]
    site.put("back", back)
    if site.made("rollup", "--limit=%d" % limit, "back")[0] != image:
        yield "the image of an index's trace"
    if site.made("index2trace", "t")[0] != back:
        yield "the trace of a trace"
    if sorted(back.split(b"\n")[:-1]) != sorted(from_root(row) for row in rows):
        yield "the lines of a trace"
    if site.made("info", "i")[0] != told(rows, True, len(image), limit, report):
        yield "what an image holds"
    if site.made("info", "--limit=%d" % limit, "t")[0] != told(rows, False, len(text), limit, report):
        yield "what a trace holds"
    at = components(rng.choice([row for row in rows if row["type"] == b"d"]))
    place = b"/" + b"/".join(at)
    site.put("whole", trace(replaced(rows, at, part)))
    wanted = site.made("rollup", "--limit=%d" % other, "whole")[0]
    for index in ("i", "t"):
        status, text, note = site.ran("refresh", "--limit=%d" % other, index, place, "part")
        try:
            place.decode()
        except UnicodeDecodeError:
            # A word is UTF-8, so such a directory can't be named.
            if status != 2 or text:
                yield "a refresh of a place that no word names"
            continue
        if (status, text) != (0, wanted):
            yield "a refresh of %s: status %d, %r" % (index, status, note)
    if site.ran("refresh", "--limit=1", "i", "/none", "part") != (1, b"", b"gufi: not there\n"):
        yield "a refresh of a place that isn't there"


def main():
    parser = argparse.ArgumentParser(usage=__doc__)
    parser.add_argument("--program", default=os.path.join(TOP, "crates", "gufi", "out", "gufi"))
    parser.add_argument("--trees", type=int, default=500)
    parser.add_argument("--seed", type=int, default=1)
    given = parser.parse_args()
    program, failed = os.path.abspath(given.program), 0
    with tempfile.TemporaryDirectory() as folder:
        for number in range(given.trees):
            rng = random.Random("%d %d" % (given.seed, number))
            for what in differing(Site(program, folder), rng):
                print("tree %d: %s" % (number, what))
                failed += 1
    print("%d trees, %d texts differ" % (given.trees, failed))
    sys.exit(1 if failed else 0)


if __name__ == "__main__":
    main()
