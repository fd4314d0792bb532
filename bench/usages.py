#!/usr/bin/env python3
"""Holds `du` and `diff` against what is worked out of lines of `query`.

  bench/usages.py [--program PROGRAM] [--trees 500] [--seed 1]

Each tree is random, with directories that some users can't list, odd names, links, names of extended attributes and access control lists; the
second tree of a `diff` is the first with rows gone, new and changed. A user asks from a directory of the first, or from one that isn't there.
Which rows an expression of `du` chooses is what `find` prints; what they take up, and which records are the same, stands in the columns of
`query`, but for access control lists, which are those of the trace. A start that `query` refuses has to be refused with the same note. The
status is 1 where something differs.
"""
import argparse
import os
import random
import sys
import tempfile

from forms import NUMBERS, TEXTS, TOP, from_columns, lines, line_order, tree
from indexes import Site, components, trace, with_lists

COLUMNS = TEXTS + NUMBERS
SELECT = "SELECT %s FROM rows" % ", ".join(COLUMNS)
USERS = ("0", "0", "1001:500", "1002", "1003:9,500", "7")
MODES = (0o755,) * 6 + (0o750, 0o700, 0o711, 0o744, 0o770, 0o077)
EXPRESSIONS = (
    (),
    (),
    ("-type", "f"),
    ("!", "-type", "d"),
    ("-size", "+3"),
    ("-name", "*run*"),
    ("-user", "1001", "-o", "-user", "0"),
    ("-maxdepth", "1"),
    ("-mindepth", "2"),
    ("-links", "+900"),
    ("-name", "no such name"),
)


def shared(rng, rows):
    """The rows, whose files and directories not all may read."""
    for row in with_lists(rng, rows):
        row["mode"] = rng.choice(MODES) if row["type"] == b"d" and row["path"] != b"/" else rng.choice((0o644, 0o600, 0o444))
        if row["path"] == b"/":
            row.update(mode=0o755, acl=b"")
    return rows


def changed(rng, rows):
    """The rows with some gone, some new and some of another record."""
    gone = [components(row) for row in rows if row["path"] != b"/" and rng.random() < 0.1]
    after = [dict(row) for row in rows if not any(components(row)[: len(path)] == path for path in gone)]
    for row in after:
        if rng.random() < 0.2:
            column = rng.choice(("size", "mtime", "blocks", "nlink", "uid", "mode", "xattrs", "acl", "linkname"))
            if column == "linkname":
                row.update(linkname=b"elsewhere" if row["type"] == b"l" else row["linkname"])
            elif column == "xattrs":
                row.update(xattrs=rng.choice((b"", b"user.other")))
            elif column == "acl":
                with_lists(rng, [row])
            elif column == "mode":
                row.update(mode=rng.choice(MODES))
            elif column == "uid":
                row.update(uid=rng.choice((0, 1001, 1002)))
            else:
                row[column] += 1 if row[column] < 2**63 - 1 else -1
    holders = [row for row in after if row["type"] == b"d"]
    for number in range(rng.randrange(4)):
        holder = rng.choice(holders)
        row = dict(rng.choice(after), name=b"new%d" % number, path=holder["path"].rstrip(b"/") + b"/new%d" % number)
        after.append(row)
    return sorted(after, key=line_order)


def listed(site, index, user, start):
    """The rows that a user lists, in path order, by `query`; or the status and the note of the refusal."""
    status, text, note = site.ran("query", "--escape", index, user, start, SELECT)
    if status:
        return None, (status, b"", note)
    return [from_columns(COLUMNS, line) for line in lines(text)], None


def usage(rows):
    files = [row for row in rows if row["type"] == b"f"]
    return sum(row["size"] for row in files), sum(row["blocks"] for row in rows), len(files), sum(row["type"] == b"d" for row in rows)


def used(rows, chosen, start, depth):
    """What `du` has to print of the rows that a user lists, of which some are chosen."""
    above = len(start)
    for row in rows:
        path = components(row)
        if row["type"] == b"d" and len(path) - above <= depth:
            below = [other for other in rows if components(other)[: len(path)] == path and other["path"] in chosen]
            yield b"%d\t%d\t%d\t%d\t" % usage(below) + row["path"] + b"\n"


def records(rows, lists):
    return {row["path"]: (row, lists[row["path"]]) for row in rows}


def changes(before, after):
    """What `diff` has to print of the records by their paths."""
    for path in sorted({**before, **after}, key=lambda path: line_order({"path": path})):
        if path not in after:
            yield b"- " + path + b"\n"
        elif path not in before:
            yield b"+ " + path + b"\n"
        elif before[path] != after[path]:
            yield b"~ " + path + b"\n"


def word(path):
    """The path as a word, where it is UTF-8."""
    try:
        return path.decode()
    except UnicodeDecodeError:
        return None


def differing(site, rng):
    """What differs of one random tree."""
    rows = shared(rng, tree(rng)[0])
    after = changed(rng, rows)
    site.put("old", trace(rows))
    site.put("new", trace(after))
    site.put("image", site.made("rollup", "--limit=%d" % rng.choice((0, 3, 1000)), "old")[0])
    user, depth, expression = rng.choice(USERS), rng.choice((0, 1, 1, 2, 3, 300)), rng.choice(EXPRESSIONS)
    start = word(rng.choice([row["path"] for row in rows if row["type"] == b"d"] + [b"/", b"/", b"/none", rng.choice(rows)["path"]])) or "/"
    index = rng.choice(("old", "image"))
    seen, refusal = listed(site, index, user, start)
    had = site.ran("du", index, user, start, "%d" % depth, *expression)
    if refusal:
        if had != refusal:
            yield "du of a start that is refused: %r, %r" % (had, refusal)
    else:
        chosen = set(lines(site.made("find", index, user, start, *expression)[0]))
        wanted = b"".join(used(seen, chosen, components({"path": start.encode()}), depth))
        if had != (0, wanted, b""):
            yield "du of %s from %s at %d, %s: %r, %r" % (user, start, depth, expression, had, wanted)
        if not expression:
            total = site.made("stat", index, user, start)[0].split(b"\n")[4].split()
            first = had[1].split(b"\n")[0].split(b"\t")
            if [first[0], first[2], first[3]] != [total[total.index(b"bytes") + 1], total[total.index(b"files") + 1], total[total.index(b"dirs") + 1]]:
                yield "du beside stat: %r, %r" % (first, total)
    other, denied = listed(site, "new", user, start)
    had = site.ran("diff", index, "new", user, start)
    if refusal or denied:
        if had != (refusal or denied):
            yield "diff of a start that is refused: %r, %r" % (had, refusal or denied)
        return
    lists, later = ({row["path"]: row["acl"] for row in of} for of in (rows, after))
    wanted = b"".join(changes(records(seen, lists), records(other, later)))
    if had != (0, wanted, b""):
        yield "diff of %s from %s: %r, %r" % (user, start, had, wanted)


def main():
    parser = argparse.ArgumentParser(usage=__doc__)
    parser.add_argument("--program", default=os.path.join(TOP, "crates", "gufi", "out", "gufi"))
    parser.add_argument("--trees", type=int, default=500)
    parser.add_argument("--seed", type=int, default=1)
    given = parser.parse_args()
    program, failed = os.path.abspath(given.program), 0
    with tempfile.TemporaryDirectory() as folder:
        for number in range(given.trees):
            rng = random.Random("%d %d" % (given.seed, number))
            for what in differing(Site(program, folder), rng):
                print("tree %d: %s" % (number, what))
                failed += 1
    print("%d trees, %d texts differ" % (given.trees, failed))
    sys.exit(1 if failed else 0)


if __name__ == "__main__":
    main()
