#!/usr/bin/env python3
"""Reads back what `query --escape`, `--header` and `--json` write, and compares `find --prefix` and `--names` with what stands without them.

  bench/forms.py [--program PROGRAM] [--trees 40] [--seed 1]

Each tree is random: names and targets of links have tabs, quotes, backslashes, control characters, UTF-8 and bytes that are none. The rows of
the trace, in path order, are what root's query has to give back: a line cut at its tabs, each piece with its escapes taken away, and each
object of JSON as Python's reader has it, whose members of names with `_bytes` are such escapes. Fields of numbers are compared as numbers.
Of users some have names, one two of them and one another's number, and some have none. The status is 1 where something differs.
"""
import argparse
import json
import os
import random
import re
import subprocess
import sys
import tempfile

TOP = os.path.dirname(os.path.dirname(os.path.abspath(__file__)))

TEXTS = ("path", "name", "type", "linkname", "xattrs")
NUMBERS = ("inode", "mode", "nlink", "uid", "gid", "size", "blksize", "blocks", "atime", "mtime", "ctime", "level")

PIECES = (b"run", b".", b"\t", b"\\", b'"', b"'", b"\x01", b"\x7f", b"\x08\x0c\r", b"caf\xc3\xa9", b"\xe2\x80\xa8", b"\xf0\x9f\x98\x80", b"\xff", b"\xc3", b"\xed\xa0\x80", b"\\n", b"\\t", b"{}", b" ")

PASSWD = b"root:x:0:0::/:\nana:x:1001:1001::/:\nanna:x:1001:1001::/:\n1003:x:1002:1002::/:\ntab\there:x:1004:1:::\n"
GROUP = b"root:x:0:\nlab:x:500:ana\n"
NAMES = {"uid": {0: b"root", 1001: b"ana", 1002: b"1003", 1004: b"tab\there"}, "gid": {0: b"root", 500: b"lab"}}

ESCAPE = re.compile(rb"\\(?:([tn\\])|([0-3][0-7][0-7]))|\\|[^\x20-\x7e]")


def read_escaped(text):
    """The bytes that an escaped text stands for; None where it is no such text."""

    def one(found):
        if found[1]:
            return {b"t": b"\t", b"n": b"\n", b"\\": b"\\"}[found[1]]
        if found[2]:
            return bytes([int(found[2], 8)])
        raise ValueError(found[0])

    try:
        return ESCAPE.sub(one, text)
    except ValueError:
        return None


def name(rng, number):
    return b"".join(rng.choice(PIECES) for _ in range(rng.randint(1, 5))) + b"%d" % number


def tree(rng):
    """The rows of a tree, each as its columns, in path order, and its trace."""
    directories = [()]
    rows = [((), b"d", b"", b"")]
    for number in range(rng.randint(1, 30)):
        path = rng.choice(directories) + (name(rng, number),)
        kind = rng.choice((b"d", b"f", b"l", b"p"))
        if kind == b"d":
            directories.append(path)
        link = name(rng, number) if kind == b"l" else b""
        rows.append((path, kind, link, b"" if rng.random() < 0.7 else b"user." + rng.choice((b"a", b"caf\xc3\xa9", b"x\xff", b"t\tb"))))
    made = []
    for path, kind, link, xattrs in sorted(rows):
        numbers = {column: rng.randrange(5000) for column in ("inode", "nlink", "size", "blksize", "blocks", "atime", "mtime", "ctime")}
        numbers.update(mode=0o755 if kind == b"d" else 0o644, uid=rng.choice((0, 1001, 1002, 1003, 1004, 7)), gid=rng.choice((0, 500, 9)), level=len(path))
        if rng.random() < 0.2:
            numbers.update(size=2**64 - 1, mtime=-(2**63))
        texts = dict(path=b"/" + b"/".join(path), name=path[-1] if path else b"/", type=kind, linkname=link, xattrs=xattrs)
        made.append({**numbers, **texts})
    return made, b"".join(trace_line(row) for row in directory_order(made))


def directory_order(rows):
    """Each directory's line, and behind it its entries."""
    entries = [row for row in rows if row["type"] != b"d"]
    for directory in rows:
        if directory["type"] == b"d":
            yield directory
            yield from (row for row in entries if row["path"].rpartition(b"/")[0] == directory["path"].rstrip(b"/"))


def trace_line(row):
    order = ("inode", "mode", "nlink", "uid", "gid", "size", "blksize", "blocks", "atime", "mtime", "ctime")
    fields = [b"/t" + (row["path"] if row["path"] != b"/" else b""), row["type"]] + [b"%d" % row[column] for column in order] + [row["linkname"]]
    if row["xattrs"]:
        fields.append(b"xattrs/" + row["xattrs"])
    return b"\x1e".join(fields) + b"\n"


def line_order(row):
    """Path order: by components, a directory before what it holds."""
    return row["path"].split(b"/")[1:] if row["path"] != b"/" else []


class Site:
    """A folder with a trace, and what the program makes of it."""

    def __init__(self, program, folder):
        self.program, self.folder = program, folder

    def put(self, file, text):
        with open(os.path.join(self.folder, file), "wb") as out:
            out.write(text)

    def said(self, *words):
        run = subprocess.run([self.program, *words], cwd=self.folder, capture_output=True)
        if run.returncode:
            sys.exit("%r: status %d, %r" % (words, run.returncode, run.stderr))
        return run.stdout


def lines(text):
    return text.split(b"\n")[:-1]


def from_columns(columns, line):
    """The row that an escaped line stands for."""
    pieces = line.split(b"\t")
    if len(pieces) != len(columns):
        return None
    return {column: int(piece) if column in NUMBERS else read_escaped(piece) for column, piece in zip(columns, pieces)}


def from_object(line):
    """The row that an object of JSON stands for. A member that comes twice, or white space between them, is none."""
    members = json.loads(line.decode("utf-8"), object_pairs_hook=list)
    row = {}
    for column, value in members:
        if column.endswith("_bytes"):
            column, value = column[: -len("_bytes")], read_escaped(value.encode("ascii"))
            try:
                value.decode("utf-8")
                return None
            except UnicodeDecodeError:
                pass
        elif isinstance(value, str):
            value = value.encode("utf-8")
        if column in row:
            return None
        row[column] = value
    return row


def differences(rng, site):
    """What differs over one tree: pairs of a name and what was found."""
    rows, trace = tree(rng)
    rows = sorted(rows, key=line_order)
    site.put("trace", trace)
    columns = rng.sample(TEXTS + NUMBERS, rng.randint(1, len(TEXTS + NUMBERS)))
    select = "SELECT %s FROM rows" % ", ".join(columns)
    wanted = [{column: row[column] for column in columns} for row in rows]
    escaped = lines(site.said("query", "--escape", "--header", "trace", "0", "/", select))
    if escaped[:1] != ["\t".join(columns).encode()]:
        yield "header", escaped[:1]
    if [from_columns(columns, line) for line in escaped[1:]] != wanted:
        yield "escape", escaped
    if lines(site.said("query", "--escape", "trace", "0", "/", select)) != escaped[1:]:
        yield "escape without header", escaped
    plain = site.said("query", "trace", "0", "/", select)
    if site.said("query", "--header", "trace", "0", "/", select) != escaped[0] + b"\n" + plain:
        yield "header without escape", plain
    objects = lines(site.said("query", "--json", "trace", "0", "/", select))
    if [from_object(line) for line in objects] != wanted:
        yield "json", objects
    prefix = rng.choice(("", "/data/site 2", "x\\"))
    found = lines(site.said("find", "trace", "0", "/"))
    put = [prefix.encode() + (b"" if line == b"/" else line) for line in found]
    if lines(site.said("find", "--prefix", prefix, "trace", "0", "/")) != put:
        yield "prefix", put
    users = ("--passwd=passwd", "--group=group")
    for key in ("uid", "gid"):
        numbers = lines(site.said("stats", *users, "trace", "0", "/", key + "s"))
        named = [re.sub(rb"^(...) (\d+)", lambda word: word[1] + b" " + NAMES[key].get(int(word[2]), word[2]), line) for line in numbers]
        if lines(site.said("stats", "--names", *users, "trace", "0", "/", key + "s")) != named:
            yield "stats " + key, named
        text = "SELECT %s, COUNT(*), MAX(size) FROM rows GROUP BY %s" % (key, key)
        numbers = lines(site.said("agg", *users, "trace", "0", "/", text))
        named = [re.sub(rb"^\d+", lambda word: NAMES[key].get(int(word[0]), word[0]), line) for line in numbers]
        if lines(site.said("agg", "--names", *users, "trace", "0", "/", text)) != named:
            yield "agg " + key, named


def main():
    parser = argparse.ArgumentParser(usage=__doc__)
    parser.add_argument("--program", default=os.path.join(TOP, "crates", "gufi", "out", "gufi"))
    parser.add_argument("--trees", type=int, default=40)
    parser.add_argument("--seed", type=int, default=1)
    given = parser.parse_args()
    rng = random.Random(given.seed)
    wrong = 0
    with tempfile.TemporaryDirectory() as folder:
        site = Site(os.path.abspath(given.program), folder)
        site.put("passwd", PASSWD)
        site.put("group", GROUP)
        for number in range(given.trees):
            for what, found in differences(rng, site):
                print("tree %d: %s: %r" % (number, what, found))
                wrong += 1
    print("%d trees, %d texts differ" % (given.trees, wrong))
    sys.exit(1 if wrong else 0)


if __name__ == "__main__":
    main()
