#!/usr/bin/env python3
"""Cuts a trace into shards of about as many rows each: python3 cut.py TRACE COUNT FOLDER [--delim BYTE]

Writes FOLDER/1.trace, FOLDER/2.trace and so on. A directory and its entries stand in one shard. In path order the directories of a
shard come one behind the other, so a shard is made of whole subtrees but for those that the cut runs through. It has the line of
each directory above one of its own too, without entries: so whoever could walk to a directory in the whole can in its shard. The
trace's stanzas may come in any order. It is read twice, so it can't be a pipe, and the directories' paths are kept in memory. FOLDER
is there once all shards are whole. `ask.sh` asks the shards.

The status is 0 where the shards were written, 1 where they weren't, 2 where a word can't be taken.
"""
import argparse
import os
import shutil
import stat
import sys


class Refused(Exception):
    """The trace isn't cut; it says why."""


def components(path):
    return tuple(part for part in path.split(b"/") if part not in (b"", b"."))


def rows_of(trace, delimiter):
    """Each line of the trace, the components of its stanza's directory, and whether it is that directory's own."""
    stanza = None
    for number, line in enumerate(trace, 1):
        fields = line.split(delimiter, 2)
        if len(fields) < 3:
            raise Refused("line %d of the trace has fewer than three fields" % number)
        is_directory = fields[1] == b"d"
        if is_directory:
            stanza = components(fields[0])
        elif stanza is None:
            raise Refused("the trace doesn't begin with a directory")
        yield line, stanza, is_directory


def directories(trace, delimiter):
    """Each directory's components and how many rows its stanza has, in path order."""
    rows = {}
    for _, stanza, _ in rows_of(trace, delimiter):
        rows[stanza] = rows.get(stanza, 0) + 1
    if not rows:
        raise Refused("the trace is empty")
    return sorted(rows.items())


def places(rows, count):
    """For each directory the shard that has its entries, and for each directory the shards that have its line."""
    total, before, own, lines = sum(each for _, each in rows), 0, {}, {}
    for directory, each in rows:
        shard = own[directory] = before * count // total
        before += each
        for depth in range(len(rows[0][0]), len(directory) + 1):
            lines.setdefault(directory[:depth], set()).add(shard)
    return own, lines


def write_shards(trace, delimiter, own, lines, folder):
    shards = {shard: open(os.path.join(folder, "%d.trace" % (shard + 1)), "wb") for shard in sorted(set(own.values()))}
    for line, stanza, is_directory in rows_of(trace, delimiter):
        for shard in lines[stanza] if is_directory else [own[stanza]]:
            shards[shard].write(line)
    for shard in shards.values():
        shard.close()


def cut(given, delimiter):
    if os.path.lexists(given.folder):
        raise Refused("%s is there" % given.folder)
    with open(given.trace, "rb") as trace:
        if not stat.S_ISREG(os.fstat(trace.fileno()).st_mode):
            raise Refused("%s is no file, and is to be read twice" % given.trace)
        own, lines = places(directories(trace, delimiter), given.count)
        trace.seek(0)
        made = given.folder.rstrip("/") + ".new"
        os.mkdir(made)
        try:
            write_shards(trace, delimiter, own, lines, made)
            os.rename(made, given.folder)
        except BaseException:
            shutil.rmtree(made)
            raise


def main():
    parser = argparse.ArgumentParser(description="Cuts a trace into shards of about as many rows each.")
    parser.add_argument("trace")
    parser.add_argument("count", type=int)
    parser.add_argument("folder")
    parser.add_argument("--delim", default="\x1e")
    given = parser.parse_args()
    delimiter = os.fsencode(given.delim)
    if len(delimiter) != 1:
        parser.error("the delimiter is one byte")
    if given.count < 1:
        parser.error("COUNT is 1 or more")
    if not given.trace or not given.folder:
        parser.error("a word is empty")
    try:
        cut(given, delimiter)
    except (Refused, OSError) as why:
        print("cut.py: %s" % os.fsencode(str(why)).decode("ascii", "backslashreplace"), file=sys.stderr)
        return 1
    return 0


if __name__ == "__main__":
    sys.exit(main())
