#!/usr/bin/env python3
"""What hostile words and users cost at two sizes each: python3 growth.py [--program PROGRAM] [--runs 3] [--instructions] [--only TEXT]

For each it prints the user time at both sizes and their quotient, beside the quotient of the sizes: a cost that grows with its size
alone has a quotient of at most that. `--instructions` counts instructions by valgrind's callgrind in place of time. A run is
given 300 seconds. Nothing here is a test.
"""
import argparse
import os
import resource
import statistics
import subprocess
import sys
import tempfile

from walk import instructions

USER = b"ann"


def write(folder, name, lines):
    path = os.path.join(folder, name)
    with open(path, "wb") as file:
        file.writelines(lines)
    return path


def row(path, kind, number):
    fields = (path, kind, number, 0o755, 1, 0, 7, 4096, 4096, 8, 1700000000, 1700000000, 1700000000, "")
    return ("\x1e".join(map(str, fields)) + "\n").encode()


def trace(folder, name, dirs, entries):
    """A trace of directories below the root and files in it, which all may list."""
    below = [row("/r/directory%d" % number, "d", number) for number in range(dirs)]
    return write(folder, name, [row("/r", "d", 0)] + [row("/r/file%d.%s" % (number, 60 * "x"), "f", number) for number in range(entries)] + below)


def groups(folder, name, held):
    """A group file of 65,536 groups, of which the user is in the first so many."""
    lines = (b"g%d:x:%d:%s\n" % (number, 100000 + number, USER if number < held else b"bob") for number in range(65536))
    return write(folder, name, lines)


def cases(program, folder):
    """For each case its name and, for two sizes, the size and the command. Each pair of commands reads files of the same length."""
    few = trace(folder, "few.trace", 1, 1)
    files = trace(folder, "files.trace", 1, 20000)
    directories = trace(folder, "directories.trace", 50000, 1)
    users = write(folder, "passwd", [USER + b":x:3000:3000::/:/bin/sh\n"])

    def find(index, pattern):
        return [program, "find", index, "0", "/", "-name", pattern]

    def held(count):
        file = groups(folder, "group%d" % count, count)
        return [program, "find", "--passwd=" + users, "--group=" + file, directories, USER.decode(), "/", "-name", "nothing"]

    def nested(depth):
        pattern = depth * "(" + "x" + depth * ")"
        return [program, "query", few, "0", "/", "SELECT path FROM rows WHERE name REGEXP '%s'" % pattern]

    return {
        "a pattern of many [": [(size, find(few, size * "[")) for size in (16000, 128000)],
        "a pattern of many [a": [(size, find(few, size // 2 * "[a")) for size in (16000, 128000)],
        "a pattern of many brackets": [(size, find(few, size // 3 * "[a]")) for size in (16000, 128000)],
        "members of a bracket over 20,000 names": [(size, find(files, "*[%s]z" % (size * "b"))) for size in (16, 4096)],
        "a user's groups over 50,000 directories": [(count, held(count)) for count in (1, 65536)],
        "nested groups of a REGEXP": [(depth, nested(depth)) for depth in (25, 250)],
    }


def seconds(command, runs):
    """The median user time, or None where a run isn't over after 300 seconds or is refused."""
    seen = []
    for _ in range(runs):
        before = resource.getrusage(resource.RUSAGE_CHILDREN).ru_utime
        try:
            run = subprocess.run(command, stdout=subprocess.DEVNULL, stderr=subprocess.PIPE, timeout=300)
        except subprocess.TimeoutExpired:
            return None
        if run.returncode:
            sys.stderr.write(run.stderr.decode(errors="replace"))
            return None
        seen.append(resource.getrusage(resource.RUSAGE_CHILDREN).ru_utime - before)
    return statistics.median(seen)


def millions(command):
    """The millions of instructions, or None where the run is refused."""
    try:
        return instructions(command) / 1e6
    except subprocess.CalledProcessError:
        return None


def main():
    here = os.path.dirname(os.path.abspath(__file__))
    parser = argparse.ArgumentParser()
    parser.add_argument("--program", default=os.path.join(here, "..", "crates", "gufi", "out", "gufi"))
    parser.add_argument("--runs", type=int, default=3)
    parser.add_argument("--instructions", action="store_true")
    parser.add_argument("--only", default="")
    given = parser.parse_args()
    unit = "million instructions" if given.instructions else "s of user time"
    with tempfile.TemporaryDirectory() as folder:
        for name, pair in cases(given.program, folder).items():
            if given.only not in name:
                continue
            texts, costs = [], []
            for size, command in pair:
                cost = millions(command) if given.instructions else seconds(command, given.runs)
                costs.append(cost)
                texts.append("at %d %s" % (size, "none" if cost is None else "%.3f" % cost))
            quotient = "-" if None in costs else "%.1f" % (costs[1] / max(costs[0], 0.001))
            print("%-40s %s %s; size x %.0f, cost x %s" % (name, ", ".join(texts), unit, pair[1][0] / pair[0][0], quotient), flush=True)


if __name__ == "__main__":
    main()
