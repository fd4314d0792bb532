#!/usr/bin/env python3
"""Processor time, peak memory and instructions of commands over a trace and its image, beside another program where one is named.

  python3 walk.py TRACE [--image IMAGE] [--program PROGRAM] [--beside PROGRAM] [--words WORDS] [--pages small] [--uid 2007]
                  [--gids 5001,5002] [--runs 5] [--instructions] [--only TEXT] [--peer 'NAME=COMMAND ..']..

Runs are interleaved, output goes to /dev/null, files are warm, times are medians. The image is what `trace2index` writes of the
trace; with it the same questions are asked of both. `--beside` names a program with the same command words, which answers the same
questions in turn; where it lacks a command it is given the nearest one, as `match` says, and ratios are those of the median times.
`--words` are further words behind its command's own where it reads the image, as '--whole --built'.
All programs get their memory in pages of the same size: `--pages large` asks glibc's malloc for large ones, for each program that
takes memory through it. A peer is any command line that reads the same files. Instructions are counted by valgrind's callgrind.
Nothing here is a test.
"""
import argparse
import os
import shlex
import statistics
import subprocess
import sys


# Large files of one kind by an expression; large files, and files of one kind, by a SELECT.
LARGE = ["-name", "*.h5", "-size", "+2048"]
LARGER = "SELECT path, size FROM entries WHERE size > 1000000"
NAMED = "SELECT path FROM entries WHERE name REGEXP '\\.h5$'"
BY_OWNER = "SELECT uid, COUNT(*), SUM(size) FROM rows GROUP BY uid"

# What glibc's malloc is told. The script `gufi` keeps a value that is set, also an empty one.
PAGES = {"small": "", "large": "glibc.malloc.hugetlb=1:glibc.malloc.top_pad=67108864"}


def take_pages(size):
    """Has each program that is started from now on take its memory in pages of this size."""
    os.environ["GLIBC_TUNABLES"] = PAGES[size]


def once(command):
    """The seconds of user time, those of user and system time, and the peak memory in MB of one run."""
    with open(os.devnull, "w") as sink:
        child = subprocess.Popen(command, stdout=sink)
        _, status, usage = os.wait4(child.pid, 0)
    if status:
        sys.exit("%s ended with %d" % (command, status))
    return usage.ru_utime, usage.ru_utime + usage.ru_stime, usage.ru_maxrss / 1024


def interleaved(commands, runs):
    """The median times and the highest peak memory of each of these named commands, run in turn; the first turn warms the files."""
    seen = {name: [] for name in commands}
    for _ in range(runs + 1):
        for name, command in commands.items():
            seen[name].append(once(command))
    return {
        name: [statistics.median(column) for column in list(zip(*turns[1:]))[:2]] + [max(memory for _, _, memory in turns)]
        for name, turns in seen.items()
    }


def instructions(command):
    tool = ["valgrind", "--tool=callgrind", "--callgrind-out-file=/dev/null"]
    run = subprocess.run(tool + command, stdout=subprocess.DEVNULL, stderr=subprocess.PIPE, text=True, check=True)
    return next(int(line.split(":")[1]) for line in run.stderr.splitlines() if "Collected" in line)


def questions(program, index, user):
    """Questions that an index answers, by their names."""
    return {
        "stat as user": [program, "stat", index, user, "/"],
        "stat as root": [program, "stat", index, "0", "/"],
        "find as user": [program, "find", index, user, "/"] + LARGE,
        "find as root": [program, "find", index, "0", "/"] + LARGE,
        "all as user": [program, "find", index, user, "/"],
        "all as root": [program, "find", index, "0", "/"],
        "SELECT by size": [program, "query", index, user, "/", LARGER],
        "SELECT by REGEXP": [program, "query", index, user, "/", NAMED],
        "groups as user": [program, "agg", index, user, "/", BY_OWNER],
        "groups as root": [program, "agg", index, "0", "/", BY_OWNER],
    }


def asked_of(given):
    """The commands that are measured: over the trace, and over its image where one is given."""
    user = "%s:%s" % (given.uid, given.gids)
    commands = {
        "walk as user": [given.program, "walk", given.trace, given.uid, given.gids],
        "walk as root": [given.program, "walk", given.trace, "0", "-"],
        "trace2index": [given.program, "trace2index", given.trace],
    }
    commands.update(questions(given.program, given.trace, user))
    if given.image:
        for name, command in questions(given.program, given.image, user).items():
            commands["image: " + name] = command
    return commands


def match(command, given):
    """The same question for a program that has `find`, `trace2index` and SELECT without REGEXP: a sum, or groups, as a find of few rows."""
    verb, index, rest = command[1], command[2], command[3:]
    if verb == "walk":
        verb, rest = "find", ["%s:%s" % (rest[0], rest[1].strip("-")), "/"]
    if verb == "stat":
        verb, rest = "find", rest + LARGE
    if verb == "agg":
        verb, rest = "find", rest[:2] + LARGE
    words = given.words.split() if index == given.image else []
    return [given.beside, verb] + words + [index] + [LARGER if word == NAMED else word for word in rest]


def main():
    here = os.path.dirname(os.path.abspath(__file__))
    parser = argparse.ArgumentParser()
    parser.add_argument("trace")
    parser.add_argument("--program", default=os.path.join(here, "..", "crates", "gufi", "out", "gufi"))
    parser.add_argument("--beside")
    parser.add_argument("--words", default="")
    parser.add_argument("--pages", choices=PAGES, default="small")
    parser.add_argument("--uid", default="2007")
    parser.add_argument("--gids", default="5001,5002")
    parser.add_argument("--runs", type=int, default=5)
    parser.add_argument("--instructions", action="store_true")
    parser.add_argument("--image")
    parser.add_argument("--only")
    parser.add_argument("--peer", action="append", default=[])
    given = parser.parse_args()
    take_pages(given.pages)
    with open(given.trace, "rb") as file:
        rows = sum(piece.count(b"\n") for piece in iter(lambda: file.read(1 << 20), b""))
    commands = asked_of(given)
    if given.only:
        commands = {name: command for name, command in commands.items() if given.only in name}
    if given.beside:
        commands = {
            beside + name: match(command, given) if beside else command
            for name, command in commands.items()
            for beside in ("", "beside ")
        }
    commands.update((name, shlex.split(words)) for name, words in (peer.split("=", 1) for peer in given.peer))
    print("%d rows, %s pages" % (rows, given.pages))
    times = interleaved(commands, given.runs)
    for name, (user, time, peak) in times.items():
        text = "%-31s %7.3f s user %7.3f s %6.0f MB" % (name, user, time, peak)
        if "beside " + name in times:
            other = times["beside " + name]
            text += "  ratio of user time %.2f, of time %.2f, of memory %.2f" % (user / other[0], time / other[1], peak / other[2])
        if given.instructions:
            text += "  %6.0f instructions/row" % (instructions(commands[name]) / rows)
        print(text, flush=True)


if __name__ == "__main__":
    main()
