#!/usr/bin/env python3
"""What a refresh costs in a session: its processor time beside a whole publication, and the memory of a second index beside the first.

  python3 refresh.py TRACE [--program PROGRAM] [--rows 516] [--limit 1000] [--times 100] [--pages small] [--runs 5]
  python3 refresh.py --long [--program PROGRAM] [--pages small] [--runs 1]

TRACE has fields parted by the byte 0x1E. The directory whose rows at and below it are nearest to `--rows` is replaced by the same rows, again
and again, in one phase; so the old index is given back each time. The cost of one is the time of `--times` of them less that of as many more,
over their number: it holds the reading of the part's file and of its trace, whose own cost is told beside it, by refreshes of no path. While one is
made both indexes are there: what is resident in a session with a phase for each refresh, less what is where each is refused, is the memory of the second
one and of making it.
Runs are interleaved, output goes to /dev/null, files are warm, times are medians. Nothing here is a test.

`--long` makes its own traces, and tells the peak memory of sessions of more and more refreshes, a round of them a phase. In each of its scripts
a round leaves a few directories more of what it brings, and the next one replaces the rest: `large` brings a directory of no row and one of
100,000 files, `mixed` some small directories and one of 200 directories and 200 files, `cut` a directory with 256 others, which it empties
at once. So the last index of a script has about as many rows as its first, however many rounds there are.
"""
import argparse
import os
import statistics
import subprocess
import sys
import tempfile
import time

from session import interleaved, write
from walk import PAGES, take_pages

DELIM = b"\x1e"


def paths_of(trace):
    """The lines of a trace, with the path of each and whether it is a directory."""
    for line in trace:
        path, kind, _ = line.split(DELIM, 2)
        yield line, path, kind == b"d"


def nearest(trace, rows):
    """The directory, not the root, with the nearest number of rows at and below it, and that number."""
    below = {}
    for _, path, is_dir in paths_of(trace):
        home = path if is_dir else path.rpartition(b"/")[0]
        while home:
            below[home] = below.get(home, 0) + 1
            home = home.rpartition(b"/")[0]
    return min(below.items(), key=lambda pair: (abs(pair[1] - rows), pair[0]))


def part_of(trace, at):
    """The lines at and below a directory, itself first."""
    found = [(path != at, line) for line, path, _ in paths_of(trace) if path == at or path.startswith(at + b"/")]
    return [line for _, line in sorted(found, key=lambda pair: pair[0])]


def resident(command, folder):
    """The megabytes that are resident towards the end of a command: the median of the last third of what is seen while it runs."""
    seen = []
    with subprocess.Popen(command, stdout=subprocess.DEVNULL, cwd=folder) as child:
        while child.poll() is None:
            with open("/proc/%d/statm" % child.pid) as file:
                pages = file.read().split()
            if pages and int(pages[1]):
                seen.append(int(pages[1]) * os.sysconf("SC_PAGESIZE") / 1e6)
            time.sleep(0.0005)
    if child.returncode:
        sys.exit("%s ended with %d" % (command, child.returncode))
    return statistics.median(seen[len(seen) * 2 // 3 :])


def row(path, kind, number):
    fields = (path, kind, number, 0o755, 1, 0, 0, 4096, 4096, 8, 1700000000, 1700000000, 1700000000, "")
    return DELIM.join(str(field).encode() for field in fields) + b"\n"


def write_rows(folder, name, rows):
    """Writes a trace row by row: a process that is started has this one's memory until it begins, and as much is told of it at least."""
    with open(os.path.join(folder, name), "wb") as trace:
        trace.writelines(row("/" + path, kind, number) for number, (path, kind) in enumerate(rows))


def rows(path, dirs, files):
    """The paths of a directory, its files, and directories in it, each with its kind."""
    yield path, "d"
    yield from (("%s/file%06d" % (path, number), "f") for number in range(files))
    yield from (("%s/dir%06d" % (path, number), "d") for number in range(dirs))


ROUNDS = 480


def long_scripts(folder):
    """For each script its name, the lines before its rounds, those of a round, and how many rounds there are."""
    places = [("s%03d" % number, "d") for number in range(ROUNDS)]
    write_rows(folder, "all", [("", "d"), ("big", "d")] + places)
    write_rows(folder, "empty", rows("empty", 0, 0))
    write_rows(folder, "big", rows("big", 0, 100000))
    write_rows(folder, "mid", rows("mid", 200, 200))
    write_rows(folder, "small", rows("small", 0, 3))
    write_rows(folder, "tree", [("tree", "d"), ("tree/keep", "d"), *rows("tree/rest", 256, 0)])
    large = lambda k: [b"refresh /s%03d empty\n" % k, b"refresh /big big\n"]
    mixed = lambda k: [b"refresh /s%03d small\n" % k, b"refresh /big mid\n"]
    cut = lambda k: [b"refresh /s%03d tree\n" % k, b"refresh /s%03d/rest empty\n" % k]
    return {"large": (large, (1, 20, 40, 80, 160)), "mixed": (mixed, (1, 60, 120, 240, ROUNDS)), "cut": (cut, (1, 60, 120, 240, ROUNDS))}


def told_long(program, runs):
    """Prints the time and the peak memory of each script by its rounds."""
    with tempfile.TemporaryDirectory() as folder:
        commands = {}
        for name, (made, counts) in long_scripts(folder).items():
            for count in counts:
                script = [b"publish 0 all\n"] + [line for k in range(count) for line in [b"barrier\n"] + made(k)]
                commands["%s, %d rounds" % (name, count)] = [program, "session", write(folder, "%s%d" % (name, count), script)]
        times = interleaved(commands, folder, runs)
    print("| | Processor time | Peak memory |\n|---|---|---|")
    for name, (cpu, _, memory) in times.items():
        print("| %s | %.3f s | %.1f MB |" % (name, cpu, memory))


def main():
    parser = argparse.ArgumentParser(usage=__doc__)
    parser.add_argument("trace", nargs="?")
    parser.add_argument("--long", action="store_true")
    parser.add_argument("--program", default=os.path.join(os.path.dirname(__file__), "..", "crates/gufi/out/gufi"))
    parser.add_argument("--rows", type=int, default=516)
    parser.add_argument("--limit", type=int, default=1000)
    parser.add_argument("--times", type=int, default=100)
    parser.add_argument("--pages", choices=PAGES, default="small")
    parser.add_argument("--runs", type=int)
    options = parser.parse_args()
    take_pages(options.pages)
    if options.long:
        return told_long(os.path.abspath(options.program), options.runs or 1)
    if not options.trace:
        parser.error("TRACE or --long is wanted")
    with open(options.trace, "rb") as trace:
        lines = trace.readlines()
    at, rows = nearest(lines, options.rows)
    root = next(paths_of(lines))[1]
    place = at[len(root):] if root != b"/" else at
    with tempfile.TemporaryDirectory() as folder:
        os.symlink(os.path.abspath(options.trace), os.path.join(folder, "trace"))
        write(folder, "part", part_of(lines, at))
        publish, refresh = b"publish %d trace\n" % options.limit, b"refresh %s part\n" % place
        ask = b"ask 1 0 %s total\n" % place
        refused = b"refresh %s.none part\n" % place
        scripts = {
            "one publication": [publish],
            "two publications": [publish] * 2,
            "one publication, one refresh": [publish, refresh],
            "one publication, %d refreshes" % options.times: [publish] + [refresh] * options.times,
            "one publication, %d refreshes" % (2 * options.times): [publish] + [refresh] * (2 * options.times),
            "one publication, %d refused ones" % options.times: [publish] + [refused] * options.times,
            "one publication, %d refused ones" % (2 * options.times): [publish] + [refused] * (2 * options.times),
            "a phase for each of %d refreshes" % options.times: [publish] + [b"barrier\n", refresh] * options.times,
            "a phase for each of %d refused ones" % options.times: [publish] + [b"barrier\n", refused] * options.times,
            "asked before and behind a refresh": [publish, b"barrier\n", ask, b"barrier\n", refresh, b"barrier\n", ask],
        }
        commands = {
            name: [os.path.abspath(options.program), "session", write(folder, "script%d" % number, script)]
            for number, (name, script) in enumerate(scripts.items())
        }
        times = interleaved(commands, folder, options.runs or 5)
        held = [
            resident(commands["a phase for each of %d %s" % (options.times, name)], folder) for name in ("refreshes", "refused ones")
        ]
        text = subprocess.run(commands["asked before and behind a refresh"], cwd=folder, stdout=subprocess.PIPE, check=True).stdout
    print("%d lines; %s and its %d rows replaced\n" % (len(lines), at.decode(errors="replace"), rows))
    print("| | Processor time | Clock | Peak memory |\n|---|---|---|---|")
    for name, (cpu, clock, memory) in times.items():
        print("| %s | %.3f s | %.3f s | %.0f MB |" % (name, cpu, clock, memory))
    each = [
        (times["one publication, %d %s" % (2 * options.times, name)][0] - times["one publication, %d %s" % (options.times, name)][0]) / options.times * 1e3
        for name in ("refreshes", "refused ones")
    ]
    whole = times["two publications"][0] - times["one publication"][0]
    print("\none refresh %.2f ms, of which its trace %.2f ms; one publication %.0f ms" % (each[0], each[1], whole * 1e3))
    print("resident %.1f MB, and %.1f MB where each refresh is refused" % tuple(held))
    totals = [line.partition(b" total ")[2] for line in text.splitlines() if b" total " in line]
    are_equal = len(totals) == 2 and len(set(totals)) == 1
    print("both totals are equal" if are_equal else "TOTALS DIFFER")
    return 0 if are_equal else 1


if __name__ == "__main__":
    sys.exit(main())
