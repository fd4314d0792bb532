#!/usr/bin/env python3
"""What a session costs: asks by lanes, one ask, a publication, and the memory of several, beside another program where one is named.

  python3 session.py TRACE PASSWD GROUP ASKS [--program PROGRAM] [--beside PROGRAM] [--pages small] [--asks 1000] [--runs 5]

TRACE has fields parted by the byte 0x1E. ASKS is a script whose lines `ask LANE USER START find ..` are taken, whatever stands beside
them; of these the first `--asks` are put into lanes in turn, behind one publication of TRACE. The cost of an ask is the time of that script
less the time of a script that only publishes, over the number of asks. Runs are interleaved, output goes to /dev/null, files are warm, times
are medians. Both programs get their memory in pages of the same size. Nothing here is a test.
"""
import argparse
import os
import statistics
import subprocess
import sys
import tempfile
import time

from walk import PAGES, take_pages

LANES = (1, 4, 16)
PUBLICATIONS = (1, 3, 10)


def asks_of(path, most):
    """The asks of a script without their lanes."""
    with open(path, "rb") as script:
        words = [line.split(None, 2)[2] for line in script if line.startswith(b"ask ")]
    if not words:
        sys.exit("%s: no line begins with `ask `" % path)
    return [words[place % len(words)] for place in range(most)]


def write(folder, name, lines):
    with open(os.path.join(folder, name), "wb") as script:
        script.write(b"".join(lines))
    return name


def once(command, folder):
    """Seconds of processor time, seconds on the clock, and the peak memory in MB of one run."""
    begun = time.monotonic()
    with open(os.devnull, "w") as sink:
        child = subprocess.Popen(command, stdout=sink, cwd=folder)
        _, status, usage = os.wait4(child.pid, 0)
    if status:
        sys.exit("%s ended with %d" % (command, status))
    return usage.ru_utime + usage.ru_stime, time.monotonic() - begun, usage.ru_maxrss / 1024


def interleaved(commands, folder, runs):
    """The medians of each of these named commands, run in turn; the first turn warms the files."""
    seen = {name: [] for name in commands}
    for _ in range(runs + 1):
        for name, command in commands.items():
            seen[name].append(once(command, folder))
    return {name: [statistics.median(column) for column in zip(*turns[1:])] for name, turns in seen.items()}


def scripts(folder, asks):
    """The scripts by their names: publications alone, and asks by lanes behind one."""
    publish = b"publish 0 trace\n"
    made = {"publish %d" % count: write(folder, "publish%d" % count, [publish, b"barrier\n"] * count) for count in PUBLICATIONS}
    for lanes in LANES:
        lines = [b"ask %d %s" % (place % lanes + 1, ask) for place, ask in enumerate(asks)]
        made["asks by %d" % lanes] = write(folder, "asks%d" % lanes, [publish, b"barrier\n"] + lines)
    return made


def told(name, times):
    """A line of the table: the time and memory of a script, the other program's time, and how the two compare."""
    cpu, clock, memory = times["gufi", name]
    text = "| %s | %.3f s | %.3f s | %.0f MB |" % (name, cpu, clock, memory)
    if ("beside", name) in times:
        other = times["beside", name][0]
        text += " %.3f s | %.2f |" % (other, cpu / other)
    print(text)


def main():
    parser = argparse.ArgumentParser(usage=__doc__)
    for word in ("trace", "passwd", "group", "script"):
        parser.add_argument(word)
    parser.add_argument("--program", default=os.path.join(os.path.dirname(__file__), "..", "crates/gufi/out/gufi"))
    parser.add_argument("--beside")
    parser.add_argument("--pages", choices=PAGES, default="small")
    parser.add_argument("--asks", type=int, default=1000)
    parser.add_argument("--runs", type=int, default=5)
    options = parser.parse_args()
    take_pages(options.pages)
    programs = {"gufi": os.path.abspath(options.program)}
    if options.beside:
        programs["beside"] = os.path.abspath(options.beside)
    asks = asks_of(options.script, options.asks)
    with tempfile.TemporaryDirectory() as folder:
        for name, path in (("trace", options.trace), ("passwd", options.passwd), ("group", options.group)):
            os.symlink(os.path.abspath(path), os.path.join(folder, name))
        made = scripts(folder, asks)
        commands = {
            (program, name): [path, "session", "--passwd=passwd", "--group=group", script]
            for name, script in made.items()
            for program, path in programs.items()
        }
        times = interleaved(commands, folder, options.runs)
        texts = {
            program: [
                subprocess.run(commands[program, "asks by %d" % lanes], cwd=folder, stdout=subprocess.PIPE, check=True).stdout for lanes in LANES
            ]
            for program in programs
        }
    print("| | Processor time | Clock | Peak memory |" + (" Beside, processor time | Times |" if options.beside else ""))
    print("|---|---|---|---|" + ("---|---|" if options.beside else ""))
    for name in made:
        told(name, times)
    for lanes in LANES:
        each = {
            program: (times[program, "asks by %d" % lanes][0] - times[program, "publish 1"][0]) / len(asks) * 1e6 for program in programs
        }
        print("one ask by %d lanes: %s" % (lanes, ", ".join("%s %.0f us" % pair for pair in each.items())))
    are_equal = len({text for all_ in texts.values() for text in all_}) == 1
    print("all texts are equal" if are_equal else "TEXTS DIFFER")
    return 0 if are_equal else 1


if __name__ == "__main__":
    sys.exit(main())
