#!/usr/bin/env python3
"""What walkers win: asks over a standing snapshot by 1, 2 and 4 workers, on the clock and in processor time.

  python3 workers.py TRACE [--program PROGRAM] [--other PROGRAM] [--workers 1,2,4] [--asks 20] [--runs 5] [--pages small]

TRACE has fields parted by the byte 0x1E. A script publishes it, behind a barrier one lane asks one question so many times as root from `/`:
rows of which few are found, all rows, or those whose names a REGEXP finds. The cost of an ask is the time of that script less the time of a
script that publishes alone, over the number of asks. One-shot commands over TRACE stand below, whole. With --other the same is measured of
another program with the same words, by one worker. Runs are interleaved, output goes to /dev/null, files are warm, times are medians, and
texts are compared. Measure on a machine that is otherwise quiet and has as many processors as workers. Nothing here is a test.
"""
import argparse
import os
import subprocess
import sys
import tempfile

from session import interleaved, write
from walk import PAGES, take_pages

QUESTIONS = {
    "few rows are found": b"find -name *.nosuch -size +1",
    "all rows": b"find",
    "REGEXP on names": b"query SELECT path FROM entries WHERE name REGEXP '\\.h5$'",
}


def scripts(folder, asks):
    """A script that publishes alone, and one for each question, by their names."""
    publish = b"publish 0 trace\n"
    made = {"publish": write(folder, "publish", [publish])}
    for place, (name, question) in enumerate(QUESTIONS.items()):
        ask = b"ask 1 0 / " + question + b"\n"
        made[name] = write(folder, "asks%d" % place, [publish, b"barrier\n"] + [ask] * asks)
    return made


def commands_of(programs, made, workers):
    """The command lines, by program, script and workers."""
    commands = {}
    for program, (path, counts) in programs.items():
        for name, script in made.items():
            for count in counts if name != "publish" else counts[:1]:
                commands[program, name, count] = [path, "session", "--workers=%d" % count, script]
        for count in counts:
            commands[program, "find of all rows, one shot", count] = [path, "find", "--workers=%d" % count, "trace", "0", "/"]
    return commands


def are_equal(commands, folder, name):
    texts = {
        subprocess.run(command, cwd=folder, stdout=subprocess.PIPE, check=True).stdout for key, command in commands.items() if key[1] == name
    }
    return "equal" if len(texts) == 1 else "NOT EQUAL"


def main():
    parser = argparse.ArgumentParser(usage=__doc__)
    parser.add_argument("trace")
    parser.add_argument("--program", default=os.path.join(os.path.dirname(__file__), "..", "crates/gufi/out/gufi"))
    parser.add_argument("--other")
    parser.add_argument("--workers", default="1,2,4")
    parser.add_argument("--asks", type=int, default=20)
    parser.add_argument("--runs", type=int, default=5)
    parser.add_argument("--pages", choices=PAGES, default="small")
    options = parser.parse_args()
    take_pages(options.pages)
    counts = [int(count) for count in options.workers.split(",")]
    programs = {"gufi": (os.path.abspath(options.program), counts)}
    if options.other:
        programs["other"] = (os.path.abspath(options.other), counts[:1])
    with tempfile.TemporaryDirectory() as folder:
        os.symlink(os.path.abspath(options.trace), os.path.join(folder, "trace"))
        commands = commands_of(programs, scripts(folder, options.asks), counts)
        times = interleaved(commands, folder, options.runs)
        texts = {name: are_equal(commands, folder, name) for name in list(QUESTIONS) + ["find of all rows, one shot"]}
    print("| | Workers | Clock | Processor time | Clock, beside one worker's | Processor time, beside one worker's | Peak memory | Texts |")
    print("|---|---|---|---|---|---|---|---|")
    for (program, name, count), (cpu, clock, memory) in times.items():
        if name in QUESTIONS:
            alone, one = times[program, "publish", counts[0]], times[program, name, counts[0]]
            per = lambda value, place: (value - alone[place]) / options.asks
            cells = (per(clock, 1), per(cpu, 0), per(one[1], 1) / per(clock, 1), per(cpu, 0) / per(one[0], 0))
        else:
            one = times[program, name, counts[0]]
            cells = (clock, cpu, one[1] / clock, cpu / one[0])
        print("| %s, %s | %d | %.1f ms | %.1f ms | %.2f times sooner | %.2f | %.0f MB | %s |" % (
            program, name, count, cells[0] * 1e3, cells[1] * 1e3, cells[2], cells[3], memory, texts.get(name, "")))
    return 0 if set(texts.values()) == {"equal"} else 1


if __name__ == "__main__":
    sys.exit(main())
