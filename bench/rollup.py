#!/usr/bin/env python3
"""Processor time and peak memory of `gufi rollup`, and of a whole listing by `gufi find`, under several limits over one trace.

  python3 rollup.py TRACE [--program PROGRAM] [--user 2007:5001,5002] [--limits 0,100,10000] [--pages small] [--runs 5]

What roll-up costs is the difference between `rollup` under a limit and under 0, under which nothing is rolled up. Runs are
interleaved, output goes to /dev/null, files are warm, times are medians of user and system time. Nothing here is a test.
"""
import argparse
import os
import subprocess

from walk import PAGES, interleaved, take_pages


def report(command):
    """What a roll-up comes to, as the command says it on its second stream."""
    run = subprocess.run(command, stdout=subprocess.DEVNULL, stderr=subprocess.PIPE, text=True, check=True)
    return run.stderr.strip()


def main():
    here = os.path.dirname(os.path.abspath(__file__))
    parser = argparse.ArgumentParser()
    parser.add_argument("trace")
    parser.add_argument("--program", default=os.path.join(here, "..", "crates", "gufi", "out", "gufi"))
    parser.add_argument("--user", default="2007:5001,5002")
    parser.add_argument("--limits", default="0,100,10000")
    parser.add_argument("--pages", choices=PAGES, default="small")
    parser.add_argument("--runs", type=int, default=5)
    given = parser.parse_args()
    take_pages(given.pages)
    commands = {}
    for limit in given.limits.split(","):
        option = "--limit=%s" % limit
        commands["rollup under %s" % limit] = [given.program, "rollup", option, given.trace]
        commands["find under %s as %s" % (limit, given.user)] = [given.program, "find", option, given.trace, given.user, "/"]
        commands["find under %s as root" % limit] = [given.program, "find", option, given.trace, "0", "/"]
    for name, (_, time, peak) in interleaved(commands, given.runs).items():
        text = "%-36s %8.3f s  %6.0f MB" % (name, time, peak)
        if name.startswith("rollup"):
            text += "  " + report(commands[name])
        print(text)


if __name__ == "__main__":
    main()
