#!/usr/bin/env python3
"""Runs deeply nested patterns and a long expression under limits of address space, and says how each run ended.

    bench/stack.py PROGRAM [FROM TO STEP]       limits in KiB; 3,600 to 9,400 by 8 without

No run may end by a signal: where memory is short the program answers 7. It ends with status 1 where one did.
"""

import collections
import os
import pathlib
import resource
import subprocess
import sys
import tempfile

LEVELS = 249
PATTERNS = {
    "a byte": "a",
    "groups": "(" * LEVELS + "a" + ")" * LEVELS,
    "brackets": "[a" * 124 + "]" * 124,
    "choices": "(a|" * LEVELS + "b" + ")" * LEVELS,
    "repetitions": "(a{1,2}" * 120 + ")" * 120,
}


def ended(words, limit):
    """Returns the status of a run whose address space has so many KiB, or None where the system can't begin it."""

    def shrink():
        resource.setrlimit(resource.RLIMIT_AS, (limit * 1024, limit * 1024))
        resource.setrlimit(resource.RLIMIT_CORE, (0, 0))

    try:
        run = subprocess.run(words, preexec_fn=shrink, stdout=subprocess.DEVNULL, stderr=subprocess.DEVNULL, check=False)
    except OSError:
        return None
    return run.returncode


def main(words):
    if len(words) not in (1, 4):
        sys.exit(__doc__.strip())
    program, limits = os.path.abspath(words[0]), range(*(int(it) for it in words[1:] or (3600, 9400, 8)))
    broken = 0
    with tempfile.TemporaryDirectory() as room:
        trace = pathlib.Path(room, "trace")
        trace.write_bytes(subprocess.run([program, "gen", "1"], stdout=subprocess.PIPE, check=True).stdout)
        select = "SELECT name FROM entries WHERE name REGEXP '{}'"
        runs = {name: ["query", trace, "0", "/", select.format(it)] for name, it in PATTERNS.items()}
        runs["9,002 words"] = ["find", trace, "0", "/", *["-name", "a", "-o"] * 3000, "-name", "b"]
        for name, command in runs.items():
            ends = collections.Counter(ended([program, *command], it) for it in limits)
            # (127: the system can't begin the program)
            told = {it: ends[it] for it in sorted(ends, key=str)}
            signals = sum(count for status, count in ends.items() if status is not None and status < 0)
            print(f"{name:14}{len(limits)} limits, statuses {told}, ended by a signal {signals}")
            broken += signals
    sys.exit(1 if broken else 0)


if __name__ == "__main__":
    main(sys.argv[1:])
