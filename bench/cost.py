#!/usr/bin/env python3
"""What a run of the gate took: which crates, and how much of the bound is left.

    bench/cost.py                 prints the table of the last run of .ci/run in this clone that could write one, and when that run began
    bench/cost.py FILE            the same of a file that was written by --watch
    bench/cost.py --watch PID FILE
                                  looks once a second at the process PID and all below it until it ends, and keeps in FILE what they took
    bench/cost.py --of PID FILE   prints the table where it is of the process PID, and not older than a minute; else says that it isn't there

A process that ends between two looks is counted by what the last look saw, so each loses half a second on average. The last lines' sum
is the system's own, in which nothing is lost.
"""

import collections
import contextlib
import os
import pathlib
import re
import sys
import time

TOP = pathlib.Path(__file__).resolve().parent.parent
LAST = TOP / ".ci" / "cost"
TICKS = os.sysconf("SC_CLK_TCK")
KINDS = ("proof", "tests", "seed", "edits", "other")
# From nothing, with nothing else running: minutes on the clock by the number of processors, and processor minutes.
MOST_MINUTES = {4: 80, 2: 120}
MOST_PROCESSOR_MINUTES = 230
# Looks between two writings of the file.
WRITES = 5
# How many seconds a table may lack at the end of its run.
MOST_LATE = 60


def processes():
    """Returns of each process its parent, its begin, and the ticks that it used itself, and with the children that it waited for."""
    found = {}
    for name in os.listdir("/proc"):
        if not name.isdigit():
            continue
        try:
            fields = pathlib.Path("/proc", name, "stat").read_text(errors="replace").rpartition(")")[2].split()
        except OSError:
            continue
        used = [int(it) for it in fields[11:15]]
        found[int(name)] = int(fields[1]), int(fields[19]), sum(used[:2]), sum(used)
    return found


def uptime():
    """Returns the seconds since the system began, from which the begin of a process is counted too."""
    return float(pathlib.Path("/proc/uptime").read_text(encoding="ascii").split()[0])


def run_of(pid):
    """Returns what no other process has: the boot that the process is of, its number and its begin; and for how many seconds it runs."""
    found = processes().get(pid)
    if not found:
        sys.exit(f"cost.py: there is no process {pid}")
    boot = pathlib.Path("/proc/sys/kernel/random/boot_id").read_text(encoding="ascii").strip()
    return f"{boot}.{pid}.{found[1]}", uptime() - found[1] / TICKS


def below(found, top):
    """Returns the processes at and below top."""
    kids = collections.defaultdict(list)
    for pid, (parent, *_) in found.items():
        kids[parent].append(pid)
    left, members = [top], []
    while left:
        pid = left.pop()
        if pid in found:
            members.append(pid)
            left += kids[pid]
    return members


def work_of(pid):
    """Returns the crate that the process works on, and which kind of work it is."""
    try:
        words = pathlib.Path("/proc", str(pid), "cmdline").read_bytes().decode(errors="replace").split("\0")
    except OSError:
        return None
    if "--crate-name" not in words:
        return None
    crate = words[words.index("--crate-name") + 1]
    tried = next((it for it in words if re.search(r"/rt-edits-", it)), "")
    if tried:
        return crate, "seed" if tried.endswith("/seed") else "edits"
    if "--test" in words or any(it.endswith("_tests.o") for it in words):
        return crate, "tests"
    return crate, "proof"


def watch(pid, file):
    """Keeps in file, until the process ends, the seconds of each crate by kinds, the whole's, and the minutes on the clock."""
    named, used, total, looks = {}, {}, 0, 0
    run, age = run_of(pid)
    began = int(time.time() - age)
    while True:
        found = processes()
        if pid not in found:
            return
        members = below(found, pid)
        for it in members:
            key = it, found[it][1]
            # (a process is named once it is what it was started for)
            if not named.get(key):
                named[key] = work_of(it)
            used[key] = found[it][2]
        # (who ended is in the sum of the one that waited for him)
        total = max(total, sum(found[it][3] for it in members))
        if looks % WRITES == 0:
            # (what can't be written at one time may be at another)
            with contextlib.suppress(OSError):
                write(file, f"{run} {began}", uptime() - found[pid][1] / TICKS, total / TICKS, named, used)
        looks += 1
        time.sleep(1)


def write(file, run, seconds, total, named, used):
    crates = collections.defaultdict(lambda: dict.fromkeys(KINDS, 0))
    for key, ticks in used.items():
        crate, kind = named[key] or ("", "other")
        crates[crate][kind] += ticks / TICKS
    lines = [f"{seconds:.0f} {total:.0f} {len(os.sched_getaffinity(0))} {run}"]
    lines += [" ".join([crate or "-", *[f"{kinds[it]:.0f}" for it in KINDS]]) for crate, kinds in crates.items()]
    new = f"{file}.{os.getpid()}.new"
    try:
        with open(new, "w", encoding="utf-8") as it:
            it.write("\n".join(lines) + "\n")
        os.replace(new, file)
    except OSError:
        with contextlib.suppress(OSError):
            os.unlink(new)
        raise


def tell(file, pid=None):
    """Prints the ten dearest crates of the run, its sums, and what is left of the bound."""
    try:
        lines = [it.split() for it in pathlib.Path(file).read_text(encoding="utf-8").splitlines()]
        seconds, total, processors = map(int, lines[0][:3])
        run, began = lines[0][3], int(lines[0][4])
    except (OSError, IndexError, ValueError):
        sys.exit(f"cost.py: {file} isn't there, or isn't as .ci/run writes it")
    if pid:
        now, age = run_of(pid)
        if run != now or age - seconds > MOST_LATE:
            sys.exit(f"cost.py: what this run took couldn't be written to {file}")
    else:
        print(time.strftime("the run that began on %Y-%m-%d at %H:%M", time.localtime(began)))
    crates = {name: dict(zip(KINDS, map(int, numbers))) for name, *numbers in lines[1:]}
    print(f"{'processor seconds':24}{'all':>8}" + "".join(f"{it:>8}" for it in KINDS[:4]))
    for name, kinds in sorted(crates.items(), key=lambda it: -sum(it[1].values()))[:10]:
        print(f"{name:24}{sum(kinds.values()):8}" + "".join(f"{kinds[it]:8}" for it in KINDS[:4]))
    sums = {it: sum(kinds[it] for kinds in crates.values()) for it in KINDS}
    print(f"{'all of ' + str(len(crates)):24}{sum(sums.values()):8}" + "".join(f"{sums[it]:8}" for it in KINDS[:4]))
    minutes, worked = max(seconds, 1) / 60, total / 60
    print(f"{minutes:.0f} minutes on {processors} processors, {worked:.0f} processor minutes: {worked / minutes / processors:.0%} of them at work")
    most = MOST_MINUTES.get(processors)
    print(f"left of the bound: {f'{most - minutes:.0f} of {most} minutes, ' if most else ''}{MOST_PROCESSOR_MINUTES - worked:.0f} of {MOST_PROCESSOR_MINUTES} processor minutes (it is of a run from nothing, with nothing else running)")


def main(words):
    if words[:1] == ["--watch"] and len(words) == 3 and words[1].isdigit():
        return watch(int(words[1]), words[2])
    if words[:1] == ["--of"] and len(words) == 3 and words[1].isdigit():
        return tell(words[2], int(words[1]))
    if len(words) > 1 or words[:1] in (["--help"], ["-h"]):
        sys.exit(__doc__.strip())
    return tell(words[0] if words else LAST)


if __name__ == "__main__":
    main(sys.argv[1:])
