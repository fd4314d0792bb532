#!/usr/bin/env python3
"""What access control lists cost: a roll-up of 262,144 directories whose lists are of eight kinds, or all different, beside one without.

  python3 acls.py [--program PROGRAM] [--rollups 20] [--runs 5] [--pages small]

It makes seven traces of the same directories: all with one mode; with one of eight modes and owners, so that a directory mostly differs
from the one that it lies in; with one of eight modes that each let in whom that of the directory above does, so that all pairs differ and
all are compared; with one of eight lists of six entries, the same for all at and below a directory of the first level; with one
of these as it comes; with one of eight lists that each let in more than the list of the directory above, so that here too all pairs differ
and all are compared; and each with a list of its own of 32 named entries. A script publishes one, and behind a barrier rolls it up so many
times, each under another limit. The cost of a roll-up is the time of that script less the time of a script that publishes alone, over
their number. A directory isn't compared once one below or beside it isn't covered, so few pairs are compared where lists come as they
like. Runs are interleaved, output goes to /dev/null, files are warm, times are medians of processor time. The memory of a search over
each trace stands beside. Nothing here is a test.
"""
import argparse
import os
import random
import subprocess
import tempfile

from session import interleaved, once, write
from walk import PAGES, take_pages

WIDE, DEEP = 511, 512
DIRS = 1 + WIDE + WIDE * DEEP


def kind_of_list(kind):
    return "acl/user::rwx,user:%d:r-x,group::r-x,group:%d:r-x,mask::r-x,other::---" % (2000 + kind, 5000 + kind % 4)


def wider_list(kind):
    """A list that lets in all whom those of lesser kinds let in, and a user and a group more."""
    users = ",".join("user:%d:r-x" % (2000 + n) for n in range(kind + 1))
    groups = ",".join("group:%d:r-x" % (5000 + n) for n in range(kind + 1))
    return "acl/user::rwx,%s,group::r-x,%s,mask::r-x,other::---" % (users, groups)


# Owner, then group, then bits that let nobody else list.
WIDER_MODES = (0o700, 0o750, 0o751, 0o752, 0o770, 0o771, 0o772, 0o774)


def wider_kind(path, rng):
    """A kind of eight that is greater the deeper a directory lies."""
    return (0, 1 + rng.randrange(3), 4 + rng.randrange(4))[path.count("/") - 1]


def own_list(place):
    """A list of 16 users and 16 groups that no other directory has."""
    users = ",".join("user:%d:r-x" % (2000 + place * 16 + n) for n in range(16))
    groups = ",".join("group:%d:r-x" % (5000 + place * 16 + n) for n in range(16))
    return "acl/user::rwx,%s,group::r-x,%s,mask::r-x,other::---" % (users, groups)


def fields(path, form, place, rng):
    mode, uid, acl = 0o750, 1001, ""
    if form == "eight modes":
        kind = rng.randrange(8)
        mode, uid = (0o750, 0o755, 0o700, 0o770)[kind % 4], 1001 + kind // 4
    elif form == "eight lists by subtree":
        acl = kind_of_list(int(path.split("/")[2][1:]) % 8 if path.count("/") > 1 else 0)
    elif form == "eight lists":
        acl = kind_of_list(rng.randrange(8))
    elif form == "eight lists wider and wider":
        acl = wider_list(wider_kind(path, rng))
    elif form == "eight modes wider and wider":
        mode = WIDER_MODES[wider_kind(path, rng)]
    elif form == "lists that all differ":
        acl = own_list(place)
    parts = [path, "d", str(place + 1), str(mode), "2", str(uid), "500", "4096", "4096", "8", "10", "20", "30", ""]
    return "\x1e".join(parts + (["", acl] if acl else [])) + "\n"


def make_trace(path, form):
    rng = random.Random(1)
    with open(path, "w") as trace:
        trace.write(fields("/r", form, 0, rng))
        place = 1
        for first in range(WIDE):
            trace.write(fields("/r/d%03d" % first, form, place, rng))
            place += 1
            for second in range(DEEP):
                trace.write(fields("/r/d%03d/e%03d" % (first, second), form, place, rng))
                place += 1
    assert place == DIRS


def main():
    parser = argparse.ArgumentParser(usage=__doc__)
    here = os.path.dirname(os.path.abspath(__file__))
    parser.add_argument("--program", default=os.path.join(here, "..", "crates", "gufi", "out", "gufi"))
    parser.add_argument("--rollups", type=int, default=20)
    parser.add_argument("--runs", type=int, default=5)
    parser.add_argument("--pages", choices=PAGES, default="small")
    given = parser.parse_args()
    take_pages(given.pages)
    program = os.path.abspath(given.program)
    forms = ("one mode", "eight modes", "eight modes wider and wider", "eight lists by subtree", "eight lists", "eight lists wider and wider", "lists that all differ")
    with tempfile.TemporaryDirectory() as folder:
        commands = {}
        for number, form in enumerate(forms):
            make_trace(os.path.join(folder, "trace%d" % number), form)
            publish = b"publish 0 trace%d\n" % number
            rollups = [b"rollup %d\n" % (limit + 1) for limit in range(given.rollups)]
            commands["publish " + form] = [program, "session", write(folder, "publish%d" % number, [publish])]
            commands["roll " + form] = [program, "session", write(folder, "roll%d" % number, [publish, b"barrier\n"] + rollups)]
        times = interleaved(commands, folder, given.runs)
        cost = {form: (times["roll " + form][0] - times["publish " + form][0]) / given.rollups for form in forms}
        for number, form in enumerate(forms):
            peak = once([program, "find", "trace%d" % number, "1001", "/"], folder)[2]
            print("%-28s %8.1f ms a roll-up, %6.2f s to publish, %4.0f MB for a find" % (form, cost[form] * 1e3, times["publish " + form][0], peak))
        for lists in ("eight lists by subtree", "eight lists", "eight lists wider and wider"):
            beside = ", ".join("%s %.2f" % (modes, cost[lists] / cost[modes]) for modes in forms[:3])
            print("%s beside %s" % (lists, beside))


if __name__ == "__main__":
    main()
