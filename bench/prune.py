#!/usr/bin/env python3
"""What it wins to pass over what sums rule out: asks over a standing snapshot, beside the same asks where nothing can be ruled out.

  python3 prune.py TRACE [--program PROGRAM] [--asker 0] [--limit 0] [--uid 2007] [--asks 20] [--runs 5] [--pages small]

TRACE has fields parted by the byte 0x1E. A script publishes it, rolled up under a limit; behind a barrier one lane asks one question so
many times from `/`, as root or as another user, whom the sum of what is below a directory serves only where that is rolled up. Beside each
question stands the same with `-o -links +4000000000` behind it, which no row meets, and of which sums tell nothing: so each directory is
looked at. The cost of an ask is the time of that script less the time of a script that publishes alone, over the number of asks. Runs are
interleaved, output goes to /dev/null, files are warm, times are medians of processor time, and texts are compared. Nothing here is a test.
"""
import argparse
import os
import subprocess
import sys
import tempfile

from session import interleaved, write
from walk import PAGES, take_pages

# What no row meets, and no sum tells.
NEVER = "-links +4000000000"


def questions(uid):
    return {
        "-user %s" % uid: "-user %s" % uid,
        "-type f -size +64M": "-type f -size +64M",
        "-type l": "-type l",
        "-size +1M, where each directory may match": "-size +1M",
        "! -user 4294967294, where all match": "! -user 4294967294",
    }


def scripts(folder, limit, asker, asked, asks):
    """A script that publishes alone, and for each question one of it and one of it where nothing is ruled out."""
    publish = [("publish %s trace\n" % limit).encode(), b"barrier\n"]
    made = {"publish": write(folder, "publish", publish[:1])}
    for place, (name, words) in enumerate(asked.items()):
        for side, text in (("", words), ("beside ", "( %s ) -o %s" % (words, NEVER))):
            ask = ("ask 1 %s / total %s\n" % (asker, text)).encode()
            made[side + name] = write(folder, "asks%d%s" % (place, side.strip()), publish + [ask] * asks)
    return made


def main():
    parser = argparse.ArgumentParser(usage=__doc__)
    here = os.path.dirname(os.path.abspath(__file__))
    parser.add_argument("trace")
    parser.add_argument("--program", default=os.path.join(here, "..", "crates", "gufi", "out", "gufi"))
    parser.add_argument("--asker", default="0")
    parser.add_argument("--limit", default="0")
    parser.add_argument("--uid", default="2007")
    parser.add_argument("--asks", type=int, default=20)
    parser.add_argument("--runs", type=int, default=5)
    parser.add_argument("--pages", choices=PAGES, default="small")
    given = parser.parse_args()
    take_pages(given.pages)
    asked = questions(given.uid)
    with tempfile.TemporaryDirectory() as folder:
        os.symlink(os.path.abspath(given.trace), os.path.join(folder, "trace"))
        made = scripts(folder, given.limit, given.asker, asked, given.asks)
        commands = {name: [os.path.abspath(given.program), "session", script] for name, script in made.items()}
        for name in asked:
            texts = [subprocess.run(commands[side + name], cwd=folder, capture_output=True, check=True).stdout for side in ("", "beside ")]
            if texts[0] != texts[1]:
                sys.exit("%s: the texts differ" % name)
        times = interleaved(commands, folder, given.runs)
    alone = times["publish"][0]
    for name in asked:
        cost, beside = ((times[side + name][0] - alone) / given.asks for side in ("", "beside "))
        print("%-45s %9.3f ms an ask, %9.3f ms where nothing is ruled out, ratio %.3f" % (name, cost * 1e3, beside * 1e3, cost / beside))


if __name__ == "__main__":
    main()
