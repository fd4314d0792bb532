#!/usr/bin/env python3
"""What lanes win that keep their replies: asks of which nine of ten come again, with `--cache` and without.

  python3 cache.py TRACE PASSWD GROUP ASKS [--program PROGRAM] [--asks 1000] [--capacity 256] [--runs 5] [--pages small] [--long]
                   [--named]

TRACE has fields parted by the byte 0x1E. ASKS is a script whose lines `ask LANE USER START find ..` are taken, whatever stands beside
them: the first tenth of `--asks` distinct ones are asked by one lane ten times over, behind one publication of TRACE. Those whose reply is
longer than a lane keeps are left out, unless `--long` is given. The cost of an ask is the time of that script less the time of a script
that only publishes, over the number of asks. Runs are interleaved, output goes to /dev/null, files are warm, times are medians, and texts
are compared.

With `--named` the same asks are asked by name beside by number, of a passwd and a group file that it makes: 65,536 groups in 4.1 MB. One
user is in three of them, and so are as many others as there are asks; another user is in all. What an ask costs is told without the first
one of a script, and what that one takes beside a number is told apart; so is the peak memory, and what the others' texts are compared by.
Nothing here is a test.
"""
import argparse
import os
import subprocess
import sys
import tempfile

from session import asks_of, interleaved, write
from walk import PAGES, take_pages


# How many bytes a reply has at most that a lane keeps, without its head.
MAX_KEPT = 65_536


def short_ones(asks, words, folder):
    """The asks whose reply a lane keeps."""
    script = write(folder, "each", [b"publish 0 trace\n", b"barrier\n"] + [b"ask 1 " + ask for ask in asks])
    text = subprocess.run(words + [script], cwd=folder, capture_output=True, check=True).stdout
    replies = text.split(b"\nreply ")[1:]
    return [ask for ask, reply in zip(asks, replies) if len(reply) < MAX_KEPT]


# The user who is asked for by name and by number, his groups, and how many groups there are.
UID, GIDS, GROUPS = 2007, (5001, 5002, 5003), 65_536


def users_made(folder, asks):
    """A passwd and a group file: `few` and each `nN` are one user in three groups, `all` is in all groups."""
    names = ["few"] + ["n%d" % number for number in range(asks)]
    passwd = ["%s:x:%d:%d:::" % (name, UID, GIDS[0]) for name in names] + ["all:x:%d:%d:::" % (UID, GIDS[0])]
    members = ",".join(names)
    group = ["g%d:x:%d:all,%s" % (gid, gid, members) for gid in GIDS]
    others = [gid for gid in range(1_000_000, 1_000_000 + GROUPS - len(GIDS))]
    group += ["g%d:x:%d:all,%s" % (gid, gid, ",".join("u%d" % (gid % 50_000 + 7 * place) for place in range(6))) for gid in others]
    write(folder, "users", [("%s\n" % line).encode() for line in passwd])
    write(folder, "groups", [("%s\n" % line).encode() for line in group])
    return os.path.getsize(os.path.join(folder, "groups"))


def named(options, asks, folder):
    """What asks cost by number, by name, by as many names as asks, and by the name of one in all groups."""
    size = users_made(folder, options.asks)
    number = "%d:%s" % (UID, ",".join(map(str, GIDS)))
    whos = {
        "by number": lambda place: number,
        "by one name": lambda place: "few",
        "by as many names as asks": lambda place: "n%d" % place,
        "by a name in all groups": lambda place: "all",
    }
    rests = [ask.split(None, 1)[1] for ask in asks]
    rests = [rests[place % len(rests)] for place in range(options.asks)]
    words = [os.path.abspath(options.program), "session", "--passwd=users", "--group=groups"]
    caches = {"": [], ", replies kept": ["--cache=%d" % options.capacity]}
    commands = {}
    for who, word in whos.items():
        lines = [b"ask 1 %s %s" % (word(place).encode(), rest) for place, rest in enumerate(rests)]
        for count, name in ((1, "one"), (len(lines), "all")):
            script = write(folder, "%s %s" % (name, who), [b"publish 0 trace\n", b"barrier\n"] + lines[:count])
            for cache, word_of_cache in caches.items():
                commands[name, who + cache] = words + word_of_cache + [script]
    times = interleaved(commands, folder, options.runs)
    print("%d groups in %.1f MB, %d asks" % (GROUPS, size / 1e6, options.asks))
    print("| | One ask | Beside by number | The first one more | Peak memory |\n|---|---|---|---|---|")
    for cache in caches:
        cost, first = {}, {}
        for who in whos:
            one, every = times["one", who + cache], times["all", who + cache]
            cost[who], first[who] = (every[0] - one[0]) / (options.asks - 1) * 1e6, one[0]
            beside = (cost[who] / cost["by number"], 1e3 * (first[who] - first["by number"]))
            print("| %s | %.1f us | %.2f | %.1f ms | %.0f MB |" % ((who + cache, cost[who]) + beside + (every[2],)))
    texts = {subprocess.run(commands["all", who], cwd=folder, stdout=subprocess.PIPE, check=True).stdout for who in list(whos)[:3]}
    print("all texts are equal" if len(texts) == 1 else "TEXTS DIFFER")
    return 0 if len(texts) == 1 else 1


def main():
    parser = argparse.ArgumentParser(usage=__doc__)
    for word in ("trace", "passwd", "group", "script"):
        parser.add_argument(word)
    parser.add_argument("--program", default=os.path.join(os.path.dirname(os.path.abspath(__file__)), "..", "crates/gufi/out/gufi"))
    parser.add_argument("--asks", type=int, default=1000)
    parser.add_argument("--capacity", type=int, default=256)
    parser.add_argument("--runs", type=int, default=5)
    parser.add_argument("--pages", choices=PAGES, default="small")
    parser.add_argument("--long", action="store_true")
    parser.add_argument("--named", action="store_true")
    options = parser.parse_args()
    take_pages(options.pages)
    words = [os.path.abspath(options.program), "session", "--passwd=passwd", "--group=group"]
    asks = list(dict.fromkeys(asks_of(options.script, 100 * options.asks)))
    with tempfile.TemporaryDirectory() as folder:
        for name, path in (("trace", options.trace), ("passwd", options.passwd), ("group", options.group)):
            os.symlink(os.path.abspath(path), os.path.join(folder, name))
        if not options.long:
            asks = short_ones(asks, words, folder)
        asks = asks[: options.asks // 10]
        if len(asks) < options.asks // 10:
            sys.exit("%s: too few distinct asks" % options.script)
        if options.named:
            return named(options, asks, folder)
        publish = [b"publish 0 trace\n", b"barrier\n"]
        alone = write(folder, "publish", publish)
        again = write(folder, "again", publish + [b"ask 1 " + ask for ask in asks] * 10)
        commands = {
            "publish": words + [alone],
            "without": words + [again],
            "with": words + ["--cache=%d" % options.capacity, again],
        }
        times = interleaved(commands, folder, options.runs)
        made, kept = (subprocess.run(commands[name], cwd=folder, capture_output=True, check=True) for name in ("without", "with"))
    cost = {name: (times[name][0] - times["publish"][0]) / options.asks * 1e6 for name in ("without", "with")}
    print("one ask: %.1f us, with %d replies kept %.1f us, %.1f times faster" % (cost["without"], options.capacity, cost["with"], cost["without"] / cost["with"]))
    print(kept.stderr.decode().strip() + ", " + ("all texts are equal" if made.stdout == kept.stdout else "TEXTS DIFFER"))
    return 0 if made.stdout == kept.stdout else 1


if __name__ == "__main__":
    sys.exit(main())
