#!/usr/bin/python3 -I
"""Makes the site's index of the tree at ROOT anew, as root, who may read all of it.

  gufi-renew.py [--site FOLDER] [--partial] [--fewer] [--xdev] [--exclude PATH].. [--jobs N] ROOT

FOLDER, which is /srv/gufi, has the program `gufi` and `trace.py`. Each file is made aside, under its name and `.new`, and put in place by its
name once all are whole: `passwd`, `group` and `index`, which the folder's group may read, and `trace` and `left`, which its owner alone
may. Whatever fails or is killed, the index before stands. What `trace.py` left out is told only where it isn't what `left` has.

It refuses a trace of which a part couldn't be read, unless --partial is given, and an index with less than half of the rows of
the one before, unless --fewer is. --xdev, --exclude and --jobs are those of `trace.py`.

The status is 0 where the index was renewed, 1 where that was refused, 2 where a word can't be taken, 75 where another renewal runs.
"""
import argparse
import contextlib
import fcntl
import os
import subprocess
import sys

# The first two are for what a run of the program takes of memory, in large pages; answers don't depend on it.
SETTING = {
    "GLIBC_TUNABLES": "glibc.malloc.hugetlb=1:glibc.malloc.top_pad=67108864",
    "PATH": "/usr/bin:/bin",
    "LC_ALL": "C.UTF-8",
}

MADE = ("passwd", "group", "index", "trace", "left")
SHARED = ("passwd", "group", "index")
HEAD = 24

# Where nothing else is said as many processes walk as there are processors, and no more than these.
MOST_JOBS = 16


class Refused(Exception):
    """The index isn't renewed; it says why."""


class Busy(Exception):
    """Another renewal runs."""


def hold_streams():
    """Keeps the numbers of closed streams from being given to the site's files."""
    for number in range(3):
        try:
            os.fstat(number)
        except OSError:
            os.open(os.devnull, os.O_RDWR)


def tell(text):
    """Says something on standard error. It may be closed or full: what a user makes is no cause to end there."""
    with contextlib.suppress(OSError):
        os.write(2, (text + "\n").encode("ascii", "backslashreplace"))


class Site:
    """The folder of the index, locked against other renewals as long as this one or a process that it started lives."""

    def __init__(self, folder):
        self.folder = folder
        found = os.stat(folder)
        if found.st_uid != os.geteuid() or found.st_mode & 0o022:
            raise Refused("others than who runs this may change %s" % folder)
        self.group = found.st_gid
        self.lock = os.open(self.path("lock"), os.O_RDWR | os.O_CREAT | os.O_NOFOLLOW, 0o600)
        try:
            fcntl.flock(self.lock, fcntl.LOCK_EX | fcntl.LOCK_NB)
        except BlockingIOError as error:
            raise Busy from error

    def path(self, name):
        return os.path.join(self.folder, name)

    def new(self, name):
        return self.path(name + ".new")

    def create(self, name):
        """A new file beside the one of that name, never one that an earlier run left."""
        with contextlib.suppress(FileNotFoundError):
            os.unlink(self.new(name))
        return os.fdopen(os.open(self.new(name), os.O_WRONLY | os.O_CREAT | os.O_EXCL, 0o600), "wb")

    def clear(self):
        for name in MADE:
            with contextlib.suppress(FileNotFoundError):
                os.unlink(self.new(name))

    def run(self, words, **streams):
        """Runs a command that holds the lock too, so that no other renewal begins while it still writes."""
        return subprocess.run(words, stdin=subprocess.DEVNULL, env=SETTING, pass_fds=[self.lock], **streams)


def note_of(text):
    return text.decode("ascii", "backslashreplace").strip()


def make_trace(site, given):
    options = ["--jobs=%d" % given.jobs] + ["--xdev"] * given.xdev + ["--exclude=" + path for path in given.exclude]
    words = [sys.executable, "-I", site.path("trace.py"), *options, "--", given.root]
    with site.create("trace") as trace, site.create("left") as left:
        status = site.run(words, stdout=trace, stderr=left).returncode
    if status == 0 or status == 1 and given.partial:
        return
    with open(site.new("left"), "rb") as left:
        tell(note_of(left.read()))
    if status == 1:
        raise Refused("a part of %s couldn't be read; --partial takes the rest" % given.root)
    raise Refused("trace.py ended with status %d" % status)


def make_index(site):
    with site.create("index") as index:
        ran = site.run([site.path("gufi"), "trace2index", site.new("trace")], stdout=index, stderr=subprocess.PIPE)
    if ran.returncode:
        raise Refused("trace2index ended with status %d: %s" % (ran.returncode, note_of(ran.stderr)))


def make_table(site, table):
    """The system's table, with the first line of each name: the program refuses a name that comes twice."""
    ran = site.run(["getent", table], stdout=subprocess.PIPE)
    if ran.returncode or not ran.stdout:
        raise Refused("getent %s ended with status %d" % (table, ran.returncode))
    first = {}
    for line in ran.stdout.splitlines(keepends=True):
        first.setdefault(line.split(b":", 1)[0], line)
    with site.create(table) as file:
        file.writelines(first.values())


def try_answer(site):
    """Has the new files answer, as root, so that none is put in place that the program would refuse."""
    tables = ["--passwd=" + site.new("passwd"), "--group=" + site.new("group")]
    ran = site.run([site.path("gufi"), "ls", *tables, site.new("index"), "0", "/"], stdout=subprocess.DEVNULL, stderr=subprocess.PIPE)
    if ran.returncode:
        raise Refused("the new index isn't answered from: status %d: %s" % (ran.returncode, note_of(ran.stderr)))


def rows_of(path):
    """How many rows an image has, by its head: a mark of 8 bytes, a limit of 8, and the counts of directories and entries. None is none."""
    try:
        with open(path, "rb") as index:
            head = index.read(HEAD)
    except FileNotFoundError:
        return 0
    is_image = len(head) == HEAD and head.startswith(b"GUFIX\0")
    return int.from_bytes(head[16:20], "little") + int.from_bytes(head[20:24], "little") if is_image else 0


def check_rows(site, given):
    new, old = rows_of(site.new("index")), rows_of(site.path("index"))
    if 2 * new < old and not given.fewer:
        raise Refused("the new index has %d rows, the one before %d; --fewer takes it" % (new, old))


def tell_left(site):
    """Tells what was left out where that changed."""
    texts = []
    for path in (site.new("left"), site.path("left")):
        try:
            with open(path, "rb") as file:
                texts.append(file.read())
        except FileNotFoundError:
            texts.append(b"")
    if texts[0] != texts[1]:
        tell(note_of(texts[0]) if texts[0] else "gufi-renew: nothing is left out any more")


def put_in_place(site):
    for name in MADE:
        with open(site.new(name), "rb") as file:
            if name in SHARED:
                os.fchown(file.fileno(), -1, site.group)
                os.fchmod(file.fileno(), 0o640)
            os.fsync(file.fileno())
    for name in MADE:
        os.rename(site.new(name), site.path(name))
    folder = os.open(site.folder, os.O_RDONLY | os.O_DIRECTORY)
    os.fsync(folder)
    os.close(folder)


def renew(site, given):
    try:
        make_trace(site, given)
        make_index(site)
        for table in ("passwd", "group"):
            make_table(site, table)
        try_answer(site)
        check_rows(site, given)
        tell_left(site)
        put_in_place(site)
    finally:
        site.clear()


def words():
    parser = argparse.ArgumentParser(prog="gufi-renew.py", description="Makes the site's index of the tree at ROOT anew.")
    parser.add_argument("--site", default="/srv/gufi", metavar="FOLDER", help="the folder of the index, /srv/gufi")
    parser.add_argument("--partial", action="store_true", help="take a trace of which a part couldn't be read")
    parser.add_argument("--fewer", action="store_true", help="take an index with less than half of the rows of the one before")
    parser.add_argument("--xdev", action="store_true", help="stay on the file system of ROOT")
    parser.add_argument("--exclude", action="append", default=[], metavar="PATH", help="leave out PATH and all below it")
    parser.add_argument("--jobs", type=int, default=min(os.cpu_count() or 1, MOST_JOBS), metavar="N", help="walk by N processes")
    parser.add_argument("root", metavar="ROOT")
    return parser.parse_args()


def main():
    hold_streams()
    given = words()
    os.umask(0o077)
    try:
        renew(Site(given.site), given)
    except Refused as why:
        tell("gufi-renew: %s. The index isn't renewed" % why)
        return 1
    except OSError as error:
        where = "%s: " % error.filename if error.filename else ""
        tell("gufi-renew: %s%s. The index isn't renewed" % (where, os.strerror(error.errno)))
        return 1
    except Busy:
        tell("gufi-renew: another renewal runs")
        return 75
    return 0


if __name__ == "__main__":
    sys.exit(main())
