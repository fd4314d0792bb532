#!/usr/bin/env python3
"""Tries renewals of a site's index, as root: python3 renewal.py [--program PROGRAM] [--flood] [FOLDER]

In a new folder in FOLDER, which is /dev/shm and lies on a file system with access control lists and users' attributes, it makes a tree,
and in a folder of his own a user makes all that a trace can't hold, beside what it can just hold. Then it looks whether

- the program takes each thing at its bound, and refuses it one past that;
- the trace has what is at the bound and lacks what is past it, with all below, with the same text by one process and by several;
- the renewal goes through, and tells what was left out once, not again while it is the same;
- a renewal that is killed at each of its steps, and at moments all over it, leaves the index before or the whole new one;
- one on a full disk, or by a user who may have few processes, does so too;
- two at once don't meet, and a trace that breaks or lacks a part, and an index of less than half of the rows, are refused;
- a folder that is swapped for a link while it is walked leads the walk nowhere, and no mode stands without its list;
- a trace that is made with few open files is whole, or its status says that it isn't.

With --flood the user makes 300,000 directories too, more than an index takes. The status is 1 where one of these doesn't hold, which is
told. It needs setpriv, prlimit and GNU find.
"""
import argparse
import contextlib
import ctypes
import os
import resource
import shutil
import signal
import socket
import struct
import subprocess
import sys
import tempfile
import time

TOP = os.path.dirname(os.path.dirname(os.path.abspath(__file__)))
TRACE = os.path.join(TOP, "examples", "trace.py")
RENEW = os.path.join(TOP, "examples", "gufi-renew.py")
USER = 2001

# Of the system's call renameat2: each of two files gets the other's name, at once.
EXCHANGE = 2

# Kills the renewal as it begins its step of this number: what it does with a file of the site, or a command that it starts.
KILLER = """
import os, runpy, signal, sys
number, site, script = int(sys.argv[1]), sys.argv[2], sys.argv[3]
steps = 0
def look(event, words):
    global steps
    if event == "subprocess.Popen" or event in ("open", "os.remove", "os.rename") and str(words[0]).startswith(site) or event in ("os.chown", "os.chmod"):
        steps += 1
        if steps == number:
            os.kill(os.getpid(), signal.SIGKILL)
sys.addaudithook(look)
sys.argv = sys.argv[3:]
runpy.run_path(script, run_name="__main__")
"""


class Check:
    """Counts what was looked at, and tells what doesn't hold."""

    def __init__(self):
        self.looked = self.failed = 0

    def that(self, holds, what):
        self.looked += 1
        if not holds:
            self.failed += 1
            print("doesn't hold: " + what)


def as_user(made, folder):
    """Does something as the user, in a folder of his."""
    child = os.fork()
    if not child:
        status = 1
        try:
            os.chdir(folder)
            os.setgroups([])
            os.setgid(USER)
            os.setuid(USER)
            os.umask(0o022)
            made()
            status = 0
        finally:
            os._exit(status)
    if os.waitpid(child, 0)[1]:
        raise SystemExit("renewal.py: the user couldn't make what he was to: " + made.__name__)


def access_list(named, twice=False):
    """The bytes of a list with so many named users, the first of them perhaps twice, as the system takes them."""
    entries = [(1, 7, 0xFFFFFFFF)] + [(2, 5, 3000 + number) for number in range(named)]
    if twice:
        entries.insert(1, (2, 7, 3000))
    entries += [(4, 5, 0xFFFFFFFF), (16, 5, 0xFFFFFFFF), (32, 5, 0xFFFFFFFF)]
    return struct.pack("<I", 2) + b"".join(struct.pack("<HHI", *entry) for entry in entries)


def give_list(path, named, twice=False):
    os.setxattr(path, "system.posix_acl_access", access_list(named, twice))


def touch(path):
    os.close(os.open(path, os.O_CREAT | os.O_WRONLY))


def make_names():
    touch(b"two\nlines")
    touch(b"record\x1eseparator")
    os.mkdir(b"folder\n")
    touch(b"folder\n/below")
    os.symlink(b"a\nb", b"odd-link")
    os.symlink(b"a\x1eb", b"odd-link2")
    os.symlink(b"x" * 4095, b"long-link")
    touch(b"n" * 255)
    for byte in range(1, 256):
        if byte not in (10, 0x1E, 47):
            touch(b"byte" + bytes([byte]))


def make_kinds():
    os.mkfifo("pipe")
    with socket.socket(socket.AF_UNIX) as made:
        made.bind("socket")
    touch("sparse")
    os.truncate("sparse", 1 << 42)
    touch("old")
    os.utime("old", (-5000000000, -1))
    os.link("old", "old-too")
    touch("far")
    os.utime("far", ns=((2**63 - 1) * 10**9, -(2**63) * 10**9))
    os.mkdir("shut")
    touch("shut/hidden")
    os.chmod("shut", 0)


def make_depths():
    """A chain of 300 directories, and one of 10,000."""
    for length in (300, 10000):
        own = os.open(".", os.O_RDONLY)
        os.mkdir("chain%d" % length)
        os.chdir("chain%d" % length)
        for _ in range(length - 1):
            os.mkdir("d")
            os.chdir("d")
        touch("last")
        os.fchdir(own)
        os.close(own)


def make_paths():
    """Directories of 250 bytes a name, past any path that the system takes at once."""
    own = os.open(".", os.O_RDONLY)
    for number in range(30):
        name = "%03d" % number + "p" * 247
        os.mkdir(name)
        os.chdir(name)
        touch("f")
    os.fchdir(own)
    os.close(own)


def make_lists():
    for name, named, twice in (("list32", 32, False), ("list33", 33, False), ("list-twice", 2, True)):
        os.mkdir(name)
        touch(name + "/below")
        give_list(name, named, twice)
    for name, named in (("file32", 32), ("file33", 33)):
        touch(name)
        give_list(name, named)
    os.mkdir("default")
    os.setxattr("default", "system.posix_acl_default", access_list(3))
    os.mkdir("default/heir")


def make_attributes():
    for name, attributes in {
        "many": ["user.%03d%s" % (number, "a" * 240) for number in range(20)],
        "odd": ["user.new\nline", "user.record\x1eseparator", "user.a,b", "user.plain"],
        "long": ["user." + "a" * 250],
    }.items():
        touch(name)
        for attribute in attributes:
            os.setxattr(name, attribute, b"1")


def make_flood():
    for number in range(300000):
        if number % 1000 == 0:
            os.mkdir("flood%03d" % (number // 1000))
        os.mkdir("flood%03d/%d" % divmod(number, 1000))


def mount_own(folder):
    """A file system that the user mounted: root may not look at it. Gives nothing where the system has no such file systems."""
    try:
        device = os.open("/dev/fuse", os.O_RDWR)
    except OSError:
        return None
    options = "fd=%d,rootmode=40000,user_id=%d,group_id=%d" % (device, USER, USER)
    words = ["mount", "-i", "-t", "fuse", "-o", options, "gufi-check", folder]
    if subprocess.run(words, pass_fds=[device], stderr=subprocess.DEVNULL).returncode:
        os.close(device)
        return None
    return device


def make_tree(top):
    """A tree of other people's files, with the user's folder in the midst of them."""
    os.mkdir(top)
    for number in range(40):
        folder = os.path.join(top, "%s%02d" % ("az"[number % 2], number))
        os.mkdir(folder)
        for file in range(50):
            touch(os.path.join(folder, "f%d" % file))
    own = os.path.join(top, "m")
    os.mkdir(own)
    os.chown(own, USER, USER)
    for made in (make_names, make_kinds, make_depths, make_paths, make_lists, make_attributes):
        folder = os.path.join(own, made.__name__)
        os.mkdir(folder)
        os.chown(folder, USER, USER)
        as_user(made, folder)
    return own


class Site:
    """A site of its own."""

    def __init__(self, work, program):
        self.folder = os.path.join(work, "site")
        os.mkdir(self.folder, 0o750)
        os.chown(self.folder, 0, 4321)
        os.symlink(os.path.abspath(program), self.path("gufi"))
        shutil.copy(TRACE, self.folder)

    def path(self, name):
        return os.path.join(self.folder, name)

    def words(self, *words):
        return [RENEW, "--site", self.folder, "--jobs", "2", *words]

    def start(self, *words, before=(), **how):
        return subprocess.Popen([sys.executable, "-I", *before, *self.words(*words)], stdout=subprocess.PIPE, stderr=subprocess.STDOUT, **how)

    def renew(self, *words):
        """A renewal's status, and what it told."""
        ran = self.start(*words)
        told = ran.communicate()[0].decode()
        return ran.returncode, told

    def index(self):
        with open(self.path("index"), "rb") as file:
            return file.read()

    def put(self, index):
        with open(self.path("index"), "wb") as file:
            file.write(index)

    def find(self, *words):
        return subprocess.run([self.path("gufi"), "find", self.path("index"), *words], stdout=subprocess.PIPE).stdout

    def wait(self):
        """Waits until no process of an earlier renewal holds the lock."""
        subprocess.run(["flock", self.path("lock"), "true"], check=True)


def line(path, kind="f", link="", names="", acl=""):
    return "\x1e".join([path, kind, "1", "420", "1", "0", "0", "0", "4096", "0", "0", "0", "0", link, names, acl]) + "\n"


def acl(named):
    return "acl/user::rwx,%s,group::r-x,mask::r-x,other::---" % ",".join("user:%d:r-x" % (3000 + number) for number in range(named))


def check_bounds(check, work, program):
    """What the program says of a line at each bound, and of one past it."""
    file = os.path.join(work, "bounds")
    full, over = ("/" + "/".join(["p" * size for size in [255] * 15 + [last, 127]]) for last in (127, 128))
    chain = "/".join(["d"] * 255)
    bounds = {
        "name": (line("/r/" + "n" * 255), line("/r/" + "n" * 256)),
        "path": (line(full), line(over)),
        "names of a path": (line("/" + chain + "/f"), line("/" + chain + "/d/f")),
        "link": (line("/r/l", "l", "x" * 4096), line("/r/l", "l", "x" * 4097)),
        "name of an attribute": (line("/r/f", names="xattrs/" + "a" * 255), line("/r/f", names="xattrs/" + "a" * 256)),
        "names of attributes": (line("/r/f", names="xattrs/" + "," * 4096), line("/r/f", names="xattrs/" + "," * 4097)),
        "entries of a list": (line("/r/f", acl=acl(32)), line("/r/f", acl=acl(33))),
    }
    for what, texts in bounds.items():
        for wanted, text in zip((0, 5), texts):
            with open(file, "w") as trace:
                parent = text.split("\x1e")[0].rsplit("/", 1)[0]
                parts = parent.split("/")[1:]
                trace.write("".join(line("/" + "/".join(parts[: count + 1]), "d") for count in range(len(parts))))
                trace.write(text)
            status = subprocess.run([program, "trace2index", file], stdout=subprocess.DEVNULL, stderr=subprocess.DEVNULL).returncode
            check.that(status == wanted, "%s: status %d of the program, not %d" % (what, status, wanted))
    print("bounds: %d, each tried at it and one past it" % len(bounds))


def trace(top, *words):
    ran = subprocess.run([sys.executable, "-I", TRACE, *words, top], stdout=subprocess.PIPE, stderr=subprocess.PIPE)
    return ran.returncode, ran.stdout, ran.stderr


def check_trace(check, top, own):
    """What the trace has of the user's folder."""
    # What reads a link sets its access time.
    trace(top)
    status, text, told = trace(top)
    check.that(status == 0, "status %d of trace.py: %s" % (status, told))
    for jobs in ("2", "4", "7"):
        check.that(trace(top, "--jobs", jobs) == (status, text, told), "another text by %s processes" % jobs)
    rows = {line.split(b"\x1e")[0]: line.split(b"\x1e") for line in text.split(b"\n")[:-1]}
    base = os.fsencode(own)
    here = [b"make_names/" + b"n" * 255, b"make_names/long-link", b"make_names/byte\xff", b"make_kinds/pipe", b"make_kinds/socket", b"make_kinds/far"]
    here += [b"make_kinds/shut/hidden", b"make_lists/list32/below", b"make_lists/file32", b"make_lists/default/heir", b"make_attributes/many"]
    here += [b"make_depths/chain300", b"make_depths/chain10000", b"make_attributes/odd", b"make_attributes/long"]
    for path in here:
        check.that(base + b"/" + path in rows, "%s is in the trace" % path)
    gone = [b"make_names/folder", b"make_names/odd-link", b"make_names/odd-link2", b"make_lists/list33", b"make_lists/list-twice", b"make_lists/file33"]
    for path in gone:
        check.that(not any(row.startswith(base + b"/" + path) for row in rows), "%s isn't in the trace" % path)
    depths = [row.count(b"/") for row in rows]
    check.that(max(depths) == 256, "the deepest path has 256 names, not %d" % max(depths))
    longest = max(map(len, rows))
    check.that(4096 - 251 < longest <= 4096, "the longest path has %d bytes" % longest)
    check.that(rows[base + b"/make_attributes/odd"][14] == b"xattrs/user.plain", "names of attributes that a trace can't hold are left out")
    check.that(len(rows[base + b"/make_attributes/many"][14]) == 7 + 16 * 249 - 1, "of names of attributes those have a place that fit")
    check.that(rows[base + b"/make_lists/default/heir"][14:] != [], "an heir has its access list")
    check.that(rows[base + b"/make_lists/default"][14:] == [], "a default list is no access list")
    print("trace: %d rows, %s" % (len(rows), ", ".join(line for line in told.decode().split("\n") if " left out" in line and "trace.py: left" not in line)))


def make_wide(folder, depth):
    os.mkdir(folder)
    touch(folder + "/f")
    for number in range(6 if depth else 0):
        make_wide("%s/d%d" % (folder, number), depth - 1)


def check_descriptors(check, work):
    """Where the system allows few open files, the trace is whole, or its status says that it isn't."""
    top, hasty = os.path.join(work, "wide"), os.path.join(work, "hasty.py")
    make_wide(top, 4)
    with open(TRACE) as script, open(hasty, "w") as changed:
        text = script.read()
        changed.write(text.replace("TURN = 0.1\n", "TURN = 0.0005\n"))
    check.that("TURN = 0.1\n" in text, "turns of processes can be made short")
    whole = trace(top)[1]
    found = []
    for most in (6, 8, 10, 12, 14, 16, 18, 20, 24, 32, 64, 1024, 4096):
        limit = lambda: resource.setrlimit(resource.RLIMIT_NOFILE, (most, most))
        words = [sys.executable, "-I", hasty, "--jobs=4", top]
        ran = subprocess.run(words, stdout=subprocess.PIPE, stderr=subprocess.DEVNULL, preexec_fn=limit)
        found.append("%d: %d" % (most, ran.returncode))
        check.that(ran.returncode or ran.stdout == whole, "%d open files: status 0, and a part is lacking" % most)
    check.that(ran.returncode == 0, "%d open files are enough" % most)
    print("open files, and the status of a trace with so many: %s" % ", ".join(found))


def check_races(check, work):
    """While a folder is swapped for a link to another one, and files come and go, nothing of the other one is in the trace."""
    top, outside = os.path.join(work, "race"), os.path.join(work, "outside")
    for folder in (top, outside, outside + "/deep", top + "/folder", top + "/folder/deep"):
        os.mkdir(folder)
    touch(outside + "/deep/secret")
    os.symlink(outside, top + "/link")
    swapper = os.fork()
    if not swapper:
        while True:
            for one, other in (("folder", "aside"), ("link", "folder"), ("folder", "link"), ("aside", "folder")):
                os.rename("%s/%s" % (top, one), "%s/%s" % (top, other))
            touch(top + "/comes")
            os.unlink(top + "/comes")
    met = 0
    for number in range(20):
        status, text, told = trace(top, "--jobs", str(1 + number % 2))
        check.that(status == 0 and b"secret" not in text, "a swapped folder leads out of the tree, or status %d: %s" % (status, told))
        met += b"/folder\x1ed" in text
    os.kill(swapper, signal.SIGKILL)
    os.waitpid(swapper, 0)
    check.that(0 < met, "the folder was met")
    print("races: 20 traces while a folder was swapped for a link, met as a folder in %d" % met)


@contextlib.contextmanager
def meanwhile(done, *several):
    """Does something again and again, by a process for each of several words, while what stands below it goes on."""
    children = []
    try:
        for word in several:
            children.append(os.fork())
            if not children[-1]:
                repeat(done, word)
        yield
    finally:
        for child in children:
            os.kill(child, signal.SIGKILL)
            os.waitpid(child, 0)


def repeat(done, word):
    try:
        while True:
            done(word)
    finally:
        os._exit(1)


def check_lists(check, work):
    """While a folder's list is given and taken away, its mode never stands in the trace without it: the group's bits are the mask then."""
    top = os.path.join(work, "lists")
    os.mkdir(top)
    os.mkdir(top + "/folder", 0o700)
    texts = [access_list(named).replace(struct.pack("<HHI", 4, 5, 0xFFFFFFFF), struct.pack("<HHI", 4, 0, 0xFFFFFFFF)) for named in (1, 0)]
    # Without names, and without a mask, the list is what the mode says, and the system keeps none.
    whole, none = texts[0], texts[1].replace(struct.pack("<HHI", 16, 5, 0xFFFFFFFF), b"")

    def toggle(pause):
        for text in (whole, none):
            os.setxattr(top + "/folder", "system.posix_acl_access", text)
            time.sleep(pause) if pause else None

    bare = listed = left = 0
    for pause in 20 * (0, 0.001):
        with meanwhile(toggle, pause):
            status, text, told = trace(top)
        check.that(status == 0, "a list that comes and goes: status %d: %s" % (status, told))
        fields = text.split(b"\n")[-2].split(b"\x1e")
        if fields[0].endswith(b"/folder"):
            has_list = len(fields) == 16
            check.that(has_list or not int(fields[3]) & 0o070, "a mode without its list")
            listed, bare = listed + has_list, bare + (not has_list)
        else:
            check.that(b"left out" in told, "a folder that is left out is told")
            left += 1
    check.that(listed and bare, "the list was met, and its want")
    print("lists: 40 traces while a list was given and taken away, met with it in %d, without in %d, left out in %d" % (listed, bare, left))


def check_swaps(check, work):
    """While a file with a list has the name of one without, and that one its, the line of the first is never without its list."""
    top = os.path.join(work, "swaps")
    os.mkdir(top)
    listed = set()
    for number in range(40):
        for name in ("one", "other"):
            touch("%s/%s%d" % (top, name, number))
        give_list("%s/one%d" % (top, number), 1)
        listed.add(os.stat("%s/one%d" % (top, number)).st_ino)

    exchange = ctypes.CDLL(None).renameat2

    def swap(numbers):
        for number in numbers:
            one, other = (os.fsencode("%s/%s%d" % (top, name, number)) for name in ("one", "other"))
            if exchange(0, one, 0, other, EXCHANGE):
                raise OSError("renameat2")

    met = 0
    with meanwhile(swap, *(range(first, 40, 4) for first in range(4))):
        for _ in range(40):
            status, text, told = trace(top)
            check.that(status == 0, "swapped files: status %d: %s" % (status, told))
            for fields in [line.split(b"\x1e") for line in text.split(b"\n")[1:-1]]:
                if int(fields[2]) in listed:
                    met += 1
                    check.that(len(fields) == 16, "a file's line without its list")
    print("swaps: 40 traces while files with and without a list were swapped, %d lines of the first" % met)


def check_unread(check, work, site, top):
    """A part that can't be read: seen as a user, who hasn't the rights."""
    os.mkdir(work + "/part")
    os.mkdir(work + "/part/shut", 0o700)
    words = ["setpriv", "--reuid=%d" % USER, "--regid=%d" % USER, "--clear-groups", sys.executable, "-I", TRACE, work + "/part"]
    ran = subprocess.run(words, stdout=subprocess.PIPE, stderr=subprocess.PIPE)
    check.that(ran.returncode == 1 and b"not read" in ran.stderr and ran.stdout.count(b"\n") == 2, "a folder that can't be read: status 1, and its line")
    # As in a trace that lacks a part, or one that breaks.
    os.rename(site.path("trace.py"), site.path("sound"))
    for status, options, wanted in ((1, [], 1), (1, ["--partial"], 0), (3, ["--partial"], 1), (4, [], 1), (-9, ["--partial"], 1)):
        with open(site.path("trace.py"), "w") as script:
            end = "os.kill(os.getpid(), 9)" if status < 0 else "sys.exit(%d)" % status
            script.write("import os, subprocess, sys\nsubprocess.run([%r, '-I', %r, *sys.argv[1:]])\n%s\n" % (sys.executable, TRACE, end))
        before = site.index()
        found, told = site.renew(*options, top)
        check.that(found == wanted, "trace.py ends with %d, options %s: status %d: %s" % (status, options, found, told))
        check.that(site.index() == before, "the index stands")
    os.rename(site.path("sound"), site.path("trace.py"))
    with open(site.path("left"), "rb") as file:
        check.that(file.read() != b"", "what was left out is kept")
    with contextlib.suppress(FileNotFoundError):
        os.unlink(site.path("left"))
        site.renew(top)


def check_renewal(check, site, top):
    """The renewal goes through, and tells what it left out once."""
    status, told = site.renew(top)
    check.that(status == 0 and "left out" in told, "the first renewal: status %d: %s" % (status, told))
    status, told = site.renew(top)
    check.that(status == 0 and told == "", "the second one tells nothing: status %d: %s" % (status, told))
    touch(top + "/b\nc")
    status, told = site.renew(top)
    check.that(status == 0 and "left out" in told, "one more is left out: status %d: %s" % (status, told))
    # What a user makes is told; that it can't be ends no renewal.
    for number, closed in enumerate(("2>&-", "<&- 2>&-", ">&- 2>&-", "<&- >&- 2>&-", "2>/dev/full")):
        touch(top + "/b\n%d" % number)
        ran = subprocess.run(["sh", "-c", '"$@" ' + closed, "sh", sys.executable, "-I", *site.words(top)], stdout=subprocess.DEVNULL)
        check.that(ran.returncode == 0, "something is left out, and %s: status %d" % (closed, ran.returncode))
        os.unlink(top + "/b\n%d" % number)
    os.unlink(top + "/b\nc")
    site.renew(top)
    kept = {name: os.stat(site.path(name)) for name in ("passwd", "group", "index", "trace", "left")}
    for name, found in kept.items():
        wanted = (0o600, 0) if name in ("trace", "left") else (0o640, 4321)
        check.that((found.st_mode & 0o7777, found.st_gid if wanted[1] else 0) == wanted, "the mode and group of %s" % name)
    check.that(not [name for name in os.listdir(site.folder) if name.endswith(".new")], "no file is left aside")


def check_half(check, site, work, top):
    small = os.path.join(work, "small")
    os.mkdir(small)
    before = site.index()
    status, told = site.renew(small)
    check.that(status == 1 and site.index() == before, "less than half of the rows is refused: %s" % told)
    status, told = site.renew("--fewer", small)
    check.that(status == 0 and site.index() != before, "and taken where that is told: %s" % told)
    site.renew(top)


def check_want(check, work, program):
    """A renewal on a full disk, and by a user who may have few processes: the index before stands, or the whole new one."""
    small, folder, ended = os.path.join(work, "few"), os.path.join(work, "want"), {}
    os.mkdir(small)
    for number in range(3000):
        touch("%s/%d" % (small, number))
    os.mkdir(folder)
    subprocess.run(["mount", "-t", "tmpfs", "-o", "size=16m", "tmpfs", folder], check=True)
    try:
        os.chown(folder, USER, USER)
        own = Site(folder, program)
        os.chown(own.folder, USER, USER)
        before = ["setpriv", "--reuid=%d" % USER, "--regid=%d" % USER, "--clear-groups"]
        wants = [("bytes of a disk", free, []) for free in (0, 4096, 40960, 100000, 200000, 300000, 400000, 500000, 600000, 2000000)]
        wants += [("processes", most, ["prlimit", "--nproc=%d:%d" % (most, most)]) for most in range(12)]
        for kind, most, limit in wants:
            own.put(b"before")
            filler = os.path.join(folder, "filler")
            room = os.statvfs(folder)
            with open(filler, "wb") as file:
                file.truncate(0)
                if kind == "bytes of a disk":
                    os.posix_fallocate(file.fileno(), 0, max(1, room.f_bavail * room.f_bsize - most))
            # By the script's own first line, since the user may not be allowed the program that runs this.
            ran = subprocess.run([*before, *limit, *own.words("--jobs=3", small)], stdout=subprocess.DEVNULL, stderr=subprocess.PIPE)
            os.unlink(filler)
            what = "%d %s: status %d: %s" % (most, kind, ran.returncode, ran.stderr)
            ended.setdefault(kind, []).append(ran.returncode)
            check.that(ran.returncode == 0 or own.index() == b"before" and ran.stderr, what)
            check.that(ran.returncode or own.find("0", "/").count(b"\n") == 3001, what)
        check.that(all(0 in statuses and 1 in statuses for statuses in ended.values()), "some are refused, and some aren't: %s" % ended)
    finally:
        subprocess.run(["umount", folder], check=True)
    print("want, and statuses: %s" % ", ".join("%s %s" % each for each in ended.items()))


def check_pairs(check, site, top):
    for _ in range(7):
        pair = [site.start(top), site.start(top)]
        told = [ran.communicate()[0] for ran in pair]
        statuses = sorted(ran.returncode for ran in pair)
        check.that(statuses in ([0, 75], [0, 0]), "two at once: %s %s" % (statuses, told))
    print("pairs: 7 of two renewals at once")


def check_standing(check, site, old, new, what):
    """Behind a kill: the index before or the new one, whole, and a renewal goes through."""
    stands = site.index()
    check.that(stands in (old, new), "%s: neither the index before nor the new one" % what)
    tables = ["--passwd=" + site.path("passwd"), "--group=" + site.path("group")]
    ran = subprocess.run([site.path("gufi"), "ls", *tables, site.path("index"), "0", "/"], stdout=subprocess.DEVNULL)
    check.that(ran.returncode == 0, "%s: status %d of a question" % (what, ran.returncode))
    return stands == new


def two_indexes(site, top):
    """An index, and the one of the tree with a file more."""
    site.renew(top)
    old = site.index()
    touch(top + "/a00/one-more")
    began = time.monotonic()
    site.renew(top)
    return old, site.index(), time.monotonic() - began


def check_kills(check, site, top):
    old, new, seconds = two_indexes(site, top)
    check.that(old != new, "the two indexes differ")
    step = renewed = 0
    while True:
        step += 1
        site.put(old)
        ran = site.start(top, before=["-c", KILLER, str(step), site.folder])
        told = ran.communicate()[0]
        site.wait()
        renewed += check_standing(check, site, old, new, "killed at step %d" % step)
        if ran.returncode != -signal.SIGKILL:
            check.that(ran.returncode == 0, "a whole renewal: %s" % told)
            break
    print("kills: at each of %d steps, %d of them behind the new index" % (step - 1, renewed - 1))
    check.that(step > 20, "there are steps")
    counts = {"all of it": 40, "its first process": 20, "what it started": 40}
    for whom, count in counts.items():
        ended = [kill_at(site, top, old, seconds * (number + 0.5) / count, whom) for number in range(count)]
        for status, stands, told in ended:
            check.that(stands in (old, new), "%s killed: status %d: neither index: %s" % (whom, status, told))
            check.that(stands == old or status in (0, -9), "%s killed: status %d, and the new index" % (whom, status))
        whole = sum(status == 0 for status, _, _ in ended)
        print("kills: %d of %s, at moments all over it; %d had ended before" % (count, whom, whole))
    status, told = site.renew(top)
    check.that(status == 0 and site.index() == new, "a renewal behind all kills: %s" % told)


def children_of(number):
    with contextlib.suppress(OSError):
        with open("/proc/%d/task/%d/children" % (number, number)) as file:
            return [int(word) for word in file.read().split()]
    return []


def kill_at(site, top, old, seconds, whom):
    """A renewal of which something is killed behind so many seconds: its status, the index then, and what it told."""
    site.put(old)
    ran = site.start(top, start_new_session=True)
    time.sleep(seconds)
    if whom == "all of it":
        with contextlib.suppress(ProcessLookupError):
            os.killpg(ran.pid, signal.SIGKILL)
    for number in {"its first process": [ran.pid], "what it started": children_of(ran.pid)}.get(whom, []):
        with contextlib.suppress(ProcessLookupError):
            os.kill(number, signal.SIGKILL)
    told = ran.communicate()[0]
    site.wait()
    return ran.returncode, site.index(), told


def check_mount(check, site, own, top):
    """A file system that the user mounted is left out."""
    folder = os.path.join(own, "mounted")
    os.mkdir(folder)
    os.chown(folder, USER, USER)
    device = mount_own(folder)
    if device is None:
        print("mounts: not tried, since this system has none of users")
        return
    try:
        status, told = site.renew(top)
        check.that(status == 0 and "a file system that a user mounted" in told, "a user's mount is left out: %d: %s" % (status, told))
        print("mounts: one of the user's, left out")
    finally:
        subprocess.run(["umount", folder], check=True)
        os.close(device)


def check_flood(check, site, own, top):
    folder = os.path.join(own, "flood")
    os.mkdir(folder)
    os.chown(folder, USER, USER)
    as_user(make_flood, folder)
    status, told = site.renew(top)
    check.that(status == 0 and "one index takes no more" in told, "a flood of directories: %d: %s" % (status, told))
    print("flood: 300,000 directories, %d rows listed" % site.find("0", "/").count(b"\n"))


def main():
    parser = argparse.ArgumentParser(usage=__doc__)
    parser.add_argument("--program", default=os.path.join(TOP, "crates", "gufi", "out", "gufi"))
    parser.add_argument("--flood", action="store_true")
    parser.add_argument("folder", nargs="?", default="/dev/shm")
    given = parser.parse_args()
    check = Check()
    with tempfile.TemporaryDirectory(dir=given.folder) as work:
        os.chmod(work, 0o755)
        top = os.path.join(work, "tree")
        try:
            own = make_tree(top)
            site = Site(work, given.program)
            check_bounds(check, work, given.program)
            check_trace(check, top, own)
            check_descriptors(check, work)
            check_races(check, work)
            check_lists(check, work)
            check_swaps(check, work)
            check_renewal(check, site, top)
            check_unread(check, work, site, top)
            check_half(check, site, work, top)
            check_want(check, work, given.program)
            check_pairs(check, site, top)
            check_kills(check, site, top)
            check_mount(check, site, own, top)
            if given.flood:
                check_flood(check, site, own, top)
        finally:
            # Deeper than Python's own removal goes.
            subprocess.run(["rm", "-rf", top])
    print("%d of %d checks hold" % (check.looked - check.failed, check.looked))
    return 1 if check.failed else 0


if __name__ == "__main__":
    sys.exit(main())
