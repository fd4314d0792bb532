#!/usr/bin/env python3
"""Writes a trace of the tree below a folder to standard output, with the delimiter 0x1E.

  trace.py [--xdev] [--exclude PATH].. [--jobs N] [--any-size] FOLDER

It stands in path order: a folder's line, then those of its files, then its subfolders one behind the other. Access control lists and the
names of users' extended attributes are in it. What a trace can't hold is left out with all below it, and told on standard error:
names and links with a newline or the byte 0x1E, what is longer than the limits, lists that are too long, and all behind the row with
which the trace would outgrow one index, unless --any-size is given. That changes no status. What couldn't be read is told too.

  --xdev          stay on the file system of FOLDER; the folder on which another one is mounted has a line
  --exclude PATH  leave out what is at PATH, and all below it; it lies below FOLDER
  --jobs N        walk by N processes, or by fewer where the system allows them too few open files; the text is the same
  --any-size      make the trace as large as the tree is, to be cut into shards

The status is 0 where all was read, 1 where something couldn't be, 2 where a word can't be taken, 3 where a process of its own ended
early, 4 where the trace couldn't be written: but for 0 and 1 what was written is no whole trace.

A tree that changes meanwhile is told as it was met. Whoever changes it can't lead the walk elsewhere: folders are opened by their names
in the folder that is open, never through a link, and a folder's line and rights are those of the folder that was opened.
"""
import argparse
import contextlib
import errno
import heapq
import itertools
import multiprocessing.connection
import os
import pickle
import resource
import signal
import socket
import stat
import struct
import sys
import time

# The limits of a trace, in bytes where nothing else is said.
MOST_NAME = 255
MOST_PATH = 4096
MOST_COMPONENTS = 256
MOST_LINK = 4096
MOST_ATTRIBUTE = 255
MOST_ATTRIBUTES = 4096
MOST_NAMED_ENTRIES = 32
MOST_DIRECTORIES = 262144
MOST_ENTRIES = 1048576
MOST_BYTES = 536870912

# How much text is gathered before it is handed on, how much a process may be ahead of what can be written, and for how many seconds a
# process walks before it gives back what is left.
TEXT_PART = 1 << 20
TEXT_AHEAD = 64 << 20
TURN = 0.1

# How many open folders go over a connection at once, and how many batches wait before only the first one is begun.
MOST_AT_ONCE = 200
MOST_WAITING = 1000

MOUNTED = "a file system that a user mounted"

# How many paths are told, and how many characters of each.
TOLD = 10
MOST_SHOWN = 200

# How often a file is looked at whose rights change meanwhile, how often one of this second has to be found the same, and how many
# nanoseconds a tick of the system has at most.
TRIES = 1000
LOOKS = 20
TICK = 20_000_000

KINDS = {
    stat.S_IFREG: b"f",
    stat.S_IFDIR: b"d",
    stat.S_IFLNK: b"l",
    stat.S_IFBLK: b"b",
    stat.S_IFCHR: b"c",
    stat.S_IFIFO: b"p",
    stat.S_IFSOCK: b"s",
}

ACCESS_LIST = "system.posix_acl_access"
OWNER, USER, GROUP, NAMED_GROUP, MASK, OTHER = 1, 2, 4, 8, 16, 32
TAGS = {OWNER: b"user", USER: b"user", GROUP: b"group", NAMED_GROUP: b"group", MASK: b"mask", OTHER: b"other"}
BITS = [b"---", b"--x", b"-w-", b"-wx", b"r--", b"r-x", b"rw-", b"rwx"]

# What these errors say: the name is gone, or is a folder's no more; the file system has no such attributes.
GONE = (errno.ENOENT, errno.ENOTDIR, errno.ELOOP)
HAS_NONE = (errno.ENODATA, errno.ENOTSUP)
TOO_LARGE = (errno.E2BIG, errno.ERANGE)


class Unfit(Exception):
    """Something that a trace can't hold; it says why."""


class Full(Exception):
    """The trace has as many rows or bytes as one index takes; it says where that was."""


class NotWritten(Exception):
    """The trace couldn't be written; it says why."""


class Ended(Exception):
    """A process of the walk ended early, or the one that writes did."""


class Report:
    """What was left out and what couldn't be read: how often, and the first ones."""

    def __init__(self):
        self.full = None
        self.left, self.first_left = 0, []
        self.unread, self.first_unread = 0, []
        self.attributes = 0

    def leave(self, path, why):
        self.left += 1
        if self.left <= TOLD:
            self.first_left.append((path, why))

    def miss(self, path, why):
        self.unread += 1
        if self.unread <= TOLD:
            self.first_unread.append((path, why))

    def add(self, later):
        self.left += later.left
        self.unread += later.unread
        self.attributes += later.attributes
        self.first_left = (self.first_left + later.first_left)[:TOLD]
        self.first_unread = (self.first_unread + later.first_unread)[:TOLD]

    def lines(self):
        for path, why in self.first_left:
            yield "left out %s: %s" % (shown(path), why)
        if self.left:
            yield "%d left out, with all below them" % self.left
        if self.full:
            yield str(self.full)
        if self.attributes:
            yield "%d names of attributes left out" % self.attributes
        for path, why in self.first_unread:
            yield "not read %s: %s" % (shown(path), why)
        if self.unread:
            yield "%d not read, so the trace lacks a part" % self.unread


def shown(path):
    """A path in ASCII, without controls, which a terminal would obey, and without the midst of a long one."""
    text = "".join(chr(byte) if 32 <= byte < 127 and byte != 92 else "\\x%02x" % byte for byte in path)
    return text if len(text) <= MOST_SHOWN else text[: MOST_SHOWN // 2] + " .. " + text[-MOST_SHOWN // 2 :]


def tell(line):
    """Says a line on standard error, which may be closed."""
    try:
        os.write(2, b"trace.py: %b\n" % line.encode("ascii", "backslashreplace"))
    except OSError:
        pass


def hold_streams():
    """Keeps the numbers of closed streams from being given to other files. What is written to such a stream fails."""
    for number in range(3):
        try:
            os.fstat(number)
        except OSError:
            os.open(os.devnull, os.O_RDONLY)


def has_odd_byte(text):
    return b"\n" in text or b"\x1e" in text


def check_path(path, depth):
    """Refuses a path of so many names that a trace can't hold."""
    if has_odd_byte(path):
        raise Unfit("a newline or the byte 0x1E in its name")
    if len(path) > MOST_PATH:
        raise Unfit("a path of more than %d bytes" % MOST_PATH)
    if depth > MOST_COMPONENTS:
        raise Unfit("a path of more than %d names" % MOST_COMPONENTS)
    if len(path) - path.rfind(b"/") - 1 > MOST_NAME:
        raise Unfit("a name of more than %d bytes" % MOST_NAME)


def check_link(link):
    if has_odd_byte(link):
        raise Unfit("a newline or the byte 0x1E in the target of the link")
    if len(link) > MOST_LINK:
        raise Unfit("a link to more than %d bytes" % MOST_LINK)


def check_entries(entries):
    """Refuses what the program would: it takes each user and group once, and so many of them. The kernel takes more."""
    tags = [tag for tag, _, _ in entries]
    named = [(tag, number) for tag, _, number in entries if tag in (USER, NAMED_GROUP)]
    if len(named) > MOST_NAMED_ENTRIES:
        raise Unfit("an access control list with more than %d named entries" % MOST_NAMED_ENTRIES)
    sound = all(tag in TAGS and bits < 8 for tag, bits, _ in entries)
    whole = all(tags.count(tag) == 1 for tag in (OWNER, GROUP, OTHER)) and tags.count(MASK) in ((1,) if named else (0, 1))
    if not sound or not whole or len(set(named)) < len(named):
        raise Unfit("an access control list that names a user or group twice, or isn't whole")


def list_text(data):
    """Field 16 from the bytes of a list as the system gives them: a version, then tag, bits and ID of each entry."""
    if len(data) < 4 or len(data) % 8 != 4 or data[:4] != b"\2\0\0\0":
        raise Unfit("an access control list of another form")
    entries = list(struct.iter_unpack("<HHI", data[4:]))
    if not entries:
        return b""
    check_entries(entries)
    ids = (b"%d" % number if tag in (USER, NAMED_GROUP) else b"" for tag, _, number in entries)
    return b"acl/" + b",".join(b"%b:%b:%b" % (TAGS[tag], given, BITS[bits]) for (tag, bits, _), given in zip(entries, ids))


def names_text(names):
    """Field 15 from the names of all attributes, of which those of users count, and how many had no room in it."""
    users = sorted(os.fsencode(name) for name in names if name.startswith("user."))
    held, size = [], 0
    for name in users:
        if has_odd_byte(name) or b"," in name or len(name) > MOST_ATTRIBUTE or size + len(name) > MOST_ATTRIBUTES:
            continue
        held.append(name)
        size += len(name) + 1
    return b"xattrs/" + b",".join(held) if held else b"", len(users) - len(held)


def link_of(name):
    try:
        return os.readlink(name)
    except OSError as error:
        # It isn't a link any more.
        if error.errno == errno.EINVAL:
            raise FileNotFoundError(errno.ENOENT, "not a link") from error
        raise


def list_of(file):
    """Field 16 of an open file, or of one by its path: its access list, or nothing. Default lists aren't asked for."""
    try:
        data = os.getxattr(file, ACCESS_LIST)
    except OSError as error:
        if error.errno in HAS_NONE:
            return b""
        raise
    return list_text(data)


def steady(descriptor, file):
    """What the system tells of an open file, and its list, of one moment: a list that is taken away or given changes the mode too."""
    same, before = 0, None
    for _ in range(TRIES):
        began = second()
        found = os.fstat(descriptor)
        acl = list_of(file)
        again = os.fstat(descriptor)
        if not may_have_changed(found, again, began):
            return found, acl
        # Of one that was changed in this second the times don't tell. A chance that comes once doesn't come so often.
        looked = found.st_mode, found.st_uid, found.st_gid, acl
        same = same + 1 if looked == before and looked[:3] == (again.st_mode, again.st_uid, again.st_gid) else 0
        before = looked
        if same == LOOKS:
            return found, acl
    raise Unfit("its rights change all the time")


def second():
    """The second in which a change would be now. The clock of files' times is behind by a tick of the system."""
    return (time.time_ns() - TICK) // 10**9


def may_have_changed(found, again, began):
    """Whether a file may have been changed, and changed back, or have had another in its place, between two looks from that second on.

    Each change of its rights or its name sets its last time, in some file systems to whole seconds."""
    if found.st_ctime_ns != again.st_ctime_ns or found.st_ino != again.st_ino or found.st_dev != again.st_dev:
        return True
    return found.st_ctime_ns >= began * 10**9


def names_of(file):
    """Field 15 of an open file, or of one by its path, and how many names are left out."""
    try:
        names = os.listxattr(file)
    except OSError as error:
        if error.errno in HAS_NONE:
            return b"", 0
        if error.errno in TOO_LARGE:
            return b"", 1
        raise
    return names_text(names) if names else (b"", 0)


def line_of(path, kind, found, link, names, acl):
    """A line of the trace. Fields 15 and 16 are written where there is something in them."""
    extras = b"\x1e%b\x1e%b" % (names, acl) if acl else b"\x1e" + names if names else b""
    return b"%b\x1e%b\x1e%d\x1e%d\x1e%d\x1e%d\x1e%d\x1e%d\x1e%d\x1e%d\x1e%d\x1e%d\x1e%d\x1e%b%b\n" % (
        path,
        kind,
        found.st_ino,
        found.st_mode & 0o7777,
        found.st_nlink,
        found.st_uid,
        found.st_gid,
        found.st_size,
        found.st_blksize,
        found.st_blocks,
        found[7],
        found[8],
        found[9],
        link,
        extras,
    )


def open_folder(name, within=None):
    """Opens a folder by its name in another one, never through a link, and without a mark in its access time where that may be."""
    flags = os.O_RDONLY | os.O_DIRECTORY | os.O_NOFOLLOW | os.O_NONBLOCK
    try:
        return os.open(name, flags | os.O_NOATIME, dir_fd=within)
    except PermissionError:
        return os.open(name, flags, dir_fd=within)


def names_in(descriptor, most):
    """The names in an open folder, in order."""
    with os.scandir(descriptor) as found:
        names = [os.fsencode(entry.name) for entry in itertools.islice(found, most)]
        if next(found, None):
            raise Unfit("what is in it: more than %d names" % most)
    return sorted(names)


def user_mounts():
    """The paths at which users mounted file systems of their own: root may not look at these."""
    mounts = set()
    with open("/proc/self/mountinfo", "rb") as table:
        for line in table:
            before, _, behind = line.partition(b" - ")
            # The source between the two may be empty.
            kind, options = behind.split()[0], behind.split()[-1].split(b",")
            if kind.startswith(b"fuse") and b"user_id=0" not in options:
                path = before.split()[4]
                mounts.add(path.decode("unicode_escape").encode("latin-1"))
    return mounts


def is_user_mount(path):
    try:
        return path in user_mounts()
    except OSError:
        return False


class Folder:
    """A folder on the way from the top to where the walk is: open, with the names of its subfolders that are still to be walked."""

    def __init__(self, descriptor, names, path, device, subfolders):
        self.descriptor = descriptor
        # The names from the top to it.
        self.names = names
        self.path = path
        self.device = device
        # The next one is the last.
        self.subfolders = subfolders


class Top:
    """The folder that the trace begins at. It is opened once, and has to have a line."""

    def __init__(self, word):
        self.path = os.path.realpath(os.fsencode(word))
        self.depth = len([name for name in self.path.split(b"/") if name])
        check_path(self.path, self.depth)
        self.descriptor = open_folder(self.path)
        self.device = os.fstat(self.descriptor).st_dev
        list_of(self.descriptor)


class Walker:
    """Walks the tree below a folder, and hands its text on in parts."""

    def __init__(self, top, given, hand_on):
        self.top, self.xdev, self.excluded, self.mounts = top.path, given.xdev, given.excluded, given.mounts
        self.descriptor, self.device, self.depth = top.descriptor, top.device, top.depth
        # More than that an index has no room for.
        self.most_names = sys.maxsize if given.any_size else MOST_DIRECTORIES + MOST_ENTRIES
        self.hand_on = hand_on
        self.report = Report()
        self.open = []
        self.lines, self.size, self.directories = [], 0, 0
        # The second in which the mounts were looked at.
        self.looked = 0

    def begin(self):
        """Begins at the top itself."""
        self.read(self.enter(None, b"", os.dup(self.descriptor)))

    def resume(self, names, subfolders, descriptor):
        """Begins at these subfolders of an open folder."""
        path = b"/".join((self.top.rstrip(b"/"), *names))
        self.open.append(Folder(descriptor, names, path, os.fstat(descriptor).st_dev, list(reversed(subfolders))))

    def walk(self, seconds):
        """Walks on for so many seconds, and gives the open folders whose subfolders are left, in path order."""
        until = time.monotonic() + seconds
        while self.open:
            folder = self.open[-1]
            if not folder.subfolders:
                os.close(folder.descriptor)
                self.open.pop()
            elif time.monotonic() > until:
                break
            else:
                self.step_down(folder, folder.subfolders.pop())
        self.flush()
        left, self.open = self.open[::-1], []
        for folder in left:
            if not folder.subfolders:
                os.close(folder.descriptor)
        return [folder for folder in left if folder.subfolders]

    def step_down(self, folder, name):
        path = folder.path + b"/" + name
        try:
            descriptor = open_folder(name, folder.descriptor)
        except OSError as error:
            if self.fail(path, error):
                self.enter_shut(folder, name, path)
            return
        try:
            opened = self.enter(folder, name, descriptor)
        except Unfit as why:
            os.close(descriptor)
            self.report.leave(path, why)
        except OSError as error:
            os.close(descriptor)
            self.fail(path, error)
        else:
            self.read(opened)

    def enter_shut(self, folder, name, path):
        """Writes the line of a folder that may not be opened, if that much can be had. What lies in it is missing."""
        try:
            os.fchdir(folder.descriptor)
            found, names, acl = self.look(name)
        except (OSError, Unfit):
            return
        if stat.S_ISDIR(found.st_mode):
            self.add(line_of(path, b"d", found, b"", names, acl), True)

    def enter(self, folder, name, descriptor):
        """Writes the line of the folder that was opened, and goes on from there."""
        path = folder.path + b"/" + name if folder else self.top.rstrip(b"/")
        if folder and os.fstat(descriptor).st_dev != folder.device and is_user_mount(path):
            raise Unfit(MOUNTED)
        found, acl = steady(descriptor, descriptor)
        names, left = names_of(descriptor)
        self.report.attributes += left
        self.add(line_of(path or b"/", b"d", found, b"", names, acl), True)
        names_to_it = folder.names + (name,) if folder else ()
        opened = Folder(descriptor, names_to_it, path, found.st_dev, [])
        self.open.append(opened)
        return opened

    def read(self, folder):
        """Writes the lines of a folder's files, and keeps the names of its subfolders. The process stands in the folder meanwhile."""
        if self.xdev and folder.device != self.device:
            return
        try:
            names = names_in(folder.descriptor, self.most_names)
            os.fchdir(folder.descriptor)
        except Unfit as why:
            self.report.leave(folder.path, why)
            return
        except OSError as error:
            self.fail(folder.path, error)
            return
        depth = self.depth + len(folder.names) + 1
        began = second()
        if began > self.looked:
            # A user may mount one at any time.
            self.looked = began
            with contextlib.suppress(OSError):
                self.mounts = user_mounts()
        # Only where one of the names may not fit each has to be looked at.
        plain = depth <= MOST_COMPONENTS and not has_odd_byte(b"".join(names))
        longest = max(map(len, names), default=0)
        plain = plain and longest <= MOST_NAME and len(folder.path) + 1 + longest <= MOST_PATH
        for name in names:
            path = folder.path + b"/" + name
            if path in self.excluded:
                continue
            try:
                # It may never answer.
                if path in self.mounts:
                    raise Unfit(MOUNTED)
                if not plain:
                    check_path(path, depth)
                if self.read_file(name, path, began):
                    folder.subfolders.append(name)
            except Unfit as why:
                self.report.leave(path, why)
            except OSError as error:
                self.fail(path, error)
        folder.subfolders.reverse()

    def read_file(self, name, path, began):
        """Writes the line of what has that name in the folder where the process stands, or says that it is a folder."""
        found, link, names, acl = os.lstat(name), b"", b"", b""
        kind = KINDS.get(stat.S_IFMT(found.st_mode))
        if kind == b"d":
            return True
        if kind is None:
            raise Unfit("of no type that a trace has")
        if kind == b"l":
            link = link_of(name)
            check_link(link)
        elif self.has_attributes(name) or may_have_changed(found, os.lstat(name), began):
            found, names, acl = self.look(name)
            kind = KINDS.get(stat.S_IFMT(found.st_mode))
            if kind == b"d":
                return True
            if kind in (None, b"l"):
                return False
        self.add(line_of(path, kind, found, link, names, acl), False)
        return False

    def has_attributes(self, name):
        """Whether a file has a list, or attributes of users. Some file systems don't name lists among the attributes."""
        try:
            if any(it.startswith("user.") for it in os.listxattr(name, follow_symlinks=False)):
                return True
        except OSError as error:
            if error.errno in TOO_LARGE:
                return True
            if error.errno not in HAS_NONE:
                raise
        try:
            os.getxattr(name, ACCESS_LIST, follow_symlinks=False)
        except OSError as error:
            if error.errno in HAS_NONE:
                return False
            raise
        return True

    def look(self, name):
        """What the system tells of a file, its names of attributes and its list: all of one file, also where the name is given to another."""
        descriptor = os.open(name, os.O_PATH | os.O_NOFOLLOW)
        try:
            found = os.fstat(descriptor)
            if stat.S_ISLNK(found.st_mode):
                return found, b"", b""
            by_number = "/proc/self/fd/%d" % descriptor
            found, acl = steady(descriptor, by_number)
            names, left = names_of(by_number)
        finally:
            os.close(descriptor)
        self.report.attributes += left
        return found, names, acl

    def fail(self, path, error):
        """Whether something is missing. What is gone by now is no part of the tree, nor is what a user mounted for himself."""
        if error.errno in GONE:
            return False
        if is_user_mount(path):
            self.report.leave(path, MOUNTED)
            return False
        self.report.miss(path or b"/", os.strerror(error.errno))
        return True

    def add(self, line, is_directory):
        self.lines.append(line)
        self.size += len(line)
        self.directories += is_directory
        if self.size >= TEXT_PART:
            self.flush()

    def flush(self):
        if self.lines:
            self.hand_on(b"".join(self.lines), len(self.lines), self.directories)
            self.lines, self.size, self.directories = [], 0, 0

    def take_report(self):
        report, self.report = self.report, Report()
        return report


class Output:
    """Writes the trace to standard output, as far as one index takes it, and says on a terminal how far it is."""

    def __init__(self, any_size):
        self.any_size = any_size
        self.rows = self.directories = self.bytes = 0
        self.shown = time.monotonic()
        self.is_terminal = os.isatty(2)

    def write(self, text, rows, directories):
        entries = self.rows - self.directories + rows - directories
        fits = self.directories + directories <= MOST_DIRECTORIES and entries <= MOST_ENTRIES and self.bytes + len(text) <= MOST_BYTES
        if fits or self.any_size:
            self.put(text, rows, directories)
        else:
            self.fill(text)

    def fill(self, text):
        """Writes the lines of the text that still fit."""
        for line in text.splitlines(keepends=True):
            path, kind, _ = line.split(b"\x1e", 2)
            is_directory = kind == b"d"
            room = self.directories < MOST_DIRECTORIES if is_directory else self.rows - self.directories < MOST_ENTRIES
            if not room or self.bytes + len(line) > MOST_BYTES:
                raise Full("left out %s and all behind it in path order: one index takes no more" % shown(path))
            self.put(line, 1, is_directory)

    def put(self, text, rows, directories):
        view = memoryview(text)
        try:
            while view:
                view = view[os.write(1, view) :]
        except OSError as error:
            raise NotWritten(os.strerror(error.errno)) from error
        self.rows += rows
        self.directories += directories
        self.bytes += len(text)
        if self.is_terminal and time.monotonic() > self.shown + 0.5:
            self.shown = time.monotonic()
            self.show(b"\rtrace.py: %d rows" % self.rows)

    def show(self, text):
        try:
            os.write(2, text)
        except OSError:
            self.is_terminal = False

    def end(self):
        if self.is_terminal:
            self.show(b"\r\033[K")


class Channel:
    """One end of a connection between two processes. Open folders go over it beside what is said."""

    def __init__(self, end):
        self.end = end

    def fileno(self):
        return self.end.fileno()

    def send(self, message, descriptors=()):
        data = pickle.dumps((message, len(descriptors)), pickle.HIGHEST_PROTOCOL)
        try:
            socket.send_fds(self.end, [len(data).to_bytes(8, "little")], descriptors)
            self.end.sendall(data)
        except OSError as error:
            raise Ended from error

    def receive(self):
        """What was said, and the folders that came with it."""
        try:
            head, descriptors, _, _ = socket.recv_fds(self.end, 8, MOST_AT_ONCE)
            data = memoryview(bytearray(int.from_bytes(head, "little")))
            rest = data if len(head) == 8 else None
            while rest:
                count = self.end.recv_into(rest)
                rest = rest[count:] if count else None
        except OSError as error:
            raise Ended from error
        if rest is None:
            raise Ended
        message, count = pickle.loads(data)
        # The system leaves out, without a word, those for which this process may open no more files.
        if len(descriptors) < count:
            raise OSError(errno.EMFILE, os.strerror(errno.EMFILE))
        return message, descriptors


class Held:
    """A folder that is open for the batches of its subfolders, and closed behind the last of them."""

    def __init__(self, names, descriptor):
        self.names, self.descriptor = names, descriptor
        self.batches = 0

    def batches_of(self, subfolders, count):
        """So many batches at most of these subfolders, each of some that come one behind the other."""
        size = -(-len(subfolders) // count)
        return [Batch(self, subfolders[start : start + size]) for start in range(0, len(subfolders), size)]

    def release(self):
        self.batches -= 1
        if not self.batches:
            os.close(self.descriptor)


class Batch:
    """Subfolders of one folder that are to be walked one behind the other. The first path says its place."""

    def __init__(self, folder, subfolders):
        self.folder, self.subfolders = folder, subfolders
        self.key = folder.names + subfolders[:1]
        folder.batches += 1

    def __lt__(self, other):
        return self.key < other.key


class Piece:
    """The text of one turn of a process, from the first path of a batch on, as far as it has come."""

    def __init__(self, key):
        self.key = key
        self.parts = []
        self.size = 0
        self.report = None

    def __lt__(self, other):
        return self.key < other.key


class Worker:
    """A process that walks, seen from the one that writes."""

    def __init__(self, top, given, earlier):
        outer, inner = socket.socketpair()
        self.channel = Channel(outer)
        self.piece = None
        if not os.fork():
            # Only so does each end see that the other is gone.
            for worker in earlier + [self]:
                worker.channel.end.close()
            work(top, given, Channel(inner))
        inner.close()

    def begin(self):
        """Has it begin at the top."""
        self.piece = Piece(())
        self.channel.send(None)

    def resume(self, batch):
        self.piece = Piece(batch.key)
        self.channel.send((batch.folder.names, batch.subfolders), [batch.folder.descriptor])
        batch.folder.release()


def work(top, given, channel):
    """Walks one batch after the other, until the process that writes is gone, and ends the process."""
    try:
        walker = Walker(top, given, lambda *part: channel.send(part))
        while True:
            words, descriptors = channel.receive()
            if words is None:
                walker.begin()
            else:
                walker.resume(*words, *descriptors)
            give_back(channel, walker.walk(TURN))
            channel.send(walker.take_report())
    except Ended:
        pass
    except BaseException as error:
        tell("%s: %s" % (type(error).__name__, error))
    finally:
        os._exit(3)


def give_back(channel, folders):
    """Hands the folders on, as many at once as one message takes."""
    for start in range(0, len(folders), MOST_AT_ONCE):
        some = folders[start : start + MOST_AT_ONCE]
        channel.send([(folder.names, tuple(reversed(folder.subfolders))) for folder in some], [folder.descriptor for folder in some])
        for folder in some:
            os.close(folder.descriptor)


class Crew:
    """Processes that walk the tree, and the pieces of the trace that they make, which are written in path order."""

    def __init__(self, top, given, output, report):
        self.output, self.report = output, report
        self.workers = []
        for _ in range(given.jobs):
            self.workers.append(Worker(top, given, self.workers))
        self.waiting, self.ended = [], []

    def run(self):
        self.workers[0].begin()
        while self.waiting or any(worker.piece for worker in self.workers):
            for worker in self.workers:
                if not worker.piece and self.may_begin():
                    worker.resume(heapq.heappop(self.waiting))
            self.receive()
            self.write()

    def may_begin(self):
        """Whether a batch is to be begun. While many wait it is only the first one, and they don't become many more."""
        return self.waiting and (len(self.waiting) < MOST_WAITING or self.front() == self.waiting[0].key)

    def front(self):
        """The first path that isn't ended: up to it pieces may be written."""
        keys = [worker.piece.key for worker in self.workers if worker.piece]
        return min(keys + [batch.key for batch in self.waiting[:1]], default=None)

    def receive(self):
        """Waits for the processes that have something. One that is ahead waits, once what was kept for it is much."""
        front = self.front()
        busy = [worker for worker in self.workers if worker.piece]
        kept = sum(piece.size for piece in self.ended) + sum(worker.piece.size for worker in busy)
        heard = {worker.channel: worker for worker in busy if kept < TEXT_AHEAD or worker.piece.key == front}
        for channel in multiprocessing.connection.wait(list(heard)):
            self.take(heard[channel], *channel.receive())

    def take(self, worker, message, descriptors):
        """A part of the text, folders with subfolders that are left, or the report with which a turn ends."""
        piece = worker.piece
        if isinstance(message, tuple):
            piece.parts.append(message)
            piece.size += len(message[0])
        elif isinstance(message, list):
            count = 2 * len(self.workers) if len(self.waiting) < MOST_WAITING else 1
            for (names, subfolders), descriptor in zip(message, descriptors):
                for batch in Held(names, descriptor).batches_of(subfolders, count):
                    heapq.heappush(self.waiting, batch)
        else:
            piece.report = message
            heapq.heappush(self.ended, piece)
            worker.piece = None

    def write(self):
        """Writes the pieces before the front, and what has come of the one that is the front."""
        front = self.front()
        while self.ended and (front is None or self.ended[0].key < front):
            piece = heapq.heappop(self.ended)
            self.write_parts(piece)
            self.report.add(piece.report)
        for worker in self.workers:
            if worker.piece and worker.piece.key == front:
                self.write_parts(worker.piece)

    def write_parts(self, piece):
        for part in piece.parts:
            self.output.write(*part)
        piece.parts, piece.size = [], 0


def walk_alone(top, given, output, report):
    walker = Walker(top, given, output.write)
    walker.report = report
    walker.begin()
    walker.walk(float("inf"))


def excluded_paths(words, top):
    """The paths that are left out, as the trace would have them."""
    stem = top.rstrip(b"/") + b"/"
    for word in words:
        folder, name = os.path.split(os.path.abspath(os.fsencode(word)))
        path = os.path.join(os.path.realpath(folder), name)
        if not path.startswith(stem) or path == stem:
            raise Unfit("--exclude: %s isn't below %s" % (shown(path), shown(top)))
        yield path


def words():
    parser = argparse.ArgumentParser(prog="trace.py", description="Writes a trace of the tree below FOLDER to standard output.")
    parser.add_argument("--xdev", action="store_true", help="stay on the file system of FOLDER")
    parser.add_argument("--exclude", action="append", default=[], metavar="PATH", help="leave out PATH and all below it")
    parser.add_argument("--jobs", type=int, default=1, metavar="N", help="walk by N processes, 1 to 256")
    parser.add_argument("--any-size", action="store_true", help="don't end with what one index takes")
    parser.add_argument("folder", metavar="FOLDER")
    given = parser.parse_args()
    if not 1 <= given.jobs <= 256:
        parser.error("--jobs takes 1 to 256")
    return given


def allow_descriptors(given):
    """Opens the way for as many files as the system allows, and walks by no more processes than these are enough for.

    A folder on the way to the deepest one takes a descriptor each, in the process that walks and in the one that it is given back to."""
    most = resource.getrlimit(resource.RLIMIT_NOFILE)[1]
    with contextlib.suppress(OSError, ValueError):
        resource.setrlimit(resource.RLIMIT_NOFILE, (most, most))
    if most != resource.RLIM_INFINITY:
        given.jobs = max(1, min(given.jobs, (most - MOST_WAITING) // (MOST_COMPONENTS + 1) - 2))


def write_trace(top, given, report):
    output = Output(given.any_size)
    try:
        if given.jobs == 1:
            walk_alone(top, given, output, report)
        else:
            Crew(top, given, output, report).run()
    except Full as why:
        report.full = why
    finally:
        output.end()


def begin(given):
    """The folder that the trace begins at, or nothing where one of the words can't be taken."""
    try:
        top = Top(given.folder)
        given.excluded = frozenset(excluded_paths(given.exclude, top.path))
        # So it is known that there is /proc too, where files are looked at by the numbers of their descriptors.
        given.mounts = user_mounts()
        return top
    except Unfit as why:
        tell("%s: %s" % (shown(os.fsencode(given.folder)), why))
    except OSError as error:
        tell("%s: %s" % (shown(os.fsencode(error.filename or given.folder)), os.strerror(error.errno)))
    return None


def main():
    signal.signal(signal.SIGINT, signal.SIG_DFL)
    hold_streams()
    given, report = words(), Report()
    allow_descriptors(given)
    top = begin(given)
    if top is None:
        return 2
    try:
        write_trace(top, given, report)
    except NotWritten as why:
        tell("the trace couldn't be written: %s" % why)
        return 4
    except Ended:
        tell("a process of its own ended early")
        return 3
    except Exception as error:
        tell("%s: %s" % (type(error).__name__, error))
        return 3
    for line in report.lines():
        tell(line)
    return 1 if report.unread else 0


if __name__ == "__main__":
    sys.exit(main())
