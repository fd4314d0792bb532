#!/usr/bin/env python3
"""Compares what `gufi find` lists of a live tree with what the kernel lets `find` list of it, as root: python3 live.py [FOLDER]

Below a new folder in FOLDER, which is /var/tmp and lies on a file system with access control lists, it makes 500 directories and 5,000
files of all modes, owners and lists, some with names of attributes, and traces them by `trace.py`. Then each of 12 users in 0 to 20 groups asks
`gufi find`, and walks by `find` under `setpriv`. `find` also names a directory that its user may not list, and the names in one
that he may read and not search; so it is told to pass over the others. Names of attributes are compared with the files that he may read.

Linux departs from POSIX.1e in two ways, and `gufi` shows less there: under an empty mask the kernel looks at no list, and it takes
read and search of a directory from entries of two groups. A row that `find` alone has must lie at or below such a directory, which
is looked up among the lists that were given to `setfacl`; it is counted, and each way has to be met. Any other row that one of them
alone has is told, and the status is then 1.

It needs the packages acl and attr, setpriv and GNU find. --program names another program, --seed another tree.
"""
import argparse
import os
import random
import subprocess
import sys
import tempfile

TOP = os.path.dirname(os.path.dirname(os.path.abspath(__file__)))

DIRECTORIES, FILES = 500, 5000
GROUPS_OF_USERS = (0, 1, 2, 3, 4, 6, 8, 10, 12, 15, 18, 20)
USERS = range(2001, 2001 + len(GROUPS_OF_USERS))
GROUPS = range(5001, 5026)
# A group that owns nothing and stands in no list, for a user in no group: a process has always one.
NOBODYS = 64999

READ, SEARCH = 4, 1
NAMES = ("run", ".hidden", "-dash", "two words", "caf\u00e9", "tab\there", "star*", "back\\slash", "quote'\"$")
ODD = ("new\nline", "record\x1eseparator")


class Rights:
    """What a file was given: its owner, group, mode, and the entries of its list, where it has one."""

    def __init__(self, rng, is_directory):
        self.owner = rng.choice((0, 1999, *USERS))
        self.group = rng.choice((0, 4999, *GROUPS))
        self.mode = rng.choice(usual_modes(is_directory)) if rng.random() < 0.7 else rng.randrange(0o10000)
        self.entries = random_list(rng) if rng.random() < 0.5 else None

    def bits_of_groups(self, groups):
        """The bits of each entry that is of one of these groups, behind the mask."""
        mask = self.entries["mask", None]
        own = [self.entries["group", None] & mask] if self.group in groups else []
        return own + [bits & mask for (tag, number), bits in self.entries.items() if tag == "group" and number in groups]

    def departs(self, user, groups, wanted):
        """Which of the two ways lets this user have the wanted bits, where the list's rules don't."""
        if self.entries is None or user == self.owner:
            return None
        named = self.entries.get(("user", user))
        by_groups = self.bits_of_groups(groups)
        if self.entries["mask", None] == 0:
            other = self.entries["other", None]
            asks_list = named is not None or by_groups
            return "empty mask" if asks_list and self.group not in groups and other & wanted == wanted else None
        if named is None and wanted == READ | SEARCH and not any(bits & wanted == wanted for bits in by_groups):
            if any(bits & READ for bits in by_groups) and any(bits & SEARCH for bits in by_groups):
                return "two groups"
        return None


def usual_modes(is_directory):
    return (0o755, 0o755, 0o750, 0o711, 0o700, 0o775, 0o2770, 0o1777) if is_directory else (0o644, 0o640, 0o600, 0o664, 0o4755)


def random_list(rng):
    """Entries by tag and number; the mask is empty now and then."""
    bits = lambda: rng.choice((0, 1, 4, 5, 5, 5, 6, 7, 7))
    entries = {("user", None): rng.choice((7, 7, 5, 4, 0)), ("group", None): bits()}
    entries.update({("user", user): bits() for user in rng.sample(USERS, rng.randrange(5))})
    entries.update({("group", group): bits() for group in rng.sample(GROUPS, rng.randrange(8))})
    entries["mask", None] = rng.choice((7, 7, 7, 5, 5, 4, 1, 0))
    entries["other", None] = rng.choice((0, 0, 0, 1, 4, 5, 5, 7))
    return entries


class Tree:
    """A tree on the disk, and what each of its files was given, by its path below the top."""

    def __init__(self, top, rng):
        self.top, self.rng = top, rng
        self.rights, self.attributes = {}, {}
        self.directories = [""]
        for number in range(1, DIRECTORIES):
            # Most lie near the top, so that many are reached.
            parent = self.directories[int(rng.random() ** 2 * len(self.directories))]
            self.directories.append(self.place(parent, number))
            os.mkdir(top + self.directories[-1])
        for number in range(FILES):
            self.make_file(self.place(rng.choice(self.directories), number) + ".f")

    def place(self, parent, number):
        name = self.rng.choice(ODD if self.rng.random() < 0.005 else NAMES)
        return "%s/%s%d" % (parent, name, number)

    def make_file(self, path):
        if self.rng.random() < 0.1:
            os.symlink(self.rng.choice(("..", "nowhere", "/etc/passwd")), self.top + path)
            return
        with open(self.top + path, "w") as file:
            file.write("x" * self.rng.randrange(100))
        self.rights[path] = Rights(self.rng, False)
        if self.rng.random() < 0.3:
            self.attributes[path] = sorted(self.rng.sample(("user.kind", "user.owner", "user.sum"), self.rng.randrange(1, 3)))
            for name in self.attributes[path]:
                os.setxattr(self.top + path, name, b"1")

    def give(self):
        """Gives each file its owner, mode and list: the lists by setfacl."""
        for path in self.directories[1:]:
            self.rights[path] = Rights(self.rng, True)
        for path, rights in self.rights.items():
            os.chown(self.top + path, rights.owner, rights.group)
            os.chmod(self.top + path, rights.mode)
        text = "".join(restored(self.top + path, rights.entries) for path, rights in self.rights.items() if rights.entries)
        subprocess.run(["setfacl", "--restore=-"], input=text.encode(), check=True)

    def is_odd(self, path):
        return "\n" in path or "\x1e" in path


def restored(path, entries):
    """The lines by which `setfacl --restore` gives a file its list."""
    escaped = "".join(char if char not in "\\\n" else "\\%03o" % ord(char) for char in path)
    lines = ["# file: " + escaped]
    for (tag, number), bits in entries.items():
        lines.append("%s:%s:%s" % (tag, "" if number is None else number, rwx(bits)))
    return "\n".join(lines) + "\n\n"


def rwx(bits):
    return "".join(letter if bits & bit else "-" for letter, bit in zip("rwx", (4, 2, 1)))


def as_user(user, groups, command, folder):
    """What a command prints that the user runs, in a folder that he stands in already: paths that zero bytes end."""
    groups = groups or [NOBODYS]
    words = ["setpriv", "--reuid=%d" % user, "--regid=%d" % groups[0], "--groups=" + ",".join(map(str, groups))]
    ran = subprocess.run(words + command, cwd=folder, stdout=subprocess.PIPE, check=True)
    return ran.stdout.decode().split("\0")[:-1]


def found_by(user, groups, tree):
    """The rows that the user lists by `find`, less what a trace leaves out."""
    passed = ["-type", "d", "!", "(", "-readable", "-executable", ")", "-prune", "-o", "-printf", "/%P\\0"]
    return {path for path in as_user(user, groups, ["find", "."] + passed, tree.top) if not tree.is_odd(path)}


def readable_by(user, groups, tree):
    """The files that he may read, of those that he lists."""
    passed = ["-type", "d", "!", "(", "-readable", "-executable", ")", "-prune", "-o", "-type", "f", "-readable", "-printf", "/%P\\0"]
    return {path for path in as_user(user, groups, ["find", "."] + passed, tree.top) if not tree.is_odd(path)}


def gufi(program, *words):
    ran = subprocess.run([program, *words], stdout=subprocess.PIPE, check=True)
    return ran.stdout.decode().split("\n")[:-1]


def above(path):
    """The path and those of all directories above it, the highest one first."""
    parts = path.split("/")
    return ["/".join(parts[:count]) for count in range(2, len(parts) + 1)]


class Tally:
    def __init__(self):
        self.rows = self.names = self.differ = 0
        self.departed = {"empty mask": 0, "two groups": 0}
        self.names_departed = 0

    def differs(self, user, path, why):
        self.differ += 1
        print("user %d: %s: %s" % (user, ascii(path), why))

    def add_rows(self, tree, user, groups, listed, found):
        """Compares two sets of rows."""
        self.rows += len(found)
        for path in listed - found:
            self.differs(user, path, "listed by gufi alone")
        for path in found - listed:
            # The highest directory that gufi passes over says why.
            first = next((it for it in above(path) if it not in listed), path)
            way = tree.rights[first].departs(user, groups, READ | SEARCH) if first in tree.rights else None
            if way:
                self.departed[way] += 1
            else:
                self.differs(user, path, "listed by find alone")

    def add_names(self, tree, user, groups, told, readable, listed):
        """Compares the names of attributes that gufi tells with those of the files that the kernel lets him read."""
        wanted = {path: ",".join(tree.attributes[path]) for path in readable & listed if path in tree.attributes}
        self.names += len(wanted)
        for path in told.keys() - wanted.keys():
            self.differs(user, path, "names told by gufi alone")
        for path, names in wanted.items():
            if path not in told and tree.rights[path].departs(user, groups, READ):
                self.names_departed += 1
            elif told.get(path) != names:
                self.differs(user, path, "names %s and not %s" % (told.get(path), names))


def compare(tree, trace, program, rng):
    tally = Tally()
    for user, count in zip(USERS, GROUPS_OF_USERS):
        groups = rng.sample(GROUPS, count)
        asks = "%d:%s" % (user, ",".join(map(str, groups))) if groups else str(user)
        lines = gufi(program, "find", trace, asks, "/")
        listed, found = set(lines), found_by(user, groups, tree)
        if lines != sorted(lines, key=lambda path: path.encode().split(b"/")) or len(listed) != len(lines):
            tally.differs(user, "/", "not in path order")
        tally.add_rows(tree, user, groups, listed, found)
        query = "SELECT path, xattrs FROM entries WHERE xattrs <> ''"
        told = dict(line.rsplit("\t", 1) for line in gufi(program, "query", trace, asks, "/", query))
        tally.add_names(tree, user, groups, told, readable_by(user, groups, tree), listed)
        print("user %d in %2d groups: %4d rows by gufi, %4d by find, %3d files with names" % (user, count, len(listed), len(found), len(told)))
    return tally


def main():
    parser = argparse.ArgumentParser(usage=__doc__)
    parser.add_argument("--program", default=os.path.join(TOP, "gufi"))
    parser.add_argument("--seed", type=int, default=1)
    parser.add_argument("folder", nargs="?", default="/var/tmp")
    given = parser.parse_args()
    rng = random.Random(given.seed)
    with tempfile.TemporaryDirectory(dir=given.folder) as work:
        os.chmod(work, 0o755)
        top, trace = os.path.join(work, "tree"), os.path.join(work, "trace")
        os.mkdir(top)
        tree = Tree(top, rng)
        tree.give()
        with open(trace, "wb") as file:
            subprocess.run([sys.executable, "-I", os.path.join(TOP, "examples", "trace.py"), top], stdout=file, check=True)
        tally = compare(tree, trace, given.program, rng)
    lists = sum(rights.entries is not None for rights in tree.rights.values())
    print("%d users, %d directories, %d files, %d lists" % (len(USERS), DIRECTORIES, FILES, lists))
    print("%d rows and %d files with names compared: %d differ" % (tally.rows, tally.names, tally.differ))
    departed = ", ".join("%s %d" % each for each in tally.departed.items())
    print("shown by find alone, where Linux departs from POSIX.1e: rows by %s; files with names %d" % (departed, tally.names_departed))
    return 1 if tally.differ or not all(tally.departed.values()) else 0


if __name__ == "__main__":
    sys.exit(main())
