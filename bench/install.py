#!/usr/bin/env python3
"""Installs and uninstalls in many ways, as root: bench/install.py [--program PROGRAM]

In a new folder, whose names have blanks, it looks whether

- all is installed, with its mode and its text, and --uninstall leaves what stood there before, as does one over an earlier installation;
- the same holds below DESTDIR, and for a user in a prefix of his own;
- on file systems of many sizes, in folders that may not be written, under few processes, short files and few open files, and where it is
  ended or killed at moments all over it, a file has its whole text or isn't there, a failure is told by status and note, and a later
  installation and --uninstall go through.

The status is 1 where one of these doesn't hold, which is told. It needs mount and setpriv.
"""
import argparse
import os
import resource
import signal
import subprocess
import sys
import tempfile
import time

TOP = os.path.dirname(os.path.dirname(os.path.abspath(__file__)))
INSTALL = os.path.join(TOP, "install.sh")
USER = 2001
LIST = "share/gufi/installed"


class Check:
    """Counts what was looked at, and tells what doesn't hold."""

    def __init__(self, program):
        self.program = program
        self.looked = self.failed = 0
        words = ("--man", "--version", "--completions", "--completions=zsh", "--completions=fish")
        pages = {word: subprocess.check_output([program, word]) for word in words}
        version = pages["--version"].decode().strip()
        with open(TOP + "/CHANGELOG.md", encoding="utf-8") as file:
            date = next(line.split(", ")[1].strip() for line in file if line.startswith("## "))
        dated = pages["--man"].decode().replace(".TH GUFI 1\n", '.TH GUFI 1 "%s" "%s"\n' % (date, version), 1)
        self.whole = {
            "bin/gufi": (0o755, read(program)),
            "share/man/man1/gufi.1": (0o644, dated.encode()),
            "share/bash-completion/completions/gufi": (0o644, pages["--completions"]),
            "share/zsh/site-functions/_gufi": (0o644, pages["--completions=zsh"]),
            "share/fish/vendor_completions.d/gufi.fish": (0o644, pages["--completions=fish"]),
        }
        for name in os.listdir(TOP + "/examples"):
            file = TOP + "/examples/" + name
            self.whole["share/doc/gufi/examples/" + name] = (0o755 if os.access(file, os.X_OK) else 0o644, read(file))

    def that(self, holds, what):
        self.looked += 1
        if not holds:
            self.failed += 1
            print("doesn't hold: " + what)

    def run(self, *words, before=(), **how):
        setting = dict({"PATH": os.environ["PATH"], "PROGRAM": self.program}, **how.pop("env", {}))
        return subprocess.run([*before, INSTALL, *words], stdout=subprocess.PIPE, stderr=subprocess.PIPE, stdin=subprocess.DEVNULL, env=setting, **how)

    def that_whole(self, root, what):
        """All is there, and nothing else."""
        found = below(root)
        self.that(set(found) == set(self.whole) | {LIST}, "%s: %s" % (what, sorted(set(found) ^ set(self.whole))))
        for path, (mode, text) in self.whole.items():
            self.that(found.get(path) == (mode, text), "%s: %s" % (what, path))

    def that_none_cut(self, root, what, earlier=()):
        """Each file that is there has its whole text, or that of before."""
        for path, found in below(root).items():
            if path in self.whole:
                self.that(found == self.whole[path] or found[1] in earlier, "%s: %s is cut off" % (what, path))

    def that_later_goes_through(self, root, what):
        ran = self.run(root)
        self.that(ran.returncode == 0, "%s: a later installation: %s" % (what, ran.stderr))
        self.that_whole(root, what)
        ran = self.run("--uninstall", root)
        self.that(ran.returncode == 0 and not below(root), "%s: a later --uninstall: %s" % (what, ran.stderr))


def read(path):
    with open(path, "rb") as file:
        return file.read()


def below(root):
    """The files below a folder, with mode and text."""
    found = {}
    for folder, _, names in os.walk(root):
        for name in names:
            path = os.path.join(folder, name)
            found[os.path.relpath(path, root)] = (os.stat(path).st_mode & 0o7777, read(path))
    return found


def try_plain(check, work):
    root = work + "/own prefix/of mine"
    for how, where in (({}, root), ({"env": {"DESTDIR": work + "/stage d"}}, work + "/stage d" + root)):
        os.makedirs(where + "/bin")
        open(where + "/bin/other", "w").close()
        before = below(where)
        for words, wanted in (([root], "installed"), ([root], "installed"), (["--uninstall", root], "removed")):
            ran = check.run(*words, **how)
            check.that(ran.returncode == 0 and wanted in ran.stdout.decode(), "%s %s: %s" % (how, words, ran.stderr))
            if wanted == "installed":
                os.rename(where + "/bin/other", work + "/other")
                check.that_whole(where, "installed below %s" % where)
                os.rename(work + "/other", where + "/bin/other")
        check.that(below(where) == before and os.listdir(where) == ["bin"], "uninstalled from %s" % where)
    for words, wanted in ((["a"], 2), (["/a", "/b"], 2), (["/a\nb"], 2), (["--uninstall", work + "/none"], 1), (["--help"], 0)):
        check.that(check.run(*words).returncode == wanted, "%s: status %d" % (words, wanted))
    outside = work + "/outside"
    open(outside, "w").close()
    for line in ("../../outside", outside, "share/../../outside"):
        os.makedirs(root + "/share/gufi", exist_ok=True)
        with open(root + "/" + LIST, "w") as file:
            file.write(line + "\n")
        check.that(check.run("--uninstall", root).returncode == 1 and os.path.exists(outside), "a list that leads out, by " + line)
        os.unlink(root + "/" + LIST)


def try_user(check, work):
    """A user in a prefix of his own, and in folders that he may not write."""
    mine = work + "/user's"
    os.mkdir(mine)
    os.chown(mine, USER, USER)
    before = ["setpriv", "--reuid=%d" % USER, "--regid=%d" % USER, "--clear-groups"]
    for shut in ("bin", "share/doc/gufi/examples", "share/gufi", "share/man/man1"):
        check.that(check.run(mine, before=before).returncode == 0, "a user's installation")
        check.that_whole(mine, "a user's")
        os.chown("%s/%s" % (mine, shut), 0, 0)
        held = below(mine)
        for words in ([mine], ["--uninstall", mine]):
            ran = check.run(*words, before=before)
            check.that(ran.returncode == 1 and b"install.sh: " in ran.stderr, "%s in a shut folder %s: status %d" % (words, shut, ran.returncode))
            check.that(words != [mine] or below(mine) == held, "nothing is changed where %s is shut" % shut)
        os.chown("%s/%s" % (mine, shut), USER, USER)
    check.that_later_goes_through(mine, "behind shut folders")
    root = work + "/shut"
    os.mkdir(root)
    ran = check.run(root, before=before)
    check.that(ran.returncode == 1 and os.listdir(root) == [], "a shut prefix: %d" % ran.returncode)


def try_full(check, work):
    """Disks of many sizes, with an earlier installation and without."""
    root, failed = work + "/disk", 0
    os.mkdir(root)
    size = sum(len(text) // 4096 + 1 for _, text in check.whole.values()) * 4096
    for part in range(1, 40):
        bytes_of_it = size * part // 25
        subprocess.run(["mount", "-t", "tmpfs", "-o", "size=%d" % bytes_of_it, "tmpfs", root], check=True)
        try:
            if part % 2:
                os.mkdir(root + "/bin")
                with open(root + "/bin/gufi", "w") as file:
                    file.write("before\n")
            ran = check.run(root)
            failed += ran.returncode != 0
            what = "a disk of %d bytes" % bytes_of_it
            check.that(ran.returncode in (0, 1) and (ran.returncode == 0 or b"install.sh: " in ran.stderr), "%s: %d" % (what, ran.returncode))
            check.that_none_cut(root, what, [b"before\n"])
            if ran.returncode == 0:
                check.that_whole(root, what)
            elif b"nothing is installed" in ran.stderr:
                check.that(below(root) == ({"bin/gufi": (0o644, b"before\n")} if part % 2 else {}), what + ": something is left")
        finally:
            subprocess.run(["umount", root], check=True)
    print("disks: 39 of other sizes, on %d of them refused" % failed)


def try_limits(check, work):
    """Few processes and open files, and short files, for a user."""
    root, ended = work + "/limited", {}
    before = ["setpriv", "--reuid=%d" % USER, "--regid=%d" % USER, "--clear-groups"]
    kinds = {
        "processes": (resource.RLIMIT_NPROC, range(0, 12)),
        "open files": (resource.RLIMIT_NOFILE, range(3, 15)),
        "sizes of files": (resource.RLIMIT_FSIZE, [0, 100, 1000, 5000, 20000, 100000, 1000000]),
    }
    for name, (kind, values) in kinds.items():
        for most in values:
            os.mkdir(root)
            os.chown(root, USER, USER)
            ran = check.run(root, before=before, preexec_fn=lambda: resource.setrlimit(kind, (most, most)))
            ended.setdefault(name, []).append(ran.returncode)
            what = "%d %s" % (most, name)
            check.that_none_cut(root, what)
            if ran.returncode == 0:
                check.that_whole(root, what)
            else:
                check.that(ran.stderr != b"", what + ": nothing is told")
            check.that_later_goes_through(root, what)
            if os.path.exists(root):
                subprocess.run(["rm", "-r", root], check=True)
    print("limits, and statuses: %s" % ", ".join("%s %s" % each for each in ended.items()))


def try_kills(check, work):
    """Ended or killed at moments all over an installation."""
    root = work + "/killed"
    began = time.monotonic()
    check.run(root)
    seconds = time.monotonic() - began
    check.run("--uninstall", root)
    whole = 0
    for number in range(40):
        for how in (signal.SIGTERM, signal.SIGKILL):
            words = {"PATH": os.environ["PATH"], "PROGRAM": check.program}
            ran = subprocess.Popen([INSTALL, root], stdout=subprocess.DEVNULL, stderr=subprocess.PIPE, env=words, start_new_session=True)
            time.sleep(seconds * (number + 0.5) / 40)
            try:
                os.killpg(ran.pid, how)
            except ProcessLookupError:
                pass
            told = ran.communicate()[1]
            what = "killed by %d behind %d of 40" % (how, number)
            check.that_none_cut(root, what)
            whole += ran.returncode == 0
            check.that(ran.returncode != 0 or os.path.exists(root + "/bin/gufi"), what + ": status 0")
            check.that(ran.returncode in (0, -how, 143), "%s: status %d: %s" % (what, ran.returncode, told))
            check.that_later_goes_through(root, what)
    print("kills: 80, of which %d came behind its end" % whole)


def main():
    parser = argparse.ArgumentParser(description="Installs and uninstalls in many ways, as root.")
    parser.add_argument("--program", default=TOP + "/crates/gufi/out/gufi")
    given = parser.parse_args()
    check = Check(os.path.abspath(given.program))
    with tempfile.TemporaryDirectory(prefix="gufi install ") as work:
        os.chmod(work, 0o755)
        for tried in (try_plain, try_user, try_full, try_limits, try_kills):
            tried(check, work)
    print("%d of %d checks hold" % (check.looked - check.failed, check.looked))
    return 1 if check.failed else 0


if __name__ == "__main__":
    sys.exit(main())
