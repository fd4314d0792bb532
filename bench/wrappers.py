#!/usr/bin/env python3
"""Asks a site through its wrapper under everything that a caller can turn, and holds each answer to the whole one or a refusal.

  bench/wrappers.py [--program PROGRAM] [--broken]

It makes a site with accounts of its own, and removes them at the end; so it is to be run as root, on a machine with sudo and sshd,
whose rules of sudo it adds a file to meanwhile. Two users ask: `gufitry1` is in a group that is barred from a directory which
everybody else may list, so whoever loses his groups is shown more. What each must be shown stands here, worked by hand. A call's answer
is whole (status 0, and that text), or refused (another status, and no text), or it is wrong; the status is 1 where one is, and where a
call that nothing hinders is refused. With --broken the wrapper is one that loses groups: then wrong ones must be found on each way.
"""
import argparse
import collections
import concurrent.futures
import os
import pwd
import resource
import shutil
import signal
import subprocess
import sys
import tempfile
import time
from functools import partial

TOP = os.path.dirname(os.path.dirname(os.path.abspath(__file__)))
SITE, ONE, TWO, BARRED = "gufitry", "gufitry1", "gufitry2", "gufitryb"
RULES = "/etc/sudoers.d/gufitry"
PORT = 22522

# Path, type, mode, owner, group and size. Numbers of owners and groups are put in by their names.
TREE = [
    ("/t", "d", 0o755, "root", "root", 4096),
    ("/t/barred", "d", 0o705, "root", BARRED, 4096),
    ("/t/barred/secret", "f", 0o644, "root", BARRED, 11),
    ("/t/mine", "d", 0o700, ONE, ONE, 4096),
    ("/t/mine/key", "f", 0o600, ONE, ONE, 9),
    ("/t/open", "d", 0o755, "root", "root", 4096),
    ("/t/open/a.txt", "f", 0o644, "root", "root", 5),
    ("/t/shared", "d", 0o750, "root", BARRED, 4096),
    ("/t/shared/plan", "f", 0o640, "root", BARRED, 7),
]

# Words, and what each of the two users is shown.
QUESTIONS = [
    (
        ["find", "/"],
        "/\n/mine\n/mine/key\n/open\n/open/a.txt\n/shared\n/shared/plan\n",
        "/\n/barred\n/barred/secret\n/open\n/open/a.txt\n",
    ),
    (["find", "/", "-name", "*e*", "-type", "f", "-mtime", "+1"], "/mine/key\n", "/barred/secret\n"),
    (["find", "/", "-name", "\u00e9*", "-o", "-name", "a.txt"], "/open/a.txt\n", "/open/a.txt\n"),
    (["du", "/", "0"], "21\t56\t3\t4\t/\n", "16\t40\t2\t3\t/\n"),
    (
        ["du", "/", "1", "-size", "-6c"],
        "5\t8\t1\t0\t/\n0\t0\t0\t0\t/mine\n5\t8\t1\t0\t/open\n0\t0\t0\t0\t/shared\n",
        "5\t8\t1\t0\t/\n0\t0\t0\t0\t/barred\n5\t8\t1\t0\t/open\n",
    ),
    (["ls", "/"], "mine\nopen\nshared\n", "barred\nopen\n"),
    (["query", "/", "SELECT size, name FROM entries"], "9\tkey\n5\ta.txt\n7\tplan\n", "11\tsecret\n5\ta.txt\n"),
    (["agg", "/", "SELECT type, COUNT(*) FROM rows GROUP BY type"], "d\t4\nf\t3\n", "d\t3\nf\t2\n"),
    (["stats", "/", "leaves"], "/mine\n/open\n/shared\n", "/barred\n/open\n"),
]
STAT = "path /\ntype d mode 0755 links 1 uid 0 gid 0\nsize 4096 blksize 4096 blocks 8 inode 1\natime 0 mtime 0 ctime 0\n"
SUM = "dirs %s links 0 others 0 bytes %s mtime 0 0 uid 0 %s gid 0 %s\n"

# Words that are refused, with the status and the front of the note, in which the caller's words are counted.
REFUSED = [
    ([], 2, "gufi-ask: word 1 refused"),
    (["trace2index", "/etc/passwd"], 2, "gufi-ask: word 1 refused"),
    (["--passwd=/etc/passwd", "find", "/"], 2, "gufi-ask: word 1 refused"),
    (["find"], 2, "gufi-ask: word 2 refused"),
    (["find", ""], 2, "gufi-ask: word 2 refused"),
    (["find", "--limit=2", "/"], 2, "gufi-ask: word 2 refused"),
    (["ls", "-l", "-A", "-x", "/"], 2, "gufi-ask: word 4 refused"),
    (["ls", "-l", "-l", "/"], 2, "gufi: word 3 refused"),
    (["ls", "-l", "/", "/"], 2, "gufi: word 4 refused"),
    (["find", "/..", "-name", "x"], 2, "gufi: word 2 refused"),
    (["find", "/", "-size", "1x"], 2, "gufi: word 4 BadNumber"),
    (["--explain", "find", "/", "-size", "1x"], 2, "gufi: word 4 BadNumber\n  find / -size 1x\n               ^^\n"),
    (["--explain=files", "find", "/"], 2, "gufi-ask: --explain=files is refused"),
    (["find", "/", "-name", "a", "$(id)"], 2, "gufi: word 5 UnknownPrimary"),
    (["find", "/", "; id"], 2, "gufi: word 3 UnknownPrimary"),
    (["find", "/", "-name"], 2, "gufi: word 4 MissingArgument"),
    (["query", "/"], 2, "gufi: word 3 refused"),
    (["query", "/", "SELECT nope FROM rows"], 2, "gufi: word 3 at 7 UnknownColumn"),
    (["agg", "/", "SELECT uid FROM rows GROUP BY gid"], 2, "gufi: word 3 at "),
    (["stats", "/", "all"], 2, "gufi: word 3 refused"),
    (["stat", "/none"], 1, "gufi: no such at depth 1"),
    (["find", "/\nx"], 2, "gufi: word 2 refused"),
    (["find", b"/\xff"], 2, "gufi-ask: word 2 isn't UTF-8"),
    (["find", "/" + 100000 * "x"], 2, "gufi: word 2 refused"),
]

Answer = collections.namedtuple("Answer", "status text note")
User = collections.namedtuple("User", "pw_name pw_uid pw_gid")
counts = collections.defaultdict(collections.Counter)
statuses = collections.defaultdict(collections.Counter)
faults = []


def run(*words):
    """Runs a command of the system, which must succeed."""
    subprocess.run(words, check=True, stdout=subprocess.DEVNULL, stderr=subprocess.PIPE)


class Site:
    """A site in a folder of its own, with its accounts, and the ways to call its wrapper."""

    def __init__(self, program, broken):
        self.top = tempfile.mkdtemp(prefix="gufitry", dir="/var/lib")
        os.chmod(self.top, 0o755)
        self.ask = self.top + "/gufi-ask"
        self.sshd = None
        self.undoing = []
        try:
            self.make(program, broken)
        except BaseException:
            self.remove()
            raise

    def add(self, undoing, *words):
        """Runs a command of the system, and notes the one that takes back what it made."""
        run(*words)
        self.undoing.append(undoing)

    def make(self, program, broken):
        self.add(["groupdel", BARRED], "groupadd", BARRED)
        self.add(["userdel", SITE], "useradd", "--system", "--user-group", "--home-dir", self.top, "--shell", "/bin/sh", SITE)
        run("usermod", "--password", "*", SITE)
        self.add(["userdel", ONE], "useradd", "--user-group", "--no-create-home", "--groups", BARRED, ONE)
        self.add(["userdel", TWO], "useradd", "--user-group", "--no-create-home", TWO)
        self.account = pwd.getpwnam(SITE)
        self.users = [pwd.getpwnam(ONE), pwd.getpwnam(TWO)]
        self.write_wrapper(broken)
        self.write_site(program)
        self.write("/sudoers", "Defaults!%s env_reset, preserve_groups\nALL ALL=(%s) NOPASSWD: NOSETENV: %s\n" % (self.ask, SITE, self.ask))
        run("visudo", "-c", "-f", self.top + "/sudoers")
        self.add(["rm", "-f", RULES], "install", "-m", "0440", self.top + "/sudoers", RULES)
        shown = [user.pw_uid for user in self.users]
        groups = [os.getgrouplist(user.pw_name, user.pw_gid) for user in self.users]
        self.questions = QUESTIONS + [
            (
                ["stat", "/"],
                STAT + SUM % ("4 files 3", "21 size 5 9", shown[0], max(groups[0])),
                STAT + SUM % ("3 files 2", "16 size 5 11", 0, max(gid for gid in groups[0] if gid != self.users[0].pw_gid)),
            )
        ]

    def write(self, name, text, mode=0o644):
        with open(self.top + name, "w", encoding="utf-8") as file:
            file.write(text)
        os.chmod(self.top + name, mode)

    def write_wrapper(self, broken):
        with open(TOP + "/examples/gufi-ask.py", encoding="utf-8") as file:
            text = file.read()
        text = text.replace('SITE = "/srv/gufi"', 'SITE = "%s/site"' % self.top)
        if broken:
            text = text.replace("os.getgroups()", "[]").replace("os.getgrouplist(name, entry.pw_gid)", "[entry.pw_gid]")
        self.write("/gufi-ask", text, 0o755)

    def write_site(self, program):
        os.mkdir(self.top + "/site")
        shutil.copy(program, self.top + "/site/gufi")
        for table in ("passwd", "group"):
            self.write("/site/" + table, subprocess.check_output(["getent", table], text=True))
        ids = {user.pw_name: user.pw_uid for user in self.users}
        gids = dict({user.pw_name: user.pw_gid for user in self.users}, root=0)
        gids[BARRED] = int(subprocess.check_output(["getent", "group", BARRED], text=True).split(":")[2])
        lines = [
            "%s|%s|%d|%d|1|%d|%d|%d|4096|8|0|0|0|\n" % (path, kind, number, mode, ids.get(owner, 0), gids[group], size)
            for number, (path, kind, mode, owner, group, size) in enumerate(TREE, 1)
        ]
        self.write("/site/trace", "".join(lines), 0o600)
        with open(self.top + "/site/index", "wb") as index:
            subprocess.run([self.top + "/site/gufi", "trace2index", "--delim=|", self.top + "/site/trace"], stdout=index, check=True)
        shutil.chown(self.top + "/site", "root", SITE)
        os.chmod(self.top + "/site", 0o750)
        shutil.chown(self.top + "/site/index", "root", SITE)
        os.chmod(self.top + "/site/index", 0o640)

    def start_sshd(self, processes):
        """Starts an sshd of the site's own for its account, under a limit of processes for that account."""
        self.stop_sshd()
        if not os.path.exists(self.top + "/host"):
            os.makedirs("/run/sshd", exist_ok=True)
            run("ssh-keygen", "-q", "-t", "ed25519", "-N", "", "-f", self.top + "/host")
            keys = ""
            for user in self.users:
                run("ssh-keygen", "-q", "-t", "ed25519", "-N", "", "-f", self.top + "/" + user.pw_name)
                with open("%s/%s.pub" % (self.top, user.pw_name), encoding="utf-8") as key:
                    keys += 'restrict,command="%s --ssh %s" %s' % (self.ask, user.pw_name, key.read())
            self.write("/keys", keys)
        settings = "Port %d\nListenAddress 127.0.0.1\nHostKey %s/host\nAuthorizedKeysFile %s/keys\n" % (PORT, self.top, self.top)
        self.write("/sshd_config", settings + "UsePAM no\nMaxStartups 200\nPidFile none\n")
        bound = lambda: resource.setrlimit(resource.RLIMIT_NPROC, (processes, processes))
        command = ["/usr/sbin/sshd", "-D", "-e", "-f", self.top + "/sshd_config"]
        self.sshd = subprocess.Popen(command, preexec_fn=bound, stderr=subprocess.DEVNULL)
        time.sleep(1)

    def stop_sshd(self):
        if self.sshd:
            self.sshd.terminate()
            self.sshd.wait()
            self.sshd = None

    def remove(self):
        self.stop_sshd()
        for words in reversed(self.undoing):
            subprocess.run(words, stderr=subprocess.DEVNULL, check=False)
        shutil.rmtree(self.top)

    def by_sudo(self, user, words, **hindrance):
        """The user's own call, by sudo."""
        command = ["sudo", "-n", "-u", SITE, self.ask] + words
        return call(command, user, os.getgrouplist(user.pw_name, user.pw_gid), **hindrance)

    def by_sudo_alone(self, user, words, environment=None, groups=None, **hindrance):
        """What sudo starts for the user, with nothing of sudo's beside it."""
        given = dict(environment or {}, SUDO_UID=str(user.pw_uid), SUDO_GID=str(user.pw_gid), SUDO_USER=user.pw_name)
        groups = groups or os.getgrouplist(user.pw_name, user.pw_gid)
        return call([self.ask] + words, self.account, groups, environment=given, **hindrance)

    def by_ssh_alone(self, user, words, environment=None, **hindrance):
        """What sshd starts for a key of the user's, with nothing of sshd's beside it."""
        given = dict(environment or {}, SSH_ORIGINAL_COMMAND=quoted(words))
        return call([self.ask, "--ssh", user.pw_name], self.account, [self.account.pw_gid], environment=given, **hindrance)

    def by_ssh(self, user, words):
        """The user's own call, by ssh."""
        options = "-p%d -oBatchMode=yes -oStrictHostKeyChecking=no -oUserKnownHostsFile=/dev/null -oLogLevel=ERROR" % PORT
        command = ["ssh", "-F/dev/null", "-i%s/%s" % (self.top, user.pw_name)] + options.split() + [SITE + "@127.0.0.1", quoted(words)]
        return call(command, pwd.getpwnam("root"), [0])


def quoted(words):
    """The words as one text, each in single quotes."""
    text = b" ".join(b"'%s'" % os.fsencode(word).replace(b"'", b"'\\''") for word in words)
    return os.fsdecode(text)


def call(command, user, groups, environment=None, limits=(), closed=(), folder="/"):
    """Runs a command as a user, under limits, with streams closed, in an environment and a folder."""

    def hinder():
        for kind, most in limits:
            resource.setrlimit(kind, (most, most))
        for stream in closed:
            os.close(stream)

    started = subprocess.run(
        command,
        user=user.pw_uid,
        group=user.pw_gid,
        extra_groups=groups,
        preexec_fn=hinder,
        env=dict({"PATH": "/usr/bin:/bin", "LANG": "C.UTF-8"}, **(environment or {})),
        cwd=folder,
        stdin=subprocess.DEVNULL,
        stdout=subprocess.PIPE,
        stderr=subprocess.PIPE,
        timeout=120,
        check=False,
    )
    return Answer(started.returncode, started.stdout.decode("utf-8", "replace"), started.stderr.decode("utf-8", "replace"))


def judge(answer, kind, whole, hindered=True, no_text=False):
    """Counts an answer: whole, refused, or wrong. With no_text there is no stream that a text could come by."""
    statuses[kind][answer.status] += 1
    if answer.status == 0 and (answer.text == whole or no_text and not answer.text) and whole not in answer.note:
        counts[kind]["whole"] += 1
    elif answer.status != 0 and not answer.text and hindered:
        counts[kind]["refused"] += 1
    else:
        counts[kind]["wrong"] += 1
        faults.append("%s: %r in place of %r" % (kind, answer, whole))


def judge_refusal(answer, kind, status, note):
    """Counts an answer that must be a refusal with that status and a note that begins so."""
    statuses[kind][answer.status] += 1
    if answer.status == status and not answer.text and answer.note.startswith(note):
        counts[kind]["refused"] += 1
    else:
        counts[kind]["wrong"] += 1
        faults.append("%s: %r in place of %d %s" % (kind, answer, status, note))


def run_all(cases, side_by_side):
    """Runs cases, each a call and what judges its answer, so many at a time."""
    pool = concurrent.futures.ThreadPoolExecutor(side_by_side)
    try:
        for judged, answer in [(judged, pool.submit(asked)) for asked, judged in cases]:
            judged(answer.result())
    finally:
        pool.shutdown(cancel_futures=True)


def each(site, ways):
    """Each way, user and question, with what is to be shown."""
    for way in ways:
        for place, user in enumerate(site.users):
            for question in site.questions:
                yield way, user, question[0], question[1 + place]


def unhindered(site):
    for way, user, words, whole in each(site, (site.by_sudo, site.by_sudo_alone, site.by_ssh_alone, site.by_ssh)):
        yield partial(way, user, words), partial(judge, kind="nothing in the way, " + way.__name__, whole=whole, hindered=False)


def limits():
    """Limits that a caller can set, from none to plenty: what they are called, which they are, and their values."""
    mega = 1 << 20
    sizes = [mega // 8 * step for step in range(8)] + [mega * step for step in range(1, 40)] + [mega * step for step in range(40, 640, 40)]
    return [
        ("processes", resource.RLIMIT_NPROC, range(65)),
        ("open files", resource.RLIMIT_NOFILE, range(65)),
        ("address space", resource.RLIMIT_AS, sizes),
        ("data", resource.RLIMIT_DATA, sizes),
        ("stack", resource.RLIMIT_STACK, sizes[:16]),
        ("sizes of files", resource.RLIMIT_FSIZE, [0, 1, 1000]),
        ("locked memory", resource.RLIMIT_MEMLOCK, [0]),
        ("processor time", resource.RLIMIT_CPU, [0, 1]),
    ]


def limited(site):
    """The barred user under each limit, and the other one under some."""
    for name, kind, values in limits():
        for way in (site.by_sudo, site.by_sudo_alone, site.by_ssh_alone):
            for number, value in enumerate(values):
                question = site.questions[number % len(site.questions)]
                for place in (0, 1) if number % 8 == 0 else (0,):
                    asked = partial(way, site.users[place], question[0], limits=[(kind, value)])
                    yield asked, partial(judge, kind="limits of %s, %s" % (name, way.__name__), whole=question[1 + place])


def closed(site):
    for way in (site.by_sudo, site.by_sudo_alone, site.by_ssh_alone):
        for streams in ((0,), (1,), (2,), (0, 1), (0, 2), (1, 2), (0, 1, 2)):
            for place, user in enumerate(site.users):
                for question in site.questions[:3]:
                    asked = partial(way, user, question[0], closed=streams)
                    yield asked, partial(judge, kind="closed streams, " + way.__name__, whole=question[1 + place], no_text=1 in streams)


def odd_words(site):
    for way in (site.by_sudo, site.by_sudo_alone, site.by_ssh_alone, site.by_ssh):
        for words, status, note in REFUSED:
            asked = partial(way, site.users[0], [os.fsencode(word) for word in words])
            yield asked, partial(judge_refusal, kind="odd words, " + way.__name__, status=status, note=note)
    for text in ("find / 'x", 'find "/', "find /\\"):
        environment = {"SSH_ORIGINAL_COMMAND": text}
        asked = partial(call, [site.ask, "--ssh", ONE], site.account, [site.account.pw_gid], environment=environment)
        yield asked, partial(judge_refusal, kind="odd words, an open quote", status=2, note="gufi-ask: the words can't be told apart")


def odd_callers(site):
    """Callers who aren't there, or can't be told."""
    nobody = User("nobody-at-all", 65000, 65000)
    yield partial(call, ["sudo", "-n", "-u", SITE, site.ask, "find", "/"], nobody, []), partial(judge, kind="odd callers", whole="none")
    refused = partial(judge_refusal, kind="odd callers", status=77)
    for name in (nobody.pw_name, "", "-x", "#0", "0", "root\n", ONE + " "):
        yield partial(site.by_ssh_alone, nobody._replace(pw_name=name), ["find", "/"]), partial(refused, note="gufi-ask: ")
    alone = partial(call, [site.ask, "find", "/"], site.account)
    for uid in ("", "0;id", "-1", " 0", "+0", "0x0", "\u0663", "4294967296", 5000 * "9"):
        yield partial(alone, [], environment={"SUDO_UID": uid, "SUDO_GID": "0"}), partial(refused, note="gufi-ask: ")
    yield partial(alone, []), partial(refused, note="gufi-ask: to be called by")
    one = site.users[0]
    not_kept = partial(site.by_sudo_alone, one, ["find", "/"], groups=[site.account.pw_gid])
    yield not_kept, partial(refused, note="gufi-ask: sudo didn't keep")
    other = partial(site.by_sudo, one, ["--ssh", TWO], environment={"SSH_ORIGINAL_COMMAND": "find /"})
    yield other, partial(refused, note="gufi-ask: to be called by")


def environments(folder):
    """What a caller can put into his environment, with a folder of hostile modules."""
    odd = [{"PYTHON" + name: folder} for name in ("PATH", "HOME", "STARTUP", "USERBASE", "CASEOK", "PLATLIBDIR", "PYCACHEPREFIX")]
    odd += [{"PYTHON" + name: "1"} for name in ("INSPECT", "OPTIMIZE", "VERBOSE", "DEBUG", "WARNINGS", "UTF8", "MALLOC", "IOENCODING")]
    odd += [{"LANG": lang, "LC_ALL": lang} for lang in ("C", "POSIX", "tr_TR", "xx", "", "../..", "ja_JP.SJIS", 1000 * "a")]
    odd += [{"SUDO_UID": "0", "SUDO_GID": "0", "SUDO_USER": "root"}, {"SSH_ORIGINAL_COMMAND": "find /barred"}, {"IFS": "/"}]
    odd += [{"HOME": "/none"}, {"TZ": "../../etc/passwd"}, {"TMPDIR": "/none"}, {"ENV": folder + "/re.py"}, {"X": 100000 * "x"}]
    return odd + [{"GLIBC_TUNABLES": "glibc.malloc.arena_max=1"}, {"LD_LIBRARY_PATH": folder}, {"MALLOC_ARENA_MAX": "1"}]


def odd_environments(site):
    folder = site.top + "/odd"
    os.mkdir(folder)
    for name in ("pwd", "re", "resource", "shlex", "signal", "time", "os", "sitecustomize", "usercustomize", "encodings"):
        site.write("/odd/%s.py" % name, 'import sys\nsys.stdout.write("/barred/secret\\n")\nsys.exit(0)\n')
    for environment in environments(folder):
        mine = {name: value for name, value in environment.items() if not name.startswith(("SUDO_", "SSH_"))}
        for way, given in ((site.by_sudo, environment), (site.by_sudo_alone, mine), (site.by_ssh_alone, mine)):
            for place, user in enumerate(site.users):
                asked = partial(way, user, QUESTIONS[0][0], environment=given, folder=folder)
                kind = "odd environments, " + way.__name__
                yield asked, partial(judge, kind=kind, whole=QUESTIONS[0][1 + place], hindered=False)


def crowd(site, way, kind, **hindrance):
    """Forty calls, by each of the two users twenty."""
    for place in (0, 1) * 20:
        judged = partial(judge, kind="40 side by side, " + kind, whole=QUESTIONS[0][1 + place])
        yield partial(way, site.users[place], QUESTIONS[0][0], **hindrance), judged


def try_crowds(site):
    """By ssh under limits of processes for the account, and by sudo under the callers' own."""
    for most in (4, 8, 16, 24, 40, 64, 4096):
        site.start_sshd(most)
        run_all(crowd(site, site.by_ssh, "by_ssh, %d processes" % most), 40)
    for most in (4, 8, 16, 24, 40, 64, 4096):
        run_all(crowd(site, site.by_sudo, "by_sudo, %d processes" % most, limits=[(resource.RLIMIT_NPROC, most)]), 40)


def tell():
    """Prints what was counted, and returns how many answers were wrong."""
    counts["all"] = sum(counts.values(), collections.Counter())
    statuses["all"] = sum(statuses.values(), collections.Counter())
    for kind, count in counts.items():
        met = ", ".join("%d of %d" % (times, status) for status, times in sorted(statuses[kind].items()))
        print("%s: whole %d, refused %d, wrong %d; statuses %s" % (kind, count["whole"], count["refused"], count["wrong"], met))
    for fault in faults[:10]:
        print(fault)
    return len(faults)


def end(number, frame):
    """Ends by way of what removes the site, once."""
    signal.signal(number, signal.SIG_IGN)
    sys.exit(1)


def main():
    parser = argparse.ArgumentParser(description="Asks a site through its wrapper under everything that a caller can turn.")
    parser.add_argument("--program", default=TOP + "/crates/gufi/out/gufi")
    parser.add_argument("--broken", action="store_true", help="use a wrapper that loses groups, of which wrong answers must come")
    parser.add_argument("--jobs", type=int, default=os.cpu_count(), help="how many calls side by side, but for the crowds")
    given = parser.parse_args()
    for number in (signal.SIGHUP, signal.SIGTERM):
        signal.signal(number, end)
    site = Site(given.program, given.broken)
    try:
        site.start_sshd(4096)
        for cases in (unhindered,) if given.broken else (unhindered, odd_words, odd_callers, odd_environments, closed, limited):
            run_all(cases(site), given.jobs)
        if not given.broken:
            try_crowds(site)
    finally:
        site.remove()
    wrong = tell()
    if given.broken:
        return int(not all(count["wrong"] for count in counts.values()))
    return int(wrong > 0)


if __name__ == "__main__":
    sys.exit(main())
