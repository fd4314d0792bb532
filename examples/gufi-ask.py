#!/usr/bin/python3 -IS
"""Asks the site's index for whoever called, with what his own rights let him list, and for nobody else.

  sudo -u gufi gufi-ask COMMAND WORD..    the caller is he who called sudo
  gufi-ask --ssh NAME                     the forced command of a key of NAME's; what he sent is split as a shell quotes words

`gufi-ask help` has the commands; `--explain` before one has a refusal of the program explained. No shell reads a word, and no process
is started: this one becomes the program. What goes wrong before that ends with status 77 and a note, and a word that is refused here
with status 2.
"""
import os
import sys


def tell(note):
    """Writes a note, where it can be written: the status tells all the same."""
    try:
        os.write(2, note)
    except OSError:
        pass


def refuse(status, why):
    """Ends with a note and a status."""
    tell(("gufi-ask: %s\n" % why).encode("utf-8", "backslashreplace"))
    os._exit(status)


# Whatever fails from here on, an import too, is a refusal.
sys.excepthook = lambda kind, fault, trace: refuse(77, str(fault) or kind.__name__)

import pwd
import re
import resource
import shlex
import signal
import time

SITE = "/srv/gufi"
SECONDS = 60  # of processor time
MEMORY = 4 << 30  # bytes of address space

# What a run touches of memory it takes in large pages, as the clone's script `gufi` has it. Nothing else stands in its environment.
ENVIRONMENT = {"GLIBC_TUNABLES": "glibc.malloc.hugetlb=1:glibc.malloc.top_pad=67108864"}

HELP = {
    "find": ("START [EXPRESSION]", "the paths of what you can list from START on, as -name '*.h5' -size +2048 chooses"),
    "du": ("START DEPTH [EXPRESSION]", "what each directory takes up that you can list at most DEPTH below START: bytes, blocks, files, directories"),
    "ls": ("[-l] [-A] START", "what lies right below START"),
    "stat": ("START", "the record of START, and the sum of what you can list below it"),
    "query": ("START SELECT", "columns of the rows: 'SELECT size, path FROM entries'"),
    "agg": ("START SELECT", "counts and sums of the rows: 'SELECT uid, COUNT(*) FROM rows GROUP BY uid'"),
    "stats": ("START REPORT", "a report: levels, uids, gids or leaves"),
}


def hold_streams():
    """Puts nothing in the place of standard input, and sees that no file can take the place of another stream that is closed."""
    try:
        os.fstat(1)
    except OSError:
        refuse(77, "standard output is closed")
    null = os.open(os.devnull, os.O_RDWR)
    os.dup2(null, 0)
    os.set_inheritable(0, True)
    try:
        os.fstat(2)
    except OSError:
        os.dup2(null, 2)
    os.set_inheritable(2, True)


def make_room():
    """Makes sure of the files and the memory that looking up groups takes: where it lacks them, the system's call leaves groups out."""
    most = resource.getrlimit(resource.RLIMIT_NOFILE)[1]
    resource.setrlimit(resource.RLIMIT_NOFILE, (most, most))
    for number in [os.dup(0) for _ in range(32)]:
        os.close(number)
    bytes(64 << 20)


def number_of(variable):
    """The number that sudo gave a variable."""
    text = os.environ.get(variable, "")
    if not (text.isascii() and text.isdigit() and len(text) <= 10 and int(text) < 1 << 32):
        refuse(77, "%s is no number of a user or group" % variable)
    return int(text)


def caller_by_sudo():
    """Who called sudo: his number, and the groups of the process that called, which sudo keeps as they are by `preserve_groups`."""
    uid, gid, groups = number_of("SUDO_UID"), number_of("SUDO_GID"), os.getgroups()
    if os.getegid() in groups:
        refuse(77, "sudo didn't keep the caller's groups: its rules lack preserve_groups, or he is in the site's own group")
    return uid, [gid] + groups


def caller_by_ssh(name):
    """Whose key it was: his number, and the groups that a login would give him now."""
    make_room()
    entry = pwd.getpwnam(name)
    return entry.pw_uid, os.getgrouplist(name, entry.pw_gid)


def user_of(uid, groups):
    """A user in the form that no name has."""
    user = "%d:%s" % (uid, ",".join(str(group) for group in dict.fromkeys(groups)))
    if not re.fullmatch("[0-9]+:[0-9]+(,[0-9]+)*", user):
        refuse(77, "the caller's groups can't be told")
    return user


def texts_of(words):
    """The words as texts, as the program reads them."""
    texts = []
    for number, word in enumerate(words, 1):
        try:
            texts.append(word.decode("utf-8"))
        except UnicodeDecodeError:
            refuse(2, "word %d isn't UTF-8" % number)
    return texts


def words_by_ssh():
    """The words that came with the call."""
    text = os.environb.get(b"SSH_ORIGINAL_COMMAND", b"").decode("utf-8", "surrogateescape")
    try:
        return texts_of(word.encode("utf-8", "surrogateescape") for word in shlex.split(text))
    except ValueError as fault:
        refuse(2, "the words can't be told apart: %s" % str(fault).lower())


def help_of(words):
    """The page of help that the words ask for, if they do."""
    asked = ("help", "--help", "-h")
    if len(words) == 1 and words[0] in asked:
        return "".join("%s %s\n" % (command, HELP[command][0]) for command in HELP) + "COMMAND --help tells more of one\n"
    if len(words) == 2 and words[0] in HELP and words[1] in asked[1:]:
        return "%s %s\n%s. START begins with /, the root of the index\n" % ((words[0],) + HELP[words[0]])
    return None


def options_of(words):
    """How many of the words behind the command are options."""
    if not words or words[0] not in HELP:
        refuse(2, "word 1 refused: it is one of %s, help" % ", ".join(HELP))
    count = 0
    while words[0] == "ls" and words[1 + count : 2 + count] in (["-l"], ["-A"]):
        count += 1
    if not "".join(words[1 + count : 2 + count]).startswith("/"):
        refuse(2, "word %d refused: it is START, which begins with /" % (2 + count))
    return count


def explained(words):
    """The option that asks the program to explain a refusal, if it stands first, and the other words. Files are shown to nobody."""
    if words[:1] == ["--explain=files"]:
        refuse(2, "--explain=files is refused: it shows what stands in the site's files")
    return (words[:1], words[1:]) if words[:1] == ["--explain"] else ([], words)


def words_of_site(command, user):
    """The words that the site puts before START."""
    words = ["--passwd=%s/passwd" % SITE, "--group=%s/group" % SITE]
    if command in ("find", "du"):
        words.append("--now=%d" % time.time())
    return words + [SITE + "/index", user]


def limit(kind, most):
    """Sets a limit, or leaves a lower one that can't be raised."""
    inherited = resource.getrlimit(kind)[1]
    value = most if inherited == resource.RLIM_INFINITY else min(most, inherited)
    resource.setrlimit(kind, (value, value))


def become_program(words):
    """Puts the program in the place of this process, under the limits and with the signals as a shell leaves them."""
    os.chdir("/")
    limit(resource.RLIMIT_CPU, SECONDS)
    limit(resource.RLIMIT_AS, MEMORY)
    limit(resource.RLIMIT_CORE, 0)
    for number in (signal.SIGPIPE, signal.SIGXFSZ, signal.SIGXCPU):
        signal.signal(number, signal.SIG_DFL)
    signal.pthread_sigmask(signal.SIG_SETMASK, [])
    os.execve(SITE + "/gufi", [b"gufi"] + [word.encode("utf-8") for word in words], ENVIRONMENT)


def answer(user, words):
    """Answers the words of a user: with a page of help, or by the program, which counts the caller's words alone in its notes."""
    page = help_of(words)
    if page:
        os.write(1, page.encode())
        return 0
    explain, words = explained(words)
    behind = 1 + options_of(words)
    site = words_of_site(words[0], user)
    inserted = "--inserted=%d,%d" % (behind + 1, len(site))
    return become_program([inserted] + explain + words[:behind] + site + words[behind:])


def main(words):
    hold_streams()
    by_ssh = words[:1] == ["--ssh"] and len(words) == 2
    if by_ssh == ("SUDO_UID" in os.environ):
        refuse(77, "to be called by sudo, or by sshd with --ssh NAME")
    if by_ssh:
        return answer(user_of(*caller_by_ssh(words[1])), words_by_ssh())
    return answer(user_of(*caller_by_sudo()), texts_of(map(os.fsencode, words)))


if __name__ == "__main__":
    os._exit(main(sys.argv[1:]))
