#!/usr/bin/env python3
"""Types commands into bash, zsh and fish, and looks what the completions of examples/ offer: bench/completions.py [SHELL]..

In a folder with three files each line is typed and completed; what has to be offered there, and what must not be, stands beside it,
worked by hand. bash and zsh are typed into at a terminal, fish is asked by its own command. The status is 1 where a shell offers
something else. It needs the shells, of which all three are tried where none is named.
"""
import os
import pty
import select
import subprocess
import sys
import tempfile
import time

EXAMPLES = os.path.join(os.path.dirname(os.path.dirname(os.path.abspath(__file__))), "examples")
FILES = ("lab.passwd", "other", "trace.lab")

# What is typed, what is offered, and what isn't.
CASES = [
    ("gufi ro", ["rollup"], []),
    ("gufi --comp", ["--completions"], ["--cache"]),
    ("gufi find ", ["lab.passwd", "other", "trace.lab"], ["--passwd", "-name"]),
    ("gufi find --", ["--passwd", "--now", "--help"], ["--cache", "--summary", "other"]),
    ("gufi session --", ["--cache", "--passwd"], ["--limit"]),
    ("gufi ls -l -", ["-A", "--group"], ["-name", "--now"]),
    ("gufi find --passwd=la", ["lab.passwd"], []),
    ("gufi find --passwd la", ["lab.passwd"], []),
    ("gufi find --workers ", [], ["lab.passwd", "--now"]),
    ("gufi find --delim x --limit=2 tr", ["trace.lab"], []),
    ("gufi find -- --", [], ["--passwd"]),
    ("gufi find i ", [], ["lab.passwd", "--passwd", "-name"]),
    ("gufi find i ana / ", ["-name", "-maxdepth", "-nogroup"], ["--passwd", "lab.passwd"]),
    ("gufi find --delim x i ana / -m", ["-mtime", "-mindepth"], ["-name"]),
    ("gufi find i ana ", [], ["lab.passwd", "-name"]),
    ("gufi du i ana / ", [], ["lab.passwd", "-name"]),
    ("gufi du i ana / 2 ", ["-name", "-maxdepth", "-nogroup"], ["--passwd", "lab.passwd"]),
    ("gufi du --", ["--now", "--limit"], ["--workers", "--prefix"]),
    ("gufi diff tr", ["trace.lab"], []),
    ("gufi diff --limit=2 i tr", ["trace.lab"], ["lab.passwd"]),
    ("gufi diff i j ana ", [], ["lab.passwd", "other"]),
    ("gufi stats i ana / ", ["levels", "uids", "gids", "leaves"], ["lab.passwd"]),
    ("gufi stats -- i ana / le", ["levels", "leaves"], ["uids"]),
    ("gufi query i ana / 'SELECT size, bl", ["blksize", "blocks"], ["atime"]),
    ('gufi query i ana / "select path from en', ["entries"], ["summary"]),
    ("gufi agg i ana / 'SELECT uid, COU", ["COUNT(*)"], ["SUM(size)"]),
    ("gufi gen ", [], ["lab.passwd", "--summary"]),
    ("gufi refresh --limit=2 i ", [], ["lab.passwd", "--delim"]),
    ("gufi refresh --limit=2 i /p tr", ["trace.lab"], ["lab.passwd"]),
]

STARTS = {
    "bash": (["bash", "--norc", "--noprofile", "-i"], ['bind "set bell-style none"; bind "set enable-bracketed-paste off"', "source %s/gufi.bash"]),
    "zsh": (["zsh", "-f", "-i"], ["autoload -Uz compinit; compinit -u -D; unset zle_bracketed_paste", "source %s/gufi.zsh"]),
}


def read(terminal, seconds):
    """What comes from a terminal, until it is silent for so long."""
    told = b""
    while select.select([terminal], [], [], seconds)[0]:
        told += os.read(terminal, 65536)
    return told.decode("utf-8", "replace")


def typed_into(shell, folder):
    """What a shell at a terminal shows behind each line and two tabs."""
    command, settings = STARTS[shell]
    process, terminal = pty.fork()
    if not process:
        os.chdir(folder)
        os.execvpe(command[0], command, dict(os.environ, TERM="dumb", HOME=folder, PS1="$ ", LC_ALL="C.UTF-8"))
    read(terminal, 2)
    for setting in settings:
        os.write(terminal, (setting.replace("%s", EXAMPLES) + "\n").encode())
        read(terminal, 2)
    for line, _, _ in CASES:
        os.write(terminal, (line + "\t\t").encode())
        yield read(terminal, 2)
        os.write(terminal, b"\x15\x03")
        read(terminal, 1)
    os.close(terminal)
    os.waitpid(process, 0)


def asked_of_fish(folder):
    for line, _, _ in CASES:
        script = "source %s/gufi.fish; complete -C $argv[1]" % EXAMPLES
        told = subprocess.run(["fish", "--no-config", "-c", script, line], cwd=folder, stdout=subprocess.PIPE, stderr=subprocess.STDOUT)
        yield told.stdout.decode("utf-8", "replace")


def main():
    shells, wrong = sys.argv[1:] or ["bash", "zsh", "fish"], 0
    for shell in shells:
        with tempfile.TemporaryDirectory() as folder:
            for name in FILES:
                open(os.path.join(folder, name), "w").close()
            answers = asked_of_fish(folder) if shell == "fish" else typed_into(shell, folder)
            for (line, offered, others), told in zip(CASES, answers):
                fault = [word for word in offered if word not in told] + [word for word in others if word in told.replace(line, "", 1)]
                if fault:
                    wrong += 1
                    print("%s: %r: %s in %r" % (shell, line, " ".join(fault), told))
    print("%d lines, %d differ" % (len(CASES) * len(shells), wrong))
    return 1 if wrong else 0


if __name__ == "__main__":
    sys.exit(main())
