#!/usr/bin/env python3
"""Runs every command line that the documents show, and compares what it prints with what they show.

  docs/check_runs.py [--program PROGRAM] [DOCUMENT]..

A command is a line of a code block that begins with `$ `, with the lines behind it while a backslash ends them. The lines up to
the next command, or to the block's end, are what it prints on both streams. The commands of a document run one after another in
one shell, in a fresh folder that holds the program as `gufi` and the clone's `examples`, `bench` and `install.sh`; the variable GUFI names
that folder, as if it were the clone, and PROGRAM the program for the scripts. The status is 1 where a command prints something else.
"""
import argparse
import os
import subprocess
import sys
import tempfile

TOP = os.path.dirname(os.path.dirname(os.path.realpath(__file__)))
DOCUMENTS = ["README.md", "docs/guide.md", "docs/operators.md", "docs/shards.md"]

# What in the caller's environment would change what commands print.
DROPPED = ("CDPATH", "DESTDIR", "ENV", "GUFI_OPTIONS", "JOBS")

# What the shell prints behind each command, and no command prints.
MARK = "\036\036\n"


class Run:
    """A command of a document: its line, its text and what it is shown to print."""

    def __init__(self, line, text):
        self.line = line
        self.text = text
        self.shown = ""


def runs_of(document):
    """The commands of a document, in their order."""
    runs = []
    in_block = in_run = False
    with open(document, encoding="utf-8") as file:
        lines = file.read().splitlines()
    for number, line in enumerate(lines, 1):
        if line.startswith("```"):
            in_block, in_run = not in_block, False
        elif in_run and not runs[-1].shown and runs[-1].text.endswith("\\"):
            runs[-1].text += "\n" + line
        elif in_block and line.startswith("$ "):
            runs.append(Run(number, line[2:]))
            in_run = True
        elif in_run:
            runs[-1].shown += line + "\n"
    return runs


def script_of(runs):
    """A script of the commands, each with the mark behind it. The status of each is there for the next one."""
    end = "status=$?; printf '\\036\\036\\n'; (exit $status)"
    return "umask 022\n" + "".join("%s\n%s\n" % (run.text, end) for run in runs)


def printed_by(runs, program):
    """What each command prints, in a fresh folder."""
    with tempfile.TemporaryDirectory() as folder:
        os.symlink(os.path.abspath(program), os.path.join(folder, "gufi"))
        for name in ("examples", "bench", "install.sh"):
            os.symlink(os.path.join(TOP, name), os.path.join(folder, name))
        setting = dict(os.environ, GUFI=folder, HOME=folder, LC_ALL="C", PATH=folder + ":" + os.environ["PATH"])
        setting["PROGRAM"] = os.path.join(folder, "gufi")
        for name in DROPPED:
            setting.pop(name, None)
        shell = subprocess.run(
            ["sh", "-c", script_of(runs)],
            cwd=folder,
            env=setting,
            stdin=subprocess.DEVNULL,
            stdout=subprocess.PIPE,
            stderr=subprocess.STDOUT,
        )
    printed = shell.stdout.decode("utf-8", "backslashreplace").split(MARK)[:-1]
    return printed + ["(not run)\n"] * (len(runs) - len(printed))


def differences(document, program):
    """How many commands of a document print something else; each is told."""
    runs = runs_of(os.path.join(TOP, document))
    count = 0
    for run, printed in zip(runs, printed_by(runs, program)):
        if printed != run.shown:
            count += 1
            print("%s:%d: $ %s\nshown:\n%sprinted:\n%s" % (document, run.line, run.text, run.shown, printed))
    print("%s: %d of %d commands print what is shown" % (document, len(runs) - count, len(runs)))
    return count


def main():
    parser = argparse.ArgumentParser(description="Runs the commands that the documents show.")
    parser.add_argument("--program", default=os.path.join(TOP, "gufi"))
    parser.add_argument("documents", nargs="*", default=DOCUMENTS)
    given = parser.parse_args()
    given.program = os.path.abspath(given.program)
    # The script `gufi` builds the program where that is needed, and says so.
    subprocess.run([given.program, "--version"], stdout=subprocess.DEVNULL, check=True)
    return 1 if sum(differences(document, given.program) for document in given.documents) else 0


if __name__ == "__main__":
    sys.exit(main())
