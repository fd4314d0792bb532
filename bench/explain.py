#!/usr/bin/env python3
"""Makes wrong calls as somebody new to the program would, and looks whether `--explain` says what to type instead.

  bench/explain.py [--program PROGRAM]

PROGRAM is the clone's built one where none is named. A line of CALLS is a status, a line that has to stand behind the note on standard error,
its blanks left out, a semicolon, and the call as a shell reads it. Each call is made with and without the option: status, standard output and
note must be the same, and what stands behind the note must be lines that begin with two blanks. The status of the script is 1 where a call
is told otherwise.
"""
import argparse
import os
import re
import shutil
import subprocess
import sys
import tempfile

TOP = os.path.dirname(os.path.dirname(os.path.abspath(__file__)))
SECONDS = 60  # for a call

PREPARED = """
cp "$TOP"/examples/lab.* .
gufi trace2index --delim='|' lab.trace > lab.index
head -c 50 lab.index > cut.index
sed 's/|420|/|rw-r--r--|/' lab.trace > modes.trace
sed '3s/|d|/|dir|/' lab.trace > types.trace
sed 's/ana:x:1001/ana:x:one/' lab.passwd > bad.passwd
printf 'publish 0 lab.trace\\nbarrier\\nsearch 1 ana / find\\n' > verbs.session
sed 's/README/READ,ME/' lab.trace > comma.trace
gufi trace2index --delim='|' comma.trace > comma.index
printf 'publish 0 lab.trace\\nbarrier\\nask 17 ana / find\\n' > lanes.session
mkdir folder
"""

CALLS = r"""
# the command and its options
2 COMMAND is missing; gufi
2 nearest: find; gufi fnd lab.index 0 /
2 nearest: query; gufi Query lab.index 0 / 'SELECT name FROM rows'
2 nearest: stats; gufi sttats lab.index 0 / levels
2 the commands are walk find du query agg ls stat stats diff trace2index rollup index2trace info refresh session gen; gufi search lab.index 0 /
2 nearest: --workers; gufi find --wrokers=4 lab.index 0 /
2 nearest: --passwd; gufi find --paswd=lab.passwd lab.index ana /
2 nearest: --limit; gufi rollup --limt=3 lab.index
2 nearest: --header; gufi query --headers lab.index 0 / 'SELECT name FROM rows'
2 not an option of du, whose options are --passwd --group --delim --limit --now; gufi du --workers=2 lab.index 0 / 1
2 walk has no options; gufi walk --delim='|' lab.trace 0 -
2 not an option of stat, whose options are --passwd --group --delim --limit --workers; gufi stat -l lab.index 0 /
2 not an option of ls, whose options are -l -A --passwd --group --delim --limit --workers; gufi ls -la lab.index 0 /
2 -l takes no value; gufi ls -l=1 lab.index 0 /
2 -l is given twice; gufi ls -l -l lab.index 0 /
2 --group is given twice; gufi find --group=lab.group --group lab.group lab.index 0 /
2 --header can't stand beside an option before it; gufi query --json --header lab.index 0 / 'SELECT name FROM rows'
2 the value of --workers is a number from 1 to 32; gufi find --workers=33 lab.index 0 /
2 the value of --workers is a number from 1 to 32; gufi find --workers 0 lab.index 0 /
2 the value of --limit is a number below 2^64; gufi find --limit=many lab.index 0 /
2 the value of --now is a number of seconds, perhaps negative, of 64 bits; gufi find --now=yesterday lab.index 0 / -mtime 1
2 the value of --now is missing: a number of seconds, perhaps negative, of 64 bits; gufi find --now
2 the value of --delim is one byte from 0x20 to 0x7E that is no letter, no digit, and none of / - .; gufi find --delim=tab lab.trace 0 /
2 the value of --cache is a number from 1 to 256; gufi session --cache=0 lab.session
# words behind the options
2 USER is missing: a name of the passwd file, or UID, or UID:GID,..; gufi find lab.index
2 START is missing: the path of the directory to begin at, without ..; / is the root; gufi find lab.index 0
2 START is the path of the directory to begin at, without ..; / is the root; gufi ls lab.index 0 /open/..
2 names need --passwd; gufi find lab.index ana /
2 no such name in lab.passwd; gufi find --passwd=lab.passwd lab.index anna /
2 REPORT is missing: levels, uids, gids or leaves; gufi stats lab.index 0 /
2 nearest: levels; gufi stats lab.index 0 / level
2 DEPTH is missing: how deep below START directories have a line: a number to 4294967295; gufi du lab.index 0 /
2 DEPTH is how deep below START directories have a line: a number to 4294967295; gufi du lab.index 0 / -name '*.h5'
2 START is missing: the path of the directory to begin at, without ..; / is the root; gufi diff lab.index lab.index 0
2 NEW is missing: a trace or an image; gufi diff lab.index
2 diff takes [OPTION].. OLD NEW USER START; gufi diff lab.index lab.index 0 / 1
2 UID is a number; gufi walk lab.trace ana -
2 GIDS is - for none, or numbers separated by commas; gufi walk lab.trace 0 1,
2 N is the number of directories, 1 to 200,000; gufi gen 0
2 rollup takes --limit=N [OPTION].. INDEX; gufi rollup lab.index
2 refresh takes --limit=N [OPTION].. INDEX PATH TRACE; gufi refresh lab.index /open lab.trace
2 PATH is the path of the directory that is replaced, without ..; / is the root; gufi refresh --limit=3 lab.index /.. lab.trace
2 not an option of index2trace, whose options are --delim; gufi index2trace --limit=3 lab.index
2 stat takes [OPTION].. INDEX USER START; gufi stat lab.index 0 / levels
# expressions
2 nearest: -name; gufi find lab.index 0 / -nmae '*.h5'
2 nearest: -name; gufi du lab.index 0 / 1 -nmae '*.h5'
2 nearest: -mtime; gufi find lab.index 0 / -mtme 1
2 the words end where a primary or its argument is wanted; gufi find lab.index 0 / -name
2 a number is wanted there, perhaps with + or - before it; behind -size perhaps with c, k, M or G behind it; behind -perm four octal digits or fewer; gufi find lab.index 0 / -size 1x
2 one of d f l b c p s is wanted there; gufi find lab.index 0 / -type directory
2 a name of the passwd file, or a number, is wanted there; gufi find --passwd=lab.passwd lab.index 0 / -user nobody
2 a ) closes the ( before it, and each ( needs its ); gufi find lab.index 0 / '(' -name x
2 -atime, -mtime and -ctime need --now; gufi find lab.index 0 / -mtime 1
# texts of query and agg
2 nearest: path; gufi query lab.index 0 / 'SELECT pth FROM rows'
2 nearest: size; gufi query lab.index 0 / 'SELECT path FROM rows WHERE siz > 0'
2 a table is wanted there: entries, summary or rows; gufi query lab.index 0 / 'SELECT path FROM files'
2 the text that begins there needs its closing quote; gufi query lab.index 0 / "SELECT path FROM rows WHERE name = 'x"
2 a column of numbers is compared with a number, one of texts with a text in single quotes; REGEXP stands behind one of texts; gufi query lab.index 0 / "SELECT path FROM rows WHERE size = 'x'"
2 a column stands once where rows are written by names; gufi query --json lab.index 0 / 'SELECT size, size FROM rows'
2 GROUP BY and the same key are wanted at the end; gufi agg lab.index 0 / 'SELECT uid FROM rows'
# starts
1 at /private; gufi find lab.index 1002 /private
1 at /private; gufi du lab.index 1002 /private 1
1 at /nosuch; gufi diff lab.index lab.index 0 /nosuch/below
1 at /nosuch; gufi find lab.index 0 /nosuch/below
1 what stands there has nothing below it; gufi find lab.index 0 /README/below
1 no directory of that path is in the index; PATH begins at its root; gufi refresh --limit=3 --delim='|' lab.index /README lab.trace
# files
8 no such file or directory; gufi find lab.indx 0 /
3 is a directory; gufi find folder 0 /
3 permission denied; chmod 0 cut.index; gufi find cut.index 0 /
5 the file ends within a field: it wasn't written whole; chmod 600 cut.index; gufi find cut.index 0 /
5 a line of a trace has at least 14 fields, each ended by the delimiter; is --delim right?; gufi find lab.trace 0 /
5 field 4 is the mode: a decimal number below 2^32; gufi find --delim='|' modes.trace 0 /
5 field 2, the type, is one of d f l b c p s; gufi find --delim='|' types.trace 0 /
5 a uid or gid is a number below 2^32; of a script, a limit one below 2^64; gufi find --passwd=bad.passwd lab.index ana /
5 a line begins with publish, rollup, refresh, ask or barrier; gufi session --delim='|' --passwd=lab.passwd verbs.session
5 the delimiter stands in a name, a target, a name of an extended attribute or an access control list: --delim takes another; gufi index2trace --delim=, comma.index
5 a lane is a number from 1 to 16; gufi session --delim='|' --passwd=lab.passwd lanes.session
"""

CALL = re.compile(r"(\d) (.*?); ((?:chmod \d+ [a-z.]+; )?gufi.*)")


def calls():
    return [CALL.fullmatch(line).groups() for line in CALLS.splitlines() if line and not line.startswith("#")]


class Site:
    """A folder with the files of the guide, and the program, called by a user who isn't root."""

    def __init__(self, program, folder):
        self.program, self.folder = program, folder
        self.setting = {"PATH": "/usr/bin:/bin", "LC_ALL": "C", "TOP": TOP}

    def run(self, text, front=""):
        shell = 'gufi() { "%s" %s "$@"; }\n%s' % (self.program, front, text)
        as_other = {"user": 65534, "group": 65534, "extra_groups": []} if os.getuid() == 0 else {}
        return subprocess.run(["sh", "-c", shell], cwd=self.folder, env=self.setting, capture_output=True, timeout=SECONDS, stdin=subprocess.DEVNULL, **as_other)


def wrong(site, status, text, call):
    """What is wrong with how a call is told."""
    plain, told = site.run(call), site.run(call, "--explain")
    if (plain.returncode, plain.stdout) != (told.returncode, told.stdout) or plain.returncode != int(status):
        return "status %d, with --explain %d" % (plain.returncode, told.returncode)
    if not told.stderr.startswith(plain.stderr):
        return "another note: %r" % told.stderr
    lines = told.stderr[len(plain.stderr) :].decode().splitlines()
    if any(not line.startswith("  ") for line in lines):
        return "not two blanks: %r" % lines
    return None if text in [line.strip() for line in lines] else "not told: %s" % lines


def main():
    parser = argparse.ArgumentParser(usage=__doc__)
    parser.add_argument("--program", default=os.path.join(TOP, "crates", "gufi", "out", "gufi"))
    given = parser.parse_args()
    failed = 0
    with tempfile.TemporaryDirectory() as folder:
        os.chmod(folder, 0o777)
        program = shutil.copy(given.program, os.path.join(folder, "program"))
        os.chmod(program, 0o755)
        site = Site(program, folder)
        made = site.run(PREPARED)
        if made.returncode:
            sys.exit("the files can't be made: %s" % made.stderr.decode())
        for status, text, call in calls():
            found = wrong(site, status, text, call)
            if found:
                print("%s\n  %s" % (call, found))
                failed += 1
    print("%d calls, %d told otherwise" % (len(calls()), failed))
    sys.exit(1 if failed else 0)


if __name__ == "__main__":
    main()
