#!/usr/bin/env python3
"""Makes wrong and odd calls of the program, and compares how each ends with how the program of commit aa9c3ea ended it.

  bench/refusals.py [--program PROGRAM]

PROGRAM is the clone's built one where none is named. A line of CALLS is a status, the note on standard error, a semicolon, and the call
as a shell reads it. Notes are compared byte for byte, with the folder's name left out: `\\n` stands for a newline in one, `\\x` and two
hexadecimal digits for what can't be printed, and `\\c` at its end says that it has no newline there. A refusal writes nothing to standard
output, but for a session, whose first phases may stand there. All calls are made in one folder, by a user who isn't root. The status is 1
where a call ends otherwise.
"""
import argparse
import os
import shutil
import subprocess
import sys
import tempfile

TOP = os.path.dirname(os.path.dirname(os.path.abspath(__file__)))
LAB = os.path.join(TOP, "examples", "lab.")
SECONDS = 600  # for a call
NOBODY = 65534

# Fields 1 to 14 of the trace `secret`, in which others may pass through /shut, and list /in alone.
SECRET = "/s|d|1|493|3|0|0|0|0|0|0|0|0|\n/s/shut|d|2|457|3|0|7|0|0|0|0|0|0|\n/s/shut/in|d|3|493|2|0|0|0|0|0|0|0|0|\n"

# What calls are shortened by. A damaged file comes on standard input.
SHELL = """
repeat() { awk -v count="$1" -v text="$2" 'BEGIN { while (count--) printf "%s", text }'; }
numbers() { awk -v count="$1" -v front="$2" -v back="$3" -v end="$4" 'BEGIN { while (n++ < count) printf "%s%d%s%s", front, n, back, end }'; }
trace() { gufi find '--delim=|' /dev/stdin 0 / -maxdepth 0; }
edit() { sed -e "$1" t | trace; }
acl() { sed -e "4s#\\$#||acl/$1#" t | trace; }
image() { gufi find /dev/stdin 0 / -maxdepth 0; }
front() { head -c "$1" i | image; }
put() { { head -c "$2" "$1"; printf "$3"; tail -c "+$(($2 + 2))" "$1"; } | image; }
passwd() { sed -e "$1" p | gufi find --passwd=/dev/stdin i "$2" /; }
group() { sed -e "$1" g | gufi find --passwd=p --group=/dev/stdin i "$2" /; }
script() { printf '%s\\n' "$@" | gufi session '--delim=|' /dev/stdin; }
"""

CALLS = r"""
# the command's word
2 gufi: word 1 refused; gufi
2 gufi: word 1 refused; gufi ''
2 gufi: word 1 refused; gufi nosuch
2 gufi: word 1 refused; gufi Find i 0 /
2 gufi: word 1 refused; gufi FIND i 0 /
2 gufi: word 1 refused; gufi fnd i 0 /
2 gufi: word 1 refused; gufi ' find' i 0 /
2 gufi: word 1 refused; gufi find/ i 0 /
2 gufi: word 1 refused; gufi i 0 / -name '*.h5'
2 gufi: word 1 refused; gufi -x
2 gufi: word 1 refused; gufi -
2 gufi: word 1 refused; gufi --
2 gufi: word 1 refused; gufi -- find i 0 /
2 gufi: word 1 refused; gufi --delim='|' find t 0 /
2 gufi: word 1 refused; gufi --passwd=p --group=g find i ana /
2 gufi: word 1 refused; gufi version
2 gufi: word 1 refused; gufi -v
2 gufi: word 1 refused; gufi -V
2 gufi: word 1 refused; gufi -help
2 gufi: word 1 refused; gufi --hlep
2 gufi: word 1 refused; gufi --verison
2 gufi: word 1 refused; gufi --version --version
2 gufi: word 1 refused; gufi --version find
2 gufi: word 1 refused; gufi --version=1
2 gufi: word 1 refused; gufi --help find
2 gufi: word 1 refused; gufi -h -h
2 gufi: word 1 refused; gufi help find
2 gufi: word 1 refused; gufi help help
2 gufi: word 1 refused; gufi --man gufi
2 gufi: word 1 refused; gufi --completions bash
2 gufi: word 1 refused; gufi --completions zsh
2 gufi: word 2 refused; gufi find --help x
2 gufi: word 2 refused; gufi find --help --help
2 gufi: word 2 refused; gufi find -h i
2 gufi: word 4 refused; gufi find i --help
2 gufi: word 5 UnknownPrimary; gufi find i 0 / --help
2 gufi: word 3 refused; gufi find --delim='|' --help
2 gufi: word 3 refused; gufi find help
2 gufi: word 1 refused; gufi nosuch --help
2 gufi: word 1 refused; gufi "$(printf 'f\377nd')" i 0 /
2 gufi: word 1 refused; gufi find i 0 / -name "$(printf '\377')"
2 gufi: word 1 refused; gufi find "$(printf 'i\377')" 0 /
# words that are missing, and words behind the last
2 gufi: word 2 refused; gufi find
2 gufi: word 3 refused; gufi find i
2 gufi: word 4 refused; gufi find i 0
2 gufi: word 5 UnknownPrimary; gufi find i 0 / ''
2 gufi: word 5 UnknownPrimary; gufi find i 0 / /open
8 gufi: 0 not found; gufi find 0 i /
3 gufi: read fault; gufi find / i 0
2 gufi: word 3 refused; gufi find i / 0
2 gufi: word 2 refused; gufi ls
2 gufi: word 3 refused; gufi ls i
2 gufi: word 4 refused; gufi ls i 0
2 gufi: word 5 refused; gufi ls i 0 / /open
2 gufi: word 5 refused; gufi ls i 0 / -l
2 gufi: word 2 refused; gufi stat
2 gufi: word 4 refused; gufi stat i 0
2 gufi: word 5 refused; gufi stat i 0 / /open
2 gufi: word 5 refused; gufi query i 0 /
2 gufi: word 6 refused; gufi query i 0 / SELECT name FROM rows
2 gufi: word 6 refused; gufi query i 0 / 'SELECT name FROM rows' 'SELECT name FROM rows'
8 gufi: SELECT name FROM rows not found; gufi query 'SELECT name FROM rows' i 0 /
2 gufi: word 5 refused; gufi agg i 0 /
2 gufi: word 6 refused; gufi agg i 0 / SELECT uid FROM rows GROUP BY uid
2 gufi: word 5 refused; gufi stats i 0 /
2 gufi: word 5 refused; gufi stats i 0 / level
2 gufi: word 5 refused; gufi stats i 0 / LEVELS
2 gufi: word 5 refused; gufi stats i 0 / ''
2 gufi: word 6 refused; gufi stats i 0 / levels uids
2 gufi: word 5 refused; gufi stats levels i 0 /
2 gufi: word 2 refused; gufi trace2index
2 gufi: word 3 refused; gufi trace2index t t
2 gufi: word 4 refused; gufi trace2index --delim='|' t 0 /
2 gufi: word 3 refused; gufi rollup --limit=2
2 gufi: word 3 refused; gufi rollup i
2 gufi: word 4 refused; gufi rollup --limit=2 i i
2 gufi: word 2 refused; gufi gen
2 gufi: word 3 refused; gufi gen 1 1
2 gufi: word 2 refused; gufi gen 0
2 gufi: word 2 refused; gufi gen -1
2 gufi: word 2 refused; gufi gen +1
2 gufi: word 2 refused; gufi gen 1.5
2 gufi: word 2 refused; gufi gen ''
2 gufi: word 2 refused; gufi gen one
2 gufi: word 2 refused; gufi gen 200001
2 gufi: word 2 refused; gufi gen 18446744073709551616
2 gufi: word 3 refused; gufi gen --summary
2 gufi: word 2 refused; gufi walk
2 gufi: word 3 refused; gufi walk t
2 gufi: word 4 refused; gufi walk t 0
2 gufi: word 3 refused; gufi walk t ana - '|'
2 gufi: word 3 refused; gufi walk t -1 - '|'
2 gufi: word 4 refused; gufi walk t 0 '' '|'
2 gufi: word 4 refused; gufi walk t 0 lab '|'
2 gufi: word 4 refused; gufi walk t 0 500, '|'
2 gufi: word 5 refused; gufi walk t 0 - ''
2 gufi: word 5 refused; gufi walk t 0 - '||'
2 gufi: word 5 refused; gufi walk t 0 - a
2 gufi: word 6 refused; gufi walk t 0 - '|' /
2 gufi: word 2 refused; gufi walk --delim='|' t 0 -
2 gufi: word 2 refused; gufi session
2 gufi: word 3 refused; gufi session s s
2 gufi: word 3 refused; gufi session i 0 /
# options
2 gufi: word 2 refused; gufi find --nosuch i 0 /
2 gufi: word 2 refused; gufi find --paswd=p i 0 /
2 gufi: word 2 refused; gufi find --Passwd=p i 0 /
2 gufi: word 2 refused; gufi find -passwd=p i 0 /
2 gufi: word 2 refused; gufi find --pass=p i 0 /
2 gufi: word 3 refused; gufi find --passwd
2 gufi: word 6 refused; gufi find --passwd i 0 /
2 gufi: word 2 refused; gufi find --passwd= i 0 /
2 gufi: word 3 refused; gufi find --passwd=p --passwd=p i 0 /
2 gufi: word 3 refused; gufi find i --passwd=p ana /
2 gufi: word 3 refused; gufi find i ana / --passwd=p
2 gufi: word 3 refused; gufi find --group=g --group g i 0 /
2 gufi: word 2 refused; gufi find -l i 0 /
2 gufi: word 2 refused; gufi find -A i 0 /
2 gufi: word 2 refused; gufi find --user=ana i /
2 gufi: word 2 refused; gufi find --json i 0 /
2 gufi: word 2 refused; gufi find --help=1 i 0 /
2 gufi: word 3 refused; gufi find --now i 0 /
2 gufi: word 2 refused; gufi find --now= i 0 /
2 gufi: word 2 refused; gufi find --now=now i 0 /
0; gufi find --now=-1 i 0 / -mtime 1
2 gufi: word 2 refused; gufi find --now=1.5 i 0 /
2 gufi: word 2 refused; gufi find --now=18446744073709551616 i 0 /
2 gufi: word 3 refused; gufi find --now=1 --now=1 i 0 /
2 gufi: word 3 refused; gufi find --workers i 0 /
2 gufi: word 2 refused; gufi find --workers= i 0 /
2 gufi: word 2 refused; gufi find --workers=0 i 0 /
2 gufi: word 2 refused; gufi find --workers=33 i 0 /
2 gufi: word 2 refused; gufi find --workers=-1 i 0 /
2 gufi: word 2 refused; gufi find --workers=+2 i 0 /
2 gufi: word 2 refused; gufi find --workers=two i 0 /
2 gufi: word 2 refused; gufi find --workers=' 2' i 0 /
2 gufi: word 3 refused; gufi find --workers=2 --workers=2 i 0 /
2 gufi: word 3 refused; gufi find --limit i 0 /
2 gufi: word 2 refused; gufi find --limit=x i 0 /
2 gufi: word 2 refused; gufi find --limit=-1 i 0 /
2 gufi: word 2 refused; gufi find --limit=18446744073709551616 i 0 /
2 gufi: word 3 refused; gufi find --delim
2 gufi: word 2 refused; gufi find --delim= t 0 /
2 gufi: word 2 refused; gufi find --delim='||' t 0 /
2 gufi: word 2 refused; gufi find --delim=a t 0 /
2 gufi: word 2 refused; gufi find --delim=1 t 0 /
2 gufi: word 2 refused; gufi find --delim=/ t 0 /
2 gufi: word 2 refused; gufi find --delim=- t 0 /
2 gufi: word 2 refused; gufi find --delim=. t 0 /
2 gufi: word 2 refused; gufi find --delim='\t' t 0 /
2 gufi: word 2 refused; gufi find --delim="$(printf '\t')" t 0 /
2 gufi: word 2 refused; gufi find --delim=é t 0 /
2 gufi: word 3 refused; gufi find --delim='|' --delim='|' t 0 /
2 gufi: word 2 refused; gufi find --cache=2 i 0 /
2 gufi: word 2 refused; gufi find --summary i 0 /
0; gufi find --workers 2 --limit 0 --now 1 -- i 0 /
8 gufi: --delim=| not found; gufi find -- --delim='|' t 0 /
8 gufi: -- not found; gufi find -- -- i 0 /
2 gufi: word 2 refused; gufi ls -la i 0 /
2 gufi: word 2 refused; gufi ls -lA i 0 /
2 gufi: word 3 refused; gufi ls -l -l i 0 /
2 gufi: word 4 refused; gufi ls -A -l -A i 0 /
2 gufi: word 2 refused; gufi ls -l=1 i 0 /
2 gufi: word 2 refused; gufi ls -a i 0 /
2 gufi: word 2 refused; gufi ls --now=1 i 0 /
2 gufi: word 2 refused; gufi stat -l i 0 /
2 gufi: word 2 refused; gufi stat --workers=33 i 0 /
2 gufi: word 2 refused; gufi query --now=1 i 0 / 'SELECT name FROM rows'
2 gufi: word 3 refused; gufi agg --limit i 0 / 'SELECT uid FROM rows GROUP BY uid'
2 gufi: word 2 refused; gufi stats --cache=1 i 0 / levels
2 gufi: word 2 refused; gufi trace2index --passwd=p t
2 gufi: word 2 refused; gufi trace2index --limit=2 t
2 gufi: word 2 refused; gufi trace2index --workers=2 t
2 gufi: word 3 refused; gufi rollup --limit i
2 gufi: word 2 refused; gufi rollup --limit=x i
2 gufi: word 3 refused; gufi rollup --limit=2 --limit=2 i
2 gufi: word 3 refused; gufi rollup --limit=2 --passwd=p i
2 gufi: word 2 refused; gufi gen --workers=0 1
0; gufi gen --workers=2 1
2 gufi: word 2 refused; gufi gen --limit=1 1
2 gufi: word 3 refused; gufi gen --summary --summary 1
2 gufi: word 2 refused; gufi gen --delim=x 1
2 gufi: word 2 refused; gufi session --limit=2 s
2 gufi: word 2 refused; gufi session --cache=0 s
2 gufi: word 2 refused; gufi session --cache=257 s
2 gufi: word 2 refused; gufi session --cache=x s
2 gufi: word 3 refused; gufi session --cache=2 --cache=2 s
2 gufi: word 2 refused; gufi session --workers=33 s
# users
2 gufi: word 3 refused; gufi find i ana /
2 gufi: word 3 refused; gufi find i root /
2 gufi: word 4 refused; gufi find --group=g i ana /
2 gufi: word 4 refused; gufi find --passwd=p i nosuch /
2 gufi: word 4 refused; gufi find --passwd=p i Ana /
2 gufi: word 4 refused; gufi find --passwd=p i 'ana ' /
2 gufi: word 4 refused; gufi find --passwd=p i lab /
2 gufi: word 4 refused; gufi find --passwd=p i ana:500 /
2 gufi: word 3 refused; gufi find i '' /
2 gufi: word 3 refused; gufi find i -1 /
2 gufi: word 3 refused; gufi find i +1 /
2 gufi: word 3 refused; gufi find i ' 0' /
2 gufi: word 3 refused; gufi find i 0x0 /
2 gufi: word 3 refused; gufi find i 1e3 /
0; gufi find i 00 /
0; gufi find i 4294967295 /
2 gufi: word 3 refused; gufi find i 4294967296 /
0; gufi find i 1002: /
2 gufi: word 3 refused; gufi find i 1002:x /
2 gufi: word 3 refused; gufi find i 1002:lab /
2 gufi: word 3 refused; gufi find i 1002:500, /
2 gufi: word 3 refused; gufi find i 1002:,500 /
2 gufi: word 3 refused; gufi find i 1002:500,,501 /
2 gufi: word 3 refused; gufi find i '1002:500 501' /
2 gufi: word 3 refused; gufi find i 1002:500:501 /
2 gufi: word 3 refused; gufi find i 1002::500 /
2 gufi: word 3 refused; gufi find i :500 /
2 gufi: word 3 refused; gufi find i 1002:-1 /
2 gufi: word 3 refused; gufi find i 1002:4294967296 /
0; gufi find i 1002:500,500 /
2 gufi: word 3 refused; gufi find i '$(id -u)' /
2 gufi: word 4 refused; gufi query --passwd=p i nosuch / 'SELECT nosuch'
2 gufi: word 4 refused; gufi find --passwd=p i nosuch / -nosuch
2 gufi: word 4 refused; gufi find --passwd=p i nosuch /none
# places to start from
0; gufi find i 0 ''
0; gufi find i 0 .
0; gufi find i 0 open
0; gufi find i 0 //open///
0; gufi find i 0 /./open/.
2 gufi: word 4 refused; gufi find i 0 ..
2 gufi: word 4 refused; gufi find i 0 /open/..
2 gufi: word 4 refused; gufi find i 0 /../open
2 gufi: word 4 refused; gufi find i 0 "/open$(printf '\nx')"
1 gufi: no such at depth 1; gufi find i 0 /...
1 gufi: no such at depth 1; gufi find i 0 '/*'
1 gufi: no such at depth 1; gufi find i 0 '~'
1 gufi: no such at depth 1; gufi find i 0 /Open
1 gufi: no such at depth 1; gufi find i 0 /lab
1 gufi: no such at depth 1; gufi find i 0 /lab/open
1 gufi: no such at depth 1; gufi find i 0 /none
1 gufi: no such at depth 2; gufi find i 0 /open/none
1 gufi: no such at depth 2; gufi find i 0 /open/none/none
1 gufi: not a directory at depth 2; gufi find i 0 /open/plan.txt
1 gufi: not a directory at depth 2; gufi find i 0 /open/plan.txt/
1 gufi: not a directory at depth 2; gufi find i 0 /open/plan.txt/x
1 gufi: not a directory at depth 2; gufi find i 0 /open/latest
1 gufi: denied at depth 1 class other; gufi find i 1002 /private
1 gufi: denied at depth 1 class other; gufi find i 1002 /private/keys
1 gufi: denied at depth 1 class other; gufi find i 1002 /private/none
1 gufi: denied at depth 1 class other; gufi find i 1002 /project
0; gufi find i 1002:500 /project/run
1 gufi: no such at depth 3; gufi find i 1001:500 /project/run.1/none
1 gufi: denied at depth 1 class other; gufi find i 1001 /project/run
1 gufi: denied at depth 1 class other; gufi find i 1001:100 /project
1 gufi: denied at depth 1 class other; gufi ls i 1002 /private
1 gufi: not a directory at depth 2; gufi ls i 0 /open/plan.txt
1 gufi: denied at depth 1 class other; gufi stat i 1002 /private
1 gufi: not a directory at depth 2; gufi stat i 0 /open/plan.txt
1 gufi: no such at depth 1; gufi stat i 0 /none
1 gufi: denied at depth 1 class other; gufi query i 1002 /private 'SELECT name FROM rows'
1 gufi: no such at depth 1; gufi agg i 0 /none 'SELECT uid FROM rows GROUP BY uid'
1 gufi: not a directory at depth 2; gufi stats i 0 /open/latest leaves
1 gufi: no such at depth 1; gufi find i 0 "/$(repeat 255 x)"
2 gufi: word 4 refused; gufi find i 0 "/$(repeat 256 x)"
1 gufi: no such at depth 1; gufi find i 0 "$(repeat 256 /a)"
2 gufi: word 4 refused; gufi find i 0 "$(repeat 257 /a)"
2 gufi: word 4 refused; gufi find i 0 "$(repeat 2049 /a)"
0; gufi find --delim='|' secret 1002 /
0; gufi find --delim='|' secret 1002:7 /
1 gufi: no such at depth 1; gufi find --delim='|' secret 1002 /in
0; gufi find --delim='|' secret 1002 /shut/in
1 gufi: denied at depth 1 class group; gufi find --delim='|' secret 1002:7 /shut
0; gufi find --delim='|' secret 1002:7 /shut/in
1 gufi: denied at depth 1 class other; gufi find --delim='|' secret 1002 /shut
# expressions of find
2 gufi: word 5 UnknownPrimary; gufi find i 0 / -nmae x
2 gufi: word 5 UnknownPrimary; gufi find i 0 / -Name x
2 gufi: word 5 UnknownPrimary; gufi find i 0 / --name x
2 gufi: word 5 UnknownPrimary; gufi find i 0 / name x
2 gufi: word 5 UnknownPrimary; gufi find i 0 / *.h5
2 gufi: word 7 UnknownPrimary; gufi find i 0 / -name *.s
2 gufi: word 5 UnknownPrimary; gufi find i 0 / -iname x
2 gufi: word 5 UnknownPrimary; gufi find i 0 / -regex x
2 gufi: word 5 UnknownPrimary; gufi find i 0 / -empty
2 gufi: word 5 UnknownPrimary; gufi find i 0 / -newer t
2 gufi: word 5 UnknownPrimary; gufi find i 0 / -print
2 gufi: word 5 UnknownPrimary; gufi find i 0 / -print0
2 gufi: word 5 UnknownPrimary; gufi find i 0 / -ls
2 gufi: word 5 UnknownPrimary; gufi find i 0 / -delete
2 gufi: word 5 UnknownPrimary; gufi find i 0 / -exec rm '{}' ';'
2 gufi: word 5 UnknownPrimary; gufi find i 0 / -prune
2 gufi: word 5 UnknownPrimary; gufi find i 0 / -not -type f
2 gufi: word 7 UnknownPrimary; gufi find i 0 / -type f -and -name x
2 gufi: word 7 UnknownPrimary; gufi find i 0 / -type f -or -name x
2 gufi: word 7 UnknownPrimary; gufi find i 0 / -type d , -name x
2 gufi: word 5 UnknownPrimary; gufi find i 0 / -uid 0
2 gufi: word 5 UnknownPrimary; gufi find i 0 / -inum 1
2 gufi: word 5 UnknownPrimary; gufi find i 0 / -mmin 1
2 gufi: word 6 MissingArgument; gufi find i 0 / -name
2 gufi: word 6 MissingArgument; gufi find i 0 / -path
2 gufi: word 6 MissingArgument; gufi find i 0 / -type
2 gufi: word 6 MissingArgument; gufi find i 0 / -size
2 gufi: word 6 MissingArgument; gufi find i 0 / -perm
2 gufi: word 6 MissingArgument; gufi find i 0 / -user
2 gufi: word 6 UnknownPrimary; gufi find i 0 / -nouser x
2 gufi: word 6 MissingArgument; gufi find i 0 / -maxdepth
2 gufi: word 8 MissingArgument; gufi find i 0 / -name x -name
0; gufi find i 0 / -name ''
0; gufi find i 0 / -name '['
0; gufi find i 0 / -name '[a'
0; gufi find i 0 / -name '[]'
0; gufi find i 0 / -name '[]a]'
0; gufi find i 0 / -name '[!]'
2 gufi: word 6 BadPattern; gufi find i 0 / -name '[z-a]'
2 gufi: word 6 BadPattern; gufi find i 0 / -name '[[:alpha:]]'
2 gufi: word 6 BadPattern; gufi find i 0 / -name 'a\'
0; gufi find i 0 / -path '/open/[x'
2 gufi: word 6 BadType; gufi find i 0 / -type x
2 gufi: word 6 BadType; gufi find i 0 / -type ''
2 gufi: word 6 BadType; gufi find i 0 / -type F
2 gufi: word 6 BadType; gufi find i 0 / -type ff
2 gufi: word 6 BadType; gufi find i 0 / -type f,d
2 gufi: word 6 BadType; gufi find i 0 / -type D
2 gufi: word 6 BadNumber; gufi find i 0 / -size x
2 gufi: word 6 BadNumber; gufi find i 0 / -size ''
2 gufi: word 6 BadNumber; gufi find i 0 / -size +
2 gufi: word 6 BadNumber; gufi find i 0 / -size -
2 gufi: word 6 BadNumber; gufi find i 0 / -size ++1
2 gufi: word 6 BadNumber; gufi find i 0 / -size +-1
2 gufi: word 6 BadNumber; gufi find i 0 / -size 1x
2 gufi: word 6 BadNumber; gufi find i 0 / -size 1K
2 gufi: word 6 BadNumber; gufi find i 0 / -size 1kk
2 gufi: word 6 BadNumber; gufi find i 0 / -size k
2 gufi: word 6 BadNumber; gufi find i 0 / -size 1T
2 gufi: word 6 BadNumber; gufi find i 0 / -size 1w
2 gufi: word 6 BadNumber; gufi find i 0 / -size 1.5M
2 gufi: word 6 BadNumber; gufi find i 0 / -size '1 M'
2 gufi: word 6 BadNumber; gufi find i 0 / -size 18446744073709551616
0; gufi find i 0 / -size 18446744073709551615G
2 gufi: word 6 BadNumber; gufi find i 0 / -links x
2 gufi: word 6 BadNumber; gufi find i 0 / -links 1.0
2 gufi: word 6 BadNumber; gufi find i 0 / -links +
2 gufi: word 5 NoNow; gufi find i 0 / -mtime 1
2 gufi: word 5 NoNow; gufi find i 0 / -mtime x
2 gufi: word 5 NoNow; gufi find i 0 / -atime +1
2 gufi: word 5 NoNow; gufi find i 0 / -ctime -1
2 gufi: word 7 BadNumber; gufi find --now=5 i 0 / -mtime x
2 gufi: word 7 BadNumber; gufi find --now=5 i 0 / -mtime 1d
2 gufi: word 7 BadNumber; gufi find --now=5 i 0 / -mtime ''
2 gufi: word 8 NoNow; gufi find i 0 / -type f -o -mtime 1
2 gufi: word 6 BadNumber; gufi find i 0 / -perm 8
2 gufi: word 6 BadNumber; gufi find i 0 / -perm ''
2 gufi: word 6 BadNumber; gufi find i 0 / -perm -
2 gufi: word 6 BadNumber; gufi find i 0 / -perm 10000
2 gufi: word 6 BadNumber; gufi find i 0 / -perm u+x
2 gufi: word 6 BadNumber; gufi find i 0 / -perm /222
2 gufi: word 6 BadNumber; gufi find i 0 / -perm +222
2 gufi: word 6 BadNumber; gufi find i 0 / -perm 0o755
0; gufi find i 0 / -perm 00755
2 gufi: word 6 UnknownUser; gufi find i 0 / -user nosuch
2 gufi: word 6 UnknownUser; gufi find i 0 / -user ''
2 gufi: word 6 UnknownUser; gufi find i 0 / -user ana
2 gufi: word 7 UnknownUser; gufi find --passwd=p i 0 / -user Ana
2 gufi: word 6 UnknownUser; gufi find i 0 / -user -1
2 gufi: word 6 UnknownUser; gufi find i 0 / -user 4294967296
2 gufi: word 7 UnknownGroup; gufi find --passwd=p i 0 / -group lab
2 gufi: word 7 UnknownGroup; gufi find --group=g i 0 / -group nosuch
2 gufi: word 6 BadNumber; gufi find i 0 / -mindepth -1
2 gufi: word 6 BadNumber; gufi find i 0 / -mindepth +1
2 gufi: word 6 BadNumber; gufi find i 0 / -mindepth x
2 gufi: word 6 BadNumber; gufi find i 0 / -maxdepth 1.0
2 gufi: word 6 BadNumber; gufi find i 0 / -maxdepth 18446744073709551616
0; gufi find i 0 / -maxdepth 0 -mindepth 9
2 gufi: word 6 MissingArgument; gufi find i 0 / '('
2 gufi: word 5 Parenthesis; gufi find i 0 / ')'
2 gufi: word 6 Parenthesis; gufi find i 0 / '(' ')'
2 gufi: word 8 Parenthesis; gufi find i 0 / '(' -type f
2 gufi: word 7 Parenthesis; gufi find i 0 / -type f ')'
2 gufi: word 5 UnknownPrimary; gufi find i 0 / '(-type' f ')'
2 gufi: word 6 MissingArgument; gufi find i 0 / '!'
2 gufi: word 7 MissingArgument; gufi find i 0 / '!' '!'
2 gufi: word 6 UnknownPrimary; gufi find i 0 / '!' -o -type f
2 gufi: word 5 UnknownPrimary; gufi find i 0 / -a
2 gufi: word 5 UnknownPrimary; gufi find i 0 / -o
2 gufi: word 8 MissingArgument; gufi find i 0 / -type f -a
2 gufi: word 8 MissingArgument; gufi find i 0 / -type f -o
2 gufi: word 5 UnknownPrimary; gufi find i 0 / -o -type f
2 gufi: word 8 UnknownPrimary; gufi find i 0 / -type f -a -a -type d
2 gufi: word 8 UnknownPrimary; gufi find i 0 / -type f -o -o -type d
2 gufi: word 8 MissingArgument; gufi find i 0 / -type f '!'
2 gufi: word 8 Parenthesis; gufi find i 0 / -type f '(' ')' -type d
0; gufi find i 0 / $(repeat 64 '! ') -type f
2 gufi: word 69 TooDeep; gufi find i 0 / $(repeat 65 '! ') -type f
0; gufi find i 0 / $(repeat 64 '( ') -type f $(repeat 64 ') ')
2 gufi: word 69 TooDeep; gufi find i 0 / $(repeat 65 '( ') -type f $(repeat 65 ') ')
2 gufi: word 6 BadNumber; gufi find i 0 / -size x -nosuch
2 gufi: word 5 Parenthesis; gufi find i 0 / ')' -nosuch
2 gufi: word 6 UnknownPrimary; gufi find i 0 / '(' -nosuch
2 gufi: word 5 UnknownPrimary; gufi find i 0 /none -nosuch
2 gufi: word 6 BadNumber; gufi find i 1002 /private -size x
# texts of query
2 gufi: word 5 at 0 Unexpected; gufi query i 0 / ''
2 gufi: word 5 at 1 Unexpected; gufi query i 0 / ' '
2 gufi: word 5 at 0 Unexpected; gufi query i 0 / ';'
2 gufi: word 5 at 6 Unexpected; gufi query i 0 / SELECT
2 gufi: word 5 at 11 Unexpected; gufi query i 0 / 'SELECT name'
2 gufi: word 5 at 7 Unexpected; gufi query i 0 / 'SELECT FROM rows'
2 gufi: word 5 at 16 Unexpected; gufi query i 0 / 'SELECT name FROM'
2 gufi: word 5 at 0 Unexpected; gufi query i 0 / 'SELEC name FROM rows'
2 gufi: word 5 at 0 Unexpected; gufi query i 0 / 'name FROM rows'
2 gufi: word 5 at 7 UnknownColumn; gufi query i 0 / 'SELECT nope FROM rows'
2 gufi: word 5 at 7 UnknownColumn; gufi query i 0 / 'SELECT names FROM rows'
2 gufi: word 5 at 12 Unexpected; gufi query i 0 / 'SELECT name nope FROM rows'
2 gufi: word 5 at 13 Unexpected; gufi query i 0 / 'SELECT name, FROM rows'
2 gufi: word 5 at 12 Unexpected; gufi query i 0 / 'SELECT name,, uid FROM rows'
2 gufi: word 5 at 7 Unexpected; gufi query i 0 / 'SELECT ,name FROM rows'
2 gufi: word 5 at 8 Unexpected; gufi query i 0 / 'SELECT *, name FROM rows'
2 gufi: word 5 at 13 Unexpected; gufi query i 0 / 'SELECT name, * FROM rows'
2 gufi: word 5 at 19 Unexpected; gufi query i 0 / 'SELECT * FROM rows *'
2 gufi: word 5 at 7 Unexpected; gufi query i 0 / 'SELECT "name" FROM rows'
2 gufi: word 5 at 7 Unexpected; gufi query i 0 / 'SELECT `name` FROM rows'
2 gufi: word 5 at 7 UnknownColumn; gufi query i 0 / 'SELECT rows.name FROM rows'
2 gufi: word 5 at 12 Unexpected; gufi query i 0 / 'SELECT name AS n FROM rows'
2 gufi: word 5 at 7 UnknownColumn; gufi query i 0 / 'SELECT DISTINCT name FROM rows'
2 gufi: word 5 at 7 UnknownColumn; gufi query i 0 / 'SELECT COUNT(*) FROM rows'
2 gufi: word 5 at 12 Unexpected; gufi query i 0 / 'SELECT size + 1 FROM rows'
2 gufi: word 5 at 7 Unexpected; gufi query i 0 / 'SELECT 1 FROM rows'
2 gufi: word 5 at 17 UnknownTable; gufi query i 0 / 'SELECT name FROM nope'
2 gufi: word 5 at 17 UnknownTable; gufi query i 0 / 'SELECT name FROM file'
2 gufi: word 5 at 21 Unexpected; gufi query i 0 / 'SELECT name FROM rows, entries'
2 gufi: word 5 at 22 Unexpected; gufi query i 0 / 'SELECT name FROM rows r'
2 gufi: word 5 at 22 Unexpected; gufi query i 0 / 'SELECT name FROM rows;;'
2 gufi: word 5 at 23 Unexpected; gufi query i 0 / 'SELECT name FROM rows; SELECT name FROM rows'
0; gufi query i 0 / 'SELECT name FROM rows ;'
2 gufi: word 5 at 22 Unexpected; gufi query i 0 / 'SELECT name FROM rows -- all'
2 gufi: word 5 at 22 Unexpected; gufi query i 0 / 'SELECT name FROM rows LIMIT 1'
2 gufi: word 5 at 22 Unexpected; gufi query i 0 / 'SELECT name FROM rows ORDER BY name'
2 gufi: word 5 at 21 Unexpected; gufi query i 0 / 'SELECT uid FROM rows GROUP BY uid'
2 gufi: word 5 at 27 Unexpected; gufi query i 0 / 'SELECT name FROM rows WHERE'
2 gufi: word 5 at 22 Unexpected; gufi query i 0 / 'SELECT name FROM rows WERE size > 1'
2 gufi: word 5 at 32 Unexpected; gufi query i 0 / 'SELECT name FROM rows WHERE size'
2 gufi: word 5 at 34 Unexpected; gufi query i 0 / 'SELECT name FROM rows WHERE size >'
2 gufi: word 5 at 28 Unexpected; gufi query i 0 / 'SELECT name FROM rows WHERE > 1'
2 gufi: word 5 at 35 Unexpected; gufi query i 0 / 'SELECT name FROM rows WHERE size > > 1'
2 gufi: word 5 at 34 Unexpected; gufi query i 0 / 'SELECT name FROM rows WHERE size == 1'
2 gufi: word 5 at 34 Unexpected; gufi query i 0 / 'SELECT name FROM rows WHERE size => 1'
2 gufi: word 5 at 33 Unexpected; gufi query i 0 / 'SELECT name FROM rows WHERE size ! 1'
2 gufi: word 5 at 28 Unexpected; gufi query i 0 / 'SELECT name FROM rows WHERE 1 < size'
2 gufi: word 5 at 28 UnknownColumn; gufi query i 0 / 'SELECT name FROM rows WHERE nope = 1'
2 gufi: word 5 at 35 Unexpected; gufi query i 0 / 'SELECT name FROM rows WHERE size = nope'
2 gufi: word 5 at 35 Unexpected; gufi query i 0 / 'SELECT name FROM rows WHERE size > uid'
2 gufi: word 5 at 35 WrongType; gufi query i 0 / "SELECT name FROM rows WHERE size > '1'"
2 gufi: word 5 at 35 WrongType; gufi query i 0 / 'SELECT name FROM rows WHERE name = 1'
2 gufi: word 5 at 35 Unexpected; gufi query i 0 / 'SELECT name FROM rows WHERE name = x'
2 gufi: word 5 at 35 Unexpected; gufi query i 0 / 'SELECT name FROM rows WHERE name = "x"'
2 gufi: word 5 at 35 Unexpected; gufi query i 0 / "SELECT name FROM rows WHERE type = f"
2 gufi: word 5 at 35 OpenText; gufi query i 0 / "SELECT name FROM rows WHERE name = 'x"
2 gufi: word 5 at 35 OpenText; gufi query i 0 / "SELECT name FROM rows WHERE name = ''' AND size = 1"
2 gufi: word 5 at 36 Unexpected; gufi query i 0 / 'SELECT name FROM rows WHERE size > 1M'
2 gufi: word 5 at 36 Unexpected; gufi query i 0 / 'SELECT name FROM rows WHERE size > 1.5'
2 gufi: word 5 at 35 Unexpected; gufi query i 0 / 'SELECT name FROM rows WHERE size > +1'
0; gufi query i 0 / 'SELECT name FROM rows WHERE size > - 1'
2 gufi: word 5 at 36 Unexpected; gufi query i 0 / 'SELECT name FROM rows WHERE size > --1'
2 gufi: word 5 at 36 Unexpected; gufi query i 0 / 'SELECT name FROM rows WHERE size > 0x10'
0; gufi query i 0 / 'SELECT name FROM rows WHERE size < 18446744073709551615'
2 gufi: word 5 at 35 LiteralTooBig; gufi query i 0 / 'SELECT name FROM rows WHERE size < 18446744073709551616'
2 gufi: word 5 at 36 LiteralTooBig; gufi query i 0 / 'SELECT name FROM rows WHERE size < -18446744073709551616'
0; gufi query i 0 / 'SELECT name FROM rows WHERE mode = 0755'
2 gufi: word 5 at 40 Unexpected; gufi query i 0 / 'SELECT name FROM rows WHERE size > 1 AND'
2 gufi: word 5 at 40 Unexpected; gufi query i 0 / 'SELECT name FROM rows WHERE size > 1 OR OR uid = 0'
2 gufi: word 5 at 37 Unexpected; gufi query i 0 / 'SELECT name FROM rows WHERE size > 1 uid = 0'
2 gufi: word 5 at 37 Unexpected; gufi query i 0 / 'SELECT name FROM rows WHERE size > 1 && uid = 0'
2 gufi: word 5 at 31 Unexpected; gufi query i 0 / 'SELECT name FROM rows WHERE NOT'
2 gufi: word 5 at 37 Unexpected; gufi query i 0 / 'SELECT name FROM rows WHERE (size > 1'
2 gufi: word 5 at 36 Unexpected; gufi query i 0 / 'SELECT name FROM rows WHERE size > 1)'
2 gufi: word 5 at 29 Unexpected; gufi query i 0 / 'SELECT name FROM rows WHERE ()'
2 gufi: word 5 at 33 Unexpected; gufi query i 0 / 'SELECT name FROM rows WHERE size IN (1, 2)'
2 gufi: word 5 at 33 Unexpected; gufi query i 0 / 'SELECT name FROM rows WHERE size BETWEEN 1 AND 2'
2 gufi: word 5 at 33 Unexpected; gufi query i 0 / 'SELECT name FROM rows WHERE size IS NULL'
2 gufi: word 5 at 33 Unexpected; gufi query i 0 / "SELECT name FROM rows WHERE name LIKE '%.h5'"
2 gufi: word 5 at 33 Unexpected; gufi query i 0 / "SELECT name FROM rows WHERE name GLOB '*.h5'"
2 gufi: word 5 at 39 Unexpected; gufi query i 0 / "SELECT name FROM rows WHERE name REGEXP"
2 gufi: word 5 at 40 Unexpected; gufi query i 0 / "SELECT name FROM rows WHERE name REGEXP x"
2 gufi: word 5 at 40 BadRegex; gufi query i 0 / "SELECT name FROM rows WHERE name REGEXP '('"
2 gufi: word 5 at 40 BadRegex; gufi query i 0 / "SELECT name FROM rows WHERE name REGEXP '*'"
2 gufi: word 5 at 40 BadRegex; gufi query i 0 / "SELECT name FROM rows WHERE name REGEXP '[z-a]'"
2 gufi: word 5 at 40 BadRegex; gufi query i 0 / "SELECT name FROM rows WHERE name REGEXP 'a{2,1}'"
2 gufi: word 5 at 40 BadRegex; gufi query i 0 / "SELECT name FROM rows WHERE name REGEXP '(?=x)'"
2 gufi: word 5 at 40 BadRegex; gufi query i 0 / "SELECT name FROM rows WHERE name REGEXP '\1'"
0; gufi query i 0 / "SELECT name FROM rows WHERE name REGEXP ''"
2 gufi: word 5 at 33 WrongType; gufi query i 0 / "SELECT name FROM rows WHERE size REGEXP '1'"
2 gufi: word 5 at 33 Unexpected; gufi query i 0 / "SELECT name FROM rows WHERE name NOT REGEXP 'x'"
2 gufi: word 5 at 52 SecondRegex; gufi query i 0 / "SELECT name FROM rows WHERE name REGEXP 'x' OR path REGEXP 'y'"
2 gufi: word 5 at 48 UnknownColumn; gufi query i 0 / "SELECT name FROM rows WHERE name REGEXP '(' AND nope = 1"
0; gufi query i 0 / "SELECT name FROM rows WHERE $(repeat 64 'NOT ') uid = 0"
2 gufi: word 5 at 284 TooDeep; gufi query i 0 / "SELECT name FROM rows WHERE $(repeat 65 'NOT ') uid = 0"
2 gufi: word 5 at 92 TooDeep; gufi query i 0 / "SELECT name FROM rows WHERE $(repeat 65 '(')uid = 0$(repeat 65 ')')"
2 gufi: word 5 at 7 UnknownColumn; gufi query i 0 / "SELECT nope FROM nope WHERE nope"
2 gufi: word 5 at 7 UnknownColumn; gufi query i 0 / "SELECT näme FROM rows"
2 gufi: word 5 at 7 UnknownColumn; gufi query i 0 /none 'SELECT nope'
# texts of agg
2 gufi: word 5 at 0 Head; gufi agg i 0 / ''
2 gufi: word 5 at 20 Tail; gufi agg i 0 / 'SELECT uid FROM rows'
2 gufi: word 5 at 29 Tail; gufi agg i 0 / 'SELECT uid FROM rows GROUP BY'
2 gufi: word 5 at 30 Tail; gufi agg i 0 / 'SELECT uid FROM rows GROUP BY gid'
2 gufi: word 5 at 27 Tail; gufi agg i 0 / 'SELECT uid FROM rows GROUP uid'
2 gufi: word 5 at 33 Tail; gufi agg i 0 / 'SELECT uid FROM rows GROUP BY uid, gid'
2 gufi: word 5 at 12 Head; gufi agg i 0 / 'SELECT uid, gid FROM rows GROUP BY uid'
2 gufi: word 5 at 7 Head; gufi agg i 0 / 'SELECT COUNT(*) FROM rows'
2 gufi: word 5 at 7 Head; gufi agg i 0 / 'SELECT COUNT(*), uid FROM rows GROUP BY uid'
2 gufi: word 5 at 7 Head; gufi agg i 0 / 'SELECT * FROM rows GROUP BY uid'
2 gufi: word 5 at 7 Head; gufi agg i 0 / 'SELECT name FROM rows GROUP BY name'
2 gufi: word 5 at 7 Head; gufi agg i 0 / 'SELECT mode, COUNT(*) FROM rows GROUP BY mode'
2 gufi: word 5 at 18 Head; gufi agg i 0 / 'SELECT uid, COUNT() FROM rows GROUP BY uid'
2 gufi: word 5 at 18 Head; gufi agg i 0 / 'SELECT uid, COUNT(name) FROM rows GROUP BY uid'
2 gufi: word 5 at 20 Head; gufi agg i 0 / 'SELECT uid, COUNT(* FROM rows GROUP BY uid'
2 gufi: word 5 at 16 Head; gufi agg i 0 / 'SELECT uid, SUM(*) FROM rows GROUP BY uid'
2 gufi: word 5 at 16 Head; gufi agg i 0 / 'SELECT uid, SUM(mtime) FROM rows GROUP BY uid'
2 gufi: word 5 at 12 Head; gufi agg i 0 / 'SELECT uid, AVG(size) FROM rows GROUP BY uid'
2 gufi: word 5 at 16 Head; gufi agg i 0 / 'SELECT uid, MIN(uid) FROM rows GROUP BY uid'
2 gufi: word 5 at 11 Head; gufi agg i 0 / 'SELECT uid COUNT(*) FROM rows GROUP BY uid'
2 gufi: word 5 at 12 Head; gufi agg i 0 / 'SELECT uid, FROM rows GROUP BY uid'
2 gufi: word 5 at 16 UnknownTable; gufi agg i 0 / 'SELECT uid FROM nope GROUP BY uid'
2 gufi: word 5 at 27 UnknownColumn; gufi agg i 0 / 'SELECT uid FROM rows WHERE nope = 1 GROUP BY uid'
2 gufi: word 5 at 34 WrongType; gufi agg i 0 / "SELECT uid FROM rows WHERE size = 'x' GROUP BY uid"
2 gufi: word 5 at 34 LiteralTooBig; gufi agg i 0 / 'SELECT uid FROM rows WHERE size = 18446744073709551616 GROUP BY uid'
2 gufi: word 5 at 37 Unexpected; gufi agg i 0 / 'SELECT uid FROM rows WHERE (size = 1 GROUP BY uid'
2 gufi: word 5 at 34 Tail; gufi agg i 0 / 'SELECT uid FROM rows GROUP BY uid WHERE size = 1'
2 gufi: word 5 at 34 Tail; gufi agg i 0 / 'SELECT uid FROM rows GROUP BY uid HAVING uid = 0'
2 gufi: word 5 at 34 Tail; gufi agg i 0 / 'SELECT uid FROM rows GROUP BY uid ORDER BY uid'
2 gufi: word 5 at 34 Tail; gufi agg i 0 / 'SELECT uid FROM rows GROUP BY uid;;'
2 gufi: word 5 at 39 BadRegex; gufi agg i 0 / "SELECT uid FROM rows WHERE name REGEXP '(' GROUP BY uid"
# damaged traces
5 gufi: t line 1 Short; gufi find t 0 /
5 gufi: t line 1 Short; gufi find --delim=, t 0 /
5 gufi: p line 1 Short; gufi find --delim='|' p 0 /
5 gufi: empty line 0 NoRoot; gufi find --delim='|' empty 0 /
5 gufi: /dev/null line 0 NoRoot; gufi find --delim='|' /dev/null 0 /
0; edit ''
5 gufi: /dev/stdin line 5 Short; edit '5s/|[^|]*$//'
5 gufi: /dev/stdin line 4 Short; edit '4s/.*//'
5 gufi: /dev/stdin line 4 Short; edit '4s/.*/# a remark/'
5 gufi: /dev/stdin line 2 BadType; edit '2s/|f|/|x|/'
5 gufi: /dev/stdin line 2 BadType; edit '2s/|f|/|F|/'
5 gufi: /dev/stdin line 2 BadType; edit '2s/|f|/||/'
5 gufi: /dev/stdin line 2 BadNumber 3; edit '2s/|f|2|/|f|x|/'
5 gufi: /dev/stdin line 2 BadNumber 3; edit '2s/|f|2|/|f||/'
5 gufi: /dev/stdin line 2 BadNumber 3; edit '2s/|f|2|/|f|-2|/'
5 gufi: /dev/stdin line 2 BadNumber 3; edit '2s/|f|2|/|f|+2|/'
0; edit '2s/|f|2|/|f|18446744073709551615|/'
5 gufi: /dev/stdin line 2 BadNumber 3; edit '2s/|f|2|/|f|18446744073709551616|/'
5 gufi: /dev/stdin line 2 BadNumber 4; edit '2s/|420|/|rw-r--r--|/'
5 gufi: /dev/stdin line 2 BadNumber 4; edit '2s/|420|/|0o644|/'
5 gufi: /dev/stdin line 2 BadNumber 4; edit '2s/|420|/|4294967296|/'
5 gufi: /dev/stdin line 3 BadNumber 5; edit '3s/|2|1001|/|x|1001|/'
5 gufi: /dev/stdin line 3 BadNumber 6; edit '3s/|1001|500|/|ana|500|/'
5 gufi: /dev/stdin line 3 BadNumber 6; edit '3s/|1001|500|/|4294967296|500|/'
5 gufi: /dev/stdin line 3 BadNumber 7; edit '3s/|1001|500|/|1001|lab|/'
5 gufi: /dev/stdin line 3 BadNumber 7; edit '3s/|1001|500|/|1001|-1|/'
5 gufi: /dev/stdin line 4 BadNumber 8; edit '4s/|1300|/|1.3k|/'
5 gufi: /dev/stdin line 4 BadNumber 9; edit '4s/|4096|8|/|4 096|8|/'
5 gufi: /dev/stdin line 4 BadNumber 10; edit '4s/|4096|8|/|4096|8.0|/'
5 gufi: /dev/stdin line 4 BadNumber 11; edit '4s/|1700000100|/|1700000100.5|/'
5 gufi: /dev/stdin line 4 BadNumber 13; edit '4s/|1700000100|/|x|/2'
5 gufi: /dev/stdin line 4 BadNumber 13; edit '4s/|\(17[0-9]*\)|\(17[0-9]*\)|\(17[0-9]*\)|/|\1|\2|now|/'
0; edit '4s/|\(17[0-9]*\)|\(17[0-9]*\)|\(17[0-9]*\)|/|-1|\2|\3|/'
5 gufi: /dev/stdin line 4 BadNumber 11; edit '4s/|\(17[0-9]*\)|\(17[0-9]*\)|\(17[0-9]*\)|/|9223372036854775808|\2|\3|/'
5 gufi: /dev/stdin line 4 BadNumber 3; edit '4s/|f|.*/|f|x|x|x|x|x|x|x|x|x|x|x|/'
5 gufi: /dev/stdin line 4 BadType; edit '4s/|f|4|/|x|x|/'
0; edit '4s/plan/../'
5 gufi: /dev/stdin line 4 BadPath; edit '4s/plan.txt/../'
5 gufi: /dev/stdin line 4 BadPath; edit '4s/plan.txt/a\x00b/'
5 gufi: /dev/stdin line 5 BadPath; edit '5s/plan.txt/a\x00b/'
5 gufi: /dev/stdin line 4 WrongStanza; edit '4s/plan.txt//'
5 gufi: /dev/stdin line 4 WrongStanza; edit '4s/plan.txt/./'
0; edit "4s/plan.txt/$(repeat 255 x)/"
5 gufi: /dev/stdin line 4 LongName; edit "4s/plan.txt/$(repeat 256 x)/"
5 gufi: /dev/stdin line 3 LongName; edit "3s,/lab/open,$(repeat 257 /a),"
0; edit "5s/plan.txt/$(repeat 4096 x)/"
5 gufi: /dev/stdin line 5 LongName; edit "5s/plan.txt/$(repeat 4097 x)/"
5 gufi: /dev/stdin line 4 NotUnderRoot; edit '4s,/lab/,/lob/,'
5 gufi: /dev/stdin line 3 NotUnderRoot; edit '3s,/lab/,/lob/,'
0; edit '3s,^/,,'
5 gufi: /dev/stdin line 4 WrongStanza; edit '4s,/lab/open/,/lab/,'
5 gufi: /dev/stdin line 4 WrongStanza; edit '4s,/lab/open/,/lab/open/deep/,'
5 gufi: /dev/stdin line 1 WrongStanza; edit '1s/|d|/|f|/'
5 gufi: /dev/stdin line 1 WrongStanza; edit 1d
5 gufi: /dev/stdin line 3 WrongStanza; edit 3d
5 gufi: /dev/stdin line 8 Orphan; edit 8d
5 gufi: /dev/stdin line 5 Duplicate; edit 4p
5 gufi: /dev/stdin line 7 Duplicate; edit 6p
5 gufi: /dev/stdin line 5 Duplicate; edit '5s/latest/plan.txt/'
5 gufi: /dev/stdin line 5 Short; edit '4s/plan.txt/plan.txt/;5s/.*//;12s/.*//'
5 gufi: /dev/stdin line 7 BadNumber 3; edit '10s/|f|/|x|/;7s/|f|7|/|f|x|/'
5 gufi: /dev/stdin line 7 BadNumber 3; edit '9d;7s/|f|7|/|f|x|/'
5 gufi: /dev/stdin line 12 WrongStanza; sort -r t | trace
5 gufi: /dev/stdin line 7 CutLine; head -c 500 t | trace
5 gufi: /dev/stdin line 12 CutLine; head -c -1 t | trace
5 gufi: /dev/stdin line 1 CutLine; tr -d '\n' <t | trace
5 gufi: /dev/stdin line 13 Short; { cat t; echo; } | trace
5 gufi: /dev/stdin line 13 CutLine; { cat t; printf x; } | trace
5 gufi: /dev/stdin line 1 Short; { echo; cat t; } | trace
5 gufi: /dev/stdin line 13 Duplicate; cat t t | trace
5 gufi: /dev/stdin line 2 NotUnderRoot; { printf '\357\273\277'; cat t; } | trace
0; sed 's/$/\r/' t | trace
0; edit '4s/$/|xattrs\/user.a,user.b/'
0; edit '4s/$/|xattrs\//'
0; edit '4s/$/|xattr\/user.a/'
5 gufi: /dev/stdin line 4 BadXattr; edit '4s/$/|xattrs\/a\x00b/'
0; edit "4s,$,|xattrs/$(repeat 255 x),"
5 gufi: /dev/stdin line 4 BadXattr; edit "4s,$,|xattrs/$(repeat 256 x),"
5 gufi: /dev/stdin line 4 BadXattr; edit "4s,$,|xattrs/$(repeat 2049 a\\,),"
0; acl u::rw-,g::r--,o::r--
0; acl user::rw-,group::r--,other::r--,mask::---
5 gufi: /dev/stdin line 4 BadAcl; acl ''
5 gufi: /dev/stdin line 4 BadAcl; acl u::rw-,g::r--
5 gufi: /dev/stdin line 4 BadAcl; acl u::rw-,g::r--,o::r--,u:7:r--
5 gufi: /dev/stdin line 4 BadAcl; acl u::rw-,u::rw-,g::r--,o::r--
5 gufi: /dev/stdin line 4 BadAcl; acl u::rw-,u:7:r--,u:7:r--,m::r--,g::r--,o::r--
5 gufi: /dev/stdin line 4 BadAcl; acl u::rw-,u:ana:r--,m::r--,g::r--,o::r--
5 gufi: /dev/stdin line 4 BadAcl; acl u::rw,g::r--,o::r--
5 gufi: /dev/stdin line 4 BadAcl; acl u::rwX,g::r--,o::r--
5 gufi: /dev/stdin line 4 BadAcl; acl u::6,g::4,o::4
5 gufi: /dev/stdin line 4 BadAcl; acl U::rw-,g::r--,o::r--
5 gufi: /dev/stdin line 4 BadAcl; acl u::rw-,g::r--,o:7:r--
5 gufi: /dev/stdin line 4 BadAcl; acl 'u::rw- g::r-- o::r--'
0; acl "u::rw-,g::r--,m::r--,o::r--$(numbers 32 ,u: :r--)"
5 gufi: /dev/stdin line 4 TooManyEntries; acl "u::rw-,g::r--,m::r--,o::r--$(numbers 33 ,u: :r--)"
0; edit '4s/$/||default\/u::rw-/'
0; edit '4s/$/|||one more|and one/'
5 gufi: /dev/stdin line 3 WrongStanza; sed 3d t | gufi trace2index --delim='|' /dev/stdin
5 gufi: /dev/stdin line 3 WrongStanza; sed 3d t | gufi walk /dev/stdin 0 - '|'
5 gufi: /dev/stdin line 1 Short; sed 4d t | gufi rollup --limit=2 --delim=, /dev/stdin
5 gufi: i line 1 Short; gufi walk i 0 - '|'
5 gufi: i line 1 Short; gufi trace2index i
5 gufi: i line 1 Short; gufi trace2index --delim='|' i
# damaged images
5 gufi: /dev/stdin line 0 NoRoot; front 0
5 gufi: /dev/stdin line 1 CutLine; front 4
5 gufi: /dev/stdin offset 6 Cut; front 6
5 gufi: /dev/stdin offset 6 Cut; front 7
5 gufi: /dev/stdin offset 8 Cut; front 8
5 gufi: /dev/stdin offset 8 Cut; front 12
5 gufi: /dev/stdin offset 20 Cut; front 20
5 gufi: /dev/stdin offset 24 Cut; front 24
5 gufi: /dev/stdin offset 30 Cut; front 30
5 gufi: /dev/stdin offset 48 Cut; front 50
5 gufi: /dev/stdin offset 96 Cut; front 100
5 gufi: /dev/stdin offset 199 Cut; front 200
5 gufi: /dev/stdin offset 1076 Cut; front -1
5 gufi: /dev/stdin offset 1078 Trailing; { cat i; printf x; } | image
5 gufi: /dev/stdin offset 1078 Trailing; { cat i; echo; } | image
5 gufi: /dev/stdin offset 1078 Trailing; cat i i | image
5 gufi: /dev/stdin line 1 Short; put i 0 g
5 gufi: /dev/stdin line 1 Short; put i 4 Y
5 gufi: /dev/stdin line 1 Short; put i 5 x
5 gufi: /dev/stdin offset 6 Magic; put i 6 '\000'
5 gufi: /dev/stdin offset 106 Name; put i 6 '\002'
5 gufi: /dev/stdin offset 106 Name; put i 6 '\003'
5 gufi: /dev/stdin offset 6 Magic; put i 6 '\004'
5 gufi: /dev/stdin offset 6 Magic; put i 7 '\001'
5 gufi: /dev/stdin offset 203 Roll; put i 8 '\012'
5 gufi: /dev/stdin offset 203 Roll; put i 15 '\377'
5 gufi: /dev/stdin offset 16 Number; put i 16 '\000'
5 gufi: /dev/stdin offset 1078 Cut; put i 16 '\007'
5 gufi: /dev/stdin offset 20 Number; put i 16 '\005'
6 gufi: /dev/stdin limit 262144; put i 19 '\377'
5 gufi: /dev/stdin offset 106 Number; put i 20 '\000'
5 gufi: /dev/stdin offset 20 Number; put i 20 '\007'
6 gufi: /dev/stdin limit 1048576; put i 23 '\377'
5 gufi: /dev/stdin offset 24 Parent; put i 24 '\001'
5 gufi: /dev/stdin offset 28 Name; put i 28 '\001'
5 gufi: /dev/stdin offset 29 Roll; put i 29 '\001'
5 gufi: /dev/stdin offset 29 Number; put i 29 '\002'
5 gufi: /dev/stdin offset 38 Number; put i 39 '\020'
5 gufi: /dev/stdin offset 110 Number; put i 110 d
5 gufi: /dev/stdin offset 110 Number; put i 110 z
5 gufi: /dev/stdin offset 111 Name; put i 111 '\000'
5 gufi: /dev/stdin offset 111 Name; put i 112 /
5 gufi: /dev/stdin offset 194 Parent; put i 194 '\001'
5 gufi: /dev/stdin offset 194 Parent; put i 194 '\377'
5 gufi: /dev/stdin offset 198 Name; put i 198 '\000'
5 gufi: /dev/stdin offset 462 Order; put i 199 z
5 gufi: /dev/stdin offset 198 Name; put i 199 /
5 gufi: /dev/stdin offset 198 Name; put i 199 '\000'
5 gufi: /dev/stdin offset 203 Roll; put i 203 '\001'
5 gufi: /dev/stdin offset 203 Number; put i 203 '\002'
5 gufi: /dev/stdin offset 285 Name; put i 285 '\000'
5 gufi: /dev/stdin offset 376 Order; put i 286 z
5 gufi: /dev/stdin offset 285 Name; put i 286 '\000'
5 gufi: /dev/stdin offset 110 Number; put i 110 '\377'
5 gufi: /dev/stdin offset 203 Roll; put r 8 '\001'
5 gufi: /dev/stdin offset 48 Cut; head -c 50 i | gufi rollup --limit=2 /dev/stdin
5 gufi: /dev/stdin offset 48 Cut; head -c 50 i | gufi query /dev/stdin 0 / 'SELECT nope'
5 gufi: /dev/stdin offset 48 Cut; head -c 50 i | gufi find /dev/stdin nosuch / -nosuch
5 gufi: /dev/stdin offset 6 Cut; printf 'GUFIX\0' | image
5 gufi: /dev/stdin line 1 Short; printf 'GUFIX\n' | image
# damaged passwd and group files
5 gufi: /dev/stdin line 2 Fields; passwd '2s/:[^:]*$//' ana
5 gufi: /dev/stdin line 2 Fields; passwd '2s/$/:more/' ana
5 gufi: /dev/stdin line 2 Fields; passwd '2s/^ana//' bob
5 gufi: /dev/stdin line 2 Number; passwd '2s/1001/x/' bob
5 gufi: /dev/stdin line 2 Number; passwd '2s/1001/-1/' bob
5 gufi: /dev/stdin line 2 Number; passwd '2s/1001/4294967296/' bob
0; passwd '2s/:1001:/:1001:x/2' bob
5 gufi: /dev/stdin line 3 DoubleName; passwd '3s/bob/ana/' ana
2 gufi: word 4 refused; passwd '2s/^/+/' ana
2 gufi: word 4 refused; passwd '2s/^/#/' ana
2 gufi: word 4 refused; passwd '2s/^/ /' ana
0; passwd '2s/.*//' bob
0; head -c -1 p | gufi find --passwd=/dev/stdin i bob /
0; passwd '3s/:x:/::/;3s/$/\r/' bob
5 gufi: g line 1 Fields; gufi find --passwd=g i ana /
5 gufi: t line 1 Fields; gufi find --passwd=t i ana /
5 gufi: i line 1 Fields; gufi find --passwd=i i ana /
0; gufi find --passwd=empty i 0 /
2 gufi: word 4 refused; gufi find --passwd=/dev/null i root /
5 gufi: p line 1 Fields; gufi find --passwd=p --group=p i ana /
5 gufi: /dev/stdin line 4 Fields; group '4s/:[^:]*$//' ana
5 gufi: /dev/stdin line 4 Fields; group '4s/$/:more/' ana
5 gufi: /dev/stdin line 4 Number; group '4s/500/lab/' ana
5 gufi: /dev/stdin line 4 Number; group '4s/500//' ana
5 gufi: /dev/stdin line 4 Number; group '4s/500/4294967296/' ana
5 gufi: /dev/stdin line 3 DoubleName; group '3s/bob/ana/' ana
5 gufi: /dev/stdin line 3 Fields; group '3s/bob//' ana
0; group '4s/ana,bob/ana,,bob,nosuch/' ana
5 gufi: /dev/stdin line 2 Number; sed '2s/1001/x/' p | gufi find --passwd=/dev/stdin --group=p gone ana /
0; numbers 65536 u ':x:1:1:::' '\n' | gufi find --passwd=/dev/stdin i u1 / -maxdepth 0
6 gufi: /dev/stdin limit 65536; numbers 65537 u ':x:1:1:::' '\n' | gufi find --passwd=/dev/stdin i u1 /
6 gufi: /dev/stdin limit 65536; numbers 65537 g ':x:1:' '\n' | gufi find --group=/dev/stdin i 0 /
6 gufi: big67108865 limit 67108864; truncate -s 67108865 big67108865; gufi find --passwd=big67108865 i 0 /
# files that can't be read
8 gufi: gone not found; gufi find gone 0 /
2 gufi: word 2 refused; gufi find '' 0 /
8 gufi: ./gone/t not found; gufi find ./gone/t 0 /
8 gufi: /gone not found; gufi find "$PWD/gone" 0 /
8 gufi: a name with\na newline not found; gufi find "$(printf 'a name with\na newline')" 0 /
8 gufi: naïve not found; gufi find 'naïve' 0 /
3 gufi: read fault; gufi find t/x 0 /
3 gufi: read fault; gufi find t/ 0 /
3 gufi: read fault; gufi find folder 0 /
3 gufi: read fault; gufi find . 0 /
3 gufi: read fault; gufi find / 0 /
3 gufi: read fault; gufi find loop 0 /
8 gufi: dangling not found; gufi find dangling 0 /
3 gufi: read fault; gufi find denied 0 /
3 gufi: read fault; gufi find closed/t 0 /
3 gufi: read fault; gufi find "$(repeat 256 x)" 0 /
3 gufi: read fault; gufi find "$(repeat 2049 ./)" 0 /
8 gufi: * not found; gufi find '*' 0 /
8 gufi: /gone not found; gufi find ~/gone 0 /
8 gufi: gone not found; gufi find --passwd=gone i ana /
3 gufi: read fault; gufi find --passwd=folder i ana /
3 gufi: read fault; gufi find --passwd=denied i ana /
8 gufi: gone not found; gufi find --passwd=p --group=gone i ana /
3 gufi: read fault; gufi find --passwd=p --group=folder i ana /
8 gufi: gone not found; gufi find --passwd=gone --group=folder denied ana /
8 gufi: gone not found; gufi find --passwd=p --group=g gone nosuch / -nosuch
3 gufi: read fault; gufi find --passwd=p --group=g folder nosuch / -nosuch
8 gufi: gone not found; gufi walk gone 0 -
3 gufi: read fault; gufi walk folder 0 -
8 gufi: gone not found; gufi trace2index gone
3 gufi: read fault; gufi trace2index folder
8 gufi: gone not found; gufi rollup --limit=2 gone
3 gufi: read fault; gufi rollup --limit=2 denied
8 gufi: gone not found; gufi ls gone 0 /
8 gufi: gone not found; gufi stat gone 0 /
8 gufi: gone not found; gufi query gone 0 / 'SELECT nope'
3 gufi: read fault; gufi query folder 0 / 'SELECT nope'
8 gufi: gone not found; gufi agg gone 0 / nope
8 gufi: gone not found; gufi stats gone 0 / levels
8 gufi: gone not found; gufi session gone
3 gufi: read fault; gufi session folder
3 gufi: read fault; gufi session denied
3 gufi: read fault; gufi session loop
2 gufi: word 2 refused; gufi find -t 0 /
8 gufi: ./-t not found; gufi find ./-t 0 /
8 gufi: -t not found; gufi find -- -t 0 /
8 gufi: -t not found; gufi find --delim='|' -- -t 0 /
# scripts of a session
5 gufi: t line 1 Verb; gufi session t
5 gufi: i line 1 Verb; gufi session i
0; gufi session empty
0; gufi session /dev/null
5 gufi: s line 3 User; gufi session --delim=, s
0; gufi session --passwd=p --group=g --delim='|' s
5 gufi: s line 3 User; gufi session --delim='|' s
0; gufi session --passwd=p --delim='|' s
0; script 'publish 0 t'
0; printf 'publish 0 t' | gufi session --delim='|' /dev/stdin
8 gufi: t\x0d not found; printf 'publish 0 t\r\n' | gufi session --delim='|' /dev/stdin
5 gufi: /dev/stdin line 1 Verb; script 'Publish 0 t'
5 gufi: /dev/stdin line 1 Verb; script 'publsh 0 t'
5 gufi: /dev/stdin line 1 Count; script publish
5 gufi: /dev/stdin line 1 Count; script 'publish t'
5 gufi: /dev/stdin line 1 Count; script 'publish 0'
5 gufi: /dev/stdin line 1 Count; script 'publish 0 t t'
5 gufi: /dev/stdin line 1 Number; script 'publish x t'
5 gufi: /dev/stdin line 1 Number; script 'publish -1 t'
5 gufi: /dev/stdin line 1 Number; script 'publish 18446744073709551616 t'
0; script 'publish 0 i'
8 gufi: gone not found; script 'publish 0 gone'
3 gufi: read fault; script 'publish 0 folder'
3 gufi: read fault; script 'publish 0 denied'
8 gufi: "t" not found; script 'publish 0 "t"'
0; script 'publish 0 %74'
5 gufi: /dev/stdin line 1 Escape; script 'publish 0 %7'
5 gufi: /dev/stdin line 1 Escape; script 'publish 0 t%'
5 gufi: /dev/stdin line 1 Escape; script 'publish 0 %zz'
5 gufi: /dev/stdin line 1 File; script 'publish 0 %ff'
3 gufi: read fault; script 'publish 0 %00'
5 gufi: /dev/stdin line 1 Count; script rollup
5 gufi: /dev/stdin line 1 Number; script 'rollup x'
5 gufi: /dev/stdin line 1 Count; script 'rollup 1 2'
0; script 'rollup 1'
5 gufi: /dev/stdin line 1 Count; script 'refresh /open'
5 gufi: /dev/stdin line 1 Count; script 'refresh /open t t'
5 gufi: /dev/stdin line 1 Path; script 'refresh /../open t'
0; script 'refresh open t'
5 gufi: /dev/stdin line 1 File; script 'refresh /open %ff'
5 gufi: /dev/stdin line 1 Count; script 'barrier 1'
5 gufi: /dev/stdin line 1 Verb; script 'BARRIER'
5 gufi: /dev/stdin line 1 Verb; script ' # no words'
5 gufi: /dev/stdin line 1 Count; script 'publish 0 t # all'
5 gufi: /dev/stdin line 1 Count; script ask
5 gufi: /dev/stdin line 1 Count; script 'ask 1 0 /'
5 gufi: /dev/stdin line 1 Lane; script 'ask 0 0 / find'
5 gufi: /dev/stdin line 1 Lane; script 'ask 17 0 / find'
5 gufi: /dev/stdin line 1 Lane; script 'ask x 0 / find'
5 gufi: /dev/stdin line 1 Path; script 'ask 1 0 /.. find'
0; script 'ask 1 0 none find'
5 gufi: /dev/stdin line 1 Form; script 'ask 1 0 / fnd'
5 gufi: /dev/stdin line 1 Form; script 'ask 1 0 / ls'
5 gufi: /dev/stdin line 1 Count; script 'ask 1 0 / query'
5 gufi: /dev/stdin line 1 Query; script 'ask 1 0 / find -nosuch'
0; script "ask 1 0 / find -name '*.h5'"
5 gufi: /dev/stdin line 1 Query; script 'ask 1 0 / find -mtime 1'
0; echo 'ask 1 0 / find -mtime 1' | gufi session --now=5 /dev/stdin
5 gufi: /dev/stdin line 1 Query; script 'ask 1 0 / total -size x'
5 gufi: /dev/stdin line 1 Query; script 'ask 1 0 / query SELECT nope FROM rows'
0; script 'ask 1 0 / query SELECT name FROM rows'
5 gufi: /dev/stdin line 1 User; script 'ask 1 ana / find'
5 gufi: /dev/stdin line 1 User; echo 'ask 1 nosuch / find' | gufi session --passwd=p /dev/stdin
5 gufi: /dev/stdin line 1 User; script 'ask 1 1002:x / find'
5 gufi: /dev/stdin line 1 User; script 'ask 1 nosuch / find' 'ask 1 0 / find -nosuch'
5 gufi: /dev/stdin line 1 Query; script 'ask 1 0 / find -nosuch' 'ask 1 nosuch / find'
5 gufi: /dev/stdin line 2 Escape; script 'ask 1 nosuch / find' 'publish 0 %'
5 gufi: /dev/stdin line 1 Number; script 'publish x t' 'fetch'
8 gufi: gone not found; script 'publish 0 t' barrier 'publish 0 gone'
3 gufi: read fault; script 'publish 0 t' barrier 'publish 0 folder'
8 gufi: gone not found; script 'publish 0 gone' 'publish 0 folder'
3 gufi: read fault; script 'publish 0 folder' 'publish 0 gone'
8 gufi: gone not found; script 'publish 0 empty' barrier 'publish 0 gone'
0 cache hits 0 of 1; printf '%s\n' 'ask 1 0 / find' barrier 'publish 0 t' | gufi session --delim='|' --cache=2 /dev/stdin
0; repeat 1000 'rollup 1\n' | gufi session /dev/stdin
6 gufi: /dev/stdin limit 1000; repeat 1001 'rollup 1\n' | gufi session /dev/stdin
0; repeat 4096 '\n' | gufi session /dev/stdin
6 gufi: /dev/stdin limit 4096; repeat 4097 '\n' | gufi session /dev/stdin
6 gufi: big16777217 limit 16777216; truncate -s 16777217 big16777217; gufi session big16777217
# closed and full streams
4 gufi: write fault; gufi find i 0 / >&-
4 gufi: write fault; gufi find i 0 / >/dev/full
0; gufi find i 0 / <&-
2; gufi find i 0 / -nosuch 2>&-
1; gufi find i 0 /none 2>/dev/full
0; gufi find i 0 / -name none >/dev/full
2 gufi: word 5 UnknownPrimary; gufi find i 0 / -nosuch >&-
8 gufi: gone not found; gufi find gone 0 / >&-
8 gufi: /dev/stdin not found; gufi find /dev/stdin 0 / <&-
5 gufi: /dev/stdin line 0 NoRoot; gufi find /dev/stdin 0 / </dev/null
0; gufi find --delim='|' /dev/stdin 0 / <t
5 gufi: /dev/stdin line 1 Fields; gufi find --passwd=/dev/stdin --delim='|' /dev/stdin 0 / <t
3 gufi: read fault; gufi find /dev/stdin 0 / <folder
4 gufi: write fault; gufi ls i 0 / >/dev/full
4 gufi: write fault; gufi stat i 0 / >/dev/full
4 gufi: write fault; gufi query i 0 / 'SELECT name FROM rows' >/dev/full
4 gufi: write fault; gufi agg i 0 / 'SELECT uid FROM rows GROUP BY uid' >/dev/full
4 gufi: write fault; gufi stats i 0 / levels >/dev/full
4 gufi: write fault; gufi walk t 0 - '|' >/dev/full
4 gufi: write fault; gufi trace2index --delim='|' t >/dev/full
4 gufi: write fault; gufi trace2index --delim='|' t >&-
4 gufi: write fault; gufi rollup --limit=2 i >/dev/full
0 rolled 3 of 6 tops 3 rows 6; gufi rollup --limit=2 i >image
4; gufi rollup --limit=2 i 2>/dev/full >image
4; gufi rollup --limit=2 i 2>&- >image
4 gufi: write fault; gufi gen 1 >/dev/full
4 gufi: write fault; gufi gen 200000 >/dev/full
4 gufi: write fault; gufi session --passwd=p --group=g --delim='|' s >/dev/full
4; echo 'rollup 1' | gufi session --cache=2 /dev/stdin 2>/dev/full
4 gufi: write fault; gufi --help >/dev/full
4 gufi: write fault; gufi --version >/dev/full
4 gufi: write fault; gufi --version >&-
4 gufi: write fault; gufi --man >/dev/full
4 gufi: write fault; gufi find --help >/dev/full
4 gufi: write fault; trap '' XFSZ; ulimit -f 0; exec gufi trace2index --delim='|' t >image
153; ulimit -f 0; exec gufi trace2index --delim='|' t >image
# limits
6 gufi: big536870913 limit 536870912; truncate -s 536870913 big536870913; gufi find big536870913 0 /
"""


def make_files(folder, program):
    """Makes what the calls speak of: the lab's trace `t`, its images `i` and `r`, its tables `p` and `g`, and files that can't be read."""
    shutil.copy(program, os.path.join(folder, "gufi"))
    for name, lab in (("t", "trace"), ("p", "passwd"), ("g", "group")):
        shutil.copy(LAB + lab, os.path.join(folder, name))
    script = "publish 0 t\nbarrier\nask 1 ana / find\n"
    for name, text in (("s", script), ("secret", SECRET), ("empty", ""), ("a.s", script), ("b.s", script), ("denied", SECRET)):
        with open(os.path.join(folder, name), "w", encoding="ascii") as file:
            file.write(text)
    for name, words in (("i", ["trace2index", "--delim=|", "t"]), ("r", ["rollup", "--limit=100", "i"])):
        with open(os.path.join(folder, name), "wb") as image:
            subprocess.run(["./gufi", *words], cwd=folder, stdout=image, stderr=subprocess.PIPE, check=True)
    for name in ("folder", "closed"):
        os.mkdir(os.path.join(folder, name))
    shutil.copy(LAB + "trace", os.path.join(folder, "closed", "t"))
    for name, target in (("loop", "loop"), ("dangling", "gone")):
        os.symlink(target, os.path.join(folder, name))
    os.chmod(folder, 0o755)
    for name in ("denied", "closed"):
        os.chmod(os.path.join(folder, name), 0)


def ended(folder, call):
    """The status, the note and the text of a call."""
    setting = dict(os.environ, HOME=folder, LC_ALL="C", PATH=folder + ":" + os.environ["PATH"])
    other = {"user": NOBODY, "group": NOBODY, "extra_groups": []} if os.geteuid() == 0 else {}
    try:
        run = subprocess.run(
            ["sh", "-c", SHELL + call], cwd=folder, env=setting, stdin=subprocess.DEVNULL, capture_output=True, timeout=SECONDS, check=False, **other
        )
    except subprocess.TimeoutExpired:
        return None, "", b""
    status = run.returncode if run.returncode >= 0 else 128 - run.returncode
    return status, shown_of(run.stderr.replace(os.fsencode(folder), b"")), run.stdout


def shown_of(note):
    """A note as CALLS has it."""
    text = note.decode("utf-8", "backslashreplace")
    line = "".join(byte if byte.isprintable() else "\\n" if byte == "\n" else "\\x%02x" % ord(byte) for byte in text)
    return line[:-2] if text.endswith("\n") else line + "\\c" * bool(line)


def may_write(status, call):
    """Whether something may stand on standard output."""
    return status in (0, 4) or status > 128 or "session" in call or call.startswith("script")


def differs(folder, line):
    """Whether a call ends otherwise than its line says; that is told."""
    shown, _, call = line.partition("; ")
    status, note, text = ended(folder, call)
    told = ("%s %s" % (status, note)).rstrip(" ")
    if told == shown and (not text or may_write(status, call)):
        return False
    print("%s\n  shown:  %s\n  ended:  %s%s" % (call, shown, told, ", with text" if text else ""))
    return True


def main():
    parser = argparse.ArgumentParser(description="Makes wrong and odd calls, and compares statuses and notes with those of commit aa9c3ea.")
    parser.add_argument("--program", default=os.path.join(TOP, "crates", "gufi", "out", "gufi"))
    given = parser.parse_args()
    lines = [line for line in CALLS.split("\n") if line and not line.startswith("# ")]
    with tempfile.TemporaryDirectory() as folder:
        make_files(folder, given.program)
        if os.geteuid() == 0:
            for place, folders, files in os.walk(folder):
                for name in folders + files + ["."]:
                    os.chown(os.path.join(place, name), NOBODY, NOBODY, follow_symlinks=False)
        different = sum(differs(folder, line) for line in lines)
    print("%d calls, %d differ" % (len(lines), different))
    return 1 if different else 0


if __name__ == "__main__":
    sys.exit(main())
