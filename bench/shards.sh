#!/bin/sh
# Compares what shards of a trace answer, merged, with what `gufi find` answers over the whole: shards.sh TRACE USER..
#
# The trace has the delimiter 0x1E, and is cut into 4 and into 16. Each user asks from the root, from directories all over the trace,
# from a file and from what isn't there, with several expressions. Lines, statuses and notes have to be the same. PROGRAM names the
# program, else it is the script gufi of this clone.
here=$(CDPATH= cd -P -- "$(dirname -- "$0")" && pwd) || exit 1
PROGRAM=${PROGRAM:-$here/../gufi}
export PROGRAM
[ $# -ge 2 ] || { echo "shards.sh TRACE USER.." >&2; exit 2; }
trace=$1
shift
case $trace in
    -*) trace=./$trace ;;
esac
work=$(mktemp -d) || exit 1
trap 'rm -r -- "$work"' EXIT
trap 'exit 129' HUP
trap 'exit 130' INT
trap 'exit 143' TERM

# Compares one question, whose words are given, over the shards of $count.
compare() {
    "$PROGRAM" find "$trace" "$@" >"$work/whole" 2>"$work/whole.note"
    status=$?
    "$here/../examples/ask.sh" "$work/$count" "$@" >"$work/merged" 2>"$work/merged.note"
    if [ $? -eq $status ] && cmp -s "$work/whole" "$work/merged" && cmp -s "$work/whole.note" "$work/merged.note"; then
        same=$((same + 1)) lines=$((lines + $(wc -l <"$work/whole"))) refused=$((refused + (status > 0)))
    else
        echo "shards.sh: $count shards differ: $*" >&2
        exit 1
    fi
}

# Some places in the trace: the root, ten directories, a file, and one that isn't there, below the root and below a directory.
awk -F '\036' '
    NR == 1 { root = length($1) + ($1 != "/") }
    $2 == "d" { directory[++count] = $1 }
    $2 == "f" { file = $1 }
    END {
        print "/"
        for (i = 1; i <= 10; i++) print substr(directory[int(1 + i * (count - 1) / 10)] "/", root)
        print substr(file, root)
        print "/nothing"
        print substr(directory[int(count / 2)] "/nothing", root)
    }' <"$trace" >"$work/starts" || exit 1

for count in 4 16; do
    "$here/../examples/cut.py" "$trace" "$count" "$work/$count" || exit 1
    same=0 lines=0 refused=0
    for user; do
        while read -r start; do
            compare "$user" "$start"
            compare "$user" "$start" -name '*[05]*' -size +8
            compare "$user" "$start" -mindepth 0 -maxdepth 2
            compare "$user" "$start" -type d -mindepth 1 ! -perm -5
        done <"$work/starts"
    done
    echo "$count shards: $same answers with $lines lines are those of the whole; $refused starts were refused"
done
