#!/bin/sh
# Asks one shard and keeps its answer in the folder WORK, for merge.sh: shard.sh WORK SHARD USER START [EXPRESSION..]
#
# Where SHARD is a folder, the shard is the file in it with the number of the task of a Slurm array job. PROGRAM names the program, else it
# is `gufi` on PATH, and GUFI_OPTIONS has options of `gufi find`, each in one word without blanks, as --passwd=lab.passwd. The answer has a
# status only where the rest of it is whole.
work=$1 shard=$2
shift 2 || exit
if [ -d "$shard" ]; then
    for file in "$shard/${SLURM_ARRAY_TASK_ID:?}".*; do
        [ "$shard" = "${file%/*}" ] || { echo "shard.sh: $shard and $file are both of task $SLURM_ARRAY_TASK_ID" >&2; exit 70; }
        shard=$file
    done
fi
case $shard in
    -*) shard=./$shard ;;
esac
case $work in
    -*) work=./$work ;;
esac
answer=$work/${shard##*/}
# An earlier answer isn't taken for this one.
rm -f -- "$answer.status" || exit
set -f
"${PROGRAM:-gufi}" find $GUFI_OPTIONS "$shard" "$@" >"$answer.text" 2>"$answer.note"
status=$?
# Where the start is refused, its note is needed.
[ "$status" -ne 1 ] || [ -s "$answer.note" ] || exit 70
# Paths sort with the slash before all other bytes, as a zero byte.
tr '/' '\0' <"$answer.text" >"$answer.lines" && rm -- "$answer.text" && echo "$status" >"$answer.status"
