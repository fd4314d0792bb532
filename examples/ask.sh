#!/bin/sh
# Asks all shards of a folder side by side, as `gufi find` is asked over the whole: ask.sh FOLDER USER START [EXPRESSION..]
#
# JOBS is how many are asked at a time, PROGRAM the program, else the script gufi of this clone, or where it isn't in one `gufi` on PATH;
# GUFI_OPTIONS has options, each in one word without blanks. With the status 70 the answer isn't the whole's, as an own step failed.
status=70 work=''
trap '[ -z "$work" ] || rm -r -- "$work"; exit "$status"' EXIT
trap 'status=129; exit' HUP
trap 'status=130; exit' INT
trap 'status=143; exit' TERM
here=$(CDPATH= cd -P -- "$(dirname -- "$0")" && pwd) || exit
[ $# -ge 3 ] || { echo "ask.sh FOLDER USER START [EXPRESSION..]" >&2; status=2; exit; }
folder=$1
shift
case $folder in
    -*) folder=./$folder ;;
esac
[ -n "$PROGRAM" ] || [ ! -f "$here/../gufi" ] || PROGRAM=$here/../gufi
PROGRAM=${PROGRAM:-gufi}
export PROGRAM GUFI_OPTIONS
work=$(mktemp -d) || exit
for shard in "$folder"/*; do
    printf '%s\0' "$work" "$shard" "$@"
done | xargs -0 -n $(($# + 2)) -P "${JOBS:-$(nproc)}" "$here/shard.sh"
set -- "$folder"/*
"$here/merge.sh" "$work" $#
status=$?
