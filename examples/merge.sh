#!/bin/sh
# Writes what `gufi find` over the whole would, from the answers of COUNT shards in the folder WORK: merge.sh WORK COUNT
#
# It ends with the status that the whole would have. Where a shard was refused otherwise than at its start, that is told and nothing is
# written. With the status 4 the lines weren't all written; with 70 an answer is missing, or they couldn't be merged.
work=$1 count=$2
case $work in
    /*) ;;
    *) work=./$work ;;
esac

# Ends with a status, and with what failed here. Where the shell itself ends, since it can't start a command, the status is 70 too.
fail() {
    echo "merge.sh: $2" >&2
    end "$1"
}

end() {
    trap - EXIT
    exit "$1"
}

trap 'exit 70' EXIT
# No file takes the place of standard error where that is closed.
(: 3>&2) || exec 2>/dev/null

set -- "$work"/*.status
[ $# -eq "$count" ] && [ -e "$1" ] || fail 70 "not all of $count shards answered"
set --
for file in "$work"/*.status; do
    answer=${file%.status}
    read -r status <"$file" || status=''
    case $status in
        0) set -- "$@" "$answer.lines" ;;
        1) ;;
        '' | *[!0-9]*) fail 70 "$file has no status" ;;
        *)
            if [ -s "$answer.note" ]; then cat -- "$answer.note" >&2; else echo "merge.sh: ${answer##*/} ended with status $status" >&2; fi
            end "$status"
            ;;
    esac
done
if [ $# -gt 0 ]; then
    # A directory above several shards is listed by each of them. Whether `sort` ended well is told beside what `tr` writes.
    { merged=$({ { LC_ALL=C sort -m -u -- "$@" && echo yes >&3; } | tr '\0' '/' >&4; } 3>&1); } 4>&1 || fail 4 "write fault"
    [ "$merged" = yes ] || fail 70 "the answers couldn't be merged"
    end 0
fi
# The start is refused. A shard that lacks it, or a directory above it, says 'no such'; the whole says what the one says that came deepest.
note=$(LC_ALL=C awk '
    { depth = $0; sub(/.*at depth /, "", depth); depth += 0 }
    NR == 1 || depth > deepest || (depth == deepest && $2 != "no") { deepest = depth; note = $0 }
    END { print note }' "$work"/*.note) && [ -n "$note" ] || fail 70 "the notes couldn't be read"
printf '%s\n' "$note" >&2
end 1
