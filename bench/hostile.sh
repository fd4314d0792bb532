#!/bin/sh
# Refuses memory to the built program, one allocation at a time, and says how each run ended: hostile.sh [RUN] [FROM [TO]]
#
# RUN is `session`, `refresh`, `cache` or `find`, and all four where it isn't given. The numbers go from FROM, which is 1, up to TO, or up
# to the first that no allocation has any more. Each run has to end with status 0 and its whole text, or with 7 and its note: nothing is
# written by `find`, and some first phases by a session. The last line of each counts the runs; a run that ends otherwise is told, and the
# script then ends with 1, as where nothing was refused. PROGRAM names another program than that of crates/gufi/out.
#
# The calls of malloc, calloc, realloc, aligned_alloc and posix_memalign are counted, those of the C library among them, by a small library
# that is loaded before it; it needs `cc`. A thread that can't be had for want of memory isn't told: its work is done by another.
here=$(CDPATH= cd -P -- "$(dirname -- "$0")" && pwd) || exit 1
program=${PROGRAM:-$here/../crates/gufi/out/gufi}
case $program in
    /*) ;;
    *) program=$PWD/$program ;;
esac
work=$(mktemp -d) || exit 1
trap 'rm -r -- "$work"' EXIT
trap 'exit 129' HUP
trap 'exit 130' INT
trap 'exit 143' TERM

cat >"$work/refuse.c" <<'END'
#include <errno.h>
#include <fcntl.h>
#include <stdatomic.h>
#include <stdlib.h>
#include <unistd.h>

void *__libc_malloc(size_t);
void *__libc_calloc(size_t, size_t);
void *__libc_realloc(void *, size_t);
void *__libc_memalign(size_t, size_t);

static atomic_ulong calls;
static unsigned long refused;
static const char *mark;

__attribute__((constructor)) static void begin(void) {
    const char *number = getenv("REFUSED");
    mark = getenv("MARK");
    refused = number ? strtoul(number, NULL, 10) : 0;
    atomic_store(&calls, 0);
}

static int refuse(void) {
    if (!refused || atomic_fetch_add(&calls, 1) + 1 != refused)
        return 0;
    close(open(mark, O_CREAT | O_WRONLY, 0600));
    errno = ENOMEM;
    return 1;
}

void *malloc(size_t size) { return refuse() ? NULL : __libc_malloc(size); }
void *calloc(size_t count, size_t size) { return refuse() ? NULL : __libc_calloc(count, size); }
void *realloc(void *old, size_t size) { return refuse() ? NULL : __libc_realloc(old, size); }
void *aligned_alloc(size_t align, size_t size) { return refuse() ? NULL : __libc_memalign(align, size); }
int posix_memalign(void **out, size_t align, size_t size) {
    void *new = refuse() ? NULL : __libc_memalign(align, size);
    if (!new)
        return ENOMEM;
    *out = new;
    return 0;
}
END
cc -O1 -shared -fPIC -o "$work/refuse.so" "$work/refuse.c" || exit 1

cd "$work" || exit 1
printf '/r|d|1|493|2|101|100|4096|4096|8|10|20|30|\n' >a
{
    cat a
    printf '/r/x|f|2|420|1|101|100|0|4096|0|10|20|30|\n'
} >x
printf '%s\n' '/r|d|1|493|3|101|100|4096|4096|8|10|20|30|' '/r/a|d|2|493|3|101|100|4096|4096|8|10|20|30|' \
    '/r/a/b|d|3|493|2|101|100|4096|4096|8|10|20|30|' >d
printf 'ana:x:1001:1001:Ana:/home/ana:/bin/sh\n' >p
printf 'ana:x:1001:\nlab:x:500:ana,bob\n' >g
times='1700000000|1700000000|1700000000|'
printf '%s\n' "/home|d|1|16877|4|0|0|4096|4096|8|$times" "/home/proj|d|4|17912|2|0|500|4096|4096|8|$times" \
    "/home/proj/run 1.h5|f|6|33184|1|1001|500|2000000|4096|3912|$times" >h
ask='ask 1 102 / find'
printf '%s\n' 'publish 100 a' barrier "$ask" "$ask" "$ask" 'publish 100 x' barrier "$ask" >session
printf '%s\n' 'publish 100 d' 'refresh /a a' 'refresh /zz a' 'rollup 0' barrier 'ask 2 102 / find' 'ask 2 102 /a/b total' >refresh
printf '%s\n' 'publish 0 a' barrier "$ask" "$ask" 'ask 1 103 / find' 'ask 2 102 / find' >cache

# Runs the program where the wanted number is refused.
try() {
    run=$1 number=$2
    case $run in
        find) set -- find --passwd=p --group=g '--delim=|' --workers=4 h ana / -name '*.h5' -size +2048 ;;
        cache) set -- session '--delim=|' --cache=2 cache ;;
        *) set -- session '--delim=|' "$run" ;;
    esac
    rm -f mark
    REFUSED=$number MARK=$work/mark LD_PRELOAD=$work/refuse.so "$program" "$@" >out 2>notes
}

# The whole text, and the note of a whole run.
is_whole() {
    case $1 in
        find) printf '/proj/run 1.h5\n' | cmp -s - out && [ ! -s notes ] ;;
        refresh) [ "$(tail -n 1 out)" = 'reply 2 at 3 no such at depth 2' ] && [ ! -s notes ] ;;
        session) [ "$(tail -n 3 out | tr '\n' ' ')" = 'reply 4 at 2 rows 2 / /x ' ] && [ ! -s notes ] ;;
        cache) [ "$(tail -n 2 out | tr '\n' ' ')" = 'reply 4 at 1 rows 1 / ' ] && [ "$(cat notes)" = 'cache hits 1 of 4' ] ;;
    esac
}

# No phase ends in the midst: a text ends behind the last line of a phase.
is_some_phases() {
    [ "$(cat notes)" = 'gufi: no memory' ] || return 1
    [ -s out ] || return 0
    case $1 in
        find) return 1 ;;
        refresh) tail -n 1 out | grep -qxE 'rollup 4 number 3|reply 2 at 3 no such at depth 2' ;;
        session) tail -n 3 out | tr '\n' ' ' | grep -qE '(^|/x |/ )publish (1 number 1|2 number 2) $|^reply 4 at 2 rows 2 / /x $' ;;
        cache) tail -n 2 out | tr '\n' ' ' | grep -qxE 'publish 1 number 1 |reply 4 at 1 rows 1 / ' ;;
    esac
}

wrong=0
for run in ${1:-session refresh cache find}; do
    number=${2:-1} whole=0 refused=0
    while [ -z "$3" ] || [ "$number" -le "$3" ]; do
        try "$run" "$number"
        status=$?
        if [ "$status" = 0 ] && is_whole "$run"; then
            [ -e mark ] || break
            whole=$((whole + 1))
        elif [ "$status" = 7 ] && is_some_phases "$run"; then
            refused=$((refused + 1))
        else
            wrong=1
            echo "$run: refused number $number: status $status"
            cat out notes
            [ -e mark ] || break
        fi
        number=$((number + 1))
    done
    echo "$run: $refused runs ended with 7 and $whole with 0, before number $number"
    # A library that wasn't loaded refuses nothing.
    [ $((refused + whole)) -gt 0 ] || wrong=1
done
exit "$wrong"
