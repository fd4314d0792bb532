#!/bin/sh
# Installs the program, its manual page, its completions for bash, zsh and fish, and the examples: install.sh [--uninstall] [PREFIX]
#
# PREFIX is /usr/local where none is given, and DESTDIR stands before it where it is set. PROGRAM names another program than the clone's,
# which is proved and built first where that is needed. Each file is made whole beside its name, and all are put in place once all are
# there: an installation that fails or is ended says so, and no file is cut off. PREFIX/share/gufi/installed tells what was installed, and
# which folders were made for it; --uninstall removes just that.
#
# The status is 0 where all was done. Anything else says that it wasn't: 2 where a word can't be taken, 1 where one of its own steps failed.
umask 022
LC_ALL=C
export LC_ALL
list=share/gufi/installed
files='' folders='' stage=''

# (The shell's own echo would read a backslash in a name.)
tell() {
    printf 'install.sh: %s\n' "$*" >&2
}

# Ends with what failed. Why it did stands above, as the command said it.
fail() {
    tell "$*"
    exit 1
}

# The name under which a file is made, beside its own.
aside() {
    printf '%s\n' "$root/${1%/*}/.${1##*/}.new"
}

# Removes what was made aside, however this ends, and says where that leaves the installation.
clear_up() {
    trap '' HUP INT TERM
    while IFS= read -r path; do
        [ -z "$path" ] || rm -f -- "$(aside "$path")"
    done <<END
$files
END
    case $stage in
        making)
            printf '%s' "$folders" | sort -r | while IFS= read -r path; do rmdir -- "$root/$path" 2>/dev/null; done
            tell "nothing is installed; what was there before stands"
            ;;
        placing) tell "only some of the files were put in place, each of them whole: install again, or --uninstall" ;;
        removing) tell "only some of the files were removed" ;;
    esac
}

# Makes a folder below the root and those above it, and notes those that weren't there.
make_folder() {
    [ ! -d "$root/$1" ] || return 0
    case $1 in
        */*) make_folder "${1%/*}" || return ;;
    esac
    mkdir -- "$root/$1" && folders="$folders$1/
"
}

# Makes a file aside of what stands on standard input: its path below the root, and its mode.
make() {
    [ ! -d "$root/$1" ] || fail "$root/$1 is a folder"
    make_folder "${1%/*}" || fail "$root/${1%/*} can't be made"
    new=$(aside "$1") && rm -f -- "$new" || fail "$root/$1 can't be made"
    files="$files$1
"
    # Never through a link that somebody put there.
    (set -C && cat >"$new") && chmod "$2" "$new" || fail "$root/$1 can't be written"
}

# Makes a file aside that is a copy of another one.
copy() {
    make "$1" "$2" <"$3" && cmp -- "$3" "$(aside "$1")" || fail "$root/$1 can't be written"
}

put_in_place() {
    mv -f -- "$(aside "$1")" "$root/$1" || fail "$root/$1 can't be put in place"
}

# The files or the folders of the list of what is installed. A path in it that leads elsewhere isn't followed.
listed() {
    [ -e "$root/$list" ] || return 0
    grep -E -q '^/.|(^|/)\.\.(/|$)' "$root/$list"
    case $? in
        0) fail "$root/$list isn't as install.sh writes it" ;;
        1) ;;
        *) fail "$root/$list can't be read" ;;
    esac
    case $1 in
        files) sed -e '/\/$/d' "$root/$list" ;;
        folders) sed -n -e '/\/$/p' "$root/$list" ;;
    esac
}

write_list() {
    make "$list" 0644 <<END
${1%
}
END
    put_in_place "$list"
}

# The manual page, with the date of the newest version in CHANGELOG.md and the version that the program tells.
manual() {
    date=$(sed -n -e 's/^## .*\([0-9]\{4\}-[0-9][0-9]-[0-9][0-9]\).*/\1/p' "$top/CHANGELOG.md" | head -n 1) && [ -n "$date" ] &&
        page=$("$program" --man) && printf '%s\n' "$page" | sed -e "s/^\.TH GUFI 1\$/.TH GUFI 1 \"$date\" \"$version\"/"
}

install_all() {
    program=${PROGRAM:-$top/crates/gufi/out/gufi}
    [ -n "${PROGRAM-}" ] || "$top/gufi" --version >/dev/null || fail "the program can't be built"
    version=$("$program" --version) || fail "$program doesn't run here; it needs glibc 2.34 or newer"
    if [ ! -d "$root" ]; then
        mkdir -p -- "$root" || fail "$root can't be made"
        folders='/
'
    fi
    earlier=$(listed files) && folders=$folders$(listed folders) || exit 1
    [ -z "$folders" ] || folders="${folders%
}
"
    stage=making
    make_folder "${list%/*}" || fail "$root/${list%/*} can't be made"
    copy bin/gufi 0755 "$program"
    page=$(manual) && words=$("$program" --completions) && zsh=$("$program" --completions=zsh) && fish=$("$program" --completions=fish) ||
        fail "the program's pages can't be had"
    make share/man/man1/gufi.1 0644 <<END
$page
END
    make share/bash-completion/completions/gufi 0644 <<END
$words
END
    make share/zsh/site-functions/_gufi 0644 <<END
$zsh
END
    make share/fish/vendor_completions.d/gufi.fish 0644 <<END
$fish
END
    for example in "$top"/examples/*; do
        mode=0644
        [ ! -x "$example" ] || mode=0755
        copy "share/doc/gufi/examples/${example##*/}" "$mode" "$example"
    done
    # What is in the list may be there: so it comes first, with what was installed before.
    mine=$files
    write_list "$mine$folders$earlier"
    stage=placing
    while IFS= read -r path; do
        [ -z "$path" ] || put_in_place "$path"
    done <<END
$mine
END
    # (grep ends with 1 where it finds none)
    earlier=$(printf '%s\n' "$earlier" | grep -F -x -v -e "$mine") || [ $? -eq 1 ] || fail "what was installed before can't be told"
    remove "$earlier"
    write_list "$mine$folders"
    stage=''
    printf '%s\n' "$version is installed in $root: the program, the manual page, the completions for bash, zsh and fish, and the examples"
}

# Removes files, and what was made aside of them.
remove() {
    while IFS= read -r path; do
        [ -z "$path" ] || rm -f -- "$root/$path" "$(aside "$path")" || fail "$root/$path can't be removed"
    done <<END
$1
END
}

remove_all() {
    [ -e "$root/$list" ] || fail "nothing is installed in $root"
    earlier=$(listed files) && folders=$(listed folders | sort -r) || exit 1
    stage=removing
    remove "$earlier"
    remove "$list"
    while IFS= read -r path; do
        # One that has something else in it stays.
        [ -z "$path" ] || [ ! -d "$root/$path" ] || rmdir -- "$root/$path" 2>/dev/null || [ -n "$(ls -A "$root/$path")" ] ||
            fail "$root/$path can't be removed"
    done <<END
$folders
END
    stage=''
    printf '%s\n' "what was installed in $root is removed"
}

refuse() {
    tell "$1"
    echo "usage: install.sh [--uninstall] [PREFIX]" >&2
    exit 2
}

action=install_all
case ${1-} in
    --uninstall) action=remove_all && shift ;;
    --help) echo "usage: install.sh [--uninstall] [PREFIX]" && exit ;;
esac
[ $# -le 1 ] || refuse "PREFIX is one word"
prefix=${1-/usr/local}
case $prefix in
    *"
"*) refuse "PREFIX has no newline" ;;
    /*) ;;
    *) refuse "PREFIX begins with /" ;;
esac
root=${DESTDIR-}${prefix%/}
root=${root:-/}
self=$(readlink -f -- "$0") && top=${self%/*} || exit 1
trap clear_up EXIT
trap 'exit 129' HUP
trap 'exit 130' INT
trap 'exit 143' TERM
$action
