# Completions of gufi for bash. Made by: gufi --completions
_gufi_words() {
    case $1:$2 in
    names:*) echo 'walk find du query agg ls stat stats diff trace2index rollup index2trace info refresh session gen --help --version --man --completions --completions=zsh --completions=fish ' ;;
    options:walk) echo '--help' ;;
    values:walk) echo '' ;;
    behind:walk) echo '' ;;
    options:find) echo '--prefix --passwd --group --delim --limit --workers --now --help' ;;
    values:find) echo '--prefix=TEXT --passwd=FILE --group=FILE --delim=BYTE --limit=N --workers=N --now=SECONDS ' ;;
    behind:find) echo '-name -path -type -size -atime -mtime -ctime -links -perm -user -group -nouser -nogroup -mindepth -maxdepth ! -a -o ' ;;
    options:du) echo '--passwd --group --delim --limit --now --help' ;;
    values:du) echo '--passwd=FILE --group=FILE --delim=BYTE --limit=N --now=SECONDS ' ;;
    behind:du) echo '-name -path -type -size -atime -mtime -ctime -links -perm -user -group -nouser -nogroup -mindepth -maxdepth ! -a -o ' ;;
    options:query) echo '--escape --header --json --passwd --group --delim --limit --workers --help' ;;
    values:query) echo '--escape --header --json --passwd=FILE --group=FILE --delim=BYTE --limit=N --workers=N ' ;;
    behind:query) echo 'path name type inode mode nlink uid gid size blksize blocks atime mtime ctime linkname level xattrs entries summary rows select from where regexp not and or ' ;;
    options:agg) echo '--names --passwd --group --delim --limit --workers --help' ;;
    values:agg) echo '--names --passwd=FILE --group=FILE --delim=BYTE --limit=N --workers=N ' ;;
    behind:agg) echo 'uid gid type level COUNT(*) SUM(size) MIN(size) MAX(size) MIN(mtime) MAX(mtime) entries summary rows select from where group by path name type inode mode nlink uid gid size blksize blocks atime mtime ctime linkname level xattrs regexp not and or ' ;;
    options:ls) echo '-l -A --passwd --group --delim --limit --workers --help' ;;
    values:ls) echo '-l -A --passwd=FILE --group=FILE --delim=BYTE --limit=N --workers=N ' ;;
    behind:ls) echo '' ;;
    options:stat) echo '--passwd --group --delim --limit --workers --help' ;;
    values:stat) echo '--passwd=FILE --group=FILE --delim=BYTE --limit=N --workers=N ' ;;
    behind:stat) echo '' ;;
    options:stats) echo '--names --passwd --group --delim --limit --workers --help' ;;
    values:stats) echo '--names --passwd=FILE --group=FILE --delim=BYTE --limit=N --workers=N ' ;;
    behind:stats) echo 'levels uids gids leaves ' ;;
    options:diff) echo '--passwd --group --delim --limit --workers --help' ;;
    values:diff) echo '--passwd=FILE --group=FILE --delim=BYTE --limit=N --workers=N ' ;;
    behind:diff) echo '' ;;
    options:trace2index) echo '--delim --help' ;;
    values:trace2index) echo '--delim=BYTE ' ;;
    behind:trace2index) echo '' ;;
    options:rollup) echo '--limit --delim --help' ;;
    values:rollup) echo '--limit=N --delim=BYTE ' ;;
    behind:rollup) echo '' ;;
    options:index2trace) echo '--delim --help' ;;
    values:index2trace) echo '--delim=BYTE ' ;;
    behind:index2trace) echo '' ;;
    options:info) echo '--delim --limit --help' ;;
    values:info) echo '--delim=BYTE --limit=N ' ;;
    behind:info) echo '' ;;
    options:refresh) echo '--limit --delim --help' ;;
    values:refresh) echo '--limit=N --delim=BYTE ' ;;
    behind:refresh) echo '' ;;
    options:session) echo '--passwd --group --delim --workers --now --cache --help' ;;
    values:session) echo '--passwd=FILE --group=FILE --delim=BYTE --workers=N --now=SECONDS --cache=C ' ;;
    behind:session) echo '' ;;
    options:gen) echo '--summary --delim --workers --help' ;;
    values:gen) echo '--summary --delim=BYTE --workers=N ' ;;
    behind:gen) echo '' ;;
    esac
}
_gufi() {
    local command=${COMP_WORDS[1]} current=${COMP_WORDS[COMP_CWORD]} option= ended= place=0 at word words
    if ((COMP_CWORD == 1)); then
        compopt +o default
        COMPREPLY=($(compgen -W "$(_gufi_words names)" -- "$current"))
        return
    fi
    for ((at = 2; at < COMP_CWORD; at++)); do
        word=${COMP_WORDS[at]}
        if [[ -n $option ]]; then
            [[ $word == = ]] || option=
        elif [[ $place == 0 && -z $ended && $word == -- ]]; then
            ended=yes
        elif [[ $place == 0 && -z $ended && $word == -?* ]]; then
            [[ " $(_gufi_words values "$command")" != *" $word="* ]] || option=$word
        else
            place=$((place + 1))
        fi
    done
    # Where nothing is offered but a file, readline completes its name by itself.
    if [[ -n $option ]]; then
        [[ $option == --passwd || $option == --group ]] || compopt +o default
    elif [[ $place == 0 && -z $ended && $current == -* ]]; then
        compopt +o default
        COMPREPLY=($(compgen -W "$(_gufi_words options "$command")" -- "$current"))
    elif [[ $place == 0 && $command != gen || $command:$place == refresh:2 || $command:$place == diff:1 ]]; then
        return
    else
        compopt +o default
        [[ $place -lt 3 || $command:$place == du:3 ]] || _gufi_behind "$command" "$current"
    fi
}
# What stands behind START: words, or the last one of a SELECT.
_gufi_behind() {
    local front= last=$2 word words
    if [[ $1 == query || $1 == agg ]]; then
        last=${last#[\'\"]}
        front=$last
        last=${last##*[ ,]}
        front=${front%"$last"}
    fi
    read -r -a words <<<"$(_gufi_words behind "$1")"
    for word in "${words[@]}"; do
        [[ ${word,,} != "${last,,}"* ]] || COMPREPLY+=("$front$word")
    done
}
complete -o default -F _gufi gufi
