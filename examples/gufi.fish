# Completions of gufi for fish. Made by: gufi --completions=fish
function __gufi_words
    switch "$argv"
        case names
            printf '%s\t%s\n' walk "paths of all that the principal can list by walking from the root" find "paths of the rows for which the expression is true" du "bytes of files, blocks, files and directories at and below each directory; hard links count each time that a name is listed" query "columns of the rows that a SELECT chooses" agg "counts, sums and bounds of the rows that a SELECT chooses, by owner, group, type or level" ls "names one level below the start" stat "the record of the start, and the sum of all that the user lists below it" stats "a report on all that the user lists below the start" diff "paths of the rows that differ between two indexes, behind - in OLD alone, + in NEW alone, ~ in both, with another record" trace2index "the image of the index of a trace" rollup "the image under a limit, and on standard error what is rolled up" index2trace "the trace of an index, whose root is written as /" info "what an index holds: how many rows and how deep, what is rolled up, which times, and whether there are lists" refresh "the image under a limit, with a directory and all below it replaced by what a trace holds" session "the replies to the asks of a script, whose commands publish indexes meanwhile" gen "a generated trace" --help "this page; behind the name of a command, its own" --version "the version of the program" --man "the manual page; docs/gufi.1 is made by it" --completions "the completions for bash; examples/gufi.bash is made by it" --completions=zsh "those for zsh; examples/gufi.zsh is made by it" --completions=fish "those for fish; examples/gufi.fish is made by it"
        case 'options walk'
            printf '%s\t%s\n' --help "this command's page"
        case 'values walk'
            printf '%s\n'
        case 'behind walk'
            printf '%s\t%s\n'
        case 'options find'
            printf '%s\t%s\n' --prefix "what stands in front of each path; the root is TEXT alone" --passwd "the passwd file, for names in USER; left out: no names" --group "the group file; left out: no groups" --delim "the byte between the fields of a trace; left out: 0x1E" --limit "the limit of a trace's roll-up, in rows; left out: 0" --workers "how many walkers share a query, 1 to 32; left out: 1" --now "the moment from which -atime, -mtime and -ctime count; left out: they are refused" --help "this command's page"
        case 'values find'
            printf '%s\n' --prefix=TEXT --passwd=FILE --group=FILE --delim=BYTE --limit=N --workers=N --now=SECONDS
        case 'behind find'
            printf '%s\t%s\n' '-name' "the base name matches; that of the root is /" '-path' "the whole path matches" '-type' "the type is d directory, f file, l link, b or c device, p pipe, s socket" '-size' "the size in blocks of 512 bytes, rounded up; Nc: in bytes; Nk, NM, NG: in KiB, MiB, GiB" '-atime' "whole days from the last access to --now" '-mtime' "whole days from the last modification to --now" '-ctime' "whole days from the last change to --now" '-links' "the number of links" '-perm' "the 12 bits of the mode are M, in octal; -M: all bits of M are set" '-user' "the owner; a number that is no name is itself" '-group' "the group; a number that is no name is itself" '-nouser' "the owner has no name" '-nogroup' "the group has no name" '-mindepth' "rows less deep below START are left out" '-maxdepth' "rows deeper below START are left out" '!' "E isn't true" '-a' "between two, or nothing: both are true" '-o' "between two: one is true"
        case 'options du'
            printf '%s\t%s\n' --passwd "the passwd file, for names in USER; left out: no names" --group "the group file; left out: no groups" --delim "the byte between the fields of a trace; left out: 0x1E" --limit "the limit of a trace's roll-up, in rows; left out: 0" --now "the moment from which -atime, -mtime and -ctime count; left out: they are refused" --help "this command's page"
        case 'values du'
            printf '%s\n' --passwd=FILE --group=FILE --delim=BYTE --limit=N --now=SECONDS
        case 'behind du'
            printf '%s\t%s\n' '-name' "the base name matches; that of the root is /" '-path' "the whole path matches" '-type' "the type is d directory, f file, l link, b or c device, p pipe, s socket" '-size' "the size in blocks of 512 bytes, rounded up; Nc: in bytes; Nk, NM, NG: in KiB, MiB, GiB" '-atime' "whole days from the last access to --now" '-mtime' "whole days from the last modification to --now" '-ctime' "whole days from the last change to --now" '-links' "the number of links" '-perm' "the 12 bits of the mode are M, in octal; -M: all bits of M are set" '-user' "the owner; a number that is no name is itself" '-group' "the group; a number that is no name is itself" '-nouser' "the owner has no name" '-nogroup' "the group has no name" '-mindepth' "rows less deep below START are left out" '-maxdepth' "rows deeper below START are left out" '!' "E isn't true" '-a' "between two, or nothing: both are true" '-o' "between two: one is true"
        case 'options query'
            printf '%s\t%s\n' --escape "what isn't printable ASCII in a text, and a backslash, as an escape of C" --header "first a line with the names of the columns" --json "an object of JSON a line, without --escape and --header" --passwd "the passwd file, for names in USER; left out: no names" --group "the group file; left out: no groups" --delim "the byte between the fields of a trace; left out: 0x1E" --limit "the limit of a trace's roll-up, in rows; left out: 0" --workers "how many walkers share a query, 1 to 32; left out: 1" --help "this command's page"
        case 'values query'
            printf '%s\n' --escape --header --json --passwd=FILE --group=FILE --delim=BYTE --limit=N --workers=N
        case 'behind query'
            printf '%s\t%s\n' 'path' "the path, a text" 'name' "the base name, a text; that of the root is /" 'type' "the type, a text: d, f, l, b, c, p or s, as of find -type" 'inode' "the number of the inode" 'mode' "the 12 bits of the mode, a decimal number" 'nlink' "the number of links" 'uid' "the owner, a number" 'gid' "the group, a number" 'size' "bytes" 'blksize' "bytes of a block" 'blocks' "blocks of 512 bytes" 'atime' "the last access, in seconds since 1970" 'mtime' "the last modification, in seconds since 1970" 'ctime' "the last change, in seconds since 1970" 'linkname' "the target of a link, a text" 'level' "how many components the row lies below START" 'xattrs' "the names of extended attributes, a text; * leaves it out" 'entries' "all but directories" 'summary' "the directories" 'rows' "both" 'select' "what is printed of a row" 'from' "which rows" 'where' "of which it is so" 'regexp' "behind a column: the pattern is found in its bytes; one at most" 'not' "it isn't so" 'and' "between two: both are so" 'or' "between two: one is so"
        case 'options agg'
            printf '%s\t%s\n' --names "owners and groups by name, where they have one" --passwd "the passwd file, for names in USER; left out: no names" --group "the group file; left out: no groups" --delim "the byte between the fields of a trace; left out: 0x1E" --limit "the limit of a trace's roll-up, in rows; left out: 0" --workers "how many walkers share a query, 1 to 32; left out: 1" --help "this command's page"
        case 'values agg'
            printf '%s\n' --names --passwd=FILE --group=FILE --delim=BYTE --limit=N --workers=N
        case 'behind agg'
            printf '%s\t%s\n' 'uid' "the owner" 'gid' "the group" 'type' "the type" 'level' "how many components below START" 'COUNT(*)' "how many rows" 'SUM(size)' "bytes of all" 'MIN(size)' "the least of them" 'MAX(size)' "the greatest" 'MIN(mtime)' "the earliest modification" 'MAX(mtime)' "the latest" 'entries' "all but directories" 'summary' "the directories" 'rows' "both" 'select' "what is printed of a group" 'from' "which rows" 'where' "of which it is so" 'group' "the same key, at the end" 'by' "behind group" 'path' "the path, a text" 'name' "the base name, a text; that of the root is /" 'type' "the type, a text: d, f, l, b, c, p or s, as of find -type" 'inode' "the number of the inode" 'mode' "the 12 bits of the mode, a decimal number" 'nlink' "the number of links" 'uid' "the owner, a number" 'gid' "the group, a number" 'size' "bytes" 'blksize' "bytes of a block" 'blocks' "blocks of 512 bytes" 'atime' "the last access, in seconds since 1970" 'mtime' "the last modification, in seconds since 1970" 'ctime' "the last change, in seconds since 1970" 'linkname' "the target of a link, a text" 'level' "how many components the row lies below START" 'xattrs' "the names of extended attributes, a text; * leaves it out" 'regexp' "behind a column: the pattern is found in its bytes; one at most" 'not' "it isn't so" 'and' "between two: both are so" 'or' "between two: one is so"
        case 'options ls'
            printf '%s\t%s\n' -l "long lines: mode, links, owner, group, size, time and name" -A "names that begin with a dot too" --passwd "the passwd file, for names in USER; left out: no names" --group "the group file; left out: no groups" --delim "the byte between the fields of a trace; left out: 0x1E" --limit "the limit of a trace's roll-up, in rows; left out: 0" --workers "how many walkers share a query, 1 to 32; left out: 1" --help "this command's page"
        case 'values ls'
            printf '%s\n' -l -A --passwd=FILE --group=FILE --delim=BYTE --limit=N --workers=N
        case 'behind ls'
            printf '%s\t%s\n'
        case 'options stat'
            printf '%s\t%s\n' --passwd "the passwd file, for names in USER; left out: no names" --group "the group file; left out: no groups" --delim "the byte between the fields of a trace; left out: 0x1E" --limit "the limit of a trace's roll-up, in rows; left out: 0" --workers "how many walkers share a query, 1 to 32; left out: 1" --help "this command's page"
        case 'values stat'
            printf '%s\n' --passwd=FILE --group=FILE --delim=BYTE --limit=N --workers=N
        case 'behind stat'
            printf '%s\t%s\n'
        case 'options stats'
            printf '%s\t%s\n' --names "owners and groups by name, where they have one" --passwd "the passwd file, for names in USER; left out: no names" --group "the group file; left out: no groups" --delim "the byte between the fields of a trace; left out: 0x1E" --limit "the limit of a trace's roll-up, in rows; left out: 0" --workers "how many walkers share a query, 1 to 32; left out: 1" --help "this command's page"
        case 'values stats'
            printf '%s\n' --names --passwd=FILE --group=FILE --delim=BYTE --limit=N --workers=N
        case 'behind stats'
            printf '%s\t%s\n' 'levels' "a line for each depth below START" 'uids' "a line for each owner" 'gids' "a line for each group" 'leaves' "the paths of the directories below which there is none"
        case 'options diff'
            printf '%s\t%s\n' --passwd "the passwd file, for names in USER; left out: no names" --group "the group file; left out: no groups" --delim "the byte between the fields of a trace; left out: 0x1E" --limit "the limit of a trace's roll-up, in rows; left out: 0" --workers "how many walkers share a query, 1 to 32; left out: 1" --help "this command's page"
        case 'values diff'
            printf '%s\n' --passwd=FILE --group=FILE --delim=BYTE --limit=N --workers=N
        case 'behind diff'
            printf '%s\t%s\n'
        case 'options trace2index'
            printf '%s\t%s\n' --delim "the byte between the fields of a trace; left out: 0x1E" --help "this command's page"
        case 'values trace2index'
            printf '%s\n' --delim=BYTE
        case 'behind trace2index'
            printf '%s\t%s\n'
        case 'options rollup'
            printf '%s\t%s\n' --limit "how many rows may be rolled up into one piece; must be given" --delim "the byte between the fields of a trace; left out: 0x1E" --help "this command's page"
        case 'values rollup'
            printf '%s\n' --limit=N --delim=BYTE
        case 'behind rollup'
            printf '%s\t%s\n'
        case 'options index2trace'
            printf '%s\t%s\n' --delim "the byte between the fields of a trace; left out: 0x1E" --help "this command's page"
        case 'values index2trace'
            printf '%s\n' --delim=BYTE
        case 'behind index2trace'
            printf '%s\t%s\n'
        case 'options info'
            printf '%s\t%s\n' --delim "the byte between the fields of a trace; left out: 0x1E" --limit "the limit of a trace's roll-up, in rows; left out: 0" --help "this command's page"
        case 'values info'
            printf '%s\n' --delim=BYTE --limit=N
        case 'behind info'
            printf '%s\t%s\n'
        case 'options refresh'
            printf '%s\t%s\n' --limit "how many rows may be rolled up into one piece; must be given" --delim "the byte between the fields of a trace; left out: 0x1E" --help "this command's page"
        case 'values refresh'
            printf '%s\n' --limit=N --delim=BYTE
        case 'behind refresh'
            printf '%s\t%s\n'
        case 'options session'
            printf '%s\t%s\n' --passwd "the passwd file, for names in USER; left out: no names" --group "the group file; left out: no groups" --delim "the byte between the fields of a trace; left out: 0x1E" --workers "how many walkers share a query, 1 to 32; left out: 1" --now "the moment from which -atime, -mtime and -ctime count; left out: they are refused" --cache "how many of its last replies each lane keeps, 1 to 256; left out: none" --help "this command's page"
        case 'values session'
            printf '%s\n' --passwd=FILE --group=FILE --delim=BYTE --workers=N --now=SECONDS --cache=C
        case 'behind session'
            printf '%s\t%s\n'
        case 'options gen'
            printf '%s\t%s\n' --summary "what a run over that trace comes to instead" --delim "the byte between the fields of a trace; left out: 0x1E" --workers "how many walkers share a query, 1 to 32; left out: 1" --help "this command's page"
        case 'values gen'
            printf '%s\n' --summary --delim=BYTE --workers=N
        case 'behind gen'
            printf '%s\t%s\n'
    end
end
function __gufi_complete
    set -l current (commandline -ct)
    set -l words (commandline -opc)
    set -l command "$words[2]"
    set -l option ''
    set -l ended ''
    set -l place 0
    if test (count $words) -lt 2
        __gufi_words names
        return
    end
    set -l values (__gufi_words values $command)
    for word in $words[3..-1]
        if test -n "$option"
            set option ''
        else if test $place = 0 -a -z "$ended"; and string match -q -- '-?*' $word
            if test "x$word" = x--
                set ended yes
            else if string match -q -- "$word=*" $values
                set option $word
            end
        else
            set place (math $place + 1)
        end
    end
    if test -n "$option"
        contains -- $option --passwd --group; and __fish_complete_path "$current"
    else if test $place = 0 -a -z "$ended"; and string match -q -- '-*' $current
        if string match -q -r -- '^--(passwd|group)=' $current
            set -l name (string match -r -- '^--[a-z]*=' $current)
            printf '%s\n' $name(__fish_complete_path (string replace -- $name '' $current))
        else
            __gufi_words options $command
        end
    else if test $place = 0; or contains -- "$command:$place" refresh:2 diff:1
        test "$command" = gen; or __fish_complete_path "$current"
    else if test $place -ge 3 -a "$command:$place" != du:3
        set -l front ''
        if contains -- $command query agg
            set front (string replace -r -- '^[\'"]' '' $current | string replace -r -- '[^ ,]*$' '')
        end
        printf '%s\n' $front(__gufi_words behind $command | string match -r '^[^\t].*')
    end
end
complete -c gufi -f -a '(__gufi_complete)'
