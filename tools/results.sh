# Sourced by the script pf: the file in which a result is kept.
#
# The program reads what stands at the result's name on descriptor 5, and writes the new file to descriptor 6; it opens
# both again, by /proc/self/fd. The new file lies beside the result, with a name of its own, and only its owner may read
# it. Once the program is done, it takes the result's place, with the result's mode; in every other case it goes, also if
# this script is ended by a signal.
side=

drop_side() {
    [ -z "$side" ] || rm -f -- "$side"
    side=
}

# stop_saving SIGNAL: ends this process by the signal.
stop_saving() {
    drop_side
    trap - EXIT "$1"
    kill -s "$1" $$
}

# A result's name must be short enough, and its folder be there.
check_name() {
    length=$(printf %s "${path##*/}" | wc -c)
    [ "$length" -le 255 ] || fail "$result: its name has $length bytes, and a name has at most 255"
    [ -d "$folder" ] || fail "$shown: no such folder"
}

# What is replaced must be a plain file that may be written, for root too, and read, to see what it is.
check_old() {
    case $path in
    /dev/stdout | /dev/fd/1 | /proc/self/fd/1 | "/proc/$$/fd/1") fail "$result: not a plain file; write - for standard output" ;;
    esac
    if [ -h "$path" ] || ! [ -f "$path" ]; then
        fail "$result: not a plain file"
    fi
    case $(stat -c %A -- "$path") in
    *w*) [ -w "$path" ] ;;
    *) false ;;
    esac || fail "$result: may not be written"
    [ -r "$path" ] || fail "$result: cannot be read, and is not replaced unseen"
}

# keep_apart FILE RESULT: ends the call if the result is the file that is read, by whatever name or link.
keep_apart() {
    [ "$1" = - ] && read_from=/dev/stdin || read_from=$1
    [ "$2" = - ] && write_to=/dev/stdout || write_to=$2
    if [ -f "$read_from" ] && [ "$read_from" -ef "$write_to" ]; then
        fail "$2: is the file that is folded, and would be lost: name another result"
    fi
}

# open_result RESULT: - is standard output, to which the program itself writes then, and what it prints to standard error.
open_result() {
    result=$1
    if [ "$result" = - ]; then
        exec 5</dev/null
        return
    fi
    case $result in
    '') fail 'the result has no name' ;;
    */*) path=$result shown=${result%/*} ;;
    *) path=./$result shown=. ;;
    esac
    folder=${path%/*}/
    check_name
    trap drop_side EXIT
    for signal in INT TERM HUP; do trap "stop_saving $signal" "$signal"; done
    replaces=
    if [ -h "$path" ] || [ -e "$path" ]; then
        replaces=yes
        check_old
        exec 5<"$path"
    else
        exec 5</dev/null
    fi
    side=$(mktemp -- "$folder.pf-XXXXXX" 2>/dev/null) || fail "${shown:-/}: no file can be made in this folder"
    exec 6>"$side"
}

# The new file is given mode, owner and group of the old one. Where it cannot have the old group, its group may nothing.
copy_mode() {
    cp --attributes-only --preserve=mode,ownership -- "$path" "$side" 2>/dev/null ||
        chmod --reference="$path" -- "$side" || return
    [ "$(stat -c %g -- "$path")" = "$(stat -c %g -- "$side")" ] || chmod -- g= "$side"
}

replace_old() {
    copy_mode && mv -fT -- "$side" "$path" 2>/dev/null || fail "$result: cannot be written"
}

# A file that has come to be there since the program was started stays.
put_new() {
    chmod -- =rw "$side" && mv -nT -- "$side" "$path" 2>/dev/null
    [ -e "$side" ] || return 0
    ! [ -e "$path" ] || fail "$result: has come to be there meanwhile, and is not replaced"
    fail "$result: cannot be written"
}

# The new file takes the result's place, if there is one; the folder is synced where that can be.
put_result() {
    [ -n "$side" ] || return 0
    if [ -n "$replaces" ]; then replace_old; else put_new; fi
    side=
    ! [ -r "$folder" ] || sync -- "$folder" || fail "${shown:-/}: this folder cannot be synced"
}
