# Sourced by the scripts pf and print, which set `top`, the repository's folder, `call`, the script's name, `builder`, a call of it
# that needs the program and no file, and `program`, the program that it runs.
# make_current sees to it that the program is there, made from the sources that are there.
#
# A build makes one program, and proves only what that stands on. rt leaves it in its crate's folder out/, which other calls
# of rt empty and fill; what runs is a copy, target/bin/NAME. Once all of it is proved and the program has written what its
# crate says that it should, its mark is written: a checksum of the sources and the program, the toolchain's version, and a
# checksum of the sources. A program is run only if its mark is right; so never one whose check failed, nor one of other
# sources, whatever the times of the files say.
mark=$top/target/built.$program
log=$top/target/build.log
lock=$top/target/building

say() {
    printf '%s: %s\n' "$call" "$1" >&2
}

fail() {
    say "$1"
    exit 2
}

# checksum PATH...: of all files there, their names and their bytes. What rt makes, in the folder out/ of each crate, is no source.
# Names as editors give them to files of their own, .x and x~, are left out where rt reads none such: everywhere but in a crate's data.
checksum() {
    (cd -- "$top/" && find "$@" -path 'crates/*/out' ! -path 'crates/*/*/out' -prune -o \
        \( -name '.*' -o -name '*~' \) ! -path '*/data/*' -prune -o -type f -exec sha256sum {} + |
        LC_ALL=C sort | sha256sum) 2>/dev/null
}

sources() {
    checksum crates crates.txt
}

sources_and_program() {
    checksum crates crates.txt "target/bin/$program"
}

# The version counts only for those who can build: they have the toolchain, and may write.
same_toolchain() {
    [ -w "$top/target" ] && command -v rt >/dev/null && version=$(rt version 2>/dev/null) || return 0
    [ "$version" = "$1" ]
}

is_current() {
    { read -r marked && read -r toolchain; } 2>/dev/null <"$mark" || return 1
    [ "$(sources_and_program)" = "$marked" ] && same_toolchain "$toolchain"
}

# ---- the lock: a folder, and in it an empty folder for each process that holds it, named by its id

# Whether a process is there, whoever owns it.
is_alive() {
    kill -0 "$1" 2>/dev/null || [ -d "/proc/$1" ]
}

take_lock() {
    mkdir "$lock" 2>/dev/null && mkdir "$lock/$$" 2>/dev/null
}

# Removes only what this process has made.
free_lock() {
    rmdir "$lock/$$" 2>/dev/null || return 0
    [ -z "$!" ] || rmdir "$lock/$!" 2>/dev/null
    rmdir "$lock" 2>/dev/null
}

# Prints a process that holds the lock and is there; what processes that are gone have left is removed.
lock_holder() {
    for held in "$lock"/*; do
        if is_alive "${held##*/}"; then
            echo "${held##*/}"
            return
        fi
        rmdir "$held" 2>/dev/null
    done
    rmdir "$lock" 2>/dev/null
}

# Returns once nobody builds.
wait_for_builder() {
    holder=$(lock_holder)
    [ -n "$holder" ] || return 0
    say "waiting for process $holder, which builds the program (if it does not, remove target/building)"
    while [ -n "$(lock_holder)" ]; do sleep 1; done
}

# ---- the build

# Runs rt in a process group of its own (by setsid; without that command only rt itself would be ended), and says of each crate
# that it is proved, and whom rt waits for. rt builds the program and then runs it, here with no words and no input, for which
# none does anything; so its status is no verdict.
run_rt() {
    own_group=$(command -v setsid)
    $own_group sh -c '
        cd -- "$1/crates/$3/" || exit
        rt run 2>&1 >/dev/null </dev/null | {
            trap "" PIPE
            while IFS= read -r line; do
                printf "%s\n" "$line"
                case $line in
                "crate "*": modules "*)
                    crate=${line#crate }
                    crate=${crate%%:*}
                    ;;
                "logic=proved "*) printf "rt: %s proved\n" "$crate" >&2 ;;
                "rt: "*"waiting for "*) printf "%s\n" "$line" >&2 ;;
                esac
            done
        } >"$2"' sh "$top" "$log" "$program" >/dev/null &
    mkdir "$lock/$!"
    wait "$!"
}

# stop SIGNAL: ends the build, and then this process.
stop() {
    trap '' INT TERM HUP
    if [ -n "$!" ]; then
        kill -s TERM -- "-$!" || kill -s TERM "$!"
        wait "$!"
    fi 2>/dev/null
    free_lock
    trap - EXIT "$1"
    kill -s "$1" $$
}

# What rt has said that is no more than its way.
tell_why() {
    grep -v -e ': proved$' -e '^rt: .*: begins with what ' -e '^rt: chose ' -e '^checked ' -e '^statements ' -e '^library ' -e '^logic ' \
        -e '^crate .*: modules ' -e '^axioms ' -e '^logic=proved ' -e '^linked ' -e '^note: finished ' -e 'made no use of' \
        -e '^rt: rt check --fix-imports ' "$log" >&2
}

# Whether the program, which is to be $made, writes what its crate says that it has to, for the input, the words, the data and the status that stand there.
writes_right() (
    crate=$top/crates/$program
    wrote=$top/target/wrote.$program
    set --
    if [ -f "$crate/args" ]; then
        while IFS= read -r word || [ -n "$word" ]; do set -- "$@" "$word"; done <"$crate/args"
    fi
    input=/dev/null wanted=/dev/null status=0
    [ ! -f "$crate/stdin" ] || input=$crate/stdin
    [ ! -f "$crate/stdout" ] || wanted=$crate/stdout
    [ ! -f "$crate/status" ] || status=$(cat "$crate/status")
    [ ! -d "$crate/data" ] || cd -- "$crate/data/" || return
    "$made" "$@" <"$input" >"$wrote" 2>/dev/null
    [ $? -eq "$status" ] && cmp -s "$wrote" "$wanted"
    right=$?
    rm -f "$wrote"
    return $right
)

build() {
    command -v rt >/dev/null || fail "the Rattle toolchain is needed to build it: no command rt"
    before=$(sources)
    left=$top/crates/$program/out/$program
    made=$top/target/bin/$program.new
    rm -f "$mark" "$left"
    say "building the program, which takes some minutes; each crate is named once it is proved"
    run_rt
    # It was not there before: so it is what rt has proved and built now.
    [ -x "$left" ] || {
        tell_why
        fail "the program could not be built"
    }
    mkdir -p "$top/target/bin" && cp "$left" "$made" || fail "cannot write $made"
    writes_right || {
        rm -f "$made"
        fail "the program was built, but does not write what crates/$program says that it has to"
    }
    mv -f "$made" "$top/target/bin/$program" || fail "cannot write $top/target/bin/$program"
    after=$(sources_and_program)
    [ "$(sources)" = "$before" ] || fail "the sources were changed while it was built: call again"
    { echo "$after" && rt version && echo "$before"; } >"$mark.new" && mv "$mark.new" "$mark" || fail "cannot write $mark"
}

# Takes the lock, unless the programs are current once another process is done.
lock_unless_current() {
    tries=0
    until take_lock; do
        wait_for_builder
        is_current && return 1
        mkdir -p "$top/target" 2>/dev/null
        [ -w "$top/target" ] ||
            fail "the program in $top is not built, or its sources have changed: its owner has to build it, by calling $top/$builder"
        tries=$((tries + 1))
        [ "$tries" -le 100 ] || fail "cannot make $lock"
    done
    ! is_current
}

make_current() {
    is_current && return
    for signal in INT TERM HUP; do trap "stop $signal" "$signal"; done
    trap free_lock EXIT
    lock_unless_current && build
    free_lock
    trap - EXIT INT TERM HUP
}

# The interface's number, and from what and by what the programs that run are made.
tell_version() {
    interface=$(sed -n 's/^#define PF_VERSION //p' "$top/include/phasefold.h")
    { read -r marked && read -r toolchain && read -r made; } <"$mark" || return
    printf 'pf %s\nsources %s\ntoolchain %s\n' "$interface" "${made%% *}" "$toolchain" 2>/dev/null
}
