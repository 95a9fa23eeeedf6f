# shellcheck shell=sh disable=SC2016,SC2064,SC2154,SC2185,SC3045
# What the scripts of the programs share. A script sets `name`, that of its program, and `here`, the checkout, and takes
# this in.
program=$here/build/$name
# made last in a build, with the time at which its sources were read
stamp=$program.stamp

say() {
    printf '%s: %s\n' "$name" "$*" >&2
}

# Whether a source was changed, removed or added since the build: each is looked at once, and no folder is read.
# Versions of find before 4.9 take no list.
has_newer_sources() {
    newer=$(CDPATH='' cd -- "$here/crates" && {
        find -files0-from "../build/$name.sources" -maxdepth 0 -cnewer "../build/$name.stamp" -print -quit ||
            xargs -0 sh -c 'stamp=$1; shift; find "$@" -maxdepth 0 -cnewer "$stamp" -print -quit' sh "../build/$name.stamp" <"../build/$name.sources"
    } 2>/dev/null) || return 0
    [ -n "$newer" ]
}

# Whether there is a build of these sources. That of the gate is put in place, and so is one whose sources were touched
# and not changed.
is_built() {
    if [ -x "$program" ] && [ -e "$stamp" ] && ! has_newer_sources; then
        return 0
    fi
    { [ -e "$stamp" ] || [ -e "$here/crates/$name/out/$name" ]; } &&
        python3 -B "$here/tools/build.py" --found "$name" </dev/null >/dev/null 2>&1
}

# What a script does before the program that was built starts, with its words.
prepare() {
    :
}

version() {
    echo "$name $(git -C "$here" describe --always --dirty --abbrev=12 2>/dev/null || echo 'of no known revision')"
    if is_built; then
        echo "proved with $(cat "$program.proved-with")"
    elif [ -e "$program" ]; then
        echo "unproved: the build that is there is of other sources; ./$name --build proves and builds these"
    else
        echo "unproved: there is no build; ./$name --build proves and builds these sources"
    fi
}

# Proves and builds the program, and ends with 70 where that fails.
build() {
    exec python3 -B "$here/tools/build.py" "$name" </dev/null
}

# Becomes a command that ends where this script is killed. A shell has what it starts beside itself ignore interrupts;
# `env` takes that back.
become() {
    exec env ${interrupts:+"--default-signal=$interrupts"} setpriv --pdeathsig KILL -- "$@"
}

# An unproved run reads its input as a whole, and says what keeps it from an end of the program's own.
must_be_open() {
    closed=
    (: 3<&0) 2>/dev/null || closed='input is closed (< /dev/null will do)'
    (: 3>&1) 2>/dev/null || closed='output is closed (> /dev/null will do)'
    (: 3>&2) || closed='error is closed (2> /dev/null will do)'
    if [ -n "$closed" ]; then
        say "there is no build of these sources, and an unproved run needs open streams: standard $closed"
        exit 70
    fi
}

# Runs the program with these words, or without a build of these sources `rt try`, and sets `status`, which is 70 where
# the program did not run to its end. `unproved` is then not empty. Where a signal ended the run, this ends by it.
run() {
    if is_built; then
        unproved=
        prepare "$@"
        set -- "$program" "$@"
    else
        unproved=yes
        must_be_open
        set -- python3 -B "$here/tools/unproved.py" "$name" "$@"
    fi
    # interrupts that the caller has ignored stay so
    interrupts=INT,QUIT
    while read -r word mask; do
        [ "$word" = SigIgn: ] && [ $((0x$mask & 6)) -ne 0 ] && interrupts=
    done <"/proc/$$/status"
    # What a shell starts beside itself has an empty standard input, but for one that is named.
    if [ -n "$unproved" ]; then
        exec 3<&0
        become "$@" </dev/null &
        exec 3<&-
    elif (: 3<&0) 2>/dev/null; then
        exec 3<&0
        become "$@" <&3 3<&- &
        exec 3<&-
    else
        become "$@" <&- &
    fi
    pid=$!
    for it in HUP INT QUIT TERM; do
        trap "kill -$it $pid 2>/dev/null" "$it"
    done
    while
        wait "$pid" 2>/dev/null
        status=$?
        kill -0 "$pid" 2>/dev/null
    do :; done
    trap - HUP INT QUIT TERM
    if [ "$status" -gt 128 ]; then
        ulimit -c 0
        kill -$((status - 128)) $$
    fi
    if [ -n "$unproved" ] && [ "$status" -ne 70 ]; then
        # 100 more than the program's, so that nothing else passes for that
        status=$((status - 100))
        if [ "$status" -lt 0 ] || [ "$status" -gt 20 ]; then
            say "the unproved run failed (status $((status + 100))): it needs Python 3.9 or later, as python3, and setpriv"
            status=70
        fi
    fi
}

# Ends with the status. The last line says that it is the program's where there is no build.
finish() {
    [ -z "$unproved" ] || [ "$status" -eq 70 ] || echo "run=ended status=$status proved=no" >&2
    exit "$status"
}
