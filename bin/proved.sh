# Runs a proved program, which build.sh builds where its sources have changed since the last build. The scripts beside this
# one source it. Each is named after its program, which is that of the crate NAME_program, and sets `first_run`, the words
# on which the program is run once it is built, in the crate's folder, `read_options`, the options that name a file to read,
# `written_option`, the one that names a file to write, `value_options`, those that are followed by any other value, and
# `commands`, the first words that name no file. Where `quiet` is set to the name of a variable, and standard error is a
# terminal, one line of it says how many seconds the program has been at work, unless that variable is 1, and, where
# `followed_option` is one that names a file, what part of that file's bytes it has read. Where a run fails, standard error
# says why, as far as that can be seen, and what to do: see hints.sh.
# Only the program writes to standard output. Status 70: the program could not be built.
# shellcheck shell=bash

set -u

top=$(dirname "$(dirname "$(readlink -f "${BASH_SOURCE[0]}")")")
first_run=()
read_options=()
written_option=
value_options=()
commands=()
quiet=
followed_option=
# shellcheck source=bin/build.sh
. "$top/bin/build.sh" || exit 70
# shellcheck source=bin/hints.sh
. "$top/bin/hints.sh" || exit 70

say() {
    printf 'bin/%s: %s\n' "$name" "$*" >&2
}

# Whether a line of standard error says how long the program has been at work.
shows_seconds() {
    [ -n "$quiet" ] && [ -t 2 ] && [ "${!quiet:-}" != 1 ]
}

# What part of a file's bytes the program has read, as words behind the seconds. Nothing where that can't be seen.
part_read() {
    local file=$1 child children=() link at size
    [ -f "$file" ] && size=$(stat -L -c %s -- "$file" 2>/dev/null) && [ "${size:-0}" -gt 0 ] || return
    # The list ends without a newline.
    read -ra children 2>/dev/null <"/proc/$$/task/$$/children" || [ "${#children[@]}" -gt 0 ] || return
    for child in "${children[@]}"; do
        [ "/proc/$child/exe" -ef "$program" ] || continue
        for link in "/proc/$child/fd/"*; do
            [ "$link" -ef "$file" ] || continue
            at=$(sed -n 's/^pos:[[:space:]]*//p' "/proc/$child/fdinfo/${link##*/}" 2>/dev/null)
            [ -z "$at" ] || printf ', %s %% of %s' "$((at * 100 / size))" "${file##*/}"
            return
        done
    done
}

# Writes each second over one line of standard error how long the program has been at work, as long as this script lives.
count_seconds() {
    local began=$SECONDS named
    find_value "$followed_option" "$@"
    while sleep 1 && kill -0 $$ 2>/dev/null; do
        printf '\r%s: %s seconds%s' "$name" "$((SECONDS - began))" "$(part_read "$named")" >&2
    done
}

# Takes that line away.
stop_counting() {
    kill "$counting" 2>/dev/null && printf '\r\033[K' >&2
}

# Hands on what the program prints, once the line is gone: both may be the same terminal.
hand_on() {
    local line
    if IFS= read -r line; then
        stop_counting
        printf '%s\n' "$line"
        exec cat
    fi
    printf '%s' "$line"
}

# Runs the program, and hands on to it a signal that ends this script; where this script is killed, the system kills the program
# too, if there is the command setpriv. Its status is that of a shell: 128 and the number of a signal where one ended it.
run_once() {
    local child="" signal bound=()
    ! setpriv --pdeathsig KILL true 2>/dev/null || bound=(setpriv --pdeathsig KILL)
    for signal in HUP INT QUIT TERM; do
        # shellcheck disable=SC2064
        trap "ended_by=$signal; [ -z \"\$child\" ] || kill -s $signal \"\$child\" 2>/dev/null" "$signal"
    done
    (
        trap - HUP INT QUIT TERM
        exec "${bound[@]}" "$program" "$@"
    ) <&0 &
    child=$!
    # A signal that is caught ends the waiting, and not the program.
    while :; do
        wait "$child" 2>/dev/null
        status=$?
        kill -0 "$child" 2>/dev/null || break
    done
    trap - HUP INT QUIT TERM
    return "$status"
}

# Runs the program, and counts the seconds until it prints or ends.
run_counting() {
    local counting
    count_seconds "$@" &
    counting=$!
    if [ -t 1 ]; then
        run_once "$@" | hand_on
        status=${PIPESTATUS[0]}
    else
        run_once "$@"
    fi
    stop_counting
    wait "$counting" 2>/dev/null
}

# Runs the program of this name on these words, in the caller's folder, and ends with its status.
run_proved() {
    local status ended_by="" unreadable named program_crate needed=()
    name=$1
    program_crate=${name}_program
    shift
    program=$top/bin/out/$name
    stamp=$program.built
    read_crates
    need "$program_crate"
    is_built || build || exit 70
    find_unreadable "$@"
    say_what_waits "$@"
    if shows_seconds; then
        run_counting "$@"
    else
        run_once "$@"
    fi
    [ -z "$ended_by" ] || kill -s "$ended_by" $$
    say_what_to_do "$status" "$@"
    exit "$status"
}
