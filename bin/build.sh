# Builds a proved program and keeps it in bin/out. proved.sh sources this.
# `rt ci` proves, in a copy of the crates that the program is made of: as many side by side as there are processors and
# free memory for, those with the longest chain above them first, and one that is alone at work with several processors.
# Where rt keeps what `rt ci` has proved on this machine, as some versions of the kit do, none of it is proved twice, and a
# build that was interrupted goes on; else it begins anew. rt also begins to prove the crates' tests, on what the crates
# leave free; once the program is there, that is ended.
# shellcheck shell=bash

# How long the build may be silent, in seconds.
silence=20

# The crates of crates.txt: `uses` has for each the crates that it stands on, the kit's among them.
read_crates() {
    local line crate
    declare -gA uses=()
    while IFS= read -r line || [ -n "$line" ]; do
        line=${line%%#*}:
        read -r crate _ <<<"${line%%:*}"
        line=${line#*:}
        [ -z "$crate" ] || uses[$crate]=${line%%:*}
    done <"$top/crates.txt"
}

# The crates that the program is built from, lowest first: those that a crate stands on, and then the crate itself.
need() {
    local below
    [[ " ${needed[*]} " != *" $1 "* ]] || return 0
    for below in ${uses[$1]}; do
        [ -z "${uses[$below]+ours}" ] || need "$below"
    done
    needed+=("$1")
}

# The checksum of what the program is built from, in a repository: the needed crates' lines of crates.txt, and their files
# but for tests.
sum_of_sources() {
    (
        cd "$1/crates" || exit 1
        for crate in "${needed[@]}"; do
            printf '%s: %s\n' "$crate" "${uses[$crate]}"
        done
        find "${needed[@]}" \( -name out -o -path '*/must-fail' -o -path '*/src/tests' -o -path '*/proofs/tests' \) -prune \
            -o -type f \( -name '*.rt' -o -name '*.antt' \) ! -path '*/src/*tests.rt' -print0 |
            LC_ALL=C sort -z | xargs -0 sha256sum
    ) | sha256sum
}

# Whether the kept program is the one that was built, and was built from the sources as they are.
is_built() {
    [ -x "$program" ] && [ -f "$stamp" ] || return 1
    [ "$(sum_of_sources "$top"; sha256sum <"$program")" = "$(cat "$stamp")" ]
}

# Makes the top of a repository of the needed crates alone, without their must-fail edits, which rt would try.
copy_needed() {
    local crate part
    mkdir -p "$copy/.git" "$copy/crates" || return 1
    [ ! -e "$top/HANDLES" ] || cp "$top/HANDLES" "$copy" || return 1
    for crate in "${needed[@]}"; do
        printf '%s:%s\n' "$crate" "${uses[$crate]}" >>"$copy/crates.txt"
        mkdir "$copy/crates/$crate" || return 1
        for part in "$top/crates/$crate"/*; do
            case ${part##*/} in
                out | must-fail) ;;
                *) cp -R "$part" "$copy/crates/$crate" || return 1 ;;
            esac
        done
    done
}

# Whether all that a crate stands on is proved.
is_next() {
    local below
    for below in ${uses[$1]}; do
        [ -z "${uses[$below]+ours}" ] || [ -n "${proved[$below]:-}" ] || return 1
    done
}

# Says how many crates are proved, and which are at work or come next.
say_how_far() {
    local crate next=()
    for crate in "${needed[@]}"; do
        [ -n "${proved[$crate]:-}" ] || ! is_next "$crate" || next+=("$crate")
    done
    say "$((SECONDS - began)) seconds, ${#proved[@]} of ${#needed[@]} crates are proved$1; ${next[*]:-nothing} at work or next"
}

# Has rt prove the copy, logs what it prints, and says how far it is: after each crate, and every while. It ends rt once
# the program is proved and built, or a crate is not proved.
prove() {
    local line crate verdict="" from_rt
    mkdir "$room/tmp" || return 1
    exec {from_rt}< <(cd "$copy" && TMPDIR=$room/tmp exec rt ci </dev/null 2>&1)
    rt_pid=$!
    while [ -z "${proved[$program_crate]:-}" ] && [ "$verdict" != "NOT PROVED" ]; do
        if IFS= read -r -t "$silence" -u "$from_rt" line; then
            printf '%s\n' "$line" >>"$log"
            [[ $line =~ ^rt:\ ([[:alnum:]_]+)\ (proved$|is kept:|NOT PROVED) ]] || continue
            crate=${BASH_REMATCH[1]}
            verdict=${BASH_REMATCH[2]}
            if [ "$verdict" != "NOT PROVED" ]; then
                proved[$crate]=yes
                say_how_far ", now $crate"
            fi
        elif [ "$?" -gt 128 ]; then
            say_how_far ""
        else
            wait "$rt_pid"
            printf 'rt ended with status %s\n' "$?" >>"$log"
            rt_pid=
            break
        fi
    done
    exec {from_rt}<&-
    end_rt
    [ -n "${proved[$program_crate]:-}" ]
}

# Ends rt with all that it has begun.
end_rt() {
    [ -n "$rt_pid" ] || return 0
    kill "$rt_pid" 2>/dev/null
    wait "$rt_pid" 2>/dev/null
    rt_pid=
}

# Runs the program that was proved once, on an example.
try_first() {
    (cd "$top/crates/$program_crate" && exec "$copy/crates/$program_crate/out/$program_crate" "${first_run[@]}" </dev/null >>"$log" 2>&1)
}

# Keeps the program and its stamp where `rt ci` leaves them alone.
keep() {
    mkdir -p "$top/bin/out" &&
        cp "$copy/crates/$program_crate/out/$program_crate" "$new" &&
        { sum_of_sources "$copy" && sha256sum <"$new"; } >"$stamp" &&
        mv -f "$new" "$program"
}

# Removes what the build has written beside the program. What was killed may have written meanwhile.
clear_room() {
    rm -rf "$room" "$new" 2>/dev/null || { sleep 1 && rm -rf "$room"; }
}

# Ends the build at a signal, and then the script by the same signal.
give_up() {
    trap - "$1"
    end_rt
    clear_room
    say "the build was interrupted. The next call goes on from what rt has kept, or begins anew."
    kill -s "$1" $$
}

# Proves the crates that the program is made of, and keeps the program. No $(..) stands where a signal is caught: in one,
# bash may fail to read what it is to do at the signal.
build() {
    local began=$SECONDS room=${TMPDIR:-/tmp}/$name.$$.$RANDOM new=$program.new.$$ rt_pid="" copy log status signal
    local -A proved=()
    if ! command -v rt >/dev/null; then
        say "the command rt of the Rattle kit is not on the PATH"
        return 1
    fi
    copy=$room/repository
    log=$room/log
    for signal in HUP INT TERM; do
        # shellcheck disable=SC2064
        trap "give_up $signal" "$signal"
    done
    say "building the program. The first build proves the ${#needed[@]} crates that it is made of, which takes minutes."
    mkdir -m 700 "$room" && copy_needed && prove && try_first && keep
    status=$?
    if [ "$status" -eq 0 ]; then
        say "built."
    else
        say "the build failed with status $status. Its last lines:"
        tail -n 20 "$log" >&2
    fi
    clear_room
    trap - HUP INT TERM
    return "$status"
}
