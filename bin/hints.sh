# What the scripts beside this one say of a run on standard error, besides what the program prints: which files it waits for, and
# after a status that is no answer why that may be, and what to do. proved.sh sources this. No file is opened here.
# shellcheck shell=bash

# A file's name as it can stand in one line.
show() {
    case $1 in
        *[![:print:]]*) printf '%q' "$1" ;;
        *) printf '%s' "$1" ;;
    esac
}

# Whether an option is followed by the name of a file that the program reads.
names_a_file() {
    [[ " ${read_options[*]} " = *" $1 "* ]]
}

# Whether an option is followed by a value that names no file to read.
takes_a_value() {
    [[ " ${value_options[*]} $written_option " = *" $1 "* ]]
}

# The files that the words name for reading, as `files`.
find_files() {
    local word has_options=yes
    files=()
    if [ "$#" -gt 0 ] && [[ " ${commands[*]} " = *" $1 "* ]]; then
        shift
    fi
    while [ "$#" -gt 0 ]; do
        word=$1
        shift
        case $has_options$word in
            yes--)
                has_options=""
                continue
                ;;
            yes--*=*)
                names_a_file "${word%%=*}" || continue
                word=${word#*=}
                ;;
            yes-?*)
                if takes_a_value "$word" && [ "$#" -gt 0 ]; then
                    shift
                    continue
                fi
                if ! names_a_file "$word" || [ "$#" -eq 0 ]; then
                    continue
                fi
                word=$1
                shift
                ;;
        esac
        files+=("$word")
    done
}

# The value of an option among the words, as `named`, or nothing.
find_value() {
    local option=$1
    shift
    named=
    [ -n "$option" ] || return 0
    while [ "$#" -gt 0 ]; do
        case $1 in
            --) return 0 ;;
            "$option="*)
                named=${1#*=}
                return 0
                ;;
            "$option")
                named=${2:-}
                return 0
                ;;
        esac
        shift
    done
}

# Why each of the files that the words name can't be read, for those that can't.
find_unreadable() {
    local file files
    find_files "$@"
    unreadable=()
    for file in "${files[@]}"; do
        if [ ! -e "$file" ]; then
            unreadable+=("there is no file $(show "$file"): name one that is there")
        elif [ -d "$file" ]; then
            unreadable+=("$(show "$file") is a folder: name a file in it")
        elif [ ! -r "$file" ]; then
            unreadable+=("the file $(show "$file") may not be read: ask for the right to read it")
        fi
    done
}

# Whether it is a pipe that has a name of its own, which somebody else has to open.
is_named_pipe() {
    case $1 in
        /dev/* | /proc/*) return 1 ;;
    esac
    [ -p "$1" ]
}

# Says which pipes a run may wait for.
say_what_waits() {
    local file files named
    find_files "$@"
    for file in "${files[@]}"; do
        ! is_named_pipe "$file" || say "$(show "$file") is a pipe: the run waits until it is written to its end"
    done
    find_value "$written_option" "$@"
    ! is_named_pipe "$named" || say "$(show "$named") is a pipe: the run waits until something reads it"
}

# Why the file of this name can't be written, as far as that can be seen, as `why`.
find_unwritable() {
    local folder=.
    case $1 in
        /*) folder=/ ;;
    esac
    case $1 in
        */*) folder=$folder/${1%/*} ;;
    esac
    why=
    if [ -d "$1" ]; then
        why="$(show "$1") is a folder: name a file in it"
    elif [ -e "$1" ]; then
        [ -w "$1" ] || why="the file $(show "$1") may not be written: name another"
    elif [ ! -d "$folder" ]; then
        why="there is no folder for the file $(show "$1"): make it, or name another file"
    elif [ ! -w "$folder" ]; then
        why="no file may be made where $(show "$1") is to be: name one in another folder"
    fi
}

# Says why a run ended with a status that is no answer, as far as that can be seen, and what to do.
say_what_to_do() {
    local status=$1 why named
    shift
    case $status in
        5)
            for why in "${unreadable[@]}"; do
                say "$why"
            done
            [ "${#unreadable[@]}" -gt 0 ] || say "a named file could not be read to its end: look at its disk, or at what writes it"
            ;;
        6)
            find_value "$written_option" "$@"
            if [ -z "$named" ]; then
                say "the output took no more, as on a full disk or where its reader has gone: make room, and run again"
                return
            fi
            find_unwritable "$named"
            say "${why:-"the output or the file $(show "$named") took no more, as on a full disk or where a reader has gone: make room, and run again"}"
            ;;
        7) say "no memory was left: leave the run more of it, as by ulimit -v, which is $(ulimit -v)" ;;
        137) say "the run was killed, as the system does where no memory is left: leave it more" ;;
        139) say "the run was ended by signal 11, as where the stack is small: raise ulimit -s, which is $(ulimit -s)" ;;
    esac
}
