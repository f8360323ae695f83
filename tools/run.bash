# shellcheck shell=bash
# Sourced by the commands that run a program in a folder, and build it first if that is needed.
root=$(dirname "$(dirname "$(readlink -f "${BASH_SOURCE[0]}")")")
# shellcheck source=use.bash
. "$root/tools/use.bash" || exit 2

# What goes on beside this script, so that a signal can end it.
prover='' teller=''

# built_at NAME: where `rt run` and `rt ci` put the program.
built_at() {
    printf '%s/crates/%s/out/%s' "$root" "$1" "$1"
}

# is_built PROGRAM: a folder is newer too if a file was removed from it. What rt keeps beside these folders counts for nothing.
is_built() {
    [ -x "$1" ] || return 1
    [ -z "$(find "$root/crates.txt" "$root"/crates/*/{src,specs,proofs} -newer "$1" -print -quit 2>/dev/null)" ]
}

# crates_needed NAME: the crates that the program is made of, lowest first: in crates.txt a crate names only crates above it.
crates_needed() {
    awk -F: -v program="$1" '
        { sub(/#.*/, "") }
        NF == 2 { split($1, said, " "); name[++count] = said[1]; below[said[1]] = $2 }
        END {
            needed[program] = 1
            for (k = count; k > 0; k--)
                if (name[k] in needed) {
                    many = split(below[name[k]], listed, " ")
                    for (i = 1; i <= many; i++) needed[listed[i]] = 1
                }
            for (k = 1; k <= count; k++) if (name[k] in needed) print name[k]
        }' "$root/crates.txt"
}

# can_build CRATE..: rt keeps its work in a folder out/ of each crate.
can_build() {
    command -v rt >/dev/null || die 'the program is not built, and the Rattle toolchain (rt) is not here to build it'
    local crate rooms=()
    for crate in "$@"; do rooms+=("$root/crates/$crate/out"); done
    if ! mkdir -p "${rooms[@]}" 2>/dev/null || [ -n "$(find "${rooms[@]}" -maxdepth 1 -type d ! -writable -print -quit)" ]; then
        die "the program has to be built first, and the folders out/ of $root/crates cannot be written"
    fi
}

# A line that is written over again is for a terminal; elsewhere each crate has a line of its own.
line_lives() {
    [ -t 2 ] && [ "${TERM:-dumb}" != dumb ]
}

# Ends what goes on beside this script. The prover is a group of processes, most of which do not hear Ctrl-C.
stop_beside() {
    local group=$prover clock=$teller
    prover='' teller=''
    [ -z "$group" ] || kill -TERM -- "-$group" 2>/dev/null || kill -TERM "$group" 2>/dev/null
    [ -z "$clock" ] || { kill "$clock" && wait "$clock"; } 2>/dev/null
    ! line_lives || printf '\r\033[K' >&2
}

# break_off SIGNAL NAME FILE: leaves no process and no file behind, and the caller sees that it was the signal.
break_off() {
    stop_beside
    rm -f "$3"
    printf '%s: broken off; the next call goes on where this one stopped\n' "$2" >&2
    trap - INT TERM HUP
    kill -s "$1" "$$"
}

# tell_crate WORDS: once a crate, or each second if the line lives, as long as this script does.
tell_crate() {
    line_lives || { printf '%s\n' "$1" >&2; return; }
    local began=$SECONDS
    while kill -0 "$$" 2>/dev/null; do
        printf '\r\033[K%s, %d s' "$1" "$((SECONDS - began))" >&2
        sleep 1
    done >/dev/null &
    teller=$!
}

# prove CRATE VERB FILE: rt beside this script, which a signal reaches while it waits; what rt says is in the file.
prove() {
    local status own_group='' ended='' tick
    ! command -v setsid >/dev/null || own_group=setsid
    (cd "$root/crates/$1" && exec $own_group rt "$2") >"$3" 2>&1 </dev/null &
    prover=$!
    # Bash does not look at a signal that comes just before it waits: so no wait is long.
    while [ "$ended" != "$prover" ]; do
        sleep 0.5 &
        tick=$!
        wait -n -p ended "$prover" "$tick"
        status=$?
    done
    { kill "$tick" && wait "$tick"; } 2>/dev/null
    prover=''
    # `rt run` runs what it has built, where there is nothing to read: how that ends says nothing of the proof.
    ! grep -q "^rt: running out/$1;" "$3" || status=0
    return "$status"
}

# build NAME PROGRAM: one crate after the other, so that what is told is what is going on.
build() {
    local name=$1 crates crate verb said status=0 heard k=0 anew=0
    mapfile -t crates < <(crates_needed "$name")
    can_build "${crates[@]}"
    heard=$(mktemp) || die 'there is no room for a temporary file'
    printf '%s: first the program is proved and built: minutes from nothing, seconds where all is proved already\n' "$name" >&2
    printf '%s: Ctrl-C is safe: the next call goes on where this one stopped\n' "$name" >&2
    trap 'break_off INT "$name" "$heard"' INT
    trap 'break_off TERM "$name" "$heard"' TERM
    trap 'break_off HUP "$name" "$heard"' HUP
    for crate in "${crates[@]}"; do
        k=$((k + 1))
        tell_crate "$name: proving $k of ${#crates[@]}: $crate"
        verb=lib
        [ "$crate" != "$name" ] || verb=run
        prove "$crate" "$verb" "$heard"
        status=$?
        said=$(<"$heard")
        stop_beside
        [ "$status" -eq 0 ] || break
        # rt says nothing of a library that is proved already
        [[ $said != *logic=proved* ]] || anew=$((anew + 1))
    done
    trap - INT TERM HUP
    rm -f "$heard"
    case $status in
    0) ;;
    1) die "it is not proved:"$'\n'"$said" ;;
    *) die "rt $verb in crates/$crate ended with status $status:"$'\n'"$said" ;;
    esac
    [ -x "$2" ] || die "it is proved, and crates/$name/out/$name is missing all the same: remove crates/$name/out and call again"
    touch "$2"
    tell_built "$name" "${#crates[@]}" "$anew"
}

# tell_built NAME CRATES ANEW: how many crates there are, and how many of them were not proved already.
tell_built() {
    if [ "$3" -eq 0 ]; then
        printf '%s: all %d crates were proved already\n' "$1" "$2" >&2
    else
        printf '%s: proved and built, %d of %d crates anew, %d s\n' "$1" "$3" "$2" "$SECONDS" >&2
    fi
}

# On another processor an emulator of the toolchain runs the program.
can_run() {
    [ "$(uname -m)" = x86_64 ] || [ -n "${RATTLE_HOME:-}" ] || command -v rt >/dev/null ||
        die 'on this processor the Rattle toolchain (rt) runs the program, and it is not here'
}

# make_ready NAME: the program is built, and can be run.
make_ready() {
    local program
    program=$(built_at "$1")
    is_built "$program" || build "$1" "$program"
    can_run
}

# enter_ready FOLDER NAME: the working directory is the folder, and the program is built and can be run.
enter_ready() {
    can_print
    [ -d "$1" ] || die "'$1' is no folder"
    # CDPATH would lead to a folder of that name elsewhere, and print it.
    CDPATH='' cd -- "$1" 2>/dev/null || die "'$1' may not be entered"
    make_ready "$2"
}

# run_built NAME: runs the program in the working directory, and ends. For year and desk it is tools/common/programs.py.
run_built() {
    local said status
    # A Rattle program has no exit status of its own: a failure is what it says on standard error.
    exec 3>&1
    said=$("$root/tools/program" "$1" 2>&1 >&3)
    status=$?
    # A reader that goes away has what it wanted. Its going is a signal, or a failed write if the caller ignores that.
    [ "$status" -ne 141 ] && [ "$said" != 'standard output: Broken pipe' ] || exit 0
    [ -z "$said" ] || die "$said"
    [ "$status" -eq 0 ] || die "the program ended with status $status, and did not say why"
    exit 0
}

# run_program NAME WORD..: runs the program in the folder that the words name, by default examples/plan-a, and ends.
run_program() {
    local name=$1
    shift
    take_words 1 "$@"
    enter_ready "${1-$root/examples/plan-a}" "$name"
    run_built "$name"
}

# open_desk WORD..: in the place of this script runs what keeps the desk on the folder that the word names.
open_desk() {
    take_words 1 "$@"
    [ $# -eq 1 ] || die 'no folder is named; --help tells the use'
    # A descriptor that is closed would be given to the next file that is opened.
    { true 3<&0; } 2>/dev/null || die 'standard input is closed'
    { true 3>&2; } 2>/dev/null || exec 2>/dev/null
    [ ! -d /dev/stdin ] || die 'standard input is a folder'
    command -v python3 >/dev/null || die 'python3 is not here'
    enter_ready "$1" desk
    exec python3 -B "$root/tools/desk/main.py" "$1"
}
