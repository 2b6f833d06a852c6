# What the commands of oracle/ and bench/ share. Each sources it, and says in its second line, or in the second and
# the third, how it is called.
set -euo pipefail

root=$(cd "$(dirname "${BASH_SOURCE[0]}")/.." && pwd)

# say WHAT: on standard error, with the command's name.
say() {
    echo "$(basename "$0"): $1" >&2
}

# usage WHY
usage() {
    say "$1"
    sed -n '2,3s/^# /usage: /p' "$0" >&2
    exit 2
}

# fail WHAT: WHAT could not be built.
fail() {
    say "$1 could not be built"
    exit 3
}

# options NAMES WORDS..: gives the variable of each option of NAMES the word after it; --replay takes all that follow.
options() {
    local names=" $1 "
    shift
    while [ $# -gt 0 ]; do
        [ $# -ge 2 ] || usage "$1 stands alone or is unknown"
        [[ $names = *" $1 "* ]] || usage "$1 is unknown"
        [ "$1" != --replay ] || { replay=("${@:2}") && return; }
        printf -v "${1#--}" %s "$2"
        shift 2
    done
}

# ask: puts what a comparison is asked for into `words`.
ask() {
    local whole='^[0-9]{1,18}$'
    if [ ${#replay[@]} -gt 0 ]; then
        words=(--replay "${replay[@]}")
    else
        [[ $seed =~ $whole ]] || usage "--seed takes a whole number"
        [[ $cases =~ $whole ]] || usage "--cases takes a whole number"
        words=(--seed "$seed" --cases "$cases" ${kind:+--kind "$kind"})
    fi
}

# must_be_there LIBRARY..: each is a file, or none is named.
must_be_there() {
    local library
    for library in "$@"; do
        [ -z "$library" ] || [ -f "$library" ] || usage "no library $library"
    done
}

# make_published SOURCES: as oracle/build.
make_published() {
    local status=0
    "$root/oracle/build" ${1:+"$1"} || status=$?
    [ $status != 2 ] || exit 2
    [ $status = 0 ] || fail "the published Rust"
}

# make_library NAME GIVEN OUT: OUT/lib/libNAME.a, the library of the crate NAME or the one that is GIVEN. Made anew
# each time, so that an old one never passes for the proved code.
make_library() {
    local new=$3/lib/lib$1.$$.a log
    mkdir -p "$3/lib"
    if [ -n "$2" ]; then
        cp "$2" "$new"
        echo "$2 stands in for the proved code of $1"
    else
        log=$("$root/tools/hostlib" "$1" "$new" 2>&1) || { echo "$log" >&2 && fail "the proved code of $1"; }
    fi
    # Only one that changed is linked again.
    if cmp -s "$new" "$3/lib/lib$1.a"; then rm "$new"; else mv "$new" "$3/lib/lib$1.a"; fi
}

# make_program FOLDER OUT ARGUMENTS..: compiles what the workspace in FOLDER has, with the libraries in OUT/lib.
make_program() {
    (cd "$1" && LOCKDAPPLE_DIR=$2/lib cargo build --offline --quiet --target-dir "$2/target" "${@:3}") ||
        fail "the program"
}
