# What the tests of programs over grid files share: files made from document 02, and all that a program writes of them held against
# what is expected. For scripts that stand in the repository's folder and have set `program`, its name.
root=$PWD
dir=$(mktemp -d)
trap 'rm -rf "$dir"' EXIT
cases=0
. tools/crates.sh

# Proves and builds the program before the first case, so that no case has the words of that on standard error.
words=$(tools/run "$program" 2>&1 >/dev/null) || [ $? = 2 ] || { echo "$words" >&2; exit 1; }

# hex BYTE..: bytes as printf's %b reads them.
hex() { printf '\\x%02x' "$@"; }

header() { hex 0x4c 0x47 $(($1 - 1)) $(($2 - 1)); }

# cell ROW COL SAD: each number's lowest byte first.
cell() {
    hex 0x4c 0x47 $(($1 & 255)) $(($1 >> 8 & 255)) $(($2 & 255)) $(($2 >> 8 & 255)) \
        $(($3 & 255)) $(($3 >> 8 & 255)) $(($3 >> 16 & 255)) $(($3 >> 24 & 255))
}

# times N TEXT: N a power of two.
times() {
    local n=$1 text=$2
    while [ "$n" -gt 1 ]; do text+=$text n=$((n / 2)); done
    printf '%s' "$text"
}

# file NAME BYTES: a file of them.
file() { printf '%b' "$2" >"$dir/$1"; }

# What a refusal means, as standard error says it behind a file's name.
declare -A means=(
    [10]='refused 10: a record does not start with the mark 4C 47'
    [11]='refused 11: the file is too short or too long for what its header says'
    [12]='refused 12: the header says an odd number of columns or rows'
    [14]='refused 14: their columns or rows are unequal'
)

# same WHAT PART: what was written to a part is what was expected of it.
same() {
    cmp -s "$dir/$2" "$dir/$2.expected" || {
        echo "$program: $1: $2: expected, then written:" >&2
        head -5 "$dir/$2.expected" "$dir/$2" >&2
        exit 1
    }
}

# lines TEXT: the lines of a text, none for an empty one.
lines() { [ -z "$1" ] || printf '%s\n' "$1"; }

# holds WHAT STATUS LINES WORDS NAMES..: the program's status, standard output and standard error, of files in the folder. For
# LINES of `-` they stand in stdout.expected.
holds() {
    local what=$1 status=$2 is=0
    cases=$((cases + 1))
    [ "$3" = - ] || lines "$3" >"$dir/stdout.expected"
    lines "$4" >"$dir/stderr.expected"
    (cd "$dir" && "$root/tools/run" "$program" "${@:5}") >"$dir/stdout" 2>"$dir/stderr" || is=$?
    same "$what" stdout
    same "$what" stderr
    [ "$is" = "$status" ] || { echo "$program: $what: status $is, not $status" >&2; exit 1; }
}

# refuses WHAT NUMBER WHICH NAMES..: the only line, and the words of which file it is.
refuses() { holds "$1" 2 "refused $2" "$3: ${means[$2]}" "${@:4}"; }

# A pipe gives its bytes once, so that its two passes can be given two files.
mkfifo "$dir/pipe"
# twice FIRST SECOND: writes the one to whoever opens the pipe first, the other to whoever opens it next.
twice() { (cd "$dir" && cat "$1" >pipe && sleep 1 && cat "$2" >pipe); }

# full NAMES..: lines that can't be written give words, and status 2.
full() {
    local is=0
    cases=$((cases + 1))
    (cd "$dir" && start "$program" "$@") >/dev/full 2>"$dir/stderr"
    echo 'standard output: No space left on device' >"$dir/stderr.expected"
    same 'a full disk' stderr
    (cd "$dir" && "$root/tools/run" "$program" "$@") >/dev/full 2>"$dir/stderr" || is=$?
    [ "$is" = 2 ] || { echo "$program: a full disk: status $is, not 2" >&2; exit 1; }
}

flat=$(header 2 2)$(times 4 "$(cell -24 -24 0)")
file flat "$flat"
file same "$flat"
file one "$(header 2 2)$(cell -24 -24 0)$(cell 0 8 64)$(cell -24 -24 0)$(cell -24 -24 0)"
file ends "$(header 2 2)$(cell -32768 32767 4294967295)$(cell -24 -24 0)$(cell -24 -24 0)$(cell -24 -24 1)"
mkdir "$dir/folder"

# A file for each refusal of reading, and its number.
file none ''
file mark "$(hex 0x4c 0x48 1 1)"
file odd_columns "$(header 3 2)$(times 2 "$(times 2 "$(cell 0 0 0)")")"
file odd_rows "$(header 2 1)$(times 2 "$(cell 0 0 0)")"
file cell_mark "$(header 2 2)$(cell 0 0 0)$(hex 0x4c 0x46)$(times 8 "$(hex 0)")$(times 2 "$(cell 0 0 0)")"
file cut "$(header 2 2)$(times 2 "$(cell 0 0 0)")$(cell 0 0 0)$(hex 0x4c 0x47 0 0 0 0 0 0 0)"
file left_over "$flat$(hex 0x4c)"
file header_alone "$(header 2 2)"
refusals=('none 11' 'mark 10' 'odd_columns 12' 'odd_rows 12' 'cell_mark 10' 'cut 11' 'left_over 11' 'header_alone 11')

# The largest file, and one byte more.
largest=$(header 256 256)$(times 65536 "$(cell -32768 -32767 4294967294)")
file largest "$largest"
file longer "$largest$(hex 0)"
