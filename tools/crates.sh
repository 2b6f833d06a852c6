# What crates.txt says, and how a proved program is started. For scripts that have set `root`, the repository's folder.

# rows: a line for each crate: its name, then what it uses.
rows() { sed -E -n 's/#.*//; s/^([a-z][a-z0-9_]*)( [^:]*)?:(.*)/\1 \3/p' "$root/crates.txt"; }

# below CRATE: it and all crates below it, a line each, each after what it uses, in the order in which rt proves them.
below() {
    rows | awk -v name="$1" '
        { uses[$1] = $0 }
        function take(crate,    n, used, i) {
            if (crate in taken || !(crate in uses)) return
            n = split(uses[crate], used, " ")
            for (i = 2; i <= n; i++) take(used[i])
            taken[crate] = 1
            print crate
        }
        END { take(name) }'
}

# start NAME WORDS..: a proved program, which `rt run` has left. Programs are compiled for x86-64.
start() { "$root/crates/$1/out/$1" "${@:2}"; }
