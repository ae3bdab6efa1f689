# Read by the scripts (`. tools/kit.sh`), which set `who` to their name and `here` to the repository's root: where the Rattle kit is, and how a program of this
# repository is built and run.

rt=$(command -v rt) || {
    echo "$who: the Rattle kit (rt), which proves and builds the programs, is not installed" >&2
    exit 2
}
kit=$(dirname "$(dirname "$(readlink -f "$rt")")")
toolchain=$kit/toolchain

# run PROGRAM ARGUMENT ..: any program for x86-64, on this machine
run() { "$@"; }

# made NAME: where a program is built
made() { echo "$here/crates/$1/out/$1"; }

# run_built NAME ARGUMENT ..: a program of this repository, built before
run_built() {
    built=$(made "$1")
    shift
    run "$built" "$@"
}

# whether the file is there and no source is newer
is_newest() {
    [ -f "$1" ] && [ -z "$(find "$here/crates" "$here/crates.txt" -name out -prune -o -type f -newer "$1" -print 2>/dev/null | head -n 1)" ]
}

is_current() { is_newest "$(made "$1")"; }

# crates_under NAME: how many crates of this repository it stands on, with itself
crates_under() {
    awk -v top="$1" '
        { sub(/#.*/, ""); sub(/ staticlib:/, ":") }
        /^[a-z0-9_]+:/ { name = $1; sub(/:.*/, "", name); $1 = ""; deps[name] = $0 }
        END {
            todo[n = 1] = top
            for (i = 1; i <= n; i++) {
                if (seen[todo[i]]++ || !(todo[i] in deps)) continue
                count++
                m = split(deps[todo[i]], next_ones, " ")
                for (k = 1; k <= m; k++) todo[++n] = next_ones[k]
            }
            print count
        }' "$here/crates.txt"
}

# told NAME LOG: while it is proved, one line on the terminal says how many crates are done; it is gone at the end
told() {
    all=$(crates_under "$1")
    echo "$who: proving and building $1, $all crates; later runs start at once" >&2
    while kill -0 "$job" 2>/dev/null; do
        printf '\r%s: %d of %d proved' "$who" "$(grep -c '^logic=proved' "$2")" "$all" >&2
        sleep 1
    done
    printf '\r\033[K' >&2
}

# build NAME: the program is proved and built where that is out of date. One builds, another waits for it. An old program is never taken for a new one.
build() {
    if is_current "$1"; then return 0; fi
    mkdir -p "$here/target" 2>/dev/null || :
    if ! (: >>"$here/target/lock") 2>/dev/null; then
        echo "$who: $1 is out of date and can't be built: target/ can't be written" >&2
        return 1
    fi
    (
        flock -n 9 || {
            echo "$who: another builds; this one waits for it" >&2
            flock 9 || exit 1
        }
        is_current "$1" && exit 0
        log=$(mktemp) || exit 1
        begun=$(mktemp) || exit 1
        trap 'rm -f "$log" "$begun"' EXIT
        # the build and what it starts are one group, ended together. `rt run` builds, and runs what it built once, on nothing
        set -m
        (cd "$here/crates/$1" && exec "$rt" run) >"$log" 2>&1 9>&- </dev/null &
        job=$!
        trap 'kill -- "-$job" 2>/dev/null; exit 130' INT TERM HUP
        if [ -t 2 ]; then told "$1" "$log"; fi
        wait "$job" || :
        # it is run only where it is proved; a source that is changed while this is built is newer than it
        if grep -q '^rt: running out/' "$log"; then touch -r "$begun" "$(made "$1")" 2>/dev/null; fi
        is_current "$1" || {
            grep -vE '^(rt: chose|statements|library|logic|crate|fn|struct|enum|checked)' "$log" | tail -n 20 >&2
            echo "$who: $1 is not proved and was not built" >&2
            exit 1
        }
    ) 9>>"$here/target/lock"
}
