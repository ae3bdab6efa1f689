# Read by bench/run and bench/instructions (`. bench/cc.sh`), which set `who` to their name and `work` to a folder of their own: a C compiler for x86-64, and how plain C is compiled.
if [ "$(uname -m)" = x86_64 ]; then
    cc=gcc packages='gcc libc6-dev'
else
    cc=x86_64-linux-gnu-gcc packages='gcc-x86-64-linux-gnu libc6-dev-amd64-cross'
fi
if ! command -v "$cc" >/dev/null; then
    # shellcheck disable=SC2086
    if ! { apt-get update && apt-get install -y --no-install-recommends $packages; } >"$work/log" 2>&1; then
        tail -n 20 "$work/log" >&2
        echo "$who: $cc is not there and could not be installed (apt-get install $packages)" >&2
        exit 1
    fi
fi

# compile PROGRAM FILE ..: plain C at -O2, as one whole (-flto), as the kit compiles a program
compile() {
    program=$1
    shift
    "$cc" -O2 -flto -static -o "$work/$program" "$@"
}
