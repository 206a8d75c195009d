#!/bin/sh
# Puts the same command lists to the crate and to the port and compares the answers; then sees that the known differences are still those of
# differences.txt, and that the program `vectors` still has the list that traces.py writes for it and the crate's own answers.
#
#   bench/run.sh [quick]
#
# Needs cargo, python3, a C compiler for x86-64 and, unless LIBRARY names a static library of the port, rt. On another machine than x86-64 the port runs
# in qemu-x86_64, or in what QEMU names. Exit status 0: no difference; 1: some, or something is wrong;
# 2: something that is needed is missing.
set -eu
cd "$(dirname "$0")"
out=$PWD/../target/bench
mkdir -p "$out"

missing() {
    echo "run.sh: $1" >&2
    exit 2
}

wrong() {
    echo "run.sh: $1" >&2
    exit 1
}

# All tools are looked for before anything is built, so that what is missing is told from what is wrong.
find_tools() {
    cargo --version > /dev/null 2>&1 || missing "no cargo that runs, to build the crate with"
    python3 --version > /dev/null 2>&1 || missing "no python3, to write the lists with"
    echo 'int main(void) { return 0; }' > "$out/empty.c"
    cc "$out/empty.c" -o "$out/empty" 2> /dev/null || missing "no cc that compiles a C program, which cargo links with too"
}

build_crate() {
    (cd blart && sha256sum --check --quiet supplied.sha256) || wrong "a supplied file of the crate was changed"
    CARGO_HOME=$out/cargo-home cargo build --quiet --offline --manifest-path blart/Cargo.toml --target-dir "$out/cargo"
    crate=$out/cargo/debug/driver
}

build_library() {
    library=${LIBRARY:-$PWD/../target/staticlib/libdirectory_c.a}
    if [ -z "${LIBRARY:-}" ] && command -v rt > /dev/null; then
        ../tools/staticlib > "$out/staticlib.log" 2>&1 || { cat "$out/staticlib.log"; wrong "rt did not write the library"; }
    fi
    [ -f "$library" ] || missing "no $library; tools/staticlib writes it"
}

build_port() {
    . ./compiler.sh
    $compiler -O2 -std=c11 -Wall -Wextra -I../include port.c "$library" -o "$out/port"
}

# A program that stops early leaves answers out, which the comparison counts; so its status is not looked at.
put() {
    "$crate" < "$1" > "$out/answers.crate" || true
    $emulator "$out/port" < "$1" > "$out/answers.port" || true
}

# Prints how many commands have no answer or different ones, and shows the first three on stderr.
count_differences() {
    awk -v crate="$out/answers.crate" -v port="$out/answers.port" -v list="$1" '
        {
            a = b = "no answer"
            getline a < crate
            getline b < port
            if (a == b && a != "no answer") next
            if (++n <= 3) printf "%s:%d: %s\n  crate %s\n  port  %s\n", list, NR, $0, a, b > "/dev/stderr"
        }
        END { print n + 0 }' "$2"
}

compare_lists() {
    lists=0 commands=0 differences=0
    for list in "$out"/lists/*.cmd; do
        name=$(basename "$list" .cmd)
        put "$list"
        here=$(wc -l < "$list")
        differ=$(count_differences "$name" "$list")
        echo "$name: $here commands, $differ differences"
        lists=$((lists + 1)) commands=$((commands + here)) differences=$((differences + differ))
    done
}

# differences.txt has commands, with the two answers indented below each that has different ones; it is written again from its own commands.
compare_known() {
    sed '/^ /d' differences.txt > "$out/known.cmd"
    put "$out/known.cmd"
    awk -v crate="$out/answers.crate" -v port="$out/answers.port" '
        { print }
        /^[^#]/ {
            a = b = "no answer"
            getline a < crate
            getline b < port
            if (a != b) print "    crate " a "\n    port  " b
        }' "$out/known.cmd" > "$out/known.txt"
    known=0
    diff differences.txt "$out/known.txt" || known=1
}

# The program runs on its stdin in the gate and is compared with its stdout; here both are compared with what they were made from.
compare_vectors() {
    python3 traces.py vectors "$out/vectors.cmd"
    "$crate" < "$out/vectors.cmd" > "$out/vectors.crate" || true
    vectors=0
    diff ../crates/vectors/stdin "$out/vectors.cmd" > "$out/vectors.diff" || vectors=1
    diff ../crates/vectors/stdout "$out/vectors.crate" >> "$out/vectors.diff" || vectors=1
    head -n 12 "$out/vectors.diff"
}

find_tools
build_crate
build_library
build_port
rm -rf "$out/lists"
python3 traces.py ${1:+"$1"} "$out/lists"
compare_lists
compare_known
compare_vectors
[ "$known" = 0 ] && echo "differences.txt: as noted" || echo "differences.txt: not as noted"
[ "$vectors" = 0 ] && echo "crates/vectors: the crate's answers" || echo "crates/vectors: not the crate's answers"
echo "$lists lists: $commands commands, $differences differences"
[ "$differences" = 0 ] && [ "$known" = 0 ] && [ "$vectors" = 0 ]
