#!/bin/sh
# Times the calls of the port and of the crate on the same tags, the port's check beside a plain pass over the block, and its station total beside the check.
#
#   bench/speed.sh
#
# Needs cargo, a C compiler, an x86-64 machine (times taken in an emulator say nothing) and, unless LIBRARY names a static library of the port, rt. It takes
# about two minutes, most of them in the port's inserts and deletes. Exit status 0: the table is printed; 1: the two had different tags, or a call failed; 2:
# something that is needed is missing.
set -eu
cd "$(dirname "$0")"
out=$PWD/../target/bench
mkdir -p "$out"

missing() {
    echo "speed.sh: $1" >&2
    exit 2
}

build_crate() {
    command -v cargo > /dev/null || missing "no cargo, to build the crate with"
    (cd blart && sha256sum --check --quiet supplied.sha256) || missing "a supplied file of the crate was changed"
    cargo build --quiet --release --offline --bin speed --manifest-path blart/Cargo.toml --target-dir "$out/cargo"
}

build_port() {
    library=${LIBRARY:-$PWD/../target/staticlib/libdirectory_c.a}
    if [ -z "${LIBRARY:-}" ] && command -v rt > /dev/null; then
        ../tools/staticlib > "$out/staticlib.log" 2>&1 || { cat "$out/staticlib.log"; missing "rt did not write the library"; }
    fi
    [ -f "$library" ] || missing "no $library; tools/staticlib writes it"
    # -O3 for the search by hand, which is to be as fast as the compiler can make it
    ${CC:-cc} -O3 -std=gnu11 -Wall -Wextra -I../include -c by_hand.c -o "$out/by_hand.o"
    ${CC:-cc} -O2 -std=gnu11 -Wall -Wextra -I../include speed.c "$out/by_hand.o" "$library" -o "$out/speed"
    # -O3, because the plain pass is to be as fast as the compiler can make it
    ${CC:-cc} -O3 -std=gnu11 -Wall -Wextra -I../include check_ratio.c "$library" -o "$out/check_ratio"
}

# In turn and often, so that what else the machine does at a time falls on both.
run_both() {
    : > "$out/speed.port"
    : > "$out/speed.crate"
    for round in 1 2 3 4 5 6 7 8; do
        "$out/speed" >> "$out/speed.port"
        "$out/cargo/release/speed" >> "$out/speed.crate"
    done
    [ "$(grep '^tags' "$out/speed.port")" = "$(grep '^tags' "$out/speed.crate")" ] || { echo "speed.sh: the two had different tags" >&2; exit 1; }
}

# Of the rounds the lowest times count.
say_table() {
    awk '
        BEGIN { printf "%-14s %6s %12s %12s %14s\n", "call", "tags", "port ns", "crate ns", "port : crate" }
        $1 == "tags" { next }
        { key = $1 " " $2 }
        FNR == NR { if (!(key in port)) order[++n] = key; if (!(key in port) || $3 < port[key]) port[key] = $3; next }
        !(key in crate) || $3 < crate[key] { crate[key] = $3 }
        END {
            for (i = 1; i <= n; i++) {
                split(order[i], part, " ")
                a = port[order[i]]
                b = crate[(part[1] == "search_by_hand" ? "search" : part[1]) " " part[2]]
                printf "%-14s %6d %12.1f %12.1f %14.1f%s\n", part[1], part[2], a, b, a / b, part[1] ~ /^(insert|delete)$/ ? " *" : ""
            }
            print "* The port checks the whole directory first, as it promises, so its time grows with the block; that of the crate does not."
        }' "$out/speed.port" "$out/speed.crate"
}

[ "$(uname -m)" = x86_64 ] || missing "this is no x86-64 machine"
build_crate
build_port
run_both
say_table
for tags in 10 100 1000 4096; do "$out/check_ratio" $tags; done
