#!/bin/sh
# Counts the instructions that a station total takes, beside those of the check that it begins with (check_ratio.c), and prints both and their ratio.
#
#   bench/instructions.sh [TAGS ..]
#
# TAGS are 1000 and 4096 if none are given. It counts in qemu-x86_64, or in what QEMU names, also on x86-64, and needs a C compiler for this machine and one for
# x86-64, and the port's static library, which `tools/staticlib` writes; LIBRARY=path names another. Exit status 0: the ratios are printed, none is over
# 1.5; 1: one is, or a program failed; 2: something that is needed is missing. 4,096 tags take some three minutes, most of them in the inserts.
set -eu
cd "$(dirname "$0")"
library=${LIBRARY:-$PWD/../target/staticlib/libdirectory_c.a}
out=$PWD/../target/instructions
qemu=${QEMU:-qemu-x86_64}
mkdir -p "$out"

missing() {
    echo "instructions.sh: $1" >&2
    exit 2
}

# All instructions of a run of check_ratio.
count() {
    "$qemu" -plugin "$out/instructions.so" "$out/check_ratio" "$@" 2> "$out/count" || { cat "$out/count" >&2; exit 1; }
    cat "$out/count"
}

# Those of a call are those of a run that makes it, less those of one that is the same without it.
say_shape() {
    without=$(count "$1" "$2" none)
    check=$(count "$1" "$2" check)
    one=$(count "$1" "$2" station)
    all=$(count "$1" "$2" all)
    awk -v tags="$1" -v shape="$2" -v check=$((check - without)) -v one=$((one - without)) -v all=$((all - without)) 'BEGIN {
        printf "%d tags, %s: check %d, one station %d, ratio %.2f, all tags %d, ratio %.2f\n", tags, shape, check, one, one / check, all, all / check
        if (one > 1.5 * check || all > 1.5 * check) print "over 1.5" > "/dev/stderr"
    }' 2>> "$out/over"
}

. ./compiler.sh
command -v "$qemu" > /dev/null || missing "no $qemu to count in"
[ -f "$library" ] || missing "no $library; tools/staticlib writes it"
${CC:-cc} -O2 -std=c11 -Wall -Wextra -shared -fPIC instructions.c -o "$out/instructions.so" || missing "no ${CC:-cc} that compiles the plug-in"
$compiler -O3 -std=gnu11 -Wall -Wextra -I../include check_ratio.c "$library" -o "$out/check_ratio"
"$qemu" -plugin "$out/instructions.so" "$out/empty" 2> "$out/plugin.log" || missing "$qemu takes no plug-ins"
: > "$out/over"
for tags in ${*:-1000 4096}; do
    for shape in any thumb deep long; do
        say_shape "$tags" "$shape"
    done
done
[ ! -s "$out/over" ] || { echo "instructions.sh: a ratio is over 1.5" >&2; exit 1; }
