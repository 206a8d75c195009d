#!/bin/sh
# Builds the first program, in C and in Rust, runs both, and compares what they print with what the proved program plant prints.
#
#   examples/run.sh
#
# Needs a C compiler for x86-64, and elsewhere than there qemu-x86_64; rustc, on x86-64, for the second; and the static library of the port, which `tools/staticlib` writes, by `rt`,
# where it is not there. Exit status 0: each printed what it should; 1: something else; 2: something that is needed is missing.
set -eu
cd "$(dirname "$0")"
name=examples
. ../bench/linked.sh
if [ ! -f "$library" ]; then
    command -v rt > /dev/null || missing "no $library, and no rt to write it"
    ../tools/staticlib > "$out/staticlib.log" 2>&1 || { cat "$out/staticlib.log"; exit 1; }
fi
$compiler -O2 -std=c11 -Wall -Wextra -Werror -I../include plant.c "$library" -o "$out/plant_c"
programs=plant_c
# rustc has the library's machine for its target on x86-64 alone.
if [ -z "$emulator" ] && rustc --version > /dev/null 2>&1; then
    rustc -O --edition 2021 -D warnings plant.rs -L native="$(dirname "$library")" -o "$out/plant_rs"
    programs="plant_c plant_rs"
else
    echo "plant_rs: passed over, it needs rustc on x86-64"
fi
for program in $programs; do
    $emulator "$out/$program" > "$out/plant.txt"
    diff ../crates/plant/stdout "$out/plant.txt"
    echo "$program: printed what crates/plant/stdout has"
done
