#!/bin/sh
# Builds fuzz.c with the port's static library and runs it.
#
#   bench/fuzz.sh [CALLS [SEED]]
#
# Needs a C compiler for x86-64, elsewhere than there qemu-x86_64 too, and the library, which `tools/staticlib` writes; LIBRARY=path names another. Exit status 0: every call kept its word;
# 1: one did not; 2: something that is needed is missing.
set -eu
cd "$(dirname "$0")"
name=fuzz
. ./linked.sh
[ -f "$library" ] || missing "no $library; tools/staticlib writes it"
$compiler -O2 -std=c11 -Wall -Wextra -I../include fuzz.c "$library" -o "$out/fuzz"
$emulator "$out/fuzz" "${1:-1000000}" "${2:-1}"
