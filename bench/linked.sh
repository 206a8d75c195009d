# Read by the scripts that link a program with the port's library, in their own folder and with `name` set: sets `library`, which LIBRARY names where it is not the one that tools/staticlib writes, `out`, a folder of target/ by
# that name, and `compiler` and `emulator` (compiler.sh). `missing` ends the script with status 2.
library=${LIBRARY:-$PWD/../target/staticlib/libdirectory_c.a}
out=$PWD/../target/$name
mkdir -p "$out"

missing() {
    echo "${0##*/}: $1" >&2
    exit 2
}

. ../bench/compiler.sh
