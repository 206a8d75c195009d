#!/bin/sh
# The port to a newer Rattle, as it was done once at the root of a checkout: one local name first, which port.py takes for the newer spelling of a library's name (it then leaves
# out most of its steps); port.py; and the repository's own names.
set -eu
here=$(cd "$(dirname "$0")" && pwd)
sed -i 's/\bentry_at as entry_at\b/entry_at as entry-at/; s/\([ (]\)entry_at\.\(signature\|spec\|ended\|clauses\)/\1entry-at.\2/g' crates/stations/proofs/tally_from/Proof.antt
git commit -qam 'stations: a local name that port.py reads as a newer one'
python3 "$(dirname "$(rt doc)")/port/port.py"
"$here/respell.py"
