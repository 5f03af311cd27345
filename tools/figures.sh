#!/bin/sh
# Counts lines, without blank ones and comments: code, definitions, laws and proofs of functions, and what is generated.
set -eu
cd "$(dirname "$0")/.."
count() { # files on standard input
    xargs -r cat | grep -cvE '^[[:space:]]*($|//|--)' || true
}
generated='crates/ucd/src/table.rt crates/ucd/specs/Unicode16.antt crates/ucd/proofs/RowData.antt crates/ucd/proofs/table/'
written() { # crate, folder in it, find's tests: the files there that are not generated
    folder=crates/$1/$2
    shift 2
    [ ! -d "$folder" ] || find "$folder" -type f "$@" | grep -vF "$(echo "$generated" | tr ' ' '\n')" || true
}
for crate in crates/*/
do
    name=$(basename "$crate")
    code=$(written "$name" src -name '*.rt' | count)
    specs=$(written "$name" specs -name '*.antt' | count)
    laws=$(written "$name" proofs -name '*.antt' ! -name Answers.antt ! -name Invariants.antt | count)
    proofs=$(written "$name" proofs \( -name Answers.antt -o -name Invariants.antt \) | count)
    printf '%-20s code %5s  definitions %5s  laws %5s  proofs of functions %5s\n' "$name" "$code" "$specs" "$laws" "$proofs"
done
printf '%-20s lines %5s\n' generated "$(find $generated -type f | count)"
