#!/bin/sh
# Compiles example.c, links the archive, runs the program and holds what it prints to example.expected. First it holds what the archive needs from outside to what
# docs/HOST.md says: a program without a C library has to supply it.
#   ROBINFLINT_ARCHIVE  the folder of librobinflint.a; else target/staticlib of the repository
#   CC                  the compiler; else cc
set -eu
here=$(cd "$(dirname "$0")" && pwd)
root=$(cd "$here/../../.." && pwd)
archive=${ROBINFLINT_ARCHIVE:-$root/target/staticlib}/librobinflint.a
[ -f "$archive" ] || { echo "there is no $archive: run 'tools/archive.sh robinflint' in the repository" >&2; exit 2; }

needed=$(nm -u "$archive" | awk '$1 == "U" { print $2 }' | sort -u | tr '\n' ' ')
[ "$needed" = "memcpy memset " ] || { echo "the archive needs ${needed:-nothing}, and docs/HOST.md says memcpy and memset" >&2; exit 1; }

build=$(mktemp -d)
trap 'rm -rf "$build"' EXIT
"${CC:-cc}" -std=c11 -Wall -Wextra -Werror -O2 -I "$root/include" "$here/example.c" "$archive" -o "$build/example"
status=0
"$build/example" > "$build/printed" || status=$?
cat "$build/printed"
[ "$status" -eq 0 ] || { echo "example ended with status $status" >&2; exit 1; }
diff -u "$here/example.expected" "$build/printed" >&2 || { echo "example printed something else than example.expected" >&2; exit 1; }
