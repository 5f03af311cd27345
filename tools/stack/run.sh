#!/bin/sh
# Prints the bytes of stack that each call of the archive took.
#   ARCHIVES  the folder of librobinflint.a; else target/staticlib of the repository
set -eu
here=$(cd "$(dirname "$0")" && pwd)
root=$(cd "$here/../.." && pwd)
build=$(mktemp -d)
trap 'rm -rf "$build"' EXIT
cc -std=c11 -Wall -Wextra -Werror -O1 -I "$root/include" "$here/stack.c" "${ARCHIVES:-$root/target/staticlib}/librobinflint.a" -o "$build/stack"
"$build/stack"
