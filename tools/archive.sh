#!/bin/sh
# Proves the C functions of a crate and makes their archive, where the tests and the tools look for it.
#
#   archive.sh robinflint    target/staticlib/librobinflint.a, by the crate robinflint_c
#   archive.sh workbench     target/staticlib/libworkbench.a, by the crate workbench_c
set -eu
case ${1-} in
robinflint | workbench) name=$1 ;;
*) echo "usage: archive.sh robinflint|workbench" >&2; exit 2 ;;
esac
root=$(cd "$(dirname "$0")/.." && pwd)
made=$root/target/staticlib/lib$name.a

cd "$root/crates/${name}_c"
rt lib
# Renamed into its place, so that a build beside this one never links half an archive.
mkdir -p "$root/target/staticlib"
cp "out/lib${name}_c.a" "$made.new"
mv "$made.new" "$made"
