#!/bin/sh
# Builds the comparison and runs one of its commands.
#
#   run.sh SOURCES COMMAND [ARGUMENTS]
#
# SOURCES is the folder of the unchanged Rust sources (it holds ji/src and khiin/src).
# COMMAND is compare, vectors, normalization, replay or speed, or test for the
# comparison's own tests. From the environment:
#   CARGO_TARGET_DIR  where to build; else target/compare of the repository
#   ARCHIVES          the folder of the two archives; else target/staticlib
#   CODE_PAD          0, 16, 32 or 48: for speed, moves the code by so many bytes
#   STAND_IN=1        run without the archives, against the stand-in
set -eu
[ $# -ge 2 ] || { echo "usage: run.sh SOURCES COMMAND [ARGUMENTS]" >&2; exit 2; }
here=$(cd "$(dirname "$0")" && pwd)
root=$(cd "$here/../.." && pwd)
sources=$1
shift

mkdir -p "${CARGO_TARGET_DIR:-$root/target/compare}"
CARGO_TARGET_DIR=$(cd "${CARGO_TARGET_DIR:-$root/target/compare}" && pwd)
export CARGO_TARGET_DIR
ARCHIVES=${ARCHIVES:-$root/target/staticlib}
export ARCHIVES

"$here/reference.sh" "$sources" "$CARGO_TARGET_DIR/reference"
run_cargo() {
    action=$1
    shift
    cargo --config "$CARGO_TARGET_DIR/reference/config.toml" "$action" --quiet --release \
        --manifest-path "$here/Cargo.toml" "$@"
}

if [ "$1" = test ]
then
    run_cargo test --no-default-features
    exit
fi
if [ -n "${STAND_IN:-}" ]
then
    run_cargo build --no-default-features
else
    run_cargo build
fi
exec "$CARGO_TARGET_DIR/release/compare" "$@"
