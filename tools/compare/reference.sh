#!/bin/sh
# Makes the crates khiin_ji and khiin in DEST out of the Rust sources as they stand.
#
#   reference.sh SOURCES DEST
#
# SOURCES is the folder that holds ji/src and khiin/src. Its files are linked to,
# not copied; ours are only the roots of the two crates and the stubs for what
# their files name of the rest, all in the folder reference.
# DEST/config.toml tells cargo to take every crate from Debian's folder of
# crates and these two from DEST, so nothing is fetched while it builds.
set -eu
[ $# -eq 2 ] || { echo "usage: reference.sh SOURCES DEST" >&2; exit 2; }
here=$(cd "$(dirname "$0")" && pwd)
sources=$(cd "$1" && pwd)
mkdir -p "$2"
dest=$(cd "$2" && pwd)
registry=${REGISTRY:-/usr/share/cargo/registry}

missing=
for package in librust-unicode-normalization-dev librust-regex-dev \
    librust-regex+default-dev librust-once-cell-dev librust-lazy-static-dev \
    librust-itertools-dev librust-anyhow-dev librust-log-dev
do
    dpkg-query -W -f '${Status}' "$package" 2>/dev/null | grep -q 'ok installed' ||
        missing="$missing $package"
done
# A new machine has no lists of packages yet.
# shellcheck disable=SC2086
[ -z "$missing" ] || { apt-get update && apt-get install -y $missing; } >&2

# Links one file of the Rust's folder $1 at its own path.
link() {
    [ -f "$sources/$1/src/$2.rs" ] || { echo "no $sources/$1/src/$2.rs" >&2; exit 2; }
    mkdir -p "$(dirname "$dest/$1/src/$2.rs")"
    ln -sfn "$sources/$1/src/$2.rs" "$dest/$1/src/$2.rs"
}

for name in lomaji macros tone unicode
do
    link ji "$name"
done
ln -sfn "$here/reference/ji.rs" "$dest/ji/src/lib.rs"

for name in config/conf db/models/key_sequence input/converter input/syllable
do
    link khiin "$name"
done
ln -sfn "$here/reference/khiin.rs" "$dest/khiin/src/lib.rs"
ln -sfn "$here/reference/stubs.rs" "$dest/khiin/src/stubs.rs"

cat > "$dest/ji/Cargo.toml" <<END
[package]
name = "khiin_ji"
version = "0.1.0"
edition = "2021"
publish = false

[dependencies]
lazy_static = "1"
once_cell = "1"
regex = "1"
unicode-normalization = "0.1"
END

cat > "$dest/khiin/Cargo.toml" <<END
[package]
name = "khiin"
version = "0.1.0"
edition = "2021"
publish = false

[dependencies]
anyhow = "1"
itertools = "0.10"
khiin_ji = "0.1"
log = "0.4"
regex = "1"
unicode-normalization = "0.1"
END

cat > "$dest/config.toml" <<END
[source.crates-io]
replace-with = "debian"

[source.debian]
directory = "$registry"

[patch.crates-io]
khiin_ji = { path = "$dest/ji" }
khiin = { path = "$dest/khiin" }

[net]
offline = true
END
