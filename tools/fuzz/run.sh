#!/bin/sh
# Builds the fuzzer and runs it.
#
#   run.sh SOURCES [SECONDS]       fuzzes the archive, 3,600 seconds if not said, and prints a record
#   run.sh SOURCES replay FILE...  gives kept inputs to the archive again, and prints the calls
#   run.sh SOURCES selftest        fuzzes the archive with one known fault after another; status 1 if one is not found
#
# SOURCES is the folder of the unchanged Rust sources (it holds ji/src and khiin/src). From the environment:
#   CARGO_TARGET_DIR  where to build; else target/fuzz of the repository
#   ARCHIVES          the folder of librobinflint.a; else target/staticlib
#   CLANG             the compiler; else clang-14, which is installed where it is missing
set -eu
[ $# -ge 1 ] || { echo "usage: run.sh SOURCES [SECONDS | replay FILE... | selftest]" >&2; exit 2; }
here=$(cd "$(dirname "$0")" && pwd)
root=$(cd "$here/../.." && pwd)
sources=$1
shift

mkdir -p "${CARGO_TARGET_DIR:-$root/target/fuzz}"
CARGO_TARGET_DIR=$(cd "${CARGO_TARGET_DIR:-$root/target/fuzz}" && pwd)
export CARGO_TARGET_DIR
built=$CARGO_TARGET_DIR/built
archive=${ARCHIVES:-$root/target/staticlib}/librobinflint.a
[ -f "$archive" ] || { echo "no $archive: run 'tools/archive.sh robinflint', or set ARCHIVES" >&2; exit 2; }

# Debian's packages: the compiler with libFuzzer and AddressSanitizer, the linker, python3.
install_packages() {
    missing=
    for package in ${CLANG:-clang-14 libclang-rt-14-dev llvm-14} binutils python3
    do
        [ "$package" = "${CLANG:-}" ] || dpkg-query -W -f '${Status}' "$package" 2>/dev/null | grep -q 'ok installed' ||
            missing="$missing $package"
    done
    # shellcheck disable=SC2086
    [ -z "$missing" ] || { apt-get update && apt-get install -y $missing; } >&2
}

# The Rust. Only the last crate, which holds the hand-tuned version, is built with coverage. Its use of the C library is led to plain.c.
build_rust() {
    "$root/tools/compare/reference.sh" "$sources" "$CARGO_TARGET_DIR/reference"
    cargo rustc --config "$CARGO_TARGET_DIR/reference/config.toml" --quiet --release --lib --manifest-path "$here/Cargo.toml" -- \
        -Cpasses=sancov-module -Cllvm-args=-sanitizer-coverage-level=3 -Cllvm-args=-sanitizer-coverage-inline-8bit-counters \
        -Cllvm-args=-sanitizer-coverage-pc-table -Cllvm-args=-sanitizer-coverage-trace-compares
    names=
    for name in memcmp bcmp memcpy memmove memset
    do
        names="$names --redefine-sym $name=plain_$name"
    done
    # shellcheck disable=SC2086
    objcopy $names "$CARGO_TARGET_DIR/release/libexpected.a" "$built/libexpected.a"
    "${CLANG:-clang-14}" -std=c11 -g -O2 -Wall -Wextra -Werror -c "$here/plain.c" -o "$built/plain.c.o"
}

# The archive as one object, its code in a section of its own, whose begin and end blocks.c then knows; and the list of its blocks.
build_archive() {
    echo 'SECTIONS { rf_code : { *(.text .text.*) } }' > "$built/archive.ld"
    ld -r -T "$built/archive.ld" --whole-archive "$archive" -o "$built/archive.o"
    objdump -d -w -j rf_code "$built/archive.o" | python3 "$here/blocks.py" > "$built/blocks.txt"
}

compile() {
    "${CLANG:-clang-14}" -std=c11 -g -O1 -Wall -Wextra -Werror -fsanitize=fuzzer,address -I "$root/include" "$@"
}

# The program $1, with whatever else is to be compiled and linked.
link() {
    program=$1
    shift
    compile "$@" "$built"/*.c.o "$built/archive.o" "$built/libexpected.a" -lm -lgcc_s -o "$program"
}

build() {
    install_packages
    rm -rf "$built"
    mkdir -p "$built"
    build_rust
    build_archive
    for file in fuzz input pages report tally blocks
    do
        compile -c "$here/$file.c" -o "$built/$file.c.o"
    done
    link "$built/fuzz"
    python3 "$here/seeds.py" "$root/crates/replay/stdin" "$built/seeds"
}

# Runs the program $1 for $2 seconds. What it finds is kept in the folder $3, what it learns in $4.
search() {
    mkdir -p "$3" "$4"
    FUZZ_BLOCKS=$built/blocks.txt "$1" -max_total_time="$2" -max_len=1400 -len_control=100 -timeout=60 -rss_limit_mb=2048 -detect_leaks=0 \
        -print_final_stats=1 -dict="$here/words.dict" -artifact_prefix="$3/" "$4" "$built/seeds"
}

# A number of the log's last lines.
logged() {
    sed -n "s/^.*$1 *\\([0-9][0-9.]*[^ ]*\\).*\$/\\1/p" "$CARGO_TARGET_DIR/log.txt" | tail -n 1
}

record() {
    echo "libFuzzer on the eight calls of librobinflint.a, against the unchanged Rust: $1 seconds, one process"
    echo "sha256 of the archive: $(sha256sum < "$archive" | cut -d ' ' -f 1)"
    echo
    cat "$CARGO_TARGET_DIR/counts.txt"
    echo "branches of the hand-tuned Rust and of the fuzzer that were reached: $(logged ' cov:') of $(logged 'inline 8-bit counters):')"
    echo "executions: $(logged number_of_executed_units:), $(logged average_exec_per_sec:) a second"
    echo "inputs kept: $(logged ' corp:'), features $(logged ' ft:'); largest memory $(logged peak_rss_mb:) MB"
    echo "findings: $(find "$CARGO_TARGET_DIR/findings" -type f | wc -l)"
}

fuzz() {
    [ -z "$(ls "$CARGO_TARGET_DIR/findings" 2>/dev/null)" ] || { echo "there are findings of an earlier run in $CARGO_TARGET_DIR/findings" >&2; exit 2; }
    echo "fuzzing for $1 seconds; the log is $CARGO_TARGET_DIR/log.txt" >&2
    status=0
    begin=$(date +%s)
    search "$built/fuzz" "$1" "$CARGO_TARGET_DIR/findings" "$CARGO_TARGET_DIR/corpus" \
        > "$CARGO_TARGET_DIR/counts.txt" 2> "$CARGO_TARGET_DIR/log.txt" || status=1
    grep -a -A 12 '^FOUND' "$CARGO_TARGET_DIR/log.txt" >&2 || true
    record $(($(date +%s) - begin))
    return $status
}

# Fuzzes with one fault: its number, the call, what the report must say.
try_fault() {
    folder=$built/fault-$1
    mkdir -p "$folder"
    link "$folder/fuzz" -DFAULT="$1" "$here/faults.c" "-Wl,--wrap=rf_$2"
    begin=$(date +%s)
    if search "$folder/fuzz" 60 "$folder/findings" "$folder/corpus" > "$folder/counts.txt" 2> "$folder/log.txt"
    then
        echo "fault $1 in $2: NOT FOUND"
        return 1
    fi
    said=$(grep -a -m 1 '^FOUND' "$folder/log.txt") || said=
    echo "fault $1 in $2: $said; $(($(date +%s) - begin)) s"
    case $said in *"$3"*) return 0 ;; esac
    echo "  the report should say: $3; see $folder/log.txt"
    return 1
}

selftest() {
    wrong=0
    while read -r number call said
    do
        try_fault "$number" "$call" "$said" < /dev/null || wrong=$((wrong + 1))
    done <<END
1 strip a byte behind the output has changed
2 from_raw FOUND
3 tone_letter a fault
4 align a fault
5 strip the reply is another
6 candidate a byte has changed on a refusal
7 keying the reply is another
8 keying the reply is another
9 compose the reply is another
10 telex a fault
END
    echo "faults that were not found: $wrong"
    [ $wrong -eq 0 ]
}

build
case ${1:-3600} in
selftest) selftest ;;
replay)
    shift
    FUZZ_SHOW=1 "$built/fuzz" "$@"
    ;;
*) fuzz "${1:-3600}" ;;
esac
