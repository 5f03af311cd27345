#!/usr/bin/env bash
# Counts the instructions of a call on syllables and on a long text, in each archive that is named, so that two of them can be compared without a clock: the count is the same in
# every run. Valgrind's callgrind counts a program that makes the call 1,000 times and one that makes it 3,000 times; the difference divided by 2,000 stands here.
# It has the program's own choice of the call in it, the same for each archive.
#   run.sh ARCHIVE..    librobinflint.a of this commit, and of others
set -euo pipefail
here=$(cd "$(dirname "$0")" && pwd)
command -v valgrind > /dev/null || { apt-get update -qq && apt-get install -y -qq valgrind; } > /dev/null 2>&1
build=$(mktemp -d)
trap 'rm -rf "$build"' EXIT

programs=()
for archive in "$@"; do
    programs+=("$build/count${#programs[@]}")
    cc -std=c11 -Wall -Wextra -Werror -O2 -I "$here/../../include" "$here/count.c" "$archive" -o "${programs[-1]}"
done
counted() { # program, its arguments
    valgrind --tool=callgrind --callgrind-out-file=/dev/null "$@" 2>&1 | sed -n 's/.*refs: *//p' | tr -d ,
}
while IFS='|' read -r call text second; do
    label="\`$text\`"
    [ ${#text} -le 24 ] || label="\`${text:0:12}\`.., $(printf %s "$text" | wc -c) bytes"
    row="| $call $label${second:+ and \`$second\`} |"
    for program in "${programs[@]}"; do
        few=$(counted "$program" 1000 "$call" "$text" "$second")
        many=$(counted "$program" 3000 "$call" "$text" "$second")
        row+=" $(((many - few) / 2000)) |"
    done
    echo "$row"
done < "$here/rows"
