#!/usr/bin/env bash
# Tries wrong programs in a copy of the repository: the must-fail edits of the gate, and the further ones below this folder, in the same format. The prover has
# to refuse each. Prints what each does and where it is first refused, in the words of rt, which cuts them after 160 characters. Fails if one is still proved,
# cannot be made or compiled, or is refused only because a proof file names what it took away.
#   run.sh [CRATE..]    the crates whose edits are tried; else every crate that has some
set -euo pipefail
here=$(cd "$(dirname "$0")" && pwd)
root=$(cd "$here/../.." && pwd)
copy=$(mktemp -d)
trap 'rm -rf "$copy"' EXIT

cd "$copy"
tar -C "$root" --exclude=out -cf as-it-stands.tar crates crates.txt
tar -xf as-it-stands.tar
crates=()
for crate in $(sed -n 's/^\([a-z][a-z0-9_]*\)[^#:]*:.*/\1/p' crates.txt); do
    [[ $# = 0 || " $* " = *" $crate "* ]] || continue
    mkdir -p "crates/$crate/must-fail"
    for edit in "$here/$crate"/*.edit; do
        [ -e "$edit" ] || continue
        [ ! -e "crates/$crate/must-fail/${edit##*/}" ] || { echo "$crate has two edits ${edit##*/}" >&2; exit 1; }
        cp "$edit" "crates/$crate/must-fail"
    done
    [ -z "$(ls "crates/$crate/must-fail")" ] || crates+=("$crate")
done

for crate in "${crates[@]}"; do
    echo "proving $crate" >&2
    (cd "crates/$crate" && rt check) > log 2>&1 || { tail -n 20 log >&2; exit 1; }
done
echo "trying the edits" >&2
rt must-fail "${crates[@]}" > log 2>&1 || true

# Whether a proof file names what an edit took away. rt passes over such errors, so where it speaks of a goal that is left open and of no error the edited crate
# is checked once more, and all that is said is read.
unfit='has no `|has no field|not in scope|was not admitted|can be named'
is_unfit() { # the crate and the edit
    local line path='' old='' new text is_proved=no
    while IFS= read -r line; do
        case $line in
            'file: '*) path=crates/$1/${line#file: } ;;
            'old: '*) old=${line#old: } ;;
            'new:'*)
                new=${line#new:} text=$(cat "$path" && echo .)
                text=${text/"$old"/"${new# }"}
                printf %s "${text%.}" > "$path"
                ;;
        esac
    done < "$2"
    (cd "crates/$1" && rt check) > again 2>&1 && is_proved=yes
    tar -xf as-it-stands.tar "crates/$1"
    [ $is_proved = yes ] || grep -qE "$unfit" again
}

said='^refused, as it must be: (note: )?(\./)?([^:]+:[0-9]+):[0-9]+: (.*)$'
tried=0 failed=0
echo '| crate | wrong program | what it does | first refused at | why |'
echo '|---|---|---|---|---|'
for crate in "${crates[@]}"; do
    for edit in "crates/$crate/must-fail"/*.edit; do
        label=$(basename "$edit" .edit)
        line=$(sed -n "s|^rt: must-fail $crate/$label.edit: ||p" log | head -n 1)
        good=no
        if [[ $line =~ $said ]]; then
            is_note=${BASH_REMATCH[1]} where=${BASH_REMATCH[3]} why=${BASH_REMATCH[4]#error: }
            if [[ ! $why =~ $unfit ]] && { [ -z "$is_note" ] || ! is_unfit "$crate" "$edit"; }; then good=yes; fi
        fi
        tried=$((tried + 1))
        [ $good = yes ] || { failed=$((failed + 1)) where='**not refused for a fact**' why=${line:-rt says nothing of it}; }
        echo "| $crate | $label | $(sed -n '1s/^# *//p' "$edit") | $where | ${why//|/\\|} |"
    done
done
echo
echo "$tried wrong programs: $((tried - failed)) refused for a fact that no longer holds, $failed not"
[ "$failed" = 0 ]
