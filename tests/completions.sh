#!/usr/bin/env bash
# Compares the completions of each shell with the options that the programs' help lists, and has each shell that is installed read
# its own. The last line is "N passed, M failed".
#
# LRAT_CHECK, DRAT_FORWARD and MODEL_CHECK name the programs; they are those in bin/ otherwise.
set -uo pipefail
cd "$(dirname "$0")/.." || exit 1

passed=0 failed=0
room=$(mktemp -d)
trap 'rm -rf "$room"' EXIT
here=packaging/completions

# same NAME: compares $room/wanted with $room/found; nothing wanted is a failure too
same() {
    if [ -s "$room/wanted" ] && diff <(sort "$room/wanted") <(sort "$room/found") > "$room/diff"; then
        passed=$((passed + 1))
    else
        echo "FAILED: $1 (wanted, found):"
        cat "$room/diff"
        failed=$((failed + 1))
    fi
}

# of_bash PROGRAM: what bash offers after `--`, by the function itself
of_bash() {
    bash -c ". $here/gazhumbe.bash; COMP_WORDS=($1 --) COMP_CWORD=1; _gazhumbe /usr/bin/$1; printf '%s\n' \"\${COMPREPLY[@]}\""
}

# of_program PROGRAM COMMAND
of_program() {
    "$2" --help 2>&1 | grep -oE -e '--[a-z-]+ .*' | sed -E 's/ +/ /' > "$room/help"
    cut -d ' ' -f 1 "$room/help" > "$room/wanted"
    of_bash "$1" > "$room/found"
    same "bash, $1"
    sed -E "s/^--([a-z-]+) (.*)/\1 '\2'/" "$room/help" > "$room/wanted"
    sed -nE "s/^complete -c $1 (-s [a-zA-Z] )?-l ([a-z-]+) -d (.*)/\2 \3/p" $here/"$1".fish > "$room/found"
    same "fish, $1"
    sed -E 's/^--([a-z-]+) (.*)/--\1[\2]/' "$room/help" > "$room/wanted"
    {
        sed -n "/^    $1)/,/;;/p" $here/_gazhumbe
        sed -n '/^options=(/,/^)/p' $here/_gazhumbe | sed "s/{-.,--\([a-z]*\)}'/'--\1/"
    } | grep -oE -e "--[a-z-]+\[[^]]*\]" > "$room/found"
    same "zsh, $1"
}

# reads SHELL FILE..: the shell finds no fault in them
reads() {
    if ! command -v "$1" > "$room/out"; then
        echo "left out: $1 is not installed"
    elif "$1" -n "${@:2}"; then
        passed=$((passed + 1))
    else
        echo "FAILED: $1 doesn't read ${*:2}"
        failed=$((failed + 1))
    fi
}

of_program drat-forward "${DRAT_FORWARD:-bin/drat-forward}"
of_program lrat-check "${LRAT_CHECK:-bin/lrat-check}"
of_program model-check "${MODEL_CHECK:-bin/model-check}"
reads bash $here/gazhumbe.bash
reads zsh $here/_gazhumbe
reads fish $here/*.fish

echo "$passed passed, $failed failed"
[ "$failed" -eq 0 ]
