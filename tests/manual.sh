#!/usr/bin/env bash
# Compares each manual page with its program: the page has every option that the program's help lists, and no other, and
# every status of docs/REPORT.md, and no other; its synopsis is the help's. Its version is that of the file VERSION, and the
# program shows the same. Where mandoc or groff is installed, it formats each
# page without a warning. The last line is "N passed, M failed".
#
# LRAT_CHECK, DRAT_FORWARD and MODEL_CHECK name the programs; they are those in bin/ otherwise.
set -uo pipefail
cd "$(dirname "$0")/.." || exit 1

passed=0 failed=0
room=$(mktemp -d)
trap 'rm -rf "$room"' EXIT

# same NAME: compares $room/wanted with $room/found; nothing wanted is a failure too
same() {
    if [ -s "$room/wanted" ] && diff "$room/wanted" "$room/found" > "$room/diff"; then
        passed=$((passed + 1))
    else
        echo "FAILED: $1 (wanted, found):"
        cat "$room/diff"
        failed=$((failed + 1))
    fi
}

# quiet NAME COMMAND..: the command writes nothing and ends with 0
quiet() {
    local name=$1
    shift
    if "$@" > "$room/out" 2>&1 && ! [ -s "$room/out" ]; then
        passed=$((passed + 1))
    else
        echo "FAILED: $name:"
        cat "$room/out"
        failed=$((failed + 1))
    fi
}

# section NAME PAGE: the lines of a section
section() {
    sed -n "/^\.Sh $1\$/,/^\.Sh /{/^\.Sh /!p}" "$2"
}

# of_program NAME PROGRAM
of_program() {
    local page=man/$1.1
    "$2" --help > "$room/out" 2> "$room/help"
    sed -n '/^Options:/,$p' "$room/help" > "$room/options"

    grep -oE '(^|[ ,])-{1,2}[A-Za-z][a-z-]*' "$room/options" | tr -d ' ,' | sort > "$room/wanted"
    section OPTIONS "$page" | sed -n 's/^\.It Fl //p' | sed 's/ , Fl /\n/g' | sed 's/^/-/' | sort > "$room/found"
    same "the options in $page"

    # the synopsis gives each option, and then the names that the usage gives
    grep -oE -e '--[a-z-]+' "$room/options" | grep -v -e '--help' -e '--version' | sed 's/.*/[&]/' > "$room/wanted"
    sed -n 's/^Usage: [^ ]* \(\[OPTIONS\] \)\?//p' "$room/help" | tr -d '<>' | tr ' ' '\n' >> "$room/wanted"
    section SYNOPSIS "$page" | sed '/^\.Fl h/,$d' > "$room/synopsis"
    sed -n 's/^\.Op Fl \(.*\)/[-\1]/p; s/^\.Ar //p; s/^\.Op Ar \(.*\)/[\1]/p' "$room/synopsis" > "$room/found"
    same "the synopsis in $page"

    sed -n '/^## Statuses/,/^## [^S]/s/^| \([0-9]*\) |.*/\1/p' docs/REPORT.md > "$room/wanted"
    section "EXIT STATUS" "$page" | sed -n 's/^\.It //p' > "$room/found"
    same "the statuses in $page"

    echo "Gazhumbe $(cat VERSION)" > "$room/wanted"
    sed -n 's/^\.Os //p' "$page" > "$room/found"
    same "the version in $page"

    echo "$1 $(cat VERSION)" > "$room/wanted"
    "$2" --version > "$room/out" 2> "$room/found"
    same "the version that $1 shows"

    if command -v mandoc > /dev/null; then
        quiet "mandoc on $page" mandoc -T lint -W warning "$page"
    fi
    if command -v groff > /dev/null; then
        quiet "groff on $page" groff -mandoc -ww -z -T utf8 "$page"
    fi
}

of_program drat-forward "${DRAT_FORWARD:-bin/drat-forward}"
of_program lrat-check "${LRAT_CHECK:-bin/lrat-check}"
of_program model-check "${MODEL_CHECK:-bin/model-check}"

echo "$passed passed, $failed failed"
[ "$failed" -eq 0 ]
