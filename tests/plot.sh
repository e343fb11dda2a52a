#!/usr/bin/env bash
# Tries examples/plot.py on runs of each form, and on inputs that don't belong together: what is wrong is said in one line. A
# stub takes the place of gnuplot, and keeps what it would draw; where gnuplot is installed, it draws each run too. The last
# line is "N passed, M failed".
#
# LRAT_CHECK and DRAT_FORWARD name the programs; they are those in bin/ otherwise.
set -uo pipefail
cd "$(dirname "$0")/.." || exit 1

lrat_check=$(realpath "${LRAT_CHECK:-bin/lrat-check}")
drat_forward=$(realpath "${DRAT_FORWARD:-bin/drat-forward}")
# the program itself, which needs no PATH
python=$(python3 -c 'import sys; print(sys.executable)')
plot=$PWD/examples/plot.py
passed=0 failed=0
room=$(mktemp -d)
trap 'rm -rf "$room"' EXIT
cd examples || exit 1

mkdir "$room/bin" "$room/none"
printf '#!/bin/sh\nexec cat > "%s"\n' "$room/drawn" > "$room/bin/gnuplot"
chmod +x "$room/bin/gnuplot"

fail() {
    echo "FAILED: $1"
    cat "$room/err"
    failed=$((failed + 1))
}

# draws NAME LAST CHECKER OPTION.. -- FORMULA PROOF OPTION..: plot.py, with the options that stand last, draws a run of the
# checker. After its last step so many literals are alive, and so many steps of each kind were there.
draws() {
    local name=$1 last=$2 checker=$3 options=()
    shift 3
    while [ "$1" != -- ]; do options+=("$1"); shift; done
    local files=("$2" "$3")
    shift 3
    "$checker" --trace "${options[@]}" "${files[@]}" > "$room/trace" 2> /dev/null
    if PATH=$room/bin:$PATH "$python" "$plot" "$@" "${files[@]}" "$room/run.svg" < "$room/trace" > "$room/out" 2> "$room/err" &&
        ! [ -s "$room/err" ] && [ "$(sed -n '/^\$rows/,/^END/p' "$room/drawn" | tail -n 2 | head -n 1)" = "$last" ]; then
        passed=$((passed + 1))
    else
        fail "$name"
        sed -n '/^\$rows/,/^END/p' "$room/drawn" | tail -n 2
    fi
    command -v gnuplot > /dev/null || return
    if "$python" "$plot" "$@" "${files[@]}" "$room/$name.png" < "$room/trace" > "$room/out" 2> "$room/err" &&
        ! [ -s "$room/err" ] && [ -s "$room/$name.png" ]; then
        passed=$((passed + 1))
    else
        fail "$name, by gnuplot"
    fi
}

# says NAME LINE OPTION.. FILE..: with the last run's trace plot.py ends with status 1 and this one line
says() {
    local name=$1 line=$2 ended
    shift 2
    PATH=${path:-$room/bin:$PATH} "$python" "$plot" "$@" < "${trace:-$room/trace}" > "$room/out" 2> "$room/err"
    ended=$?
    if [ "$ended" -eq 1 ] && [ "$(cat "$room/err")" = "$line" ]; then
        passed=$((passed + 1))
    else
        fail "$name: status $ended, and not 1 with: $line"
    fi
}

draws "an LRAT proof" "4849 4 2365 1320 0 1164 0" "$lrat_check" -- pigeonhole-10.cnf pigeonhole-10.lrat --lrat
draws "a step that is refused" "0 2 0 0 0 0 0" "$drat_forward" -- g.cnf neither_rup_nor_rat.drat
draws "a PR proof" "56 275 24 0 32 0 0" "$drat_forward" --pr -- pigeonhole-5.cnf pigeonhole-5-pr.drat --pr
picture=$room/run.svg
says "PR without --pr" "plot.py: the trace is of a run with --pr: plot.py needs that too" \
    pigeonhole-5.cnf pigeonhole-5-pr.drat "$picture"
draws "a binary proof" "242 402 161 0 0 81 0" "$drat_forward" --binary -- pigeonhole-5.cnf pigeonhole-5.bin --binary
draws "ignored deletions" "52 124 30 0 0 20 2" "$drat_forward" --keep-units -- kept_units.cnf kept_units.drat
draws "a DRAT proof" "242 402 161 0 0 81 0" "$drat_forward" -- pigeonhole-5.cnf pigeonhole-5.drat

# the last run's trace, with what isn't its own
says "another formula" "plot.py: the trace is not of this formula" e.cnf e.drat "$picture"
says "another proof" "plot.py: the trace is not of this proof" pigeonhole-5.cnf e.drat "$picture"
says "another form" "plot.py: the trace is not of this proof" --lrat pigeonhole-5.cnf pigeonhole-5.drat "$picture"
says "text as binary" "plot.py: the trace is not of this proof" --binary pigeonhole-5.cnf pigeonhole-5.drat "$picture"
printf 'a\2\0' > "$room/one.bin"
says "binary as text" "plot.py: $room/one.bin: no number: 'a\\x02\\x00'. A binary proof needs --binary" \
    pigeonhole-5.cnf "$room/one.bin" "$picture"
says "no formula" "plot.py: none.cnf: No such file or directory" none.cnf pigeonhole-5.drat "$picture"
says "no proof" "plot.py: none.drat: No such file or directory" pigeonhole-5.cnf none.drat "$picture"
says "no folder for the picture" "plot.py: $room/no/run.svg: No such file or directory" \
    pigeonhole-5.cnf pigeonhole-5.drat "$room/no/run.svg"
path=$room/none says "no gnuplot" "plot.py: there is no gnuplot; in Debian it is in the package gnuplot-nox" \
    pigeonhole-5.cnf pigeonhole-5.drat "$picture"
trace=/dev/null says "no trace" "plot.py: standard input has no trace of a formula without a fault" \
    pigeonhole-5.cnf pigeonhole-5.drat "$picture"
grep -v '^c [0-9]' "$room/trace" > "$room/report"
trace=$room/report says "a report without --trace" \
    "plot.py: the peak is 180 here, and 402 in the report: was there --trace?" \
    pigeonhole-5.cnf pigeonhole-5.drat "$picture"
for line in "pigeonhole-5.cnf pigeonhole-5.drat $room/run.pdf" "--lrat --pr a b c.svg" "--trace a b c.svg" "a c.svg"; do
    read -ra words <<< "$line"
    says "usage: $line" "usage: plot.py [--lrat | [--binary] [--pr]] FORMULA PROOF PICTURE.png|PICTURE.svg, with the trace on\
 standard input" "${words[@]}"
done

echo "$passed passed, $failed failed"
[ "$failed" -eq 0 ]
