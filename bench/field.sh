#!/usr/bin/env bash
# Measures drat-forward and lrat-check beside DRAT-trim and the LRAT checker that comes with it, on proofs of CaDiCaL and
# Kissat:
#
#   bench/field.sh              proofs of 1 to 50 MB; a quarter of an hour
#   bench/field.sh KIND..       of these kinds of formulas alone (sums, order, ..)
#   bench/field.sh small        short proofs, to see that it runs
#   bench/field.sh large        tables of a formula of five million clauses and a proof of 1.2 GB; a quarter of an hour, 2.1 GB
#   bench/field.sh --markdown   tables as those of bench/TABLES.md; also with the words above
#   bench/field.sh --tools      only gets the tools, and prints the folder that has them
#
# Where acl2 is on the PATH, and has Debian's acl2-books, their verified LRAT checker runs too (bench/acl2_lrat.sh).
#
# The tools are those on the PATH, where all four are there. Otherwise Debian 13's are unpacked to bench/out/tools/ (not
# committed) by mmdebstrap, and not installed. bench/field.py makes formulas and proofs, and measures. DRAT_FORWARD and
# LRAT_CHECK name other programs than those in bin/.
set -euo pipefail
cd "$(dirname "$0")/.."

out=$PWD/bench/out
packages=(drat-trim cadical kissat)

# is_ready PATH: whether that path has a CaDiCaL that writes LRAT, Kissat, DRAT-trim and its checker, which is not ours
is_ready() (
    PATH=$1
    command -v kissat drat-trim > /dev/null || exit
    cadical --help 2> /dev/null | grep -e '--lrat' > /dev/null || exit
    lrat-check 2> /dev/null | grep 'FILE2.lrat' > /dev/null
)

# wrap NAME PROGRAM: a command for a program of the unpacked folder, by that folder's own C library
wrap() {
    local loader
    loader=$(echo "$out"/tools/debian/usr/lib/*/ld-linux*.so.*)
    {
        echo '#!/bin/sh'
        echo "exec '$loader' --library-path '${loader%/*}' '$out/tools/debian/usr/bin/$2' \"\$@\""
    } > "$out/tools/bin/$1"
    chmod +x "$out/tools/bin/$1"
}

unpack() {
    command -v mmdebstrap > /dev/null || { echo "field.sh: install ${packages[*]} or mmdebstrap" >&2; exit 1; }
    echo "unpacking Debian 13's ${packages[*]}" >&2
    rm -rf "$out/tools"
    mkdir -p "$out/tools/debian" "$out/tools/bin"
    mmdebstrap --quiet --variant=extract --include="$(IFS=,; echo "${packages[*]}")" trixie - |
        tar -x -C "$out/tools/debian" ./usr
    wrap cadical cadical
    wrap kissat kissat
    wrap drat-trim drat-trim
    wrap drat-trim-lrat-check lrat-check
    touch "$out/tools/made"
}

if is_ready "$PATH"; then
    CADICAL=$(command -v cadical) KISSAT=$(command -v kissat) DRAT_TRIM=$(command -v drat-trim)
    DRAT_TRIM_LRAT_CHECK=$(command -v lrat-check)
    documents=/usr/share/doc
else
    [ -f "$out/tools/made" ] || unpack
    bin=$out/tools/bin
    CADICAL=$bin/cadical KISSAT=$bin/kissat DRAT_TRIM=$bin/drat-trim DRAT_TRIM_LRAT_CHECK=$bin/drat-trim-lrat-check
    documents=$out/tools/debian/usr/share/doc
fi
if [ "${1:-}" = --tools ]; then
    dirname "$DRAT_TRIM"
    exit
fi

# DRAT-trim doesn't say its version; its package does
DRAT_TRIM_VERSION=$(zcat "$documents/drat-trim/changelog.Debian.gz" 2> /dev/null | sed -n '1s/.*(\(.*\)).*/\1/p' || true)

# the version of an ACL2 that has the verified checker
ACL2_VERSION=
if said=$(echo '(include-book "projects/sat/lrat/stobj-based/run" :dir :system)' | acl2 2> /dev/null) && [[ $said != *"ACL2 Error"* ]]; then
    ACL2_VERSION=$(sed -n 's/.*ACL2 Version \([0-9.]*\).*/\1/p' <<< "$said")
fi
export CADICAL KISSAT DRAT_TRIM DRAT_TRIM_LRAT_CHECK DRAT_TRIM_VERSION ACL2_VERSION
export DRAT_FORWARD=${DRAT_FORWARD:-$PWD/bin/drat-forward} LRAT_CHECK=${LRAT_CHECK:-$PWD/bin/lrat-check}
for program in "$DRAT_FORWARD" "$LRAT_CHECK"; do
    [ -x "$program" ] || { echo "field.sh: there is no $program: run make" >&2; exit 1; }
done

mkdir -p "$out"
for name in reference reference_drat; do
    c++ -O2 -std=c++17 -o "$out/$name" "bench/$name.cpp"
done
cc -O2 -o "$out/measure" bench/measure.c
exec python3 bench/field.py "$@"
