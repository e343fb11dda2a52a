#!/usr/bin/env bash
# Tries the mutants of tests/mutants, wrong bodies beside those that the gate tries: the prover has to refuse each, and by the clause
# that the mutant names. By hand, with make test-mutants, when a contract or a definition of a crate changes. It takes long, for some
# mutants a minute each. The last line is "N passed, M failed".
#
#   tests/mutants.sh [CRATE..]        the mutants of these crates, all where none is named
#
# It works on a copy, over what earlier checks kept in crates/*/out. The crates have to be proved as they are: of one that
# isn't, every mutant is refused. RT names the command rt, where it isn't on the PATH.
set -euo pipefail
cd "$(dirname "$0")/.."
root=$PWD

crates=("$@")
if [ $# -eq 0 ]; then
    for folder in tests/mutants/*/; do
        crates+=("$(basename "$folder")")
    done
fi
for crate in "${crates[@]}"; do
    if [ -z "$(compgen -G "tests/mutants/$crate/*.edit")" ]; then
        echo "usage: tests/mutants.sh [CRATE..]; there are no mutants of $crate in tests/mutants" >&2
        exit 6
    fi
done

room=$(mktemp -d)
trap 'rm -rf "$room"' EXIT
cp crates.txt HANDLES "$room"
cp -a --reflink=auto crates "$room"
for crate in "${crates[@]}"; do
    rm -rf "$room/crates/$crate/must-fail"
    cp -r "tests/mutants/$crate" "$room/crates/$crate/must-fail"
done

log=$room/log ended=0
cd "$room"
"${RT:-rt}" must-fail "${crates[@]}" 2>&1 < /dev/null | tee "$log" || ended=$?

# what rt doesn't say to be refused has failed, also what it couldn't try
passed=0 failed=0
cd "$root/tests/mutants"
for crate in "${crates[@]}"; do
    for mutant in "$crate"/*.edit; do
        if grep -qF "rt: must-fail $mutant: refused, as it must be" "$log"; then
            passed=$((passed + 1))
        else
            echo "FAILED: $mutant was not refused"
            failed=$((failed + 1))
        fi
    done
done
if [ "$ended" -ne 0 ] && [ "$failed" -eq 0 ]; then
    failed=1
fi
said=$("$root/tests/refused_by.py" "$log" "$root/tests/mutants" | tee >(cat >&2) | tail -n 1) || failed=$((failed + 1))
echo "by the clause that they name: $said"
echo "$passed passed, $failed failed"
[ "$failed" -eq 0 ]
