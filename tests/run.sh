#!/usr/bin/env bash
# All tests: whether the mutants of tests/mutants can still be made, docs/THEOREM.md quotes what is there and all that its theorem
# needs, which is short, and tells how large the trusted crates are, pages have the figures that were measured, and are short and
# spelled right, what is promised is said by the upper floor of specs/ alone, docs/ARCHITECTURE.md lacks no file where a change
# goes, and the scripts pass shellcheck and ruff; the proofs of the programs; the gate (the proofs of the tests and what else
# isn't kept, the mutants, the crates' tests and the programs' stored runs); whether each mutant was refused by the clause that it
# names; then the programs as users run them, on worked rows, whole and in pieces, and on many proofs at once, pictures of runs,
# their manual pages, how they are installed, what they tell on a terminal, counts of allocations, runs in which each allocation
# is refused, long inputs in little memory, and instructions on inputs that were made to be dear. At the end stands what each part
# took. The last line is "N passed, M failed" over all.
#
# RT names the command rt, where it isn't on the PATH.
set -uo pipefail
cd "$(dirname "$0")/.." || exit 1

passed=0 failed=0 taken=""
log=$(mktemp) gate=$(mktemp) times=$(mktemp)
trap 'rm -f "$log" "$gate" "$times"' EXIT
TIMEFORMAT="%0R %0U %0S"

# part NAME COMMAND..: runs it, and notes the seconds that it took, by the clock and of processors.
part() {
    local name=$1 ended wall user system
    shift
    echo "== $name"
    { time "$@" 2>&1; } 2> "$times" | tee "$log"
    ended=${PIPESTATUS[0]}
    read -r wall user system < <(tail -n 1 "$times")
    taken+=$(printf '%-22s %7d s %7d s' "$name" "$wall" "$((user + system))")$'\n'
    return "$ended"
}

# count STATUS: adds the last line of $log. A part that gave no such line, or ended wrong without a failure, is one failure.
count() {
    local last
    last=$(tail -n 1 "$log")
    if [[ $last =~ ^([0-9]+)\ passed,\ ([0-9]+)\ failed$ ]]; then
        passed=$((passed + BASH_REMATCH[1]))
        failed=$((failed + BASH_REMATCH[2]))
        if [ "$1" -ne 0 ] && [ "${BASH_REMATCH[2]}" -eq 0 ]; then
            failed=$((failed + 1))
        fi
    else
        failed=$((failed + 1))
    fi
}

for script in tests/mutants_apply.py tests/quotes.py tests/closure.py tests/trusted.py tests/figures.py tests/words.py tests/floors.py tests/places.py tests/lint.sh; do
    part "$script" "$script"
    count $?
done

# Whether the gate proves only what earlier runs have not, as some kits do.
keeps_proofs() {
    local said
    said=$("${RT:-rt}" --help 2>&1 | sed -n '/^ *rt ci /,/^ *rt must-fail /p')
    [[ $said != *"from nothing"* ]]
}

# The programs first: then the proofs of the tests have the mutants beside them. The gate counts all again, so here nothing counts
# but a failure.
if keeps_proofs; then
    part tests/prove.py tests/prove.py drat_forward lrat_check model_check bench_lookups test_allocations test_scan || failed=$((failed + 1))
fi

part "rt ci" "${RT:-rt}" ci
ended=$?
count "$ended"
cp "$log" "$gate"

part tests/refused_by.py tests/refused_by.py "$gate"
count $?

# The gate leaves the programs that it proved and built. Where it did not come so far, nothing else is tested in their place.
export LRAT_CHECK=crates/lrat_check/out/lrat_check
export DRAT_FORWARD=crates/drat_forward/out/drat_forward
export MODEL_CHECK=crates/model_check/out/model_check
export TEST_SCAN=crates/test_scan/out/test_scan
if [ "$ended" -eq 0 ] && [ -x "$LRAT_CHECK" ] && [ -x "$DRAT_FORWARD" ] && [ -x "$MODEL_CHECK" ]; then
    mkdir -p bin
    cp "$LRAT_CHECK" bin/lrat-check
    cp "$DRAT_FORWARD" bin/drat-forward
    cp "$MODEL_CHECK" bin/model-check
fi

for script in tests/programs.sh examples/worked.py tests/rows.py tests/check_all.py tests/check_all_many.py tests/plot.sh tests/manual.sh tests/completions.sh packaging/test-install.sh tests/terminal.py tests/allocations.py tests/refusals.py; do
    part "$script" "$script"
    count $?
done

for script in tests/pages.py tests/misuse.py; do
    part "$script" "$script"
    count $?
done

part tests/long.sh tests/long.sh 100000000
count $?

part bench/hostile.py bench/hostile.py --count
count $?

printf '\n%-22s %9s %9s\n%s\n' part clock processor "$taken"
echo "$passed passed, $failed failed"
[ "$failed" -eq 0 ]
