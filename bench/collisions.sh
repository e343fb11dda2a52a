#!/usr/bin/env bash
# Runs each program on inputs whose keys were chosen to collide where hashes can be foreseen, beside inputs that are like them,
# and prints the ratio of the times.
#
#   bench/collisions.sh
#
# It ends with status 1 where a ratio is 3 or more. The inputs are made once, in bench/out/collisions/ (not committed, about
# 50 MB). LRAT_CHECK, DRAT_FORWARD and MODEL_CHECK name other programs than those in bin/; a run is stopped after LIMIT
# seconds, 60 where it isn't set.
set -euo pipefail
cd "$(dirname "$0")/.."

lrat_checker=${LRAT_CHECK:-bin/lrat-check}
drat_checker=${DRAT_FORWARD:-bin/drat-forward}
model_checker=${MODEL_CHECK:-bin/model-check}
limit=${LIMIT:-60}
for program in "$lrat_checker" "$drat_checker" "$model_checker"; do
    [ -x "$program" ] || { echo "bench/collisions.sh: there is no $program: run make" >&2; exit 1; }
done

out=bench/out/collisions
mkdir -p "$out"
c++ -O2 -std=c++17 -Wall -Wextra -o "$out/collisions" bench/collisions.cpp
if [ ! -f "$out/made" ]; then
    printf 'p cnf 1 2\n1 0\n-1 0\n' > "$out/clauses.cnf"
    "$out/collisions" clauses "$out/clauses.drat" "$out/clauses-alike.drat"
    "$out/collisions" identifiers "$out/identifiers.cnf" "$out/identifiers.lrat" "$out/identifiers-alike.lrat"
    "$out/collisions" variables "$out/variables.cnf" "$out/variables-alike.cnf"
    "$out/collisions" model "$out/model.cnf" "$out/model.out" "$out/model-alike.cnf" "$out/model-alike.out"
    touch "$out/made"
fi

# seconds STATUS COMMAND..: the least time of three runs, each of which ends with this status
seconds() {
    local wanted=$1 least='' status start time
    shift
    for _ in 1 2 3; do
        status=0
        start=$(date +%s%N)
        timeout "$limit" "$@" > "$out/report" 2>&1 || status=$?
        time=$(($(date +%s%N) - start))
        if [ "$status" != "$wanted" ]; then
            echo "bench/collisions.sh: status $status and not $wanted: $*" >&2
            [ "$status" = 124 ] || exit 1
        fi
        if [ -z "$least" ] || [ "$time" -lt "$least" ]; then least=$time; fi
        [ "$status" != 124 ] || break
    done
    awk -v time="$least" 'BEGIN { printf "%.3f", time / 1e9 }'
}

failed=0

# compare LABEL STATUS PROGRAM FIRST SECOND FIRST2 SECOND2: the run on chosen keys, beside the one on others
compare() {
    local chosen others
    chosen=$(seconds "$2" "$3" "$4" "$5")
    others=$(seconds "$2" "$3" "$6" "$7")
    awk -v label="$1" -v chosen="$chosen" -v others="$others" 'BEGIN {
        ratio = chosen / others
        printf "%-42s %9.3f %9.3f %9.1f\n", label, chosen, others, ratio
        exit ratio >= 3
    }' || failed=1
}

printf '%-42s %9s %9s %9s\n' "" "chosen" "others" "ratio"
compare "clauses, drat-forward" 0 "$drat_checker" "$out/clauses.cnf" "$out/clauses.drat" "$out/clauses.cnf" "$out/clauses-alike.drat"
compare "identifiers, lrat-check" 0 "$lrat_checker" "$out/identifiers.cnf" "$out/identifiers.lrat" "$out/identifiers.cnf" "$out/identifiers-alike.lrat"
for checker in "$lrat_checker" "$drat_checker"; do
    compare "far variables, $(basename "$checker")" 1 "$checker" "$out/variables.cnf" /dev/null "$out/variables-alike.cnf" /dev/null
done
compare "a model of far variables, model-check" 0 "$model_checker" "$out/model.cnf" "$out/model.out" "$out/model-alike.cnf" "$out/model-alike.out"
exit "$failed"
