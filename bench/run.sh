#!/usr/bin/env bash
# Measures bin/lrat-check and bin/drat-forward, each beside a plain C++ checker, and bin/model-check and the reading of
# formulas beside a C loop that splits words.
#
#   bench/run.sh            inputs of 50 to 60 MB, and DRAT proofs that take seconds
#   bench/run.sh small      inputs of about 2 MB, and short DRAT proofs, to see that it runs
#
# The inputs are made once, in bench/out/ (not committed). LRAT_CHECK, DRAT_FORWARD and MODEL_CHECK name other programs than
# those in bin/.
set -euo pipefail
cd "$(dirname "$0")/.."

case "${1:-large}" in
    large) size=large bytes=55000000 holes=40 variables=100000 steps=450000 drat_holes=20 leap_steps=400000 units=10000 ;;
    small) size=small bytes=2000000 holes=18 variables=10000 steps=18000 drat_holes=10 leap_steps=20000 units=2000 ;;
    *) echo "usage: bench/run.sh [large|small]" >&2; exit 6 ;;
esac

checker=${LRAT_CHECK:-bin/lrat-check}
drat_checker=${DRAT_FORWARD:-bin/drat-forward}
model_checker=${MODEL_CHECK:-bin/model-check}
for program in "$checker" "$drat_checker" "$model_checker"; do
    [ -x "$program" ] || { echo "bench/run.sh: there is no $program: run make" >&2; exit 1; }
done

out=bench/out
mkdir -p "$out/$size"
for name in reference reference_drat; do
    c++ -O2 -std=c++17 -Wall -Wextra -o "$out/$name" "bench/$name.cpp"
done
cc -O2 -o "$out/words" bench/words.c
c++ -O2 -std=c++17 -o "$out/lookups" bench/lookups.cpp
cc -O2 -o "$out/measure" bench/measure.c

# make_once FILE COMMAND..: runs the command where the file isn't there yet
make_once() {
    local file=$1
    shift
    if [ ! -f "$file.made" ]; then
        echo "making $file" >&2
        "$@"
        touch "$file.made"
    fi
}

in=$out/$size
make_once "$in/pigeonhole.lrat" python3 examples/pigeonhole.py "$holes" "$in/pigeonhole.cnf" "$in/pigeonhole.lrat"
make_once "$in/chain.lrat" python3 bench/generate.py chain "$variables" 10 "$steps" "$in/chain.cnf" "$in/chain.lrat"
make_once "$in/drat-pigeonhole.lrat" python3 examples/pigeonhole.py "$drat_holes" "$in/drat-pigeonhole.cnf" "$in/drat-pigeonhole.lrat"
make_once "$in/drat-pigeonhole.drat" python3 bench/generate.py drat "$in/drat-pigeonhole.cnf" "$in/drat-pigeonhole.lrat" "$in/drat-pigeonhole.drat"
make_once "$in/drat-leaps.drat" python3 bench/generate.py leaps 2000 10 "$leap_steps" "$in/drat-leaps.cnf" "$in/drat-leaps.drat"
make_once "$in/drat-units.drat" python3 bench/generate.py units "$units" "$in/drat-units.cnf" "$in/drat-units.drat"
make_once "$in/formula.cnf" python3 bench/generate.py formula "$bytes" "$in/formula.cnf"
make_once "$in/literals.cnf" python3 bench/generate.py literals "$bytes" "$in/literals.cnf"
make_once "$in/model.cnf" python3 bench/generate.py model "$bytes" "$in/model.cnf" "$in/model.out"

failed=0
measure() { "$out/measure" "$@" || failed=1; }

printf '%-42s %11s %14s %12s\n' "" "seconds" "read" "peak memory"
for name in pigeonhole chain; do
    cnf=$in/$name.cnf lrat=$in/$name.lrat
    measure "$name proof, lrat-check" 0 "$cnf" "$lrat" -- "$checker" "$cnf" "$lrat"
    measure "$name proof, reference.cpp" 0 "$cnf" "$lrat" -- "$out/reference" "$cnf" "$lrat"
done
# the formula is read whole and kept, and then the proof is empty
measure "formula read and kept, lrat-check" 1 "$in/formula.cnf" -- "$checker" "$in/formula.cnf" /dev/null
measure "formula read and kept, reference.cpp" 1 "$in/formula.cnf" -- "$out/reference" "$in/formula.cnf" /dev/null
# one clause that never ends: it is read and judged, and no clause is kept
measure "literals read, lrat-check" 2 "$in/literals.cnf" -- "$checker" "$in/literals.cnf" /dev/null
measure "literals read, reference.cpp" 2 "$in/literals.cnf" -- "$out/reference" "$in/literals.cnf" /dev/null
measure "literals split into words, words.c" 0 "$in/literals.cnf" -- "$out/words" "$in/literals.cnf"
# each program propagates by two watched literals, and keeps what follows from the unit clauses
for name in leaps pigeonhole units; do
    cnf=$in/drat-$name.cnf drat=$in/drat-$name.drat
    measure "$name in DRAT, drat-forward" 0 "$cnf" "$drat" -- "$drat_checker" "$cnf" "$drat"
    measure "$name in DRAT, reference_drat.cpp" 0 "$cnf" "$drat" -- "$out/reference_drat" "$cnf" "$drat"
done
# the output is read and kept, the formula is judged, and no clause is kept
measure "model checked, model-check" 0 "$in/model.out" "$in/model.cnf" -- "$model_checker" "$in/model.cnf" "$in/model.out"
measure "its formula split into words, words.c" 0 "$in/model.cnf" -- "$out/words" "$in/model.cnf"

# The first line of a pair fills a million entries, the second also looks up ten million times: their difference is the look-ups.
lookups=${LOOKUPS:-crates/bench_lookups/out/bench_lookups}
if [ -x "$lookups" ]; then
    for row in "ids $lookups" "ids $out/lookups" "ids-array $out/lookups" "trail $lookups" "trail $out/lookups" "trail-array $out/lookups" "store $lookups" "store $out/lookups"; do
        read -r what program <<<"$row"
        kind=lookups.cpp
        [ "$program" = "$lookups" ] && kind=bench_lookups
        for times in 0 10000000; do
            measure "$what, $times look-ups, $kind" 0 -- "$program" "$what" "$times"
        done
    done
fi
exit "$failed"
