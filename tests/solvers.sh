#!/usr/bin/env bash
# Runs real SAT solvers as README shows, and the checkers on what these wrote; and, by tests/drat_trim.py, ours beside
# DRAT-trim's. By hand, with make test-solvers: the gate needs no solver. A solver that isn't installed is skipped, and said. The
# last line is "N passed, M failed".
#
# Debian 12: apt-get install cadical cryptominisat picosat minisat clasp sat4j z3 berkeley-abc gdb
# Debian 13: kissat and drat-trim too, and its cadical writes LRAT
#
# SOLVERS names a folder whose programs are taken before those of the PATH: bench/field.sh --tools prints one that has
# Debian 13's CaDiCaL, Kissat and DRAT-trim.
#
# Each command is taken only if README has it, so that README shows nothing that was not run; but Glucose's proofs are made by
# examples/make-glucose-proof.sh. DRAT_FORWARD, LRAT_CHECK and MODEL_CHECK name the programs; they are those in bin/ otherwise.
set -uo pipefail
cd "$(dirname "$0")/.." || exit 1
root=$PWD

passed=0 failed=0
room=$(mktemp -d)
trap 'rm -rf "$room"' EXIT

mkdir "$room/bin"
for program in drat-forward lrat-check model-check; do
    variable=${program^^}
    variable=${variable//-/_}
    path=$(realpath -m "${!variable:-bin/$program}")
    if [ ! -x "$path" ]; then
        echo "FAILED: there is no program $path"
        echo "0 passed, 1 failed"
        exit 1
    fi
    ln -s "$path" "$room/bin/$program"
done
if [ -n "${SOLVERS:-}" ]; then
    if ! [ -d "$SOLVERS" ]; then
        echo "FAILED: there is no folder $SOLVERS"
        echo "0 passed, 1 failed"
        exit 1
    fi
    SOLVERS=$(realpath "$SOLVERS")
    PATH=$SOLVERS:$PATH
fi
# ours first: DRAT-trim has an lrat-check too
PATH=$room/bin:$PATH

# ---- Formulas. Of each without a model a weakened one, which has one, is made by leaving out the clause that says that one
# pigeon has a hole, or that one row has a queen.

cd "$room" || exit 1
python3 "$root/examples/pigeonhole.py" 6 pigeonhole.cnf /dev/null
python3 "$root/examples/queens.py" 3 queens-3.cnf
python3 "$root/examples/queens.py" 8 queens-8.cnf

# with_clause FORMULA CLAUSE: the formula with one more clause
with_clause() {
    awk -v clause="$2" '/^p cnf/ { $4 += 1 } { print } END { print clause, 0 }' "$1"
}

# without_clause FORMULA N: the formula without its clause N, from 1
without_clause() {
    awk -v left_out="$2" '/^c/ { next } /^p cnf/ { $4 -= 1; print; next } ++n != left_out { print }' "$1"
}

# the first pigeon sits in the first hole, and the second in the second: clauses of one literal, which solvers simplify by
with_clause pigeonhole.cnf 1 > one.cnf
with_clause one.cnf 8 > units.cnf
unsatisfiable="pigeonhole units queens-3"
without_clause pigeonhole.cnf 1 > pigeonhole-weak.cnf
without_clause units.cnf 3 > units-weak.cnf
without_clause queens-3.cnf 1 > queens-3-weak.cnf
for which in $unsatisfiable queens-8; do
    if ! [ -s "$which.cnf" ]; then
        echo "FAILED: $which.cnf was not made"
        echo "0 passed, 1 failed"
        exit 1
    fi
done

# ---- Judging

pass() { passed=$((passed + 1)); }

# fail TEXT: with what the last command wrote
fail() {
    echo "FAILED: $1"
    tail -n 5 out err
    failed=$((failed + 1))
}

# runs NAME STATUS LINE: runs a line of README as a user's shell does; its status has to be this
runs() {
    local name=$1 status=$2 ended
    if ! grep -qF -- "$3" "$root/README.md"; then
        : > out; : > err
        fail "$name: README does not have: $3"
        return
    fi
    bash -c "$3" > out 2> err
    ended=$?
    if [ "$ended" -eq "$status" ]; then pass; else fail "$name: status $ended, and not $status: $3"; fi
}

# checks NAME STATUS VERDICT LINE: runs a line of README; its status, and the last line it writes, have to be these
checks() {
    local before=$failed last
    runs "$1" "$2" "$4"
    [ "$failed" -eq "$before" ] || return
    last=$(tail -n 1 out)
    if [ "$last" = "$3" ]; then pass; else fail "$1: the verdict is $last"; fi
}

# refuses NAME VERDICT WORD..: what is in the room is not verified of another formula: status 1
refuses() {
    local name=$1 verdict=$2 ended
    shift 2
    "$@" > out 2> err
    ended=$?
    if [ "$ended" -eq 1 ] && [ "$(tail -n 1 out)" = "$verdict" ]; then pass; else fail "$name: status $ended: $*"; fi
}

# verifies NAME WORD..: what is in the room is verified: status 0
verifies() {
    local name=$1 ended
    shift
    "$@" > out 2> err
    ended=$?
    if [ "$ended" -eq 0 ]; then pass; else fail "$name: status $ended: $*"; fi
}

# of_proof NAME STATUS LINE..: for each formula without a model, the solver's line, with the solver's status, and the lines
# after it, with status 0, make proof.drat. It verifies the formula, also where each deletion has to name a live clause, and
# where clauses are kept that a literal follows by, and not the weakened one.
of_proof() {
    local solver=$1 ended=$2 which line
    shift 2
    for which in $unsatisfiable; do
        cp "$which.cnf" formula.cnf
        runs "$solver on $which" "$ended" "$1"
        for line in "${@:2}"; do
            runs "$solver's proof of $which" 0 "$line"
        done
        checks "$solver's proof of $which" 0 "s VERIFIED" "drat-forward formula.cnf proof.drat"
        verifies "$solver's proof of $which, strictly" drat-forward --strict formula.cnf proof.drat
        verifies "$solver's proof of $which, with units kept" drat-forward --strict --keep-units formula.cnf proof.drat
        refuses "$solver's proof of $which, weakened" "s NOT VERIFIED" drat-forward "$which-weak.cnf" proof.drat
        refuses "$solver's proof of $which, weakened, with units kept" "s NOT VERIFIED" \
            drat-forward --keep-units "$which-weak.cnf" proof.drat
    done
}

# of_model NAME: what the solver wrote of queens-8.cnf, in `output`, is a model; it is none where a queen is forbidden
of_model() {
    local queen
    cp queens-8.cnf formula.cnf
    checks "$1's model" 0 "s MODEL VERIFIED" "model-check formula.cnf output"
    queen=$(grep '^v' output | tr ' ' '\n' | grep -m 1 '^[1-9]')
    with_clause queens-8.cnf "-$queen" > forbidden.cnf
    refuses "$1's model without a queen" "s MODEL NOT VERIFIED" model-check forbidden.cnf output
}

# of_binary_proof NAME LINE: for each formula without a model, the solver's line makes proof.bin, in the binary form
of_binary_proof() {
    local which
    for which in $unsatisfiable; do
        cp "$which.cnf" formula.cnf
        rm -f proof.bin
        runs "$1 on $which" 20 "$2"
        checks "$1's proof of $which, binary" 0 "s VERIFIED" "drat-forward --binary formula.cnf proof.bin"
        refuses "$1's proof of $which, binary, weakened" "s NOT VERIFIED" drat-forward --binary "$which-weak.cnf" proof.bin
    done
}

# of_lrat NAME FORMULA STATUS LINE: the line makes proof.lrat of the formula
of_lrat() {
    local name=$1 which=$2
    cp "$which.cnf" formula.cnf
    rm -f proof.lrat
    runs "$name on $which" "$3" "$4"
    checks "$name's LRAT of $which" 0 "s VERIFIED" "lrat-check formula.cnf proof.lrat"
    refuses "$name's LRAT of $which, weakened" "s NOT VERIFIED" lrat-check "$which-weak.cnf" proof.lrat
}

# of_competition_output NAME WORD..: a solver that writes the lines of the SAT Competition, with its statuses 10 and 20
of_competition_output() {
    local name=$1 ended
    shift
    "$@" queens-8.cnf > output 2> err
    ended=$?
    cp output out
    if [ "$ended" -eq 10 ]; then pass; else fail "$name on queens-8: status $ended, and not 10"; fi
    of_model "$name"
    "$@" queens-3.cnf > output 2> err
    ended=$?
    cp output out
    if [ "$ended" -eq 20 ]; then pass; else fail "$name on queens-3: status $ended, and not 20"; fi
    refuses "$name's answer that there is no model" "s MODEL NOT VERIFIED" model-check queens-3.cnf output
}

# has PROGRAM: whether it is installed
has() {
    command -v "$1" > /dev/null && return
    echo "skipped: $1 is not installed"
    return 1
}

# the versions, where the system can tell
dpkg-query -W -f '${Package} ${Version}\n' cadical cryptominisat picosat minisat clasp sat4j z3 berkeley-abc gdb \
    drat-trim kissat 2> /dev/null
for program in cadical kissat drat-trim; do
    if [ -n "${SOLVERS:-}" ] && [ -x "$SOLVERS/$program" ]; then
        echo "$program of $SOLVERS $([ "$program" = drat-trim ] || "$SOLVERS/$program" --version)"
    fi
done

# ---- CaDiCaL

if has cadical; then
    of_competition_output CaDiCaL cadical
    of_binary_proof CaDiCaL "cadical formula.cnf proof.bin"
    for which in $unsatisfiable; do
        cp "$which.cnf" formula.cnf
        cadical -q formula.cnf proof.bin > /dev/null
        gzip -c proof.bin > proof.bin.gz
        checks "CaDiCaL's proof of $which, compressed" 0 "s VERIFIED" \
            "zcat proof.bin.gz | drat-forward --binary formula.cnf"
        checks "CaDiCaL's proof of $which, as text through a pipe" 0 "s VERIFIED" \
            "cadical -q --no-binary formula.cnf - | grep -v '^[sv]' | drat-forward formula.cnf"
        checks "CaDiCaL's proof of $which, binary through a pipe" 0 "s VERIFIED" \
            "cadical -q formula.cnf /dev/stderr 2>&1 >/dev/null | drat-forward --binary formula.cnf"
    done
    of_proof CaDiCaL 20 "cadical --no-binary formula.cnf proof.drat"
    cp queens-8.cnf formula.cnf
    runs "CaDiCaL on queens-8" 10 "cadical formula.cnf > output"
    of_model CaDiCaL
    checks "CaDiCaL's model through a pipe" 0 "s MODEL VERIFIED" "cadical -q formula.cnf | model-check formula.cnf"

    # the script of README, on a formula of each kind
    sed -n '/^    answer=0$/,/^    esac$/p' "$root/README.md" > script
    for row in "queens-8 SATISFIABLE" "pigeonhole UNSATISFIABLE"; do
        read -r which answer <<< "$row"
        cp "$which.cnf" formula.cnf
        bash script > out 2> err
        if [ "$(tail -n 1 out)" = "$answer" ]; then pass; else fail "README's script on $which"; fi
    done

    if cadical --help | grep -q -e '--lrat'; then
        for which in $unsatisfiable; do
            of_lrat CaDiCaL "$which" 20 "cadical --lrat --no-binary formula.cnf proof.lrat"
        done
    else
        echo "skipped: this cadical has no --lrat"
    fi
fi

# ---- Kissat

if has kissat; then
    of_competition_output Kissat kissat
    of_binary_proof Kissat "kissat formula.cnf proof.bin"
    of_proof Kissat 20 "kissat --no-binary formula.cnf proof.drat"
fi

# ---- CryptoMiniSat

if has cryptominisat5; then
    of_competition_output CryptoMiniSat cryptominisat5
    of_proof CryptoMiniSat 20 "cryptominisat5 formula.cnf proof.frat" \
        "sed -n 's/ l .*//; s/^a [0-9]* //p; s/^d [0-9]* /d /p' proof.frat > proof.drat"
fi

# ---- PicoSAT

if has picosat; then
    of_competition_output PicoSAT picosat
fi
if has picosat.trace; then
    of_proof PicoSAT 20 "picosat.trace -R proof.rup formula.cnf" "sed 1d proof.rup > proof.drat"
fi

# ---- MiniSat

if has minisat; then
    turned="sed 's/^SAT\$/s SATISFIABLE/; s/^UNSAT\$/s UNSATISFIABLE/; s/^[-0-9]/v &/' result > output"
    cp queens-8.cnf formula.cnf
    runs "MiniSat on queens-8" 10 "minisat formula.cnf result"
    runs "MiniSat's model" 0 "$turned"
    of_model MiniSat
    cp queens-3.cnf formula.cnf
    runs "MiniSat on queens-3" 20 "minisat formula.cnf result"
    runs "MiniSat's answer" 0 "$turned"
    refuses "MiniSat's answer that there is no model" "s MODEL NOT VERIFIED" model-check queens-3.cnf output
fi

# ---- clasp

if has clasp; then
    of_competition_output clasp clasp
fi

# ---- z3: its status is 0 whatever its answer, and before some version its model has no last 0

if has z3; then
    turned="sed '/ 0\$/!s/^v.*/& 0/' result > output"
    cp queens-8.cnf formula.cnf
    runs "z3 on queens-8" 0 "z3 -dimacs formula.cnf > result"
    model-check formula.cnf result > out 2> err
    if grep -q -e ': unterminated model$' -e '^s MODEL VERIFIED$' out; then pass; else fail "z3's model as it is"; fi
    runs "z3's model" 0 "$turned"
    of_model z3
    cp queens-3.cnf formula.cnf
    runs "z3 on queens-3" 0 "z3 -dimacs formula.cnf > result"
    runs "z3's answer" 0 "$turned"
    refuses "z3's answer that there is no model" "s MODEL NOT VERIFIED" model-check queens-3.cnf output
fi

# ---- Sat4j: a jar, which not every system starts by itself. It writes no proof where it meets the clash while it reads the
# formula.

if has sat4j; then
    line='java -DUNSATPROOF=yes -jar "$(command -v sat4j)" formula.cnf'
    moved="echo 0 > proof.drat; mv formula.cnf.rupproof proof.drat"
    of_competition_output Sat4j java -jar "$(command -v sat4j)"
    of_proof Sat4j 20 "$line" "$moved"
    with_clause one.cnf -1 > formula.cnf
    runs "Sat4j on a clash of units" 20 "$line"
    if [ -e formula.cnf.rupproof ]; then fail "Sat4j writes a proof of a clash of units"; else pass; fi
    runs "Sat4j's missing proof" 1 "$moved"
    checks "Sat4j's missing proof" 0 "s VERIFIED" "drat-forward formula.cnf proof.drat"
    refuses "Sat4j's missing proof, weakened" "s NOT VERIFIED" drat-forward one.cnf proof.drat
fi

# ---- Glucose, as it stands in berkeley-abc. It deletes clauses that a literal follows by, and does not write the literal:
# of pigeonhole-5 a later step misses one.

if has berkeley-abc && has gdb; then
    python3 "$root/examples/pigeonhole.py" 5 pigeonhole-5.cnf /dev/null
    without_clause pigeonhole-5.cnf 1 > pigeonhole-5-weak.cnf
    for which in $unsatisfiable pigeonhole-5; do
        cp "$which.cnf" formula.cnf
        verifies "Glucose on $which" "$root/examples/make-glucose-proof.sh" formula.cnf proof.drat
        checks "Glucose's proof of $which" 0 "s VERIFIED" "drat-forward --keep-units formula.cnf proof.drat"
        verifies "Glucose's proof of $which, strictly" drat-forward --strict --keep-units formula.cnf proof.drat
        refuses "Glucose's proof of $which, weakened" "s NOT VERIFIED" drat-forward --keep-units "$which-weak.cnf" proof.drat
    done
    refuses "Glucose's proof of pigeonhole-5, as written" "s NOT VERIFIED" drat-forward formula.cnf proof.drat
fi

# ---- DRAT-trim, on CaDiCaL's proofs

if has drat-trim && has cadical; then
    for which in $unsatisfiable; do
        cadical -q --no-binary "$which.cnf" proof.drat > /dev/null
        of_lrat DRAT-trim "$which" 0 "drat-trim formula.cnf proof.drat -L proof.lrat"
    done
fi

# ---- DRAT-trim's programs beside ours, on the rows of docs/RULES.md

DRAT_FORWARD=$room/bin/drat-forward LRAT_CHECK=$room/bin/lrat-check "$root/tests/drat_trim.py" > out 2> err
ended=$?
cat out err
if [[ $(tail -n 1 out) =~ ^([0-9]+)\ passed,\ ([0-9]+)\ failed$ ]]; then
    passed=$((passed + BASH_REMATCH[1]))
    failed=$((failed + BASH_REMATCH[2]))
else
    fail "tests/drat_trim.py: status $ended"
fi

echo "$passed passed, $failed failed"
[ "$failed" -eq 0 ]
