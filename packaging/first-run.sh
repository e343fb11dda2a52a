#!/bin/sh
# From the release to a verified proof, in a system that has a solver, and drat-trim or not; test-dist.sh runs it there.
set -eux

# as README says it: that unpacks the release here, goes into its folder, and puts its programs on the PATH
cd "$HOME"
# shellcheck source=/dev/null
. ./installation.sh
[ -f SHA256SUMS ]

# a formula of our own, as a stranger has one: three pigeons do not fit two holes
cat > pigeons.cnf <<'FORMULA'
p cnf 6 9
1 2 0
3 4 0
5 6 0
-1 -3 0
-1 -5 0
-3 -5 0
-2 -4 0
-2 -6 0
-4 -6 0
FORMULA

# says VERDICT COMMAND..: the last line of what the command writes, with status 0
says() {
    wanted=$1
    shift
    "$@" > out
    [ "$(tail -n 1 out)" = "$wanted" ]
}

# of_formula FORMULA: CaDiCaL's proof of it, by all that this system has
of_formula() {
    cadical -q "$1" proof.bin || [ $? -eq 20 ]
    says "s VERIFIED" drat-forward --binary "$1" proof.bin
    command -v drat-trim || return 0
    cadical -q --lrat --no-binary "$1" proof.lrat || [ $? -eq 20 ]
    says "s VERIFIED" lrat-check "$1" proof.lrat
    drat-trim "$1" proof.bin -L trimmed.lrat | grep "s VERIFIED"
    says "s VERIFIED" lrat-check "$1" trimmed.lrat
}

of_formula pigeons.cnf
of_formula examples/pigeonhole-5.cnf

# another formula's proof is refused
status=0
drat-forward --binary examples/queens-6.cnf proof.bin > out || status=$?
[ $status -eq 1 ]

cadical -q examples/queens-6.cnf > answer || [ $? -eq 10 ]
says "s MODEL VERIFIED" model-check examples/queens-6.cnf answer
