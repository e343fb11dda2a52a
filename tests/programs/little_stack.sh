# shellcheck shell=bash
# Each program in 64 kB of stack.
# shellcheck disable=SC2034,SC2086,SC2154

checker=$model_check

in_little_stack model_in_little_stack 0 $x/models.cnf $x/models.out <<'LINES'
c clauses 2
s MODEL VERIFIED
LINES

checker=$drat_forward
bench/hostile.py --write far_variables 2000 "$room/far.cnf" "$room/far.drat"
in_little_stack drat_in_little_stack 1 "$room/far.cnf" "$room/far.drat" <<'LINES'
c formula 67108000 variables 3998 clauses
c end: no empty clause
s NOT VERIFIED
LINES

checker=$lrat_check
bench/hostile.py --write far_identifiers 2000 "$room/far.cnf" "$room/far.lrat"
in_little_stack lrat_in_little_stack 1 "$room/far.cnf" "$room/far.lrat" <<'LINES'
c formula 1 variables 1 clauses
c end: no empty clause
s NOT VERIFIED
LINES
