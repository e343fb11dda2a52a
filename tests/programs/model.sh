# shellcheck shell=bash
# model-check as a user runs it.
# shellcheck disable=SC2034,SC2086,SC2154

checker=$model_check

on_stdin=$x/models.out row output_on_standard_input 0 $x/models.cnf <<'LINES'
c clauses 2
s MODEL VERIFIED
LINES

# as CaDiCaL wrote it: by examples/make-cadical-model.sh
row queens_by_cadical 0 $x/queens-6.cnf $x/queens-6.out <<'LINES'
c clauses 296
s MODEL VERIFIED
LINES

row no_model_claimed 1 $x/e.cnf $x/unsatisfiable.out <<'LINES'
c output 1:3: no model claimed
s MODEL NOT VERIFIED
LINES
told no_model_claimed <<< "model-check: $x/unsatisfiable.out: no consistent model is claimed"

row no_output 2 $x/models.cnf /dev/null <<'LINES'
c output 1:1: no status line
s MODEL NOT VERIFIED
LINES
told no_output <<LINES
model-check: /dev/null: line 1, column 1: no status line
model-check: /dev/null: hint: this is empty, or has comments alone
LINES

row proof_as_output 2 $x/e.cnf $x/e.lrat <<'LINES'
c output 1:1: bad line
s MODEL NOT VERIFIED
LINES
told proof_as_output <<LINES
model-check: $x/e.lrat: line 1, column 1: bad line
model-check: $x/e.lrat: hint: the lines of a model begin with 'v', and a line 's SATISFIABLE' stands with them
LINES

row model_literal_out_of_range 2 $x/literal_out_of_range.cnf $x/models.out <<'LINES'
c formula 2:3: literal out of range
s MODEL NOT VERIFIED
LINES
told model_literal_out_of_range <<LINES
model-check: $x/literal_out_of_range.cnf: line 2, column 3: literal out of range: the header's number of variables is 2
LINES

row missing_output 3 $x/models.cnf $x/there_is_no_such_file <<'LINES'
c cannot read output
s MODEL NOT VERIFIED
LINES

row model_missing_formula 3 $x/there_is_no_such_file $x/models.out <<'LINES'
c cannot read formula
s MODEL NOT VERIFIED
LINES
told model_missing_formula <<< "model-check: $x/there_is_no_such_file: No such file or directory (os error 2)"

row both_missing 3 $x/no_such_formula $x/no_such_output <<'LINES'
c cannot read output
s MODEL NOT VERIFIED
LINES
told both_missing <<< "model-check: $x/no_such_output: No such file or directory (os error 2)"

# a folder can be opened, and then its first read fails
row folder_as_output 3 $x/models.cnf $x <<'LINES'
c cannot read output
s MODEL NOT VERIFIED
LINES
told folder_as_output <<< "model-check: $x: Is a directory (os error 21)"

without_stdin model_closed_standard_input 3 $x/models.cnf <<'LINES'
c cannot read output
s MODEL NOT VERIFIED
LINES

# the first file that is opened is a right output, and must not be taken for one
without_stdin model_closed_standard_input_and_an_output 3 $x/models.out <<'LINES'
c cannot read output
s MODEL NOT VERIFIED
LINES

without_stdin model_closed_standard_input_is_not_needed 0 $x/models.cnf $x/models.out <<'LINES'
c clauses 2
s MODEL VERIFIED
LINES

writes model_a_line_a_write $x/models.cnf $x/models.out <<'LINES'
c clauses 2|
s MODEL VERIFIED|
LINES

printf 's SATISFIABLE\nv 1 2 0\n' > "$room/any.out"
of_every_tool model model-check $x/models.cnf $x/models.out 'bad line' "$room/any.out"
wrong model_flag_of_another_tool model-check "unexpected argument '--trace' found" $x/models.cnf --trace
usage model_pr --pr $x/models.cnf $x/models.out
usage model_keep_units --keep-units $x/models.cnf $x/models.out
