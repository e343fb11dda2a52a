# shellcheck shell=bash
# lrat-check as a user runs it.
# shellcheck disable=SC2034,SC2086,SC2154

checker=$lrat_check

# ---- Verified

row flag_after_the_names 0 $x/e.cnf $x/e.lrat --trace <<'LINES'
c formula 2 variables 4 clauses
c 1 add rup
c 2 add rup
c steps 2 peak 9
s VERIFIED
LINES

on_stdin=$x/e.lrat row proof_on_standard_input 0 $x/e.cnf <<'LINES'
c formula 2 variables 4 clauses
c steps 2 peak 9
s VERIFIED
LINES

row pigeonhole 0 $x/pigeonhole-10.cnf $x/pigeonhole-10.lrat <<'LINES'
c formula 110 variables 561 clauses
c steps 4849 peak 3102
s VERIFIED
LINES

row empty_clause_in_formula 0 $x/empty_clause.cnf $x/e.lrat <<'LINES'
c formula 0 variables 1 clauses
c steps 0 peak 0
s VERIFIED
LINES

row empty_clause_and_no_proof 0 $x/empty_clause.cnf $x/there_is_no_such_file <<'LINES'
c formula 0 variables 1 clauses
c steps 0 peak 0
s VERIFIED
LINES

# ---- Not verified

row no_empty_clause 1 $x/e.cnf $x/no_empty_clause.lrat <<'LINES'
c formula 2 variables 4 clauses
c end: no empty clause
s NOT VERIFIED
LINES
told no_empty_clause <<< "lrat-check: $x/no_empty_clause.lrat: the proof ends without the empty clause"

on_stdin=$x/deleted_twice.lrat row refused_step_of_standard_input 1 $x/e.cnf <<'LINES'
c formula 2 variables 4 clauses
c step 2: unknown id 1
s NOT VERIFIED
LINES
told refused_step_of_standard_input <<< "lrat-check: standard input: the refused step ends at line 2, column 9"

# the end of the second step, after comments, blank lines and ends of lines with a CR
printf 'c 1 0\n5 2 0 1 2 0\r\n\r\n6\nc 0\n0 5\n\t 0 7 0 0\n' > "$room/lines.lrat"
row refused_step_over_lines 1 $x/e.cnf "$room/lines.lrat" <<'LINES'
c formula 2 variables 4 clauses
c step 2: no conflict
s NOT VERIFIED
LINES
told refused_step_over_lines <<< "lrat-check: $room/lines.lrat: the refused step ends at line 7, column 3"

row deleted_twice 1 $x/e.cnf $x/deleted_twice.lrat <<'LINES'
c formula 2 variables 4 clauses
c step 2: unknown id 1
s NOT VERIFIED
LINES

# ---- Malformed

# the binary form, and a text that begins alike
printf 'a\x0c\x04\0\x02\x04\0' > "$room/binary.lrat"
malformed binary_lrat lrat-check 'line 1, column 1: bad token' 'this is a proof in a binary form, and LRAT is read as text alone' \
    "$room/binary.lrat" $x/e.cnf "$room/binary.lrat"
printf 'a 5 2 0 1 2 0\n' > "$room/no_binary.lrat"
malformed no_binary_lrat lrat-check 'line 1, column 1: bad token' \
    "this is FRAT: sed -n 's/ l .*//; s/^a [0-9]* //p; s/^d [0-9]* /d /p' $room/no_binary.lrat | drat-forward $x/e.cnf" \
    "$room/no_binary.lrat" $x/e.cnf "$room/no_binary.lrat"

row literal_out_of_range 2 $x/literal_out_of_range.cnf $x/e.lrat <<'LINES'
c formula 2:3: literal out of range
s NOT VERIFIED
LINES

of_a_proof_checker lrat lrat-check $x/e.lrat
wrong lrat_flag_of_another_tool lrat-check "unexpected argument '--binary' found" --binary $x/e.cnf $x/e.lrat
usage lrat_pr --pr $x/e.cnf $x/e.lrat
usage lrat_keep_units --keep-units $x/e.cnf $x/e.lrat
wrong lrat_flag_alone lrat-check 'no formula is named' --trace
