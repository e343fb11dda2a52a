# shellcheck shell=bash
# Proofs that delete reason clauses, and the hint to --keep-units.
# shellcheck disable=SC2034,SC2086,SC2154

checker=$drat_forward

# deletions of clauses that a literal follows by, as Glucose wrote them: by examples/make-glucose-proof.sh
row pigeonhole_by_glucose 0 --strict --keep-units $x/pigeonhole-5.cnf $x/pigeonhole-5-glucose.drat <<'LINES'
c formula 30 variables 81 clauses
c steps 250 peak 1026
s VERIFIED
LINES

row pigeonhole_by_glucose_without_the_option 1 $x/pigeonhole-5.cnf $x/pigeonhole-5-glucose.drat <<'LINES'
c formula 30 variables 81 clauses
c step 247: neither RUP nor RAT on 21
s NOT VERIFIED
LINES
told pigeonhole_by_glucose_without_the_option <<LINES
drat-forward: $x/pigeonhole-5-glucose.drat: the refused step ends at line 247, column 9
drat-forward: $x/pigeonhole-5-glucose.drat: hint: $units_hint
LINES

# refused_after NAME PROGRAM PLACE HINT FORMULA PROOF WORD..: the program $checker with these words refuses the step that ends at the
# place, of these lines of a proof and of a formula of four clauses. Standard error has the hint or, where it is empty, none.
refused_after() {
    local name=$1 program=$2 place=$3 hint=$4 ended
    printf 'p cnf 4 4\n%b\n' "$5" > "$room/lost.cnf"
    printf '%b\n' "$6" > "$room/lost.proof"
    shift 6
    "$checker" "$@" "$room/lost.cnf" "$room/lost.proof" > "$room/report" 2> "$room/out"
    ended=$?
    echo "$program: $room/lost.proof: the refused step ends at $place" > "$room/wanted"
    if [ -n "$hint" ]; then
        echo "$program: $room/lost.proof: hint: $hint" >> "$room/wanted"
    fi
    judge "$name" 1 "$ended"
}

# lost NAME PLACE FORMULA PROOF WORD..: the same of drat-forward, with the hint that $units_hint has; kept: without one
lost() {
    refused_after "$1" drat-forward "$2" "$units_hint" "${@:3}"
}

kept() {
    refused_after "$1" drat-forward "$2" '' "${@:3}"
}

# 1 and 2 are root-level: 1 by a unit clause, and 2 by -1 2
chain='1 0\n-1 2 0\n-2 3 4 0\n-2 3 -4 0'
copies='1 0\n-1 2 0\n-1 2 0\n-2 3 4 0'
lost reason_deleted 'line 2, column 3' "$chain" 'd -1 2 0\n2 0'
lost unit_clause_deleted 'line 2, column 3' "$chain" 'd 1 0\n2 0'
lost reason_deleted_as_the_same_set 'line 2, column 3' "$chain" 'd 2 -1 2 0\n2 0'
lost reason_deleted_after_an_addition 'line 3, column 3' "$chain" '-1 3 4 0\nd -1 2 0\n2 0'
lost both_copies_of_a_reason_deleted 'line 3, column 3' "$copies" 'd -1 2 0\nd -1 2 0\n2 0'
lost reason_deleted_after_another_deletion 'line 3, column 3' "$chain" 'd -2 3 4 0\nd -1 2 0\n2 0'
lost reason_of_an_added_unit_deleted 'line 4, column 4' '1 2 0\n1 -2 0\n-1 3 0\n1 4 0' 'd 1 4 0\n1 0\nd -1 3 0\n-1 0'
# 1 and 2 can't both be false: past that conflict all follows
conflict='1 2 0\n-1 0\n-2 0\n3 4 0'
lost reason_deleted_past_a_conflict 'line 2, column 4' "$conflict" 'd 1 2 0\n-3 0'
lost reason_deleted_past_a_conflict_that_stays 'line 2, column 5' '1 0\n-1 0\n2 0\n3 4 0' 'd 2 0\nd 2 0' --strict
kept no_deletion 'line 1, column 4' "$chain" '-3 0'
kept copy_of_a_reason_left 'line 2, column 4' "$copies" 'd -1 2 0\n-3 0'
kept copy_of_a_unit_clause_left 'line 2, column 4' '1 0\n1 0\n-1 2 0\n-2 3 4 0' 'd 1 0\n-3 0'
kept other_clause_left 'line 2, column 4' '1 0\n-1 2 0\n-1 -3 2 0\n3 0' 'd -1 2 0\n-2 0'
kept no_reason_deleted_past_a_conflict 'line 2, column 7' "$conflict" 'd 3 4 0\nd 3 4 0' --strict
kept unit_clause_added_before 'line 3, column 4' "$chain" '2 0\nd -1 2 0\n-3 0'
kept no_reason_deleted 'line 2, column 4' "$chain" 'd -2 3 4 0\n-3 0'
kept no_root_level_literal 'line 2, column 3' '1 2 0\n3 4 0\n-1 2 0\n-3 4 0' 'd 1 2 0\n1 0'
kept reason_deleted_after_the_refused_step 'line 1, column 4' "$chain" '-3 0\nd -1 2 0'
kept deletion_refused 'line 1, column 7' "$chain" 'd 1 2 0' --strict
kept refused_with_units_kept 'line 2, column 4' "$chain" 'd -1 2 0\n-3 0' --keep-units
# a variable that no clause has is not the first one, of which 1 is the literal that holds
kept new_variable_deleted 'line 2, column 4' "$chain" 'd 268435455 0\n-3 0'
lost reason_deleted_after_a_new_variable 'line 3, column 3' "$chain" 'd 268435455 0\nd -1 2 0\n2 0'
checker=$lrat_check refused_after lrat_reason_deleted lrat-check 'line 2, column 9' '' "$chain" '5 d 2 0\n6 2 0 1 0'

row reason_kept 1 --keep-units --trace "$room/lost.cnf" <(printf '%s\n' 'd -1 2 0' '2 0') <<'LINES'
c formula 4 variables 4 clauses
c 1 ignored
c 2 add rup
c end: no empty clause
s NOT VERIFIED
LINES

# CaDiCaL's proof deletes no such clause
row pigeonhole_by_cadical_units_kept 0 --strict --keep-units $x/pigeonhole-5.cnf $x/pigeonhole-5.drat <<'LINES'
c formula 30 variables 81 clauses
c steps 242 peak 402
s VERIFIED
LINES

# cut_deletion N STATUS LINE..: the first N bytes of a proof that deletes a unit clause, by every rule that is left open
cut_deletion() {
    local length=$1 status=$2
    shift 2
    printf '%s\n' 'd 1 0' '0' | head -c "$length" > "$room/cut"
    row "kept_unit_cut_after_$length" "$status" --pr --keep-units --strict --trace "$room/unit.cnf" "$room/cut" < <(
        printf '%s\n' 'c formula 2 variables 3 clauses' "$@"
    )
}

printf '%s\n' 'p cnf 2 3' '1 0' '-1 2 0' '-1 -2 0' > "$room/unit.cnf"
cut_deletion 0 1 'c end: no empty clause' 's NOT VERIFIED'
cut_deletion 1 2 'c proof 1:2: unterminated step' 's NOT VERIFIED'
cut_deletion 2 2 'c proof 1:3: unterminated step' 's NOT VERIFIED'
cut_deletion 3 2 'c proof 1:4: unterminated step' 's NOT VERIFIED'
cut_deletion 4 2 'c proof 1:5: unterminated step' 's NOT VERIFIED'
cut_deletion 5 1 'c 1 ignored' 'c end: no empty clause' 's NOT VERIFIED'
cut_deletion 6 1 'c 1 ignored' 'c end: no empty clause' 's NOT VERIFIED'
cut_deletion 7 0 'c 1 ignored' 'c 2 add rup' 'c steps 2 peak 5' 's VERIFIED'
cut_deletion 8 0 'c 1 ignored' 'c 2 add rup' 'c steps 2 peak 5' 's VERIFIED'

row rat_on_a_kept_unit 1 --keep-units --trace $x/rat_on_a_deleted_unit.cnf $x/rat_on_a_deleted_unit.drat <<'LINES'
c formula 3 variables 5 clauses
c 1 ignored
c step 2: neither RUP nor RAT on 1
s NOT VERIFIED
LINES

# in the binary form, which CaDiCaL writes unless it is told otherwise
row pigeonhole_by_cadical_binary 0 $x/pigeonhole-5.cnf --binary $x/pigeonhole-5.bin <<'LINES'
c formula 30 variables 81 clauses
c steps 242 peak 402
s VERIFIED
LINES

row text_read_as_binary 2 --binary $x/e.cnf $x/e.drat <<'LINES'
c formula 2 variables 4 clauses
c proof byte 1: bad tag
s NOT VERIFIED
LINES

row drat_empty_clause_in_formula 0 $x/empty_clause.cnf $x/e.drat <<'LINES'
c formula 0 variables 1 clauses
c steps 0 peak 0
s VERIFIED
LINES

row drat_empty_clause_and_no_proof 0 $x/empty_clause.cnf $x/there_is_no_such_file <<'LINES'
c formula 0 variables 1 clauses
c steps 0 peak 0
s VERIFIED
LINES
