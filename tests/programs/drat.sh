# shellcheck shell=bash
# drat-forward as a user runs it.
# shellcheck disable=SC2034,SC2086,SC2154

checker=$drat_forward

# ---- Verified

row flags_after_the_names 0 $x/e.cnf $x/e.drat --strict --trace <<'LINES'
c formula 2 variables 4 clauses
c 1 add rup
c 2 add rup
c steps 2 peak 9
s VERIFIED
LINES

on_stdin=$x/e.drat row drat_proof_on_standard_input 0 $x/e.cnf <<'LINES'
c formula 2 variables 4 clauses
c steps 2 peak 9
s VERIFIED
LINES

row one_copy_deleted 0 --trace $x/copies.cnf $x/one_copy_deleted.drat <<'LINES'
c formula 1 variables 3 clauses
c 1 delete
c 2 add rup
c steps 2 peak 3
s VERIFIED
LINES

# as CaDiCaL wrote it: by examples/make-cadical-proof.sh
row pigeonhole_by_cadical 0 $x/pigeonhole-5.cnf $x/pigeonhole-5.drat <<'LINES'
c formula 30 variables 81 clauses
c steps 242 peak 402
s VERIFIED
LINES

row pigeonhole_by_cadical_strict 0 --strict $x/pigeonhole-5.cnf $x/pigeonhole-5.drat <<'LINES'
c formula 30 variables 81 clauses
c steps 242 peak 402
s VERIFIED
LINES

# additions that list a set, which pigeonhole_pr.py writes
row pigeonhole_by_pr 0 --pr $x/pigeonhole-5.cnf $x/pigeonhole-5-pr.drat <<'LINES'
c formula 30 variables 81 clauses
c steps 56 peak 275
s VERIFIED
LINES

row pigeonhole_by_pr_without_the_option 1 $x/pigeonhole-5.cnf $x/pigeonhole-5-pr.drat <<'LINES'
c formula 30 variables 81 clauses
c step 1: neither RUP nor RAT on -5
s NOT VERIFIED
LINES

# cut_set N STATUS LINE..: the first N bytes of a proof with a listed set
cut_set() {
    local length=$1 status=$2
    shift 2
    printf '%s' '-1 -1 2 0' | head -c "$length" > "$room/cut"
    row "listed_set_cut_after_$length" "$status" --pr --trace $x/g.cnf "$room/cut" < <(
        printf '%s\n' 'c formula 2 variables 1 clauses' "$@" 's NOT VERIFIED'
    )
}

cut_set 0 1 'c end: no empty clause'
cut_set 1 2 'c proof 1:1: bad token'
cut_set 2 2 'c proof 1:3: unterminated step'
cut_set 3 2 'c proof 1:4: unterminated step'
cut_set 4 2 'c proof 1:4: bad token'
cut_set 5 2 'c proof 1:6: unterminated step'
cut_set 6 2 'c proof 1:7: unterminated step'
cut_set 7 2 'c proof 1:8: unterminated step'
cut_set 8 2 'c proof 1:9: unterminated step'
cut_set 9 1 'c 1 add pr' 'c end: no empty clause'

# thirty holes, of which no proof by resolution is short
python3 $x/pigeonhole_pr.py 30 "$room/pigeonhole.cnf" "$room/pigeonhole.drat"
row pigeonhole_of_thirty_holes_by_pr 0 --pr "$room/pigeonhole.cnf" "$room/pigeonhole.drat" <<'LINES'
c formula 930 variables 13981 clauses
c steps 9456 peak 47275
s VERIFIED
LINES

# ---- Not verified

row drat_no_empty_clause 1 $x/e.cnf $x/no_empty_clause.drat <<'LINES'
c formula 2 variables 4 clauses
c end: no empty clause
s NOT VERIFIED
LINES
told drat_no_empty_clause <<< "drat-forward: $x/no_empty_clause.drat: the proof ends without the empty clause"

on_stdin=$x/both_copies_deleted.drat row drat_refused_step_of_standard_input 1 $x/copies.cnf <<'LINES'
c formula 1 variables 3 clauses
c step 3: not RUP
s NOT VERIFIED
LINES
told drat_refused_step_of_standard_input <<LINES
drat-forward: standard input: the refused step ends at line 3, column 1
drat-forward: standard input: hint: $units_hint
LINES

# the end of the second step, which stands with the third one in a line
printf 'c 0\n3 -1 0\r\n\r\n-3\nc 0\n 2\n\n0 0\n' > "$room/lines.drat"
row drat_refused_step_over_lines 1 $x/g.cnf "$room/lines.drat" <<'LINES'
c formula 2 variables 1 clauses
c step 2: neither RUP nor RAT on -3
s NOT VERIFIED
LINES
told drat_refused_step_over_lines <<< "drat-forward: $room/lines.drat: the refused step ends at line 8, column 1"

# a step of four bytes, one of two, and a third one that nobody looks at
printf 'a\x06\x03\x00a\x00a\x00' > "$room/refused.bin"
row refused_step_in_binary 1 --binary $x/g.cnf "$room/refused.bin" <<'LINES'
c formula 2 variables 1 clauses
c step 2: not RUP
s NOT VERIFIED
LINES
told refused_step_in_binary <<< "drat-forward: $room/refused.bin: the refused step ends at byte 6"

row not_rup 1 --trace $x/g.cnf $x/e.drat <<'LINES'
c formula 2 variables 1 clauses
c 1 add rat
c step 2: not RUP
s NOT VERIFIED
LINES

# ---- Malformed

printf 'a\x04' > "$room/cut.bin"
malformed drat_unterminated_in_binary drat-forward 'byte 3: unterminated step' \
    'the proof ends inside a step, so it may have been cut short' "$room/cut.bin" --binary $x/e.cnf "$room/cut.bin"

# the binary form as text and a text in the binary form, and others that look alike
malformed binary_as_text drat-forward 'line 1, column 1: bad token' \
    "this is a proof in the binary form: drat-forward --binary $x/e.cnf $x/e.bin" $x/e.bin $x/e.cnf $x/e.bin
printf 'd 1 x 0\n' > "$room/deletion.drat"
malformed deletion_as_text drat-forward 'line 1, column 5: bad token' '' "$room/deletion.drat" $x/e.cnf "$room/deletion.drat"
printf 'a 1 2 0\n' > "$room/addition.drat"
malformed addition_as_text drat-forward 'line 1, column 1: bad token' \
    "this is FRAT: sed -n 's/ l .*//; s/^a [0-9]* //p; s/^d [0-9]* /d /p' $room/addition.drat | drat-forward $x/e.cnf" \
    "$room/addition.drat" $x/e.cnf "$room/addition.drat"
malformed text_in_binary drat-forward 'byte 1: bad tag' "this is a proof as text: drat-forward $x/e.cnf $x/e.drat" \
    $x/e.drat --binary $x/e.cnf $x/e.drat
printf 'a\x04\x00x' > "$room/tag.bin"
malformed bad_tag_in_binary drat-forward 'byte 4: bad tag' '' "$room/tag.bin" --binary $x/e.cnf "$room/tag.bin"
malformed empty_group_in_binary drat-forward 'byte 2: bad number' '' $x/empty_last_group.bin --binary $x/e.cnf $x/empty_last_group.bin

# FRAT, and a word that begins alike
printf 'o 1 1 2 0\na 5 2 0\nf 5 2 0\n' > "$room/e.frat"
malformed frat drat-forward 'line 1, column 1: bad token' \
    "this is FRAT: sed -n 's/ l .*//; s/^a [0-9]* //p; s/^d [0-9]* /d /p' $room/e.frat | drat-forward $x/e.cnf" \
    "$room/e.frat" $x/e.cnf "$room/e.frat"
printf 'o1 1 2 0\n' > "$room/no.frat"
malformed no_frat drat-forward 'line 1, column 1: bad token' '' "$room/no.frat" $x/e.cnf "$room/no.frat"

row drat_literal_out_of_range 2 $x/literal_out_of_range.cnf $x/e.drat <<'LINES'
c formula 2:3: literal out of range
s NOT VERIFIED
LINES

of_a_proof_checker drat drat-forward $x/e.drat
wrong drat_strict_with_a_value drat-forward "unexpected value '1' for '--strict' found; no more were expected" \
    --strict=1 $x/e.cnf $x/e.drat
usage drat_shortened_strict --stri $x/e.cnf $x/e.drat
wrong drat_flags_alone drat-forward 'no formula is named' --trace --strict
