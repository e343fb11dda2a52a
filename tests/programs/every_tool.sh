# shellcheck shell=bash
# What all programs do alike, and what both proof checkers do alike.
# shellcheck disable=SC2034,SC2086,SC2154

# of_every_tool PREFIX PROGRAM FORMULA SECOND KIND ANY: what each tool does alike, with two right inputs, with what is told where the
# second one begins with another byte, and with a second one that fits every formula
of_every_tool() {
    if [ -w /dev/full ]; then
        "$checker" "$3" "$4" > /dev/full 2> "$room/out"
        write_failed "$1_full_device" "$2" $?
    fi

    wrong "$1_no_words" "$2" 'no formula is named'
    help "$1_help" "$2" --help
    help "$1_short_help" "$2" -h
    version "$1_version" "$2" --version
    version "$1_short_version" "$2" -V
    version "$1_version_beside_the_names" "$2" "$3" --version "$4"
    wrong "$1_empty_word" "$2" 'a name is empty' ""
    wrong "$1_unknown_flag" "$2" "unexpected argument '--fast' found" --fast "$3" "$4"
    wrong "$1_unknown_flag_after_the_names" "$2" "unexpected argument '--fast' found" "$3" "$4" --fast
    usage "$1_flag_with_a_value" --trace=1 "$3" "$4"
    wrong "$1_shortened_flag" "$2" "unexpected argument '--tra' found" --tra "$3" "$4"
    wrong "$1_name_with_a_hyphen" "$2" "unexpected argument '-1' found" -1 "$4"
    wrong "$1_three_names" "$2" "unexpected argument '$4' found" "$3" "$4" "$4"
    wrong "$1_standard_input_twice" "$2" 'both inputs are standard input' - -
    wrong "$1_standard_input_alone" "$2" 'both inputs are standard input' -

    # a hyphen alone is standard input, and a file of that name is named by its folder
    "$checker" "$3" "$4" > "$room/named" 2> "$room/err"
    on_stdin=$3 row "$1_formula_on_standard_input" 0 - "$4" < "$room/named"
    on_stdin=$4 row "$1_hyphen_as_the_second_name" 0 "$3" - < "$room/named"
    cp "$3" "$room/-"
    row "$1_file_named_by_a_hyphen" 0 "$room/-" "$4" < "$room/named"

    # a file that is opened first gets the number of a closed standard input
    without_stdin "$1_closed_standard_input_as_formula" 3 - "$4" < <(
        echo 'c cannot read formula'
        tail -n 1 "$room/named" | sed 's/VERIFIED/NOT VERIFIED/'
    )
    told "$1_closed_standard_input_as_formula" <<< "$2: standard input: Bad file descriptor (os error 9)"

    # what the inputs look like that are malformed, and others that look alike and are not it
    local gz="this is compressed by gzip: zcat" unnamed=PROOF
    if [ "$2" = model-check ]; then
        unnamed=OUTPUT
    fi
    gzip -c "$3" > "$room/formula.gz"
    gzip -c "$4" > "$room/second.gz"
    malformed "$1_formula_by_gzip" "$2" 'line 1, column 1: bad header' "$gz $room/formula.gz | $2 - $4" \
        "$room/formula.gz" "$room/formula.gz" "$4"
    malformed "$1_second_input_by_gzip" "$2" "line 1, column 1: $5" "$gz $room/second.gz | $2 $3" \
        "$room/second.gz" "$3" "$room/second.gz"
    on_stdin=$room/second.gz malformed "$1_standard_input_by_gzip" "$2" "line 1, column 1: $5" "$gz $unnamed | $2 $3" \
        'standard input' "$3"
    printf '\x1f1 2 0\n' > "$room/no_gzip"
    malformed "$1_no_gzip" "$2" "line 1, column 1: $5" '' "$room/no_gzip" "$3" "$room/no_gzip"
    printf '\xfd7zXZ\0\0' > "$room/second.xz"
    malformed "$1_by_xz" "$2" "line 1, column 1: $5" "this is compressed by xz: xzcat $room/second.xz | $2 $3" \
        "$room/second.xz" "$3" "$room/second.xz"
    printf '\xfd7zX \0\0' > "$room/no_xz"
    malformed "$1_no_xz" "$2" "line 1, column 1: $5" '' "$room/no_xz" "$3" "$room/no_xz"
    printf 'BZh91AY' > "$room/second.bz2"
    malformed "$1_by_bzip2" "$2" "line 1, column 1: $5" "this is compressed by bzip2: bzcat $room/second.bz2 | $2 $3" \
        "$room/second.bz2" "$3" "$room/second.bz2"
    printf 'BZ 91AY' > "$room/no_bz2"
    malformed "$1_no_bzip2" "$2" "line 1, column 1: $5" '' "$room/no_bz2" "$3" "$room/no_bz2"
    printf '\x28\xb5\x2f\xfd\0' > "$room/second.zst"
    malformed "$1_by_zstd" "$2" "line 1, column 1: $5" "this is compressed by zstd: zstdcat $room/second.zst | $2 $3" \
        "$room/second.zst" "$3" "$room/second.zst"
    printf '\x28\xb5\x2f \0' > "$room/no_zst"
    malformed "$1_no_zstd" "$2" "line 1, column 1: $5" '' "$room/no_zst" "$3" "$room/no_zst"

    local second='this is a formula, not a proof' first
    first="no line 'p cnf VARIABLES CLAUSES' stands before the first number: add it, or name the formula first"
    if [ "$2" = model-check ]; then
        second="this is a formula, which is named first: $2 $3 $3" first="this is a solver's output, not a formula"
    fi
    malformed "$1_formula_twice" "$2" "line 1, column 1: $5" "$second" "$3" "$3" "$3"
    malformed "$1_second_input_twice" "$2" 'line 1, column 1: bad header' "$first" "$4" "$4" "$4"
    printf 'p dnf 1 1\n1 0\n' > "$room/no_header"
    malformed "$1_no_formula_second" "$2" "line 1, column 1: $5" '' "$room/no_header" "$3" "$room/no_header"
    malformed "$1_no_header" "$2" 'line 1, column 3: bad header' '' "$room/no_header" "$room/no_header" "$4"

    # the end of SATLIB's files, a `%` elsewhere, and that end where another place is wrong
    printf 'p cnf 2 1\n1 2 0\n%%\n0\n\n' > "$room/satlib.cnf"
    printf 'p cnf 2 2\n1 2 0\n%%\n2 0\n' > "$room/percent.cnf"
    printf 'p cnf 2 1\n1 3 0\n%%\n0\n\n' > "$room/range.cnf"
    malformed "$1_satlib" "$2" 'line 3, column 1: bad token' "the end is SATLIB's: sed '/^%/,\$d' $room/satlib.cnf | $2 - $6" \
        "$room/satlib.cnf" "$room/satlib.cnf" "$6"
    malformed "$1_percent" "$2" 'line 3, column 1: bad token' '' "$room/percent.cnf" "$room/percent.cnf" "$6"
    malformed "$1_satlib_out_of_range" "$2" "line 2, column 3: literal out of range: the header's number of variables is 2" '' \
        "$room/range.cnf" "$room/range.cnf" "$6"

    # the range of a literal is told, also where long comments stand before the header, and only where a literal is out of it
    printf 'c p cnf 7 1\n\n\tp  cnf 25 1\n-26 0\n' > "$room/past.cnf"
    malformed "$1_past_a_header" "$2" "line 4, column 1: literal out of range: the header's number of variables is 25" '' \
        "$room/past.cnf" "$room/past.cnf" "$6"
    { printf 'c %01020d\n' 0; printf 'p cnf 25 1\n-26 0\n'; } > "$room/late.cnf"
    malformed "$1_past_a_late_header" "$2" "line 3, column 1: literal out of range: the header's number of variables is 25" '' \
        "$room/late.cnf" "$room/late.cnf" "$6"
    { printf 'p%01024d cnf 25 1\n' 0 | tr 0 ' '; printf -- '-26 0\n'; } > "$room/cut.cnf"
    malformed "$1_past_a_cut_header" "$2" 'line 2, column 1: literal out of range' '' "$room/cut.cnf" "$room/cut.cnf" "$6"
    printf 'p cnf 25 1\n268435456 0\n' > "$room/large.cnf"
    malformed "$1_past_the_greatest" "$2" 'line 2, column 1: number too large' '' "$room/large.cnf" "$room/large.cnf" "$6"
}

# of_a_proof_checker PREFIX PROGRAM PROOF: what both proof checkers do alike, with a proof of examples/e.cnf
of_a_proof_checker() {
    row "$1_missing_formula" 3 $x/there_is_no_such_file "$3" <<'LINES'
c cannot read formula
s NOT VERIFIED
LINES
    told "$1_missing_formula" <<< "$2: $x/there_is_no_such_file: No such file or directory (os error 2)"

    # no name writes a line of its own, or in colours
    row "$1_control_characters_in_a_name" 3 $'no\nsuch \e[31m\xc2\x85file' "$3" <<'LINES'
c cannot read formula
s NOT VERIFIED
LINES
    told "$1_control_characters_in_a_name" <<< "$2: no\\u{a}such \\u{1b}[31m\\u{85}file: No such file or directory (os error 2)"

    row "$1_missing_proof" 3 $x/e.cnf $x/there_is_no_such_file <<'LINES'
c formula 2 variables 4 clauses
c cannot read proof
s NOT VERIFIED
LINES
    told "$1_missing_proof" <<< "$2: $x/there_is_no_such_file: No such file or directory (os error 2)"

    # only what was to be read is told of, and only once
    row "$1_both_missing" 3 $x/no_such_formula $x/no_such_proof <<'LINES'
c cannot read formula
s NOT VERIFIED
LINES
    told "$1_both_missing" <<< "$2: $x/no_such_formula: No such file or directory (os error 2)"

    row "$1_fault_before_a_missing_proof" 2 $x/literal_out_of_range.cnf $x/no_such_proof <<'LINES'
c formula 2:3: literal out of range
s NOT VERIFIED
LINES
    told "$1_fault_before_a_missing_proof" <<LINES
$2: $x/literal_out_of_range.cnf: line 2, column 3: literal out of range: the header's number of variables is 2
LINES

    # a folder can be opened, and then its first read fails
    row "$1_folder_as_formula" 3 $x "$3" <<'LINES'
c cannot read formula
s NOT VERIFIED
LINES
    told "$1_folder_as_formula" <<< "$2: $x: Is a directory (os error 21)"

    row "$1_folder_as_proof" 3 $x/e.cnf $x <<'LINES'
c formula 2 variables 4 clauses
c cannot read proof
s NOT VERIFIED
LINES
    told "$1_folder_as_proof" <<< "$2: $x: Is a directory (os error 21)"

    without_stdin "$1_closed_standard_input" 3 $x/e.cnf <<'LINES'
c formula 2 variables 4 clauses
c cannot read proof
s NOT VERIFIED
LINES
    told "$1_closed_standard_input" <<< "$2: standard input: Bad file descriptor (os error 9)"

    without_stdin "$1_closed_standard_input_is_not_needed" 0 $x/e.cnf "$3" <<'LINES'
c formula 2 variables 4 clauses
c steps 2 peak 9
s VERIFIED
LINES

    writes "$1_a_line_a_write" --trace $x/e.cnf "$3" <<'LINES'
c formula 2 variables 4 clauses|
c 1 add rup|
c 2 add rup|
c steps 2 peak 9|
s VERIFIED|
LINES

    of_every_tool "$1" "$2" $x/e.cnf "$3" 'bad token' "$3"
    wrong "$1_repeated_flag" "$2" "the argument '--trace' cannot be used multiple times" --trace --trace $x/e.cnf "$3"
}
