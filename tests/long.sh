#!/usr/bin/env bash
# Streams long inputs through a pipe into the three programs: a proof in DRAT, one in LRAT, and a formula for model-check. What
# is alive at once stays small in them, and so has the memory of each program to stay, the greatest resident set as GNU time
# tells it: below 4 MB, and a little more where clauses come and go whose sizes grow. The last line is "N passed, M failed".
# 10 GB take long; `make test` gives 100 MB, which is enough to show four bytes that are kept for each 1024 identifiers up to
# those of the proof.
#
#   tests/long.sh [SIZE]        about SIZE bytes for each program, 10000000000 where it isn't said
#
# LRAT_CHECK, DRAT_FORWARD and MODEL_CHECK name the programs; they are those in bin/ otherwise.
set -uo pipefail
cd "$(dirname "$0")/.." || exit 1

size=${1:-10000000000}
lrat_check=${LRAT_CHECK:-bin/lrat-check}
drat_forward=${DRAT_FORWARD:-bin/drat-forward}
model_check=${MODEL_CHECK:-bin/model-check}
most=4000000
passed=0 failed=0
room=$(mktemp -d)
trap 'rm -rf "$room"' EXIT

# a formula has at most 4294967295 clauses, here of 7 bytes each
if ! [[ $size =~ ^[1-9][0-9]{5,10}$ ]] || [ "$size" -gt 30000000000 ]; then
    echo "usage: tests/long.sh [SIZE], with a SIZE from 100000 to 30000000000" >&2
    exit 6
fi
for program in "$lrat_check" "$drat_forward" "$model_check" /usr/bin/time; do
    [ -x "$program" ] || { echo "tests/long.sh: there is no program $program" >&2; exit 1; }
done

# row NAME BYTES PROGRAM WORD..: runs the program on standard input, of so many bytes, and compares the lines with $room/wanted
row() {
    local name=$1 bytes=$2 status seconds kib peak wrong=
    shift 2
    /usr/bin/time -q -f '%e %M' -o "$room/used" "$@" > "$room/out" 2> "$room/err"
    status=$?
    read -r seconds kib < "$room/used"
    peak=$((kib * 1024))
    [ "$status" -eq 0 ] || wrong+=" status $status;"
    cmp -s "$room/wanted" "$room/out" || wrong+=" lines $(tr '\n' '|' < "$room/out");"
    [ "$peak" -lt "$most" ] || wrong+=" too much memory;"
    if [ -z "$wrong" ]; then
        passed=$((passed + 1))
    else
        echo "FAILED: $name:$wrong"
        failed=$((failed + 1))
    fi
    echo "$name: $bytes bytes in $seconds s, with $peak bytes of memory"
}

# ---- A clause is added and deleted, again and again: 18 bytes in DRAT

pairs=$((size / 18))

drat() {
    yes -- $'-1 -2 0\nd -1 -2 0' | head -c $((pairs * 18))
    printf '2 0\n0\n'
}

cat > "$room/wanted" <<LINES
c formula 2 variables 4 clauses
c steps $((2 * pairs + 2)) peak 10
s VERIFIED
LINES
row drat-forward $((pairs * 18 + 6)) "$drat_forward" examples/e.cnf < <(drat)

# ---- The same in LRAT, under identifiers of 10 digits that rise: 49 bytes, a thousand pairs at a time

thousands=$((size / 49000))
last=$((1000000000 + 1000 * thousands))

lrat() {
    python3 - "$thousands" <<'CODE'
import sys

pairs = "".join(f"@{i:03} -1 -2 0 4 0\n@{i:03} d @{i:03} 0\n" for i in range(1000)).encode()
for thousand in range(int(sys.argv[1])):
    sys.stdout.buffer.write(pairs.replace(b"@", b"%d" % (1000000 + thousand)))
CODE
    printf '%d 2 0 1 2 0\n%d 0 %d 3 4 0\n' "$last" $((last + 1)) "$last"
}

cat > "$room/wanted" <<LINES
c formula 2 variables 4 clauses
c steps $((2000 * thousands + 2)) peak 10
s VERIFIED
LINES
row lrat-check $((thousands * 49000 + 51)) "$lrat_check" examples/e.cnf < <(lrat)

# ---- Clauses whose sizes grow: 16 of each size from 2 to 320, and those of the size before are deleted

most_literals=320
peak_of_sizes=$((8 + 16 * (2 * most_literals - 1)))
steps_of_sizes=$((32 * (most_literals - 1) - 16 + 2))

sizes() {
    python3 - "$most_literals" "$1" <<'CODE'
import sys

most, is_lrat = int(sys.argv[1]), sys.argv[2] == "lrat"
first, ends = 5, " 0 1 3 0\n" if is_lrat else " 0\n"
for size in range(2, most + 1):
    clause = "1 " + " ".join(map(str, range(3, size + 2)))
    ids = range(first, first + 16) if is_lrat else [""] * 16
    sys.stdout.write("".join(f"{i} {clause}{ends}".lstrip() for i in ids))
    if size > 2 and is_lrat:
        sys.stdout.write("".join(f"{first + 16} d {i - 16} 0\n" for i in ids))
    elif size > 2:
        sys.stdout.write(f"d {before} 0\n" * 16)
    first, before = first + 16, clause
print(f"{first} 2 0 1 2 0\n{first + 1} 0 {first} 3 4 0" if is_lrat else "2 0\n0")
CODE
}

cat > "$room/wanted" <<LINES
c formula 2 variables 4 clauses
c steps $steps_of_sizes peak $peak_of_sizes
s VERIFIED
LINES
# some of what was freed stays; without gathering it is 4.7 MB
most=4400000
row "drat-forward, sizes" "$(sizes drat | wc -c)" "$drat_forward" examples/e.cnf < <(sizes drat)
row "lrat-check, sizes" "$(sizes lrat | wc -c)" "$lrat_check" examples/e.cnf < <(sizes lrat)

# ---- Each size from 1 to 640 once, and the last 31 alive: 19384 literals with those of the formula and a last unit clause

once() {
    python3 - "$1" <<'CODE'
import sys

is_lrat = sys.argv[1] == "lrat"
clauses = [" ".join(map(str, [1, *range(3, size + 2)])) for size in range(1, 641)]
for at, clause in enumerate(clauses):
    if at >= 31:
        print(f"{at + 4} d {at - 26} 0" if is_lrat else f"d {clauses[at - 31]} 0")
    print(f"{at + 5} {clause} 0 1 3 0" if is_lrat else f"{clause} 0")
print("645 2 0 1 2 0\n646 0 645 3 4 0" if is_lrat else "2 0\n0")
CODE
}

cat > "$room/wanted" <<LINES
c formula 2 variables 4 clauses
c steps 1251 peak 19384
s VERIFIED
LINES
most=$((4000000 + 3 * 4 * 19384))
row "drat-forward, each size once" "$(once drat | wc -c)" "$drat_forward" examples/e.cnf < <(once drat)
row "lrat-check, each size once" "$(once lrat | wc -c)" "$lrat_check" examples/e.cnf < <(once lrat)
most=4000000

# ---- A formula that has one clause of 7 bytes again and again, and a model of it

clauses=$((size / 7))
header="p cnf 2 $clauses"

formula() {
    echo "$header"
    yes '1 -2 0' | head -c $((clauses * 7))
}

cat > "$room/wanted" <<LINES
c clauses $clauses
s MODEL VERIFIED
LINES
row model-check $((clauses * 7 + ${#header} + 1)) "$model_check" /dev/stdin examples/models.out < <(formula)

echo "$passed passed, $failed failed"
[ "$failed" -eq 0 ]
