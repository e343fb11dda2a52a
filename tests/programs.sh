#!/usr/bin/env bash
# Runs the three programs as a user does: files, standard input, missing files, wrong words. What they write and
# their statuses are compared with what stands here. The last line is "N passed, M failed".
#
# LRAT_CHECK, DRAT_FORWARD and MODEL_CHECK name the programs; they are those in bin/ otherwise.
set -uo pipefail
cd "$(dirname "$0")/.." || exit 1

lrat_check=${LRAT_CHECK:-bin/lrat-check}
drat_forward=${DRAT_FORWARD:-bin/drat-forward}
model_check=${MODEL_CHECK:-bin/model-check}
passed=0 failed=0
room=$(mktemp -d)
trap 'rm -rf "$room"' EXIT

for checker in "$lrat_check" "$drat_forward" "$model_check"; do
    if [ ! -x "$checker" ]; then
        echo "FAILED: there is no program $checker"
        echo "0 passed, 1 failed"
        exit 1
    fi
done

# each reads $checker, $room and the counts, and has rows of its own
for part in rows every_tool lrat drat kept_units model little_stack; do
    # shellcheck source=/dev/null
    . "tests/programs/$part.sh"
done

echo "$passed passed, $failed failed"
[ "$failed" -eq 0 ]
