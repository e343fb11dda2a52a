#!/usr/bin/env bash
# Checks an LRAT proof by the verified checker in ACL2 (Debian's acl2-books, projects/sat/lrat/stobj-based):
#
#   bench/acl2_lrat.sh FORMULA PROOF
#
# It prints the verdict and the processor's seconds that the checker says it took to read both files and to check. The start of
# ACL2 isn't among them. The checker takes no comments in formulas, and no literal twice in a clause, so it gets a copy without.
# There each clause has to have a line of its own.
set -euo pipefail

room=$(mktemp -d)
trap 'rm -rf "$room"' EXIT
awk '
    /^c/ { next }
    /^p/ { print; next }
    { split("", seen); for (i = 1; i < NF; ++i) if (!seen[$i]++) printf "%s ", $i; print 0 }
' "$1" > "$room/formula"
{
    echo '(include-book "projects/sat/lrat/stobj-based/run" :dir :system)'
    printf '(lrat::lrat-check "%s" "%s")\n' "$room/formula" "$2"
} | acl2 > "$room/said" 2>&1 || true
awk '
    /took/ { is_whole = /VERIFY-LRAT-PROOF/ }
    is_whole { for (i = 1; i + 2 <= NF; ++i) if ($(i + 1) == "seconds" && $(i + 2) !~ /realtime/) took += $i }
    /^s / { verdict = $0 }
    /[Ee]rror|ERROR/ { print "c " $0 }
    END { printf "c seconds %.2f\n%s\n", took, verdict ? verdict : "s FAILED"; exit verdict != "s VERIFIED" }
' "$room/said"
