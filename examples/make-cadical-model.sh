#!/usr/bin/env bash
# Writes the formula of N queens, and what CaDiCaL writes of it. The model depends on CaDiCaL's version: queens-6.out is from
# 1.5.3.
#
#     make-cadical-model.sh N FORMULA OUTPUT
#
# CADICAL names the program; it is cadical otherwise.
set -euo pipefail

if [ $# -ne 3 ]; then
    echo "usage: make-cadical-model.sh N FORMULA OUTPUT" >&2
    exit 1
fi

python3 "$(dirname "$0")/queens.py" "$1" "$2"

# CaDiCaL's status for a formula with a model is 10
ended=0
"${CADICAL:-cadical}" -q "$2" > "$3" || ended=$?
[ "$ended" -eq 10 ]
