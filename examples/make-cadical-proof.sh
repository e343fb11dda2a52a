#!/usr/bin/env bash
# Writes the pigeonhole formula of HOLES holes, and the DRAT proof that CaDiCaL writes of it: as text, or in the binary form
# where the proof's name ends with .bin. The proof depends on CaDiCaL's version: pigeonhole-5.drat and .bin are from 1.5.3.
#
#     make-cadical-proof.sh HOLES FORMULA PROOF
#
# CADICAL names the program; it is cadical otherwise.
set -euo pipefail

if [ $# -ne 3 ]; then
    echo "usage: make-cadical-proof.sh HOLES FORMULA PROOF" >&2
    exit 1
fi

python3 "$(dirname "$0")/pigeonhole.py" "$1" "$2" /dev/null

# CaDiCaL's status for a formula without a model is 20
form=--no-binary
if [[ $3 == *.bin ]]; then
    form=--binary
fi
ended=0
"${CADICAL:-cadical}" -q "$form" "$2" "$3" > /dev/null || ended=$?
[ "$ended" -eq 20 ]
