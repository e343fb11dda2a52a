#!/usr/bin/env bash
# Runs the programs in bin/ on inputs that were made to be dear, each kind at n, 2n and 4n: bench/hostile.py says more. It takes some
# minutes, and a kind may be named: bench/hostile.sh [KIND..]. With --beside first, the plain C++ checkers are built, to run beside.
set -euo pipefail
cd "$(dirname "$0")/.."
if [ "${1:-}" = --beside ]; then
    mkdir -p bench/out
    for name in reference reference_drat; do
        c++ -O2 -std=c++17 -o "bench/out/$name" "bench/$name.cpp"
    done
fi
exec python3 bench/hostile.py "$@"
