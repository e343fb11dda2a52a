#!/bin/sh
# Tries the installed package beside drat-trim, on a proof of CaDiCaL: each lrat-check is the one that is meant.
set -eux

room=$(mktemp -d)
formula=/usr/share/doc/gazhumbe/examples/pigeonhole-5.cnf
cd "$room"

# says VERDICT COMMAND..: the last line of what the command writes, with status 0
says() {
    wanted=$1
    shift
    "$@" > out
    [ "$(tail -n 1 out)" = "$wanted" ]
}

cadical -q "$formula" proof.bin || [ $? -eq 20 ]
cadical -q --lrat --no-binary "$formula" proof.lrat || [ $? -eq 20 ]
says "s VERIFIED" drat-forward --binary "$formula" proof.bin
says "s VERIFIED" gazhumbe-lrat-check "$formula" proof.lrat
drat-trim "$formula" proof.bin -L trimmed.lrat | grep 's VERIFIED'
says "s VERIFIED" gazhumbe-lrat-check "$formula" trimmed.lrat

# DRAT-trim's by its name, which knows no --version; and ours where its folder comes first
[ "$(dpkg -S "$(command -v lrat-check)")" = "drat-trim: /usr/bin/lrat-check" ]
lrat-check "$formula" trimmed.lrat | grep 'c VERIFIED'
PATH=/usr/lib/gazhumbe/bin:$PATH
says "s VERIFIED" lrat-check "$formula" proof.lrat
