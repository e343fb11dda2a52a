#!/usr/bin/env bash
# Writes the DRAT proof that Glucose 3.0 writes of a formula, as it stands in berkeley-abc, with no preprocessing. The proof
# depends on the version: kept_units.drat, and of pigeonhole-5.cnf pigeonhole-5-glucose.drat, are from Debian's 1.01+20221019.
#
#     make-glucose-proof.sh FORMULA PROOF
#
# Debian: apt-get install berkeley-abc gdb
#
# Glucose has options for a proof, -certified and -certified-output, and no command of berkeley-abc sets them. So gdb does:
# where the program opens its first file, both options stand in its memory, each with its name and its value.
#
# Glucose deletes learned clauses that are satisfied for good, also one by which a literal followed that it never wrote, so
# that drat-forward needs --keep-units. Where it meets the clash while it reads the formula, it writes an empty proof.
set -euo pipefail

if [ $# -ne 2 ]; then
    echo "usage: make-glucose-proof.sh FORMULA PROOF" >&2
    exit 1
fi

room=$(mktemp -d)
trap 'rm -rf "$room"' EXIT
cp "$1" "$room/formula.cnf"
cat > "$room/options.py" <<'SCRIPT'
import struct


def places(memory, ranges, data):
    """Returns all places in some ranges of the memory where some bytes stand."""
    found = []
    for start, end in ranges:
        while (place := memory.search_memory(start, end - start, data)) is not None:
            found.append(place)
            start = place + 1
    return found


def main():
    gdb.execute("set confirm off")
    gdb.execute("set breakpoint pending on")
    gdb.execute("break fopen")
    gdb.execute("run")
    memory = gdb.selected_inferior()
    mapped = [it.split() for it in gdb.execute("info proc mappings", to_string=True).splitlines() if " 0x" in it]
    own = [it for it in mapped if it[-1].endswith("/berkeley-abc")]
    own += [it for it in mapped if it[0] == own[-1][1]]
    ranges = [(int(it[0], 16), int(it[1], 16)) for it in own]
    name = b"proof.drat\0"
    room = int(gdb.parse_and_eval(f"((unsigned long (*)(unsigned long)) malloc)({len(name)})"))
    memory.write_memory(room, name)
    # an option: its kind, name, description, category, type and value, of eight bytes each; the value of a flag has one
    for option, value in ((b"certified", b"\1"), (b"certified-output", struct.pack("<Q", room))):
        for word in places(memory, ranges, b"\0" + option + b"\0"):
            for place in places(memory, ranges, struct.pack("<Q", word + 1)):
                memory.write_memory(place + 32, value)
    gdb.execute("delete")
    gdb.execute("continue")


main()
SCRIPT
(cd "$room" && gdb -nx -batch -x options.py --args berkeley-abc -q '&glucose -p formula.cnf' > out 2>&1 < /dev/null)
if ! grep -q UNSATISFIABLE "$room/out" || ! [ -f "$room/proof.drat" ]; then
    echo "make-glucose-proof.sh: no proof was written" >&2
    exit 1
fi
cp "$room/proof.drat" "$2"
