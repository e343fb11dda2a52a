# shellcheck shell=bash
# What tests/programs.sh does with a row: runs a program, and compares what it wrote, what it told and its status.
# shellcheck disable=SC2034,SC2086,SC2154

# judge NAME WANTED_STATUS STATUS: compares $room/wanted with $room/out
judge() {
    if [ "$3" -ne "$2" ]; then
        echo "FAILED: $1: status $3, and not $2"
        failed=$((failed + 1))
    elif ! cmp -s "$room/wanted" "$room/out"; then
        echo "FAILED: $1: the lines differ (wanted, written):"
        diff "$room/wanted" "$room/out"
        failed=$((failed + 1))
    else
        passed=$((passed + 1))
    fi
}

# row NAME STATUS WORD..: runs the program $checker with these words. Standard input has the wanted lines, or "-" for none.
row() {
    local name=$1 status=$2 ended
    shift 2
    cat > "$room/wanted"
    "$checker" "$@" > "$room/out" 2> "$room/err" < "${on_stdin:-/dev/null}"
    ended=$?
    judge "$name" "$status" "$ended"
}

# in_little_stack NAME STATUS WORD..: the same with 64 kB of stack
in_little_stack() {
    local name=$1 status=$2 ended
    shift 2
    cat > "$room/wanted"
    (ulimit -s 64 && exec "$checker" "$@") > "$room/out" 2> "$room/err" < /dev/null
    ended=$?
    judge "$name" "$status" "$ended"
}

# told NAME: standard error of the run before has the lines of standard input
told() {
    cat > "$room/wanted"
    cp "$room/err" "$room/out"
    judge "$1: standard error" 0 0
}

# usage NAME WORD..: status 6, nothing on standard output, something on standard error
usage() {
    local name=$1
    shift
    row "$name" 6 "$@" < /dev/null
    if [ -s "$room/err" ]; then
        passed=$((passed + 1))
    else
        echo "FAILED: $name: nothing on standard error"
        failed=$((failed + 1))
    fi
}

# usage_of PROGRAM: the words that may follow its name
usage_of() {
    case $1 in
        drat-forward) echo '[--binary] [--trace] [--strict] [--pr] [--keep-units] FORMULA [PROOF]' ;;
        lrat-check) echo '[--trace] FORMULA [PROOF]' ;;
        model-check) echo 'FORMULA [OUTPUT]' ;;
    esac
}

# purpose_of PROGRAM: what it is for
purpose_of() {
    case $1 in
        drat-forward) echo 'Checks a DRAT proof that a formula is unsatisfiable' ;;
        lrat-check) echo 'Checks an LRAT proof that a formula is unsatisfiable' ;;
        model-check) echo 'Checks the model that a SAT solver claims of a formula' ;;
    esac
}

# wrong NAME PROGRAM MESSAGE WORD..: as usage, and standard error has the message and how the program is used. How a file is named
# that begins with a hyphen is told where the word that is wrong does.
wrong() {
    local name=$1 program=$2 message=$3
    shift 3
    usage "$name" "$@"
    {
        echo "$program: $message"
        case $message in
            "unexpected argument '-"*) echo "A file whose name begins with '-' is given as './-name'." ;;
        esac
        echo "Usage: $program $(usage_of "$program")"
        echo "Try '$program --help'."
    } > "$room/message"
    told "$name" < "$room/message"
}

# help NAME PROGRAM WORD..: as usage, and standard error begins with what the program is for, and ends with the statuses and the
# manual page
help() {
    local name=$1 program=$2
    shift 2
    usage "$name" "$@"
    { head -n 1 "$room/err"; sed -n '/^Exit status:/,$p' "$room/err"; } > "$room/ends"
    cp "$room/ends" "$room/err"
    told "$name" <<LINES
$(purpose_of "$program")
Exit status:
  0  verified
  1  not verified
  2  an input is malformed
  3  a file could not be opened, or a read failed
  4  out of memory
  5  a write failed
  6  the command line is wrong, or asks for help or the version

Manual page: man $program
LINES
}

# malformed NAME PROGRAM PLACE HINT FILE WORD..: runs the program $checker with these words: status 2, and standard error has what is
# wrong with the file and where, and this hint or, where it is empty, none
malformed() {
    local name=$1 program=$2 place=$3 hint=$4 file=$5 ended
    shift 5
    "$checker" "$@" > "$room/report" 2> "$room/out" < "${on_stdin:-/dev/null}"
    ended=$?
    echo "$program: $file: $place" > "$room/wanted"
    if [ -n "$hint" ]; then
        echo "$program: $file: hint: $hint" >> "$room/wanted"
    fi
    judge "$name" 2 "$ended"
}

# write_failed NAME PROGRAM STATUS: compares the status with 5, and $room/out with the line of standard error
write_failed() {
    echo "$2: write failed" > "$room/wanted"
    judge "$1" 5 "$3"
}

# version NAME PROGRAM WORD..: as usage, and standard error has the program's name and what the file VERSION has
version() {
    local name=$1 program=$2
    shift 2
    usage "$name" "$@"
    told "$name" <<< "$program $(cat VERSION)"
}

x=examples
units_hint='the proof deleted the reason clause of a root-level literal: --keep-units may accept it'

# writes NAME WORD..: runs the program $checker with these words on a socket that keeps each write apart, and compares the
# writes with the lines of standard input: one for each.
writes() {
    local name=$1
    shift
    cat > "$room/wanted"
    python3 - "$checker" "$@" > "$room/out" <<'SCRIPT'
import socket, subprocess, sys
ours, theirs = socket.socketpair(socket.AF_UNIX, socket.SOCK_SEQPACKET)
program = subprocess.Popen(sys.argv[1:], stdin=subprocess.DEVNULL, stdout=theirs)
theirs.close()
while piece := ours.recv(65536):
    print(piece.decode("ascii").replace("\n", "|"))
program.wait()
SCRIPT
    judge "$name" 0 $?
}

# without_stdin NAME STATUS WORD..: as row, with standard input closed. The file that is opened first gets its number.
without_stdin() {
    local name=$1 status=$2
    shift 2
    cat > "$room/wanted"
    "$checker" "$@" > "$room/out" 2> "$room/err" <&-
    judge "$name" "$status" $?
}
