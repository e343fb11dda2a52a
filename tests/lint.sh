#!/usr/bin/env bash
# Has shellcheck read all shell scripts, and ruff all Python programs, with pyflakes3 and pycodestyle in its place where ruff isn't
# installed: Debian has no ruff. Each file counts once. What isn't installed is said, and counts nothing. The last line is
# "N passed, M failed".
set -uo pipefail
cd "$(dirname "$0")/.." || exit 1

passed=0 failed=0
room=$(mktemp -d)
trap 'rm -rf "$room"' EXIT

# What shellcheck only asks whether it is meant: a dollar in single quotes (SC2016), a PATH that changes in a subshell alone (SC2030,
# SC2031), and functions that are called by another, which has their names as its words (SC2317).
shell=(shellcheck --format=gcc --exclude=SC2016 --exclude=SC2030 --exclude=SC2031 --exclude=SC2317)

# files ENDS LANGUAGES: the files whose name ends so, or whose first line names such an interpreter
files() {
    find . \( -name .git -o -name out -o -name bin -o -name __pycache__ \) -prune -o -type f -print0 | sort -z |
        while IFS= read -rd '' path; do
            if [[ $path =~ \.($1)$ ]] || { read -r first && [[ $first =~ ^\#!.*[/\ ]($2)$ ]]; } < "$path" 2> /dev/null; then
                printf '%s\0' "$path"
            fi
        done
}

# styled FILE: what ruff finds by default, and no more, by Debian's own
styled() {
    pyflakes3 "$1" && { ! command -v pycodestyle > /dev/null || pycodestyle --select=E4,E7,E9 "$1"; }
}

# read_all KIND ENDS LANGUAGES COMMAND..: the command reads each file of the kind, and has nothing to say
read_all() {
    local kind=$1 before=$((passed + failed))
    files "$2" "$3" > "$room/files"
    shift 3
    while IFS= read -rd '' path; do
        if "$@" "$path" > "$room/said" 2>&1; then
            passed=$((passed + 1))
        else
            echo "FAILED: $path"
            cat "$room/said"
            failed=$((failed + 1))
        fi
    done < "$room/files"
    if [ $((passed + failed)) -eq "$before" ]; then
        echo "FAILED: no $kind was found"
        failed=$((failed + 1))
    fi
}

if command -v shellcheck > /dev/null; then
    read_all "shell script" 'sh|bash' 'bash|sh' "${shell[@]}"
else
    echo "skipped: shellcheck is not installed"
fi

if command -v ruff > /dev/null; then
    read_all "Python program" py python3 ruff check --isolated --no-cache --quiet
elif command -v pyflakes3 > /dev/null; then
    echo "ruff is not installed: pyflakes3 reads the Python programs"
    read_all "Python program" py python3 styled
else
    echo "skipped: ruff is not installed, and no pyflakes3"
fi

echo "$passed passed, $failed failed"
[ "$failed" -eq 0 ]
