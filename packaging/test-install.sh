#!/usr/bin/env bash
# Installs the programs in bin/ into a folder by make install, and removes them by make uninstall; and tries what make says where
# there is no rt. The last line is "N passed, M failed".
set -uo pipefail
cd "$(dirname "$0")/.." || exit 1

passed=0 failed=0
room=$(mktemp -d)
trap 'rm -rf "$room"' EXIT
unset MAKEFLAGS MAKELEVEL PREFIX BINDIR MANDIR BASHDIR ZSHDIR FISHDIR DOCDIR DESTDIR LRAT_NAME

# try NAME COMMAND..: the command ends with 0; its log is shown otherwise
try() {
    local name=$1
    shift
    if "$@" > "$room/log" 2>&1; then
        passed=$((passed + 1))
    else
        echo "FAILED: $name:"
        tail -n 20 "$room/log"
        failed=$((failed + 1))
    fi
}

# has ROOT FILE..: the folder has these files, and of those that are no documents it has no others
has() {
    local root=$1
    shift
    printf '%s\n' "$@" | sort > "$room/wanted"
    (cd "$root" && find . -type f ! -path '*/share/doc/gazhumbe/*' -printf '%P\n' | sort) > "$room/found"
    diff "$room/wanted" "$room/found"
}

# refers ROOT FOLDER PAGE: the page says that the documents are in that folder, and there they are
refers() {
    grep -qF ".Pa $2/share/doc/gazhumbe/docs" "$3" && [ -f "$1$2/share/doc/gazhumbe/docs/REPORT.md" ]
}

# the folder's name has a space, and somebody's own file is in it
prefix="/opt/two words"
root=$room/root
there=$root$prefix
share=$there/share
try "make install" make install PREFIX="$prefix" DESTDIR="$root"
try "programs, pages and completions" has "$there" bin/{drat-forward,lrat-check,model-check} \
    share/man/man1/{drat-forward,lrat-check,model-check}.1 \
    share/bash-completion/completions/{drat-forward,lrat-check,model-check} \
    share/fish/vendor_completions.d/{drat-forward,lrat-check,model-check}.fish share/zsh/site-functions/_gazhumbe
for program in drat-forward lrat-check model-check; do
    try "$program" cmp "bin/$program" "$there/bin/$program"
    try "$program can be run" test -x "$there/bin/$program"
    try "the page of $program has the folder of the documents" refers "$root" "$prefix" "$share/man/man1/$program.1"
done
try "what the documents link to" packaging/links.py "$share/doc/gazhumbe"
try "an example that can be run" test -x "$share/doc/gazhumbe/examples/worked.py"
touch "$share/doc/gazhumbe/docs/own"
try "make uninstall" make uninstall PREFIX="$prefix" DESTDIR="$root"
try "nothing is left but the own file" test "$(find "$root" -type f)" = "$share/doc/gazhumbe/docs/own"
rm "$share/doc/gazhumbe/docs/own"
try "make uninstall, once more" make uninstall PREFIX="$prefix" DESTDIR="$root"
try "no folder of documents is left" test ! -e "$share/doc/gazhumbe"

# beside DRAT-trim's
root=$room/beside
try "make install by another name" make install PREFIX=/usr DESTDIR="$root" LRAT_NAME=proved-lrat-check
try "its name is another" cmp bin/lrat-check "$root/usr/bin/proved-lrat-check"
try "nothing has the other's name" test -z "$(find "$root" -name 'lrat-check*' ! -path '*/share/doc/gazhumbe/*')"
try "its page has that name" grep -qx '\.Nm proved-lrat-check' "$root/usr/share/man/man1/proved-lrat-check.1"
try "the pages refer to that name" test "$(cat "$root"/usr/share/man/man1/*.1 | grep -c '^\.Xr proved-lrat-check 1')" -eq 2
try "make uninstall by another name" make uninstall PREFIX=/usr DESTDIR="$root" LRAT_NAME=proved-lrat-check
try "nothing is left" test -z "$(find "$root" -type f)"

# where there is no rt, and nothing was built
mkdir -p "$room/source/tests"
cp Makefile crates.txt HANDLES "$room/source"
mkdir "$room/source/crates"
touch "$room/source/tests/prove.py"
make --no-print-directory -C "$room/source" RT=no-such-rt > "$room/said" 2>&1
try "make without rt fails" test $? -eq 2
try "it says so in one line" test "$(wc -l < "$room/said")" -eq 1
try "it says what is missing" grep -q 'there is no no-such-rt on the PATH' "$room/said"
try "it says what does without" grep -q 'the release needs no kit' "$room/said"

echo "$passed passed, $failed failed"
[ "$failed" -eq 0 ]
