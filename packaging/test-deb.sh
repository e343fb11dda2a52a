#!/usr/bin/env bash
# Builds the Debian package by build-deb.sh, and again from its source package; unpacks it into a folder, and runs the three
# programs from there. By hand, with make test-package: it needs what build-deb.sh needs, and lintian where that is installed.
#
#     packaging/test-deb.sh [--clean]
#
# With --clean it is built once more in a chroot that has nothing but the build dependencies, and installed and tested in one that
# has nothing but its own, and in one of Debian 13 beside drat-trim; that needs mmdebstrap, root and Debian's archive. The last line
# is "N passed, M failed".
set -uo pipefail
cd "$(dirname "$0")/.." || exit 1
root=$PWD

passed=0 failed=0
room=$(mktemp -d)
trap 'rm -rf "$room"' EXIT

# try NAME COMMAND..: the command ends with 0; its log is shown otherwise
try() {
    local name=$1
    shift
    if "$@" > "$room/log" 2>&1; then
        passed=$((passed + 1))
    else
        echo "FAILED: $name:"
        tail -n 20 "$room/log"
        failed=$((failed + 1))
        return 1
    fi
}

end() {
    echo "$passed passed, $failed failed"
    [ "$failed" -eq 0 ]
    exit
}

version=$(cat VERSION)
name=gazhumbe_$version
deb=$room/built/${name}_amd64.deb

# offers FILE PROGRAM COMMAND: what bash offers of a program, once it has read the file, are the options in the program's help
offers() {
    bash -c '. "$0"; COMP_WORDS=("$1" --) COMP_CWORD=1; _gazhumbe "$1"; printf "%s\n" "${COMPREPLY[@]}"' "$1" "$2" |
        sort > "$room/found"
    "$3" --help 2>&1 | grep -oE -e '--[a-z-]+' | sort -u > "$room/wanted"
    [ -s "$room/wanted" ] && diff "$room/wanted" "$room/found"
}

# by_name FILE OURS: a file of the package is ours, but for the name of lrat-check
by_name() {
    sed 's/gazhumbe-lrat-check/lrat-check/g; s/GAZHUMBE-LRAT-CHECK/LRAT-CHECK/' "$1" | cmp - "$2"
}

# refers PAGES PAGE: the page has the name of its file, and all pages to which it refers are beside it
refers() {
    local other
    zcat "$1/$2.1.gz" > "$room/page"
    grep -qx "\.Nm $2" "$room/page" || return
    sed -n 's/^\.Xr \([a-z-]*\) 1.*/\1/p' "$room/page" | while read -r other; do
        [ -f "$1/$other.1.gz" ] || { echo "there is no page $other"; exit 1; }
    done
}

# has_program WHICH THERE NAME PROGRAM: the package has a program by this name, with its page and completions
has_program() {
    local which=$1 there=$2 name=$3 program=$4 share=$2/usr/share
    try "$which: $name is bin/$program" cmp "$there/usr/bin/$name" "bin/$program"
    try "$which: the page of $name" by_name <(zcat "$share/man/man1/$name.1.gz") "man/$program.1"
    try "$which: the page of $name refers to those that are there" refers "$share/man/man1" "$name"
    try "$which: bash completes $name" offers "$share/bash-completion/completions/$name" "$name" "$there/usr/bin/$name"
    try "$which: fish completes $name" by_name "$share/fish/vendor_completions.d/$name.fish" "packaging/completions/$program.fish"
    try "$which: fish completes it by that name" grep -q "^complete -c $name " "$share/fish/vendor_completions.d/$name.fish"
}

# documented WHICH FOLDER: the documents of the package
documented() {
    try "$1: what its documents link to" packaging/links.py "$2"
    packaging/documents.sh > "$room/documents"
    while read -r path; do
        try "$1: $path" cmp "$path" "$2/$path"
    done < "$room/documents"
    # Debian's own are compressed
    try "$1: documents are not compressed" [ "$(find "$2" -name '*.gz')" = "$2/changelog.gz" ]
}

# of_package NAME DEB: the package has the programs of bin/, the pages and documents, and its programs do what they should
of_package() {
    local which=$1 there=$room/unpacked
    rm -rf "$there"
    try "$which: it can be unpacked" dpkg-deb -x "$2" "$there" || return
    try "$which: its version" [ "$(dpkg-deb -f "$2" Version)" = "$version" ]
    try "$which: it can be installed beside others" [ -z "$(dpkg-deb -f "$2" Conflicts Breaks Replaces)" ]
    try "$which: it has no other programs" \
        [ "$(cd "$there/usr/bin" && echo *)" = "drat-forward gazhumbe-lrat-check model-check" ]
    has_program "$which" "$there" drat-forward drat-forward
    has_program "$which" "$there" gazhumbe-lrat-check lrat-check
    has_program "$which" "$there" model-check model-check
    try "$which: lrat-check in a folder of its own" cmp "$there/usr/lib/gazhumbe/bin/lrat-check" bin/lrat-check
    try "$which: zsh completes" by_name "$there/usr/share/zsh/vendor-completions/_gazhumbe" packaging/completions/_gazhumbe
    try "$which: zsh completes gazhumbe-lrat-check" \
        grep -q '^#compdef drat-forward gazhumbe-lrat-check model-check$' "$there/usr/share/zsh/vendor-completions/_gazhumbe"
    documented "$which" "$there/usr/share/doc/gazhumbe"

    local checkers=("DRAT_FORWARD=$there/usr/bin/drat-forward" "LRAT_CHECK=$there/usr/lib/gazhumbe/bin/lrat-check"
        "MODEL_CHECK=$there/usr/bin/model-check")
    try "$which: tests/programs.sh" env "${checkers[@]}" tests/programs.sh
    try "$which: tests/manual.sh" env "${checkers[@]}" tests/manual.sh
    try "$which: tests/completions.sh" env "${checkers[@]}" tests/completions.sh

    # as its user does it: its own examples, by what the folder has alone
    examples=$there/usr/share/doc/gazhumbe/examples
    try "$which: a proof of its examples" env -C "$examples" "$there/usr/bin/drat-forward" pigeonhole-5.cnf pigeonhole-5.drat
    try "$which: an LRAT proof of its examples" env -C "$examples" "$there/usr/bin/gazhumbe-lrat-check" e.cnf e.lrat
    try "$which: a model of its examples" env -C "$examples" "$there/usr/bin/model-check" queens-6.cnf queens-6.out
}

try "the package is built" packaging/build-deb.sh "$room/built" || end
of_package "the package" "$deb"

if command -v lintian > /dev/null; then
    try "lintian" lintian --fail-on error,warning "$room/built/${name}_amd64.changes"
else
    echo "skipped: lintian is not installed"
fi

# from the source package alone, with no repository around it
mkdir "$room/again"
cd "$room/again" || exit 1
try "the source package can be unpacked" dpkg-source -x "$room/built/$name.dsc" source || end
try "the source package can be built" env -C source dpkg-buildpackage -b -us -uc || end
cd "$root" || exit 1
of_package "the package that was built again" "$room/again/${name}_amd64.deb"

# in_chroot NAME SUITE COMMAND PACKAGES: runs the command as root in a new chroot of that suite of Debian with these packages and the
# folder /package, of which it keeps what the command leaves in /package/kept
in_chroot() {
    try "$1" mmdebstrap --variant=apt --include="$4" --hook-dir=/usr/share/mmdebstrap/hooks/merged-usr \
        --customize-hook="copy-in $room/package /" --customize-hook="chroot \"\$1\" sh -ec 'cd /package; $3'" \
        --customize-hook="sync-out /package/kept $room/kept" "$2" /dev/null
}

if [ "${1:-}" = --clean ]; then
    mkdir -p "$room/package/kept" "$room/kept"
    cp "$room/built/$name".* packaging/beside.sh "$room/package"
    in_chroot "it is built in a clean chroot" bookworm \
        "dpkg-source -x $name.dsc source; cd source; apt-get -y build-dep ./; dpkg-buildpackage -b -us -uc; cp ../*.deb ../kept" \
        dpkg-dev || end
    of_package "the package of the clean chroot" "$room/kept/${name}_amd64.deb"
    cp "$room/kept/${name}_amd64.deb" "$room/package"
    in_chroot "it is installed and tested in a clean chroot" bookworm \
        "dpkg-source -x $name.dsc source; apt-get -y install ./${name}_amd64.deb; cd source; packaging/installed.sh" \
        dpkg-dev,make,man-db,python3 || end
    in_chroot "it is installed beside drat-trim" trixie "apt-get -y install ./${name}_amd64.deb; sh -ex ./beside.sh" \
        cadical,drat-trim || end
fi

end
