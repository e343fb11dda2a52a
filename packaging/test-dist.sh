#!/usr/bin/env bash
# Makes the release by build-dist.sh, twice, and tries it as somebody does who has no kit: in a new system of Debian 12, and in one
# of Debian 13 beside drat-trim, from the tarball to a verified proof of CaDiCaL's. By hand, with make test-dist: it needs what
# build-dist.sh needs, and mmdebstrap, root and Debian's archive. The last line is "N passed, M failed".
set -uo pipefail
cd "$(dirname "$0")/.." || exit 1

passed=0 failed=0
room=$(mktemp -d)
trap 'rm -rf "$room"' EXIT

# try NAME COMMAND..: the command ends with 0; its log is shown otherwise
try() {
    local name=$1
    shift
    if "$@" > "$room/log" 2>&1; then
        passed=$((passed + 1))
    else
        echo "FAILED: $name:"
        tail -n 20 "$room/log"
        failed=$((failed + 1))
        return 1
    fi
}

end() {
    echo "$passed passed, $failed failed"
    [ "$failed" -eq 0 ]
    exit
}

title=gazhumbe-$(cat VERSION)-linux-$(uname -m)
release=$room/made/$title.tar.gz
there=$room/$title

# elsewhere: the same files in another folder, newer, for their owner alone, under another language and time zone
elsewhere() {
    local again=$room/again date
    date=$(git log -1 --format=%ct)
    mkdir -m 700 "$again"
    (umask 077 && git ls-files -z --cached --others --exclude-standard | while IFS= read -rd '' path; do
        [ ! -e "$path" ] || printf '%s\0' "$path"
    done | tar --null --files-from=- -cf - bin | tar --no-same-permissions -xmf - -C "$again")
    (umask 077 && LC_ALL=C.UTF-8 TZ=Asia/Tokyo SOURCE_DATE_EPOCH=$date "$again/packaging/build-dist.sh" "$room/second")
    cmp "$release" "$room/second/$title.tar.gz"
}

# refused: there, with a program that needs another library beside the C library
refused() {
    cp /bin/bash "$room/again/bin/drat-forward"
    SOURCE_DATE_EPOCH=0 "$room/again/packaging/build-dist.sh" "$room/third" 2> "$room/said" && return 1
    grep 'bin/drat-forward needs other libraries than libc.so.6: libtinfo' "$room/said" && [ ! -e "$room/third" ]
}

# installation: the commands that README's Installation begins with
installation() {
    sed -n '/^## Installation$/,/^## [^I]/p' README.md | awk '/^    / { print substr($0, 5); seen = 1; next } seen { exit }' \
        > "$room/installation.sh"
    grep '^tar ' "$room/installation.sh"
}

# in_system SUITE PACKAGES: packaging/first-run.sh in a new system that has these packages, and else only Debian's essential ones
in_system() {
    try "Debian's $1, with $2" mmdebstrap --variant=essential --include="$2" \
        --hook-dir=/usr/share/mmdebstrap/hooks/merged-usr \
        --customize-hook="copy-in $release $room/installation.sh packaging/first-run.sh /root" \
        --customize-hook="chroot \"\$1\" env -i HOME=/root PATH=/usr/bin:/bin sh -e /root/first-run.sh" "$1" /dev/null
}

try "the release is made" packaging/build-dist.sh "$room/made" || end
try "the sum beside it" env -C "$room/made" sha256sum --check "$title.tar.gz.sha256"
try "the same bytes elsewhere" elsewhere
try "a program that needs another library" refused
try "it can be unpacked" tar -xf "$release" -C "$room" || end
try "the sums in it" env -C "$there" sha256sum --check --quiet SHA256SUMS
try "there is a sum of each file" cmp <(cd "$there" && find . -type f ! -name SHA256SUMS -printf '%P\n' | LC_ALL=C sort) \
    <(cut -c 67- "$there/SHA256SUMS")
try "what its documents link to" packaging/links.py "$there"
for program in drat-forward lrat-check model-check; do
    try "$program is that of bin/" cmp "$there/bin/$program" "bin/$program"
done

# what make says there, and what it installs
try "make has nothing to make" make -C "$there" RT=none
try "make install" make -C "$there" install PREFIX=/usr/local DESTDIR="$room/root"
try "what is installed is what the repository installs" make install PREFIX=/usr/local DESTDIR="$room/other"
try "file by file" diff -r "$room/root" "$room/other"

try "README's Installation begins with the release" installation || end
in_system bookworm cadical
in_system trixie cadical,drat-trim
end
