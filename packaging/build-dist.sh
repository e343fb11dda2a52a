#!/usr/bin/env bash
# Makes the release gazhumbe-VERSION-linux-MACHINE.tar.gz of the programs in bin/ (make), their manual pages and completions, the
# documents and examples, what make install needs, and SHA256SUMS of all these. The sum of the tarball itself is left beside it.
#
#     packaging/build-dist.sh [FOLDER]
#
# They are left in FOLDER, packaging/out otherwise. The same files make the same bytes: each is dated SOURCE_DATE_EPOCH, or else as
# the last commit. It needs git where that isn't set, and readelf: a program that needs more than version 2.34 of the C library is
# not released.
set -euo pipefail
cd "$(dirname "$0")/.."
export LC_ALL=C

newest=2.34
machine=$(uname -m)
programs=(bin/drat-forward bin/lrat-check bin/model-check)
out=${1:-packaging/out}
date=${SOURCE_DATE_EPOCH:-$(git log -1 --format=%ct)}
name=gazhumbe-$(cat VERSION)-linux-$machine

fail() {
    echo "build-dist.sh: $1" >&2
    exit 1
}

# needs_little PROGRAM: it needs the C library alone, and no version of it that is too new
needs_little() {
    local needed versions
    needed=$(readelf --dynamic --wide "$1" | sed -n 's/.*(NEEDED).*\[\(.*\)\]/\1/p')
    [ "$needed" = libc.so.6 ] || fail "$1 needs other libraries than libc.so.6: ${needed//$'\n'/ }"
    versions=$(readelf --version-info --wide "$1" | grep -oE 'GLIBC_[0-9.]+' | sed 's/GLIBC_//')
    [ "$(printf '%s\n' "$newest" "$versions" | sort -V | tail -n 1)" = "$newest" ] ||
        fail "$1 needs a C library that is newer than $newest"
}

for program in "${programs[@]}"; do
    [ -x "$program" ] || fail "there is no $program: run make"
    needs_little "$program"
done

room=$(mktemp -d)
trap 'rm -rf "$room"' EXIT
mkdir "$room/$name"
{
    printf '%s\n' "${programs[@]}" Makefile packaging/documents.sh packaging/install.sh packaging/completions/*
    packaging/documents.sh
} | tar --files-from=- -cf - | tar -xf - -C "$room/$name"
(cd "$room/$name" && find . -type f -printf '%P\0' | sort -z | xargs -0 sha256sum > "$room/sums" && mv "$room/sums" SHA256SUMS)

mkdir -p "$out"
tar --format=gnu --sort=name --owner=0 --group=0 --numeric-owner --mode=u=rwX,go=rX --mtime="@$date" \
    -C "$room" -cf - "$name" | gzip -9n > "$room/$name.tar.gz"
mv "$room/$name.tar.gz" "$out"
cd "$out"
sha256sum "$name.tar.gz" > "$name.tar.gz.sha256"
echo "$out/$name.tar.gz"
