#!/usr/bin/env bash
# Copies the programs in bin/, their manual pages, completions and the documents to where make install says, or removes them there.
#
#     packaging/install.sh install|uninstall
#
# The folders are BINDIR, MANDIR, BASHDIR, ZSHDIR, FISHDIR and DOCDIR, under DESTDIR. lrat-check gets the name LRAT_NAME, also in
# manual pages and completions.
set -euo pipefail
cd "$(dirname "$0")/.."

completions=packaging/completions
read -ra copy <<< "${INSTALL:-install}"

# files: a line for each file, of its mode, where it stands here, and where it is to stand
files() {
    local program name path mode
    for program in drat-forward lrat-check model-check; do
        name=$program
        [ "$program" != lrat-check ] || name=$LRAT_NAME
        printf '%s\t%s\t%s\n' 755 "bin/$program" "$BINDIR/$name" \
            644 "man/$program.1" "$MANDIR/man1/$name.1" \
            644 "$completions/gazhumbe.bash" "$BASHDIR/$name" \
            644 "$completions/$program.fish" "$FISHDIR/$name.fish"
    done
    printf '%s\t%s\t%s\n' 644 "$completions/_gazhumbe" "$ZSHDIR/_gazhumbe"
    packaging/documents.sh | while read -r path; do
        mode=644
        [ ! -x "$path" ] || mode=755
        printf '%s\t%s\t%s\n' "$mode" "$path" "$DOCDIR/$path"
    done
}

# told FILE: a manual page or a completion, with the names that are installed, and where the documents are
told() {
    case $1 in
        man/*) sed -E -e "/^\.(Nm|Xr) |^\\$ /s/lrat-check/$LRAT_NAME/" -e "/^\.Dt /s/LRAT-CHECK/${LRAT_NAME^^}/" \
            -e "s|/usr/share/doc/gazhumbe|$DOCDIR|" "$1" ;;
        *) sed "s/lrat-check/$LRAT_NAME/g" "$1" ;;
    esac
}

# put MODE FROM TO
put() {
    mkdir -p "${3%/*}"
    case $2:$3 in
        man/*:*/man1/* | "$completions"/*) told "$2" | "${copy[@]}" -m "$1" /dev/stdin "$3" ;;
        *) "${copy[@]}" -m "$1" "$2" "$3" ;;
    esac
}

install_all() {
    local program mode from to list
    for program in drat-forward lrat-check model-check; do
        [ -x "bin/$program" ] || { echo "make install: there is no bin/$program: run make" >&2; exit 1; }
    done
    list=$(files)
    while IFS=$'\t' read -r mode from to; do
        put "$mode" "$from" "${DESTDIR:-}$to"
    done <<< "$list"
}

# of the folders only those of the documents are ours
uninstall_all() {
    local documents=${DESTDIR:-}$DOCDIR to list
    list=$(files)
    while IFS=$'\t' read -r _ _ to; do
        rm -f "${DESTDIR:-}$to"
    done <<< "$list"
    [ ! -d "$documents" ] || find "$documents" -depth -type d -empty -delete
}

case ${1:-} in
    install) install_all ;;
    uninstall) uninstall_all ;;
    *) echo "usage: packaging/install.sh install|uninstall" >&2; exit 6 ;;
esac
