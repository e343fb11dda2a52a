#!/usr/bin/env bash
# Builds a Debian source package, and from it the package gazhumbe, of the repository's files as git lists them.
#
#     packaging/build-deb.sh [FOLDER]
#
# They are left in FOLDER, packaging/out otherwise. It needs git, debhelper and dpkg-dev, and the programs in bin/ (make): the
# source package has them built, since rt, which proves and builds them, is no package of Debian's. The version is that of
# VERSION, the date that of the last commit.
set -euo pipefail
cd "$(dirname "$0")/.."

out=${1:-packaging/out}
mkdir -p "$out"
out=$(realpath "$out")
version=$(cat VERSION)

for program in drat-forward lrat-check model-check; do
    [ -x "bin/$program" ] || { echo "build-deb.sh: there is no bin/$program: run make" >&2; exit 1; }
done

room=$(mktemp -d)
trap 'rm -rf "$room"' EXIT
tree=$room/gazhumbe-$version
mkdir "$tree"
# git lists what was removed and not yet committed, too
git ls-files -z --cached --others --exclude-standard | while IFS= read -rd '' path; do
    [ ! -e "$path" ] || printf '%s\0' "$path"
done | tar --null --files-from=- -cf - | tar -xf - -C "$tree"
mv "$tree/packaging/debian" "$tree/debian"
mkdir "$tree/bin"
cp bin/drat-forward bin/lrat-check bin/model-check "$tree/bin"
cat > "$tree/debian/changelog" <<END
gazhumbe ($version) unstable; urgency=medium

  * Version $version: see CHANGELOG.md.

 -- Gazhumbe maintainers <maintainers@users.noreply.gazhumbe.example>  $(git log -1 --format=%cD)
END

(cd "$tree" && dpkg-buildpackage -us -uc)
mv "$room/gazhumbe_$version"[._]* "$out"
