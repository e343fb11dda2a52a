#!/usr/bin/env bash
# Prints the documents that are installed and released, a path in each line: the pages, all that they link to, the manual pages
# and the examples.
set -euo pipefail
cd "$(dirname "$0")/.."
export LC_ALL=C

pages=(README.md CHANGELOG.md CONTRIBUTING.md SECURITY.md docs/*.md bench/README.md bench/TABLES.md)

# links_of PAGE: the files that a page links to, from the top
links_of() {
    local link path
    sed -n 's/\](/\n&/gp' "$1" | sed -n 's/^\](\([^)#]*\).*/\1/p' | while read -r link; do
        path=$(realpath --canonicalize-missing --relative-to=. "$(dirname "$1")/$link")
        # the manual pages are linked to as a folder
        case $link in *:*) ;; *) [ -d "$path" ] || echo "$path" ;; esac
    done
}

{
    printf '%s\n' "${pages[@]}" LICENSE CITATION.cff VERSION
    for page in "${pages[@]}"; do links_of "$page"; done
    find man examples -type f ! -path '*/__pycache__/*'
} | sort -u
