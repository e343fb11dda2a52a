#!/usr/bin/env bash
# Tests the programs that are installed, as autopkgtest does it: by their names on the PATH, on the examples of the package; and
# that all that the documents link to is there.
set -euo pipefail
cd "$(dirname "$0")/.."

export DRAT_FORWARD LRAT_CHECK MODEL_CHECK
DRAT_FORWARD=$(command -v drat-forward)
LRAT_CHECK=$(command -v gazhumbe-lrat-check)
MODEL_CHECK=$(command -v model-check)
for script in tests/programs.sh examples/worked.py tests/rows.py tests/check_all.py tests/check_all_many.py tests/manual.sh tests/completions.sh; do
    "$script"
done
packaging/links.py /usr/share/doc/gazhumbe
man --where drat-forward gazhumbe-lrat-check model-check
PATH=/usr/lib/gazhumbe/bin:$PATH lrat-check /usr/share/doc/gazhumbe/examples/e.cnf /usr/share/doc/gazhumbe/examples/e.lrat
