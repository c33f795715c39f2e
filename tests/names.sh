#!/bin/bash
# names.sh: the refusals' numbers and words are those of document 01's table.
set -euo pipefail
cd "$(dirname "${BASH_SOURCE[0]}")/.."
. tests/where.sh

# Rows of the table: number, word, condition and what is left.
table=$(awk -F ' *[|] *' '/^\| No\. \| Word \|/ {inside = 1; next}
    inside && !/^\|/ {exit}
    inside && $2 ~ /^[0-9]+$/ {print $2, $3}' "$papers/01-scope.md")
[ "$(wc -l <<< "$table")" -eq 9 ] || { echo "document 01's table was not read: $table"; exit 1; }
diff <(echo "$table") <(build/test_names refusals) || { echo "the refusals' words are not document 01's"; exit 1; }
echo "names: $(wc -l <<< "$table") refusals as in document 01"
