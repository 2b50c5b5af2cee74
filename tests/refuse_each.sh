#!/bin/sh
# Has each allocation fail in turn, in the calls of crates/*/data/refused.
#
#   tests/refuse_each.sh [FIRST [LAST]]
#
# In a first run none fails. Then for N from FIRST (1) to LAST, or until three runs in turn had no row out of memory, the Nth
# allocation of each row fails, by `rt try --fail-alloc`: without any proof, compiled with checks. Each row must then answer as it says,
# or report that memory ran out. A run takes two minutes, all of them hours; FIRST and LAST choose a part.
set -eu
cd "$(dirname -- "$(readlink -f -- "$0")")/../crates"
made=$(mktemp -d)
log=$made/log
trap 'rm -rf "$made"' EXIT

# Has the allocation of the given number fail in each row of $cases by $program. Each must end well, and answer or be out of memory.
refuse() {
    (cd "$program" && rt try --fail-alloc "$1" --cases "$cases" -- once) >"$log" 2>&1 || true
    rows=$(ls "$cases" | wc -l)
    answered=$(grep -c '^answered$' "$log" || true)
    refused=$(grep -c '^out of memory$' "$log" || true)
    if [ $((answered + refused)) -ne "$rows" ] ||
        ! grep -q "^cases=$rows ended=$rows fault=0 differs=0 no-answer=0 " "$log"; then
        cat "$log" >&2
        exit 1
    fi
}

# Standard input for a row is the name of its table, and the row.
for tables in */data/refused; do
    program=${tables%%/*}
    cases=$made/$program
    mkdir "$cases"
    awk -v cases="$cases" '
        function finish() {
            if (row != "") {
                file = cases "/" count++
                print call "\n" row >file
                close(file)
            }
            row = ""
        }
        /^-- / { next }
        /^  / { sub(/^ */, " "); row = row $0; next }
        { finish() }
        /^== / { call = substr($0, 4); next }
        { row = $0 }
        END { finish() }' "$tables"/*.rows
    refuse 1000000
    echo "$program: none refused: $answered rows answered, $refused out of memory"
    [ "$refused" -eq 0 ]
    nth=${1:-1}
    without=0
    while [ "$nth" -le "${2:-1000000}" ] && [ "$without" -lt 3 ]; do
        refuse "$nth"
        echo "request $nth refused: of $rows rows $answered answered, $refused out of memory"
        without=$((without + 1))
        [ "$refused" -eq 0 ] || without=0
        nth=$((nth + 1))
    done
done
