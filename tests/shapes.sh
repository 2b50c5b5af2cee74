#!/bin/sh
# Texts of one shape that grow, and how long the parsers take over them.
#
#   tests/shapes.sh SHAPE COUNT    prints the text of a shape with this many parts
#   tests/shapes.sh                has `conformance_tools bench` read each shape with 100,000 and with 200,000 parts, and
#                                  prints a line for each: the shape, both times in milliseconds, and the second over the first
#
#   tests/shapes.sh memory         has it read each shape with 100,000 parts, and prints a line for each: the shape, how
#                                  many bytes a parse takes of a budget for each byte of the text, and how many a check
#                                  takes in all
#
# The program has to be built: `rt run` in crates/conformance_tools does that.
set -eu
program=$(dirname -- "$(readlink -f -- "$0")")/../crates/conformance_tools/out/conformance_tools

# The allocator keeps its memory from one round to the next. Else, if a list grows beyond 32 MB, each round takes it
# from the kernel again, and more than half of the time goes there.
export GLIBC_TUNABLES=glibc.malloc.mmap_threshold=4294967296:glibc.malloc.trim_threshold=8589934592

# Each line: a shape, what reads it, and the text before its parts, each part, and the text after them. In a part %
# stands for its number, and ~ for a line feed.
shapes() {
    cat <<'SHAPES'
operations;query;;query A%{a};
fragments;query;{a};fragment F% on T{b};
fields;query;{;a% ;}
arguments, distinct;query;{a(;b%:1 ;)}
arguments, equal;query;{a(;b:1 ;)}
directives, distinct;query;{a;@d% ;}
directives, equal;query;{a;@d ;}
variables, distinct;query;query(;$v%:T ;){a}
variables, equal;query;query(;$v:T ;){a}
fields of an object, distinct;query;{a(b:{;x%:1 ;})}
fields of an object, equal;query;{a(b:{;x:1 ;})}
items of a list;query;{a(b:[;1 ;])}
comments;query;;#c~;{a}
escapes of a string;query;{a(b:";\u0041;")}
lines of a block string;query;{a(b:""";x~;""")}
characters of a name;query;{;a;}
digits of a number;query;{a(b:;1;)}
types;schema;;type A%{a:B};
scalars, equal;schema;;scalar A ;
schema definitions;schema;;schema{query:Q};
descriptions;schema;;"d" scalar A% ;
fields of a type, distinct;schema;type A{;a%:B ;}
fields of a type, equal;schema;type A{;a:B ;}
arguments of a field;schema;type A{a(;b%:C ;):D}
interfaces of a type;schema;type A implements;&I% ;
members of a union;schema;union U=;|A% ;
values of an enum, distinct;schema;enum E{;V% ;}
values of an enum, equal;schema;enum E{;V ;}
fields of an input;schema;input A{;a%:B ;}
fields of a default, distinct;schema;input A{a:B={;x%:1 ;}}
fields of a default, equal;schema;input A{a:B={;x:1 ;}}
directives of a type;schema;scalar A;@d% ;
locations of a directive;schema;directive @d on;|FIELD ;
SHAPES
}

# The text of a line with this many parts.
text() {
    line=$1 awk -v count="$2" 'BEGIN {
        split(ENVIRON["line"], parts, ";")
        gsub(/~/, "\n", parts[4])
        pieces = split(parts[4], each, "%")
        printf "%s", parts[3]
        for (i = 0; i < count; i++)
            if (pieces > 1) printf "%s%d%s", each[1], i, each[2]
            else printf "%s", each[1]
        printf "%s", parts[5]
    }'
}

# The nanoseconds of the fastest round over the text of a line with this many parts.
fastest() {
    reader=${1#*;}
    text "$1" "$2" | "$program" bench "${reader%%;*}" | awk '
        $1 == "parse" && $3 == "accepted" && (!least || $2 < least) { least = $2 }
        END { if (!least) exit 1; print least }'
}

# The bytes that a call takes for the text in a file.
taken() {
    "$program" bench "$1" memory <"$2" | awk '{ print $2 }'
}

if [ "$*" = memory ]; then
    made=$(mktemp)
    trap 'rm -f "$made"' EXIT
    shapes | while IFS= read -r line; do
        reader=${line#*;}
        reader=${reader%%;*}
        check=check
        [ "$reader" = query ] || check=check-schema
        text "$line" 100000 >"$made"
        awk -v name="${line%%;*}" -v bytes="$(wc -c <"$made")" -v parse="$(taken "$reader" "$made")" \
            -v check="$(taken "$check" "$made")" 'BEGIN { printf "| %s | %.0f | %d |\n", name, parse / bytes, check }'
    done
    exit 0
fi
if [ $# -eq 2 ]; then
    line=$(shapes | grep -F -- "$1;" | head -n 1)
    text "$line" "$2"
    exit 0
fi
shapes | while IFS= read -r line; do
    once=$(fastest "$line" 100000) && twice=$(fastest "$line" 200000) || {
        echo "${line%%;*}: not accepted" >&2
        exit 1
    }
    awk -v name="${line%%;*}" -v once="$once" -v twice="$twice" \
        'BEGIN { printf "| %s | %.1f | %.1f | %.1f |\n", name, once / 1e6, twice / 1e6, twice / once }'
done
