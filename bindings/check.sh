#!/bin/sh
# Builds the library and runs callers of it in C, Rust and Python.
#
# In each language the example reads a good, a rejected and a too deep text of both languages of GraphQL, and the tests of
# its binding run. In C, each request for memory of each call is refused in turn too, what calls within a budget ask for is
# compared with what they count, and all but that runs again under the sanitizers of addresses, leaks and undefined behaviour, if
# the compiler has them. A language whose tool (cc, cargo,
# python3) is missing is skipped. The last line says what passed and what was skipped; the status is 1 if anything failed.
#
# It isn't part of `rt ci`. Once the library is built it takes two minutes.
set -u
here=$(dirname -- "$(readlink -f -- "$0")")
out=$here/out
passed=
skipped=
failed=

has() {
    command -v "$1" >/dev/null 2>&1
}

# The arguments, run in turn as commands of one word, as steps of a language that all have to succeed.
language() {
    name=$1
    shift
    for step; do
        if ! "$step"; then
            echo "$name: $step failed"
            failed="$failed${failed:+,} $name"
            return
        fi
    done
    passed="$passed${passed:+,} $name"
}

skip() {
    echo "$1: skipped, since $2"
    skipped="$skipped${skipped:+,} $1"
}

# So many times a text.
repeated() {
    awk -v count="$1" -v part="$2" 'BEGIN { for (i = 0; i < count; i++) printf "%s", part }'
}

field='{"kind":"Document","definitions":[{"kind":"OperationDefinition","operation":"query","variableDefinitions":[],'
field=$field'"directives":[],"selectionSet":{"kind":"SelectionSet","selections":[{"kind":"Field",'
field=$field'"name":{"kind":"Name","value":"a"},"arguments":[],"directives":[]}]}}]}'
scalar='{"kind":"Document","definitions":[{"kind":"ScalarTypeDefinition","name":{"kind":"Name","value":"A"},'
scalar=$scalar'"directives":[]}]}'
deep='{"message":"recursion limit exceeded."}'

# Has a caller, the arguments from the fifth on, read a text of a language; it must end with this status, and its last line
# must be this JSON.
reads() {
    text=$1 kind=$2 status=$3 json=$4
    shift 4
    found=$(printf '%s' "$text" | "$@" "$kind")
    found_status=$?
    found=$(printf '%s\n' "$found" | tail -n 1)
    if [ "$found_status" -ne "$status" ] || [ "$found" != "$json" ]; then
        printf 'of a %s: status %s, and the JSON\n%s\n' "$kind" "$found_status" "$found"
        return 1
    fi
}

# A good, a refused and a too deep text of each language.
reads_all() {
    reads '{a}' query 0 "$field" "$@" &&
        reads '{a ?}' query 1 '{"message":"syntax error at 1:4","locations":[{"line":1,"column":4}]}' "$@" &&
        reads "$(repeated 66 '{a')" query 1 "$deep" "$@" &&
        reads 'scalar A' schema 0 "$scalar" "$@" &&
        reads 'type' schema 1 '{"message":"syntax error at 1:5","locations":[{"line":1,"column":5}]}' "$@" &&
        reads "input A{f:$(repeated 65 '[')" schema 1 "$deep" "$@"
}

# Compiles a caller in C: the program's name, its source, and what else the compiler is given.
compiled() {
    program=$out/$1
    source=$here/c/$2
    shift 2
    cc -std=c11 -O2 -Wall -Wextra -Werror -pthread -I "$here" -o "$program" "$source" "$@"
}

# The callers in C, linked with the static library: a suffix of their names, and what else the compiler is given.
c_callers() {
    suffix=$1
    shift
    compiled "example$suffix" example.c "$out/libgraphql_parser.a" "$@" && reads_all "$out/example$suffix" &&
        compiled "calls$suffix" calls.c "$out/libgraphql_parser.a" "$@" && "$out/calls$suffix" &&
        with_heap "refused$suffix" refused.c "$@" && "$out/refused$suffix"
}

# Compiles a caller that counts and refuses requests for memory.
with_heap() {
    program=$1
    caller=$2
    shift 2
    compiled "$program" "$caller" -Wl,--wrap=malloc,--wrap=realloc,--wrap=free "$out/libgraphql_parser.a" "$@"
}

# What calls within a budget ask for is what they count.
c_account() {
    python3 -B "$here/c/account_texts.py" "$out/texts" && with_heap account account.c && "$out/account" "$out/texts"
}

c_static() {
    c_callers ""
}

sanitizers="-g -fsanitize=address,undefined -fno-sanitize-recover=all"

# Whether the compiler has the sanitizers, and they see a block that is never given back.
has_sanitizers() {
    printf '#include <stdlib.h>\nint main(void) { return 0; }\n' >"$out/whole.c"
    printf '#include <stdlib.h>\nvoid *volatile block;\nint main(void) { block = malloc(1); block = 0; return 0; }\n' >"$out/leak.c"
    cc $sanitizers -o "$out/whole" "$out/whole.c" 2>/dev/null && "$out/whole" 2>/dev/null &&
        cc $sanitizers -o "$out/leak" "$out/leak.c" && ! "$out/leak" 2>/dev/null
}

c_sanitized() {
    c_callers _sanitized $sanitizers
}

c_shared() {
    compiled example_shared example.c "$out/libgraphql_parser.so" -Wl,-rpath,"$out" && reads_all "$out/example_shared" &&
        compiled calls_shared calls.c "$out/libgraphql_parser.so" -Wl,-rpath,"$out" && "$out/calls_shared"
}

# What `install.sh` installs is found by pkg-config, and a caller is compiled and runs with it alone.
c_installed() {
    prefix=$out/installed
    rm -rf "$prefix"
    "$here/install.sh" "$prefix" && cp "$here/c/example.c" "$prefix" || return 1
    flags=$(PKG_CONFIG_PATH="$prefix/lib/pkgconfig" pkg-config --cflags --libs graphql_parser) &&
        is_same "pkg-config" "$(PKG_CONFIG_PATH="$prefix/lib/pkgconfig" pkg-config --modversion graphql_parser)" "$version" &&
        cc -std=c11 -o "$prefix/example" "$prefix/example.c" $flags -Wl,-rpath,"$prefix/lib" && reads_all "$prefix/example"
}

# Names, one a line, each once.
sorted() {
    sort -u | tr '\n' ' '
}

is_same() {
    [ "$2" = "$3" ] || {
        printf '%s: %s, and not %s\n' "$1" "$2" "$3"
        return 1
    }
}

# The libraries show what the header declares, and call of the C library what it names; the shared object has its soname, is
# found by its links, and can't be written to once it is loaded.
c_names() {
    shared=$out/libgraphql_parser.so
    declared=$(sorted <"$out/names")
    called=$(printf '%s\n' free malloc memcpy memmove memset realloc | sorted)
    shown=$(readelf -dlW "$shared")
    is_same "names of the static library" "$(nm -g --defined-only "$out/libgraphql_parser.a" | awk 'NF == 3 { print $3 }' | sorted)" "$declared" &&
        is_same "names of the shared object" "$(nm -D --defined-only "$shared" | awk '{ print $3 }' | sorted)" "$declared" &&
        is_same "what it calls" "$(nm -u "$out/libgraphql_parser.a" | awk 'NF == 2 { print $2 }' | grep -v '^_GLOBAL_OFFSET_TABLE_$' | sorted)" "$called" &&
        is_same "the soname" "$(printf '%s\n' "$shown" | sed -n 's/.*soname: \[\(.*\)\]/\1/p')" "libgraphql_parser.so.${version%%.*}" &&
        is_same "the links" "$(readlink "$shared") $(readlink "$out/$(readlink "$shared")")" "libgraphql_parser.so.${version%%.*} libgraphql_parser.so.$version" &&
        case $shown in
        *GNU_RELRO*BIND_NOW* | *BIND_NOW*GNU_RELRO*) ;;
        *)
            echo "the shared object isn't bound and made read-only at its load"
            return 1
            ;;
        esac
}

rust_tests() {
    (cd "$here/rust" && cargo test --quiet --offline) >"$out/rust.log" 2>&1 || {
        cat "$out/rust.log"
        return 1
    }
}

rust_example() {
    (cd "$here/rust" && cargo build --quiet --offline --example read) && reads_all "$CARGO_TARGET_DIR/debug/examples/read"
}

# The tests of a module beside the Python package.
python_module() {
    (cd "$here/python" && python3 -m unittest --quiet "$1") >"$out/python.log" 2>&1 || {
        cat "$out/python.log"
        return 1
    }
}

python_tests() {
    python_module test_graphql_parser && python_module test_package
}

# What the pages for C and Python show prints what they say.
pages() {
    (cd "$here" && PYTHONPATH=python python3 -m unittest --quiet test_pages) >"$out/pages.log" 2>&1 || {
        cat "$out/pages.log"
        return 1
    }
}

# Compiled anew with all warnings as errors.
python_nodes() {
    mkdir -p "$out/nodes" && rm -f "$out"/nodes/* && CFLAGS=-Werror python3 "$here/python/build_nodes.py" "$out/nodes" &&
        python_module test_nodes && python_module test_printing
}

# Whether the module in C was made for the `python3` at hand.
has_nodes_in_c() {
    (cd "$here/python" && python3 -c 'import sys; from graphql_parser import _nodes; sys.exit(_nodes._in_c is None)') 2>/dev/null
}

python_field_usage() {
    python_module test_field_usage
}

python_example() {
    reads_all python3 "$here/python/example.py"
}

version=$(sed -n 's/^#define GRAPHQL_PARSER_VERSION "\(.*\)"$/\1/p' "$here/graphql_parser.h")
export CARGO_TARGET_DIR="$out/cargo" PYTHONDONTWRITEBYTECODE=1 GRAPHQL_PARSER_LIB="$out"

if ! has cc; then
    # Cargo links by it, and it makes the shared object that Python loads.
    for name in C Rust Python; do
        skip "$name" "there is no cc"
    done
elif ! "$here/build.sh"; then
    echo "the library isn't built"
    failed="$failed build"
else
    language C c_static c_shared
    if has python3; then
        language "C's account of memory" c_account
    else
        skip "C's account of memory" "there is no python3"
    fi
    if has pkg-config; then
        language "C installed" c_installed
    else
        skip "C installed" "there is no pkg-config"
    fi
    if has readelf && has nm; then
        language "C's names" c_names
    else
        skip "C's names" "there is no readelf or no nm"
    fi
    if has_sanitizers; then
        language "C sanitized" c_sanitized
    else
        skip "C sanitized" "the compiler has no sanitizers, or they see no leak here"
    fi
    if has cargo; then
        language Rust rust_tests rust_example
    else
        skip Rust "there is no cargo"
    fi
    if has python3; then
        language Python python_tests python_example
        language "Python's field_usage" python_field_usage
        if [ -z "$(cd "$here/python" && python3 -c 'import test_field_usage as test; print(test.python_with_dask() or "")')" ]; then
            skip "field_usage on a cluster" "no python3 has Dask (python3-dask, python3-distributed)"
        fi
        if python3 -c 'import graphql, sys; sys.exit(graphql.version_info < (3, 2))' 2>/dev/null; then
            language "Python's graphql-core" python_nodes
            language "the pages" pages
            if ! has_nodes_in_c; then
                skip "Python's nodes in C" "nodes.c isn't compiled: there are no headers of Python"
            fi
        else
            skip "Python's graphql-core" "python3 doesn't have 3.2 or later"
        fi
    else
        skip Python "there is no python3"
    fi
fi
echo "bindings/check.sh: passed:${passed:- none}; skipped:${skipped:- none}; failed:${failed:- none}"
[ -z "$failed" ]
