#!/bin/sh
# Builds the library for callers in C, Rust and Python, into the folder `out` beside this file:
#
#   libgraphql_parser.a                 the static library, with the kit's functions of the heap in it
#   libgraphql_parser.so.MAJOR.x.y      the shared object, made from it; `libgraphql_parser.so.MAJOR`, its soname, and
#                                       `libgraphql_parser.so` are links to it
#   _nodes_c.*.so                       the module in C of the Python package, for the `python3` at hand, if it has headers
#
# Both libraries show what the header declares, and nothing else. With the word --is-built it makes nothing, and its status
# is 0 if there is no library to make.
#
# The first call proves and compiles the crate and all below it (README.md, beside this file, says how long that takes); later calls
# do nothing until a source changes. Needs the kit (`rt`) and a C compiler (`cc`, with `ar` and `objcopy`). The callers need neither the kit
# nor this repository.
set -eu
here=$(dirname -- "$(readlink -f -- "$0")")
root=$here/..
out=$here/out
archive=$out/libgraphql_parser.a
version=$(sed -n 's/^#define GRAPHQL_PARSER_VERSION "\([0-9.]*\)"$/\1/p' "$here/graphql_parser.h")
soname=libgraphql_parser.so.${version%%.*}
shared=$out/libgraphql_parser.so.$version

# The shared object's last link is made last.
is_built() {
    [ -f "$archive" ] && [ -f "$shared" ] && [ -h "$out/libgraphql_parser.so" ] &&
        [ -z "$(find "$here/build.sh" "$here/graphql_parser.h" "$root/crates.txt" "$root"/crates/graphql_*/src \
            -newer "$shared" | head -n 1)" ]
}

if [ "${1-}" = --is-built ]; then
    is_built
    exit
fi
mkdir -p "$out"
if command -v python3 >/dev/null 2>&1; then
    python3 -B "$here/python/build_nodes.py" "$out"
fi
if is_built; then
    exit 0
fi
rm -f "$archive" "$out"/libgraphql_parser.so*
if ! (cd "$root/crates/graphql_parser_c" && rt lib >"$out/build.log" 2>&1); then
    cat "$out/build.log" >&2
    exit 1
fi

# One object with all that the calls need, whose other names are its own. `graphql_parser_free` is another name of the
# kit's function that passes a block on to `free`. The file `names` has what the header declares.
sed -n 's/^[a-z].*[ *]\(graphql_parser_[a-z_]*\)(.*/\1/p' "$here/graphql_parser.h" >"$out/names"
cc -r -nostdlib -o "$out/graphql_parser.o" -Wl,--defsym=graphql_parser_free=rattle_dealloc -Wl,--whole-archive \
    "$root/crates/graphql_parser_c/out/libgraphql_parser_c.a" -Wl,--no-whole-archive \
    "$(dirname -- "$(rt doc)")/c/liblibc_c.a"
objcopy --keep-global-symbols="$out/names" "$out/graphql_parser.o"
ar rcs "$archive" "$out/graphql_parser.o"
cc -shared -o "$shared" -Wl,-soname,"$soname" -Wl,-z,defs,-z,relro,-z,now "$out/graphql_parser.o"
ln -s "libgraphql_parser.so.$version" "$out/$soname"
ln -s "$soname" "$out/libgraphql_parser.so"
