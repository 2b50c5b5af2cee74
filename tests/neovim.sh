#!/bin/bash
# A real editor with the built language server: tests/neovim.sh GQL [NEOVIM], where GQL is crates/gql/out/gql, and NEOVIM is 0.7 or
# later. Neovim's own client opens a file, types mistakes after non-ASCII text, sees their diagnostics, takes the quick fix, and lays
# the file out, once with columns in UTF-16 and once in UTF-8. Each step is printed; the status is 0 only if all hold.
set -euo pipefail
if [ $# -lt 1 ]; then
    echo "usage: tests/neovim.sh GQL [NEOVIM]" >&2
    exit 2
fi
GQL=$(realpath "$1")
NEOVIM=${2:-nvim}
HERE=$(realpath "$(dirname "$0")")
ROOM=$(mktemp -d)
trap 'rm -rf "$ROOM"' EXIT
"$NEOVIM" --version | head -1
for encoding in utf-16 utf-8; do
    printf 'query A {a(note: "é日😀")} query B {b}\n' > "$ROOM/hero.graphql"
    cp "$ROOM/hero.graphql" "$ROOM/opened"
    echo "== columns in $encoding"
    GQL=$GQL ENCODING=$encoding HOME=$ROOM XDG_STATE_HOME=$ROOM XDG_CACHE_HOME=$ROOM \
        timeout 60 "$NEOVIM" --headless -u NONE -i NONE -n -c "luafile $HERE/neovim.lua" "$ROOM/hero.graphql" 2>&1
    printf 'query A {\n  a(note: "é日😀")\n}\n\nquery B {\n  b\n}\n' | cmp - "$ROOM/hero.graphql"
    echo "the file that was written is laid out"
done
echo "all steps hold"
