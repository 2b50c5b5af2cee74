#!/bin/sh
# Sees that the prover rejects wrong bodies, and prints at what it rejects each:
#
#   tests/wrong_bodies.sh [CRATE..]
#
# A wrong body is an edit of a crate that its contracts must refuse. Some stand in `crates/CRATE/must-fail`, and `rt ci`
# tries them; the others stand in `tests/wrong_bodies/CRATE`, and this alone tries them. This tries both, of the crates
# named or of all, in a copy of `crates`, over what earlier checks on this machine kept. A crate whose libraries aren't
# built waits for these first.
#
# The status is 0 only if each wrong body is rejected: an edit that can't be applied counts as one that isn't. Run it for
# a crate when a contract, a definition or a proof of it has changed, and for all before a release.
set -eu
root=$(dirname -- "$(readlink -f -- "$0")")/..
copy=$(mktemp -d)
trap 'rm -rf "$copy"' EXIT
trap 'exit 1' HUP INT TERM

if [ $# -eq 0 ]; then
    # shellcheck disable=SC2046
    set -- $( (cd "$root" && ls -d crates/*/must-fail tests/wrong_bodies/*/) | sed 's,/must-fail$,,; s,/$,,; s,.*/,,' | sort -u)
fi
cp "$root/crates.txt" "$root/HANDLES" "$copy"
mkdir "$copy/crates" "$copy/.git"
for crate in "$root"/crates/*/; do
    mkdir "$copy/crates/$(basename "$crate")"
    find "$crate" -mindepth 1 -maxdepth 1 ! -name out -exec cp -R {} "$copy/crates/$(basename "$crate")" \;
done
for crate; do
    if [ ! -d "$copy/crates/$crate" ]; then
        echo "wrong_bodies: there is no crate $crate" >&2
        exit 1
    fi
    mkdir -p "$copy/crates/$crate/must-fail"
    for edit in "$root/tests/wrong_bodies/$crate"/*.edit; do
        if [ -f "$edit" ]; then
            cp "$edit" "$copy/crates/$crate/must-fail"
        fi
    done
done
cd "$copy"
status=0
rt must-fail "$@" >said 2>&1 || status=$?
# What is said of libraries that are proved first is shown only if no wrong body was tried.
grep '^rt: .*must-fail' said || cat said
exit "$status"
