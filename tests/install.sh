#!/bin/sh
# Installs each package that tools/release made, and calls it where nothing else of this repository is:
#
#   tests/install.sh [FOLDER]        FOLDER is `dist`, if none is named
#
# The programs and the library for C run in a root of their own, with this machine's C library; the packages for Python in
# new virtual environments; the package for Rust from its unpacked sources. What a missing tool forbids is skipped. The
# last line says what passed and what was skipped; the status is 1 if anything failed.
set -u
export LC_ALL=C
top=$(dirname -- "$(dirname -- "$(readlink -f -- "$0")")")
dist=$(readlink -f -- "${1:-$top/dist}")
version=$(sed -n 's/^#define GRAPHQL_PARSER_VERSION "\(.*\)"$/\1/p' "$top/bindings/graphql_parser.h")
deb=$dist/graphql-parser_${version}_amd64.deb
unset GRAPHQL_PARSER_LIB
passed=
skipped=
failed=
work=$(mktemp -d)
trap 'rm -rf "$work"' EXIT
trap 'exit 1' HUP INT TERM
chmod 755 "$work"

has() {
    command -v "$1" >/dev/null 2>&1
}

# Runs a command as a part that has to succeed: its name, and the command.
part() {
    name=$1
    shift
    if "$@"; then
        passed="$passed${passed:+, }$name"
    else
        echo "$name: failed"
        failed="$failed${failed:+, }$name"
    fi
}

skip() {
    echo "$1: skipped, since $2"
    skipped="$skipped${skipped:+, }$1"
}

is_same() {
    [ "$2" = "$3" ] || {
        printf '%s: %s, and not %s\n' "$1" "$2" "$3"
        return 1
    }
}

# Runs a command as root, or as one who is root of what is below.
as_root() {
    if [ "$(id -u)" -eq 0 ]; then
        "$@"
    else
        unshare -r "$@"
    fi
}

in_root() {
    as_root chroot "$@"
}

# Makes a root that has the C library of this machine, and nothing else.
new_root() {
    mkdir "$1" || return 1
    for file in $(ldd "$(command -v ls)" | awk '/libc\.so\.6|ld-linux/ { print ($2 == "=>") ? $3 : $1 }'); do
        mkdir -p "$1$(dirname "$file")" && cp -L "$file" "$1$file" || return 1
    done
}

can_change_root() {
    new_root "$work/tried" && in_root "$work/tried" /lib64/ld-linux-x86-64.so.2 --version >/dev/null 2>&1
}

sums() {
    (cd "$dist" && sha256sum --quiet -c SHA256SUMS) &&
        is_same "what has a sum" "$(cut -c 67- "$dist/SHA256SUMS")" \
            "$(find "$dist" -type f ! -name SHA256SUMS -printf '%f\n' | sort)"
}

# The programs in a folder of a root.
programs_run() {
    is_same "gql --version" "$(in_root "$1" "$2/gql" --version)" "gql $version" &&
        is_same "gql minify" "$(echo '{ a }' | in_root "$1" "$2/gql" minify)" "{a}" &&
        is_same "gqlparse query" "$(printf '{a}' | in_root "$1" "$2/gqlparse" query)" "query 1:1"
}

tarball() {
    new_root "$work/tarball" &&
        tar -xzf "$dist/gql-$version-x86_64-linux.tar.gz" -C "$work/tarball" --strip-components=1 &&
        programs_run "$work/tarball" ""
}

# What a program in the root of the tarball prints of itself, and of each of its commands.
helps() {
    in_root "$work/tarball" "/$1" --help
    for command in $(in_root "$work/tarball" "/$1" --help | sed -n '/^Commands:$/,/^$/s/^  \([a-z]*\) .*/\1/p'); do
        in_root "$work/tarball" "/$1" help "$command"
    done
}

# Each option that the program prints of itself is in its manual page, which makes no tool complain.
page_is_whole() {
    sed 's/\\-/-/g; s/\\f[BIR]//g' "$work/tarball/$1.1" >"$work/page"
    for word in $(helps "$1" | grep -oE -- '--[A-Za-z-]+'); do
        grep -qF -- "$word" "$work/page" || {
            echo "$1.1 doesn't have $word"
            return 1
        }
    done
    is_same "warnings of $1.1" "$(man --warnings -l "$work/tarball/$1.1" 2>&1 >/dev/null)" ""
}

manual_pages() {
    page_is_whole gql && page_is_whole gqlparse
}

# What bash completes these words to, the last of them.
completed() {
    # shellcheck disable=SC2016
    bash -c '. "$0" && COMP_WORDS=("$@") COMP_CWORD=$(($# - 1)) && _gql && echo "${COMPREPLY[*]}"' \
        "$work/tarball/completions/gql.bash" "$@"
}

bash_completes() {
    bash -n "$work/tarball/completions/gql.bash" &&
        is_same "gql ch" "$(completed gql ch)" check &&
        is_same "gql check --sc" "$(completed gql check --sc)" --schema &&
        is_same "gql check f" "$(completed gql check f)" "" &&
        is_same "gql check --format j" "$(completed gql check --format j)" json &&
        is_same "gql check --format=" "$(completed gql check --format =)" "text json github" &&
        is_same "gql minify --pl" "$(completed gql minify --pl)" ""
}

fish_completes() {
    cat >"$work/fish" <<END
source $work/tarball/completions/gql.fish
complete -C 'gql ch' | string split -f 1 \t
complete -C 'gql check --sc' | string split -f 1 \t
complete -C 'gql check --format j' | string split -f 1 \t
END
    is_same "what fish completes" "$(fish --no-config "$work/fish")" "check
--schema
json"
}

# zsh completes in its editor alone, which needs a terminal: there a function `gql` writes down with which words it is called.
zsh_completes() {
    zsh -n "$work/tarball/completions/_gql" || return 1
    cat >"$work/zsh" <<'END'
zmodload zsh/zpty
zpty shell zsh -f -i
zpty -w shell "fpath=($1/tarball/completions \$fpath); autoload -U compinit; compinit -u -d $1/dump"
zpty -w shell "gql() { echo \$* >$1/called }"
sleep 2
zpty -w -n shell $'gql che\t --sche\t--format=j\t\n'
sleep 2
cat $1/called
END
    is_same "what zsh completes" "$(zsh -f "$work/zsh" "$work")" "check --schema --format=json"
}

dpkg_in() {
    as_root dpkg --root="$work/deb" --log="$work/dpkg.log" "$@"
}

# The packages that the root has are this one and this machine's C library, so that what it depends on is seen.
deb_is_installed() {
    new_root "$work/deb" && mkdir -p "$work/deb/var/lib/dpkg/info" "$work/deb/var/lib/dpkg/updates" || return 1
    : >"$work/deb/var/lib/dpkg/info/libc6.list"
    cat >"$work/deb/var/lib/dpkg/status" <<END
Package: libc6
Status: install ok installed
Maintainer: none
Architecture: amd64
Version: $(getconf GNU_LIBC_VERSION | cut -d ' ' -f 2)
Description: the C library
END
    dpkg_in --install "$deb" >"$work/said" 2>&1 || {
        cat "$work/said"
        return 1
    }
    is_same "files that aren't as packed" "$(dpkg_in --verify graphql-parser)" "" && programs_run "$work/deb" /usr/bin
}

tree='{"kind":"Document","definitions":[{"kind":"OperationDefinition","operation":"query","variableDefinitions":[],'
tree=$tree'"directives":[],"selectionSet":{"kind":"SelectionSet","selections":[{"kind":"Field",'
tree=$tree'"name":{"kind":"Name","value":"a"},"arguments":[],"directives":[]}]}}]}'

# Compiles a caller in C with what else the compiler is given, and runs it in the root of the package.
caller_runs() {
    cc -std=c11 -o "$work/deb/example" "$top/bindings/c/example.c" "$@" &&
        is_same "example.c" "$(printf '{a}' | in_root "$work/deb" /example query)" "$(printf '0\n%s' "$tree")"
}

c_library() {
    flags=$(
        export PKG_CONFIG_SYSROOT_DIR="$work/deb" PKG_CONFIG_LIBDIR="$work/deb/usr/lib/pkgconfig"
        PKG_CONFIG_ALLOW_SYSTEM_CFLAGS=1 PKG_CONFIG_ALLOW_SYSTEM_LIBS=1 pkg-config --cflags --libs graphql_parser
    ) || return 1
    # shellcheck disable=SC2086
    caller_runs $flags && caller_runs -I "$work/deb/usr/include" "$work/deb/usr/lib/libgraphql_parser.a"
}

deb_is_removed() {
    dpkg_in --purge graphql-parser >/dev/null &&
        is_same "what is left" "$(find "$work/deb" -name '*gql*' -o -name '*graphql*')" ""
}

# Installs a package for Python in a new environment, and calls it there. The second word is a module that it has to have.
python_package() {
    environment=$(mktemp -d -p "$work")
    python3 -m venv "$environment" &&
        "$environment/bin/pip" install --quiet --disable-pip-version-check --no-index --no-cache-dir "$1" || return 1
    is_same "$(basename "$1")" "$(cd "$environment" && GRAPHQL_PARSER_LIB='' bin/python -I -c "
import sys
import $2 as module
import graphql_parser
graphql_parser.check_query('{a}')
print(module.__file__.startswith(sys.prefix), graphql_parser.__version__, graphql_parser.parse_query('{a}')['kind'])
")" "True $version Document"
}

python_sources() {
    (
        export GRAPHQL_PARSER_LIB="$work/unpacked/usr/lib"
        python_package "$dist/graphql_parser-$version.tar.gz" graphql_parser
    )
}

rust_crate() {
    tar -xzf "$dist/graphql_parser-$version.crate" -C "$work" || return 1
    found=$(
        cd "$work/graphql_parser-$version" || exit 1
        export CARGO_TARGET_DIR="$work/cargo" GRAPHQL_PARSER_LIB="$work/unpacked/usr/lib"
        printf '{a}' | cargo run --quiet --offline --example read query
    )
    is_same "its example" "$found" "$tree"
}

try_programs() {
    part "the tarball" tarball
    if has man; then
        part "the manual pages" manual_pages
    else
        skip "the manual pages" "there is no man"
    fi
    for shell in bash fish zsh; do
        if has "$shell"; then
            part "completions in $shell" "${shell}_completes"
        else
            skip "completions in $shell" "there is no $shell"
        fi
    done
}

try_deb() {
    part "the .deb" deb_is_installed
    if has cc && has pkg-config; then
        part "its library for C" c_library
    else
        skip "its library for C" "there is no cc or no pkg-config"
    fi
    part "its removal" deb_is_removed
}

try_python() {
    tag=$(python3 -c 'import sys; print("cp{}{}".format(*sys.version_info))')
    for wheel in "$dist"/*.whl; do
        case $wheel in
        *-py3-none-*) part "the wheel for any Python" python_package "$wheel" graphql_parser ;;
        *-"$tag"-*) part "the wheel for $tag" python_package "$wheel" graphql_parser._nodes_c ;;
        *) skip "$(basename "$wheel")" "python3 is another" ;;
        esac
    done
    if has dpkg-deb; then
        part "the sources for Python" python_sources
    else
        skip "the sources for Python" "there is no dpkg-deb to unpack the library"
    fi
}

[ -f "$dist/SHA256SUMS" ] || {
    echo "tests/install.sh: $dist has no SHA256SUMS: tools/release makes it" >&2
    exit 1
}
part "the sums" sums
if can_change_root; then
    try_programs
    if has dpkg; then
        try_deb
    else
        skip "the .deb" "there is no dpkg"
    fi
else
    skip "the tarball and the .deb" "no root can be made here: it needs a superuser, or unshare -r"
fi
if has dpkg-deb; then
    dpkg-deb -x "$deb" "$work/unpacked"
fi
if python3 -c 'import ensurepip, venv' 2>/dev/null; then
    try_python
else
    skip "Python" "there is no python3, or it has no venv"
fi
if [ ! -f "$dist/graphql_parser-$version.crate" ]; then
    skip "the crate" "tools/release made none"
elif has cargo && has cc && has dpkg-deb; then
    part "the crate" rust_crate
else
    skip "the crate" "there is no cargo, no cc or no dpkg-deb"
fi
echo "tests/install.sh: passed: ${passed:-none}; skipped: ${skipped:-none}; failed: ${failed:-none}"
[ -z "$failed" ]
