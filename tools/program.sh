# How the scripts `gqlparse` and `gql` at the top run their programs: read by them, with `.`.
#
# If the program isn't built, or a source of its crates is newer, it is proved and built first, with the libraries below it, by
# `rt ci` in a copy of these crates alone. A kit that keeps on the machine what it proved doesn't prove it again for a later `rt ci`
# or for the other program, nor the other way round. Each crate that is proved is reported on standard error.

root=$(dirname -- "$(readlink -f -- "$0")")

# The crates of this program, lowest first, a line for each.
crates_of() {
    awk -v crate="$1" -f "$root/tools/crates.awk" "$root/crates.txt"
}

# Whether the file of this program is newer than crates.txt and each source of its crates.
is_built() {
    [ -x "$program" ] || return 1
    for crate in $(crates_of "$1"); do
        set -- "$@" "$root/crates/$crate/src"
    done
    shift
    [ -z "$(find "$root/crates.txt" "$@" -newer "$program" | head -n 1)" ]
}

# Copies the crates of this program, without what earlier runs left and without wrong bodies, which the program doesn't need.
copy_crates() {
    cp "$root/HANDLES" "$copy"
    mkdir "$copy/crates"
    for crate in $(crates_of "$1"); do
        grep -E "^$crate( |:)" "$root/crates.txt" >>"$copy/crates.txt"
        mkdir "$copy/crates/$crate"
        find "$root/crates/$crate" -mindepth 1 -maxdepth 1 ! -name out ! -name must-fail \
            -exec cp -R {} "$copy/crates/$crate" \;
    done
}

# Proves and builds a program. All that is said is kept in out/build.log of its crate.
build() {
    count=$(crates_of "$1" | wc -l)
    echo "$1: proving it and the $((count - 1)) libraries below it (README says how long that takes)" >&2
    mkdir -p "$root/crates/$1/out"
    log=$root/crates/$1/out/build.log
    copy=$(mktemp -d)
    trap 'rm -rf "$copy"' EXIT
    trap 'exit 2' HUP INT TERM
    copy_crates "$1"
    (cd "$copy" && rt ci) 2>&1 | tee "$log" | sed -n "s/^rt: \([a-z_0-9]* \(proved\|is kept\)\).*/$1: \1/p" >&2
    if ! cp "$copy/crates/$1/out/$1" "$program"; then
        tail -n 30 "$log" >&2
        return 1
    fi
    rm -rf "$copy"
    trap - EXIT HUP INT TERM
}

# Runs a program: its name, a word with which it reads a small request, and then what it is called with.
run_program() {
    name=$1
    sample=$2
    program=$root/crates/$name/out/$name
    shift 2
    if ! is_built "$name"; then
        echo "$name: for an earlier answer, without proofs: cd crates/$name && rt try -- $sample <FILE" >&2
        if ! build "$name"; then
            echo "$name: cannot build the program" >&2
            exit 2
        fi
        touch "$program"
    fi
    exec "$program" "$@"
}
