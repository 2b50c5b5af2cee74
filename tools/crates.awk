# Reads crates.txt and prints the crates that `crate` depends on, lowest first, and then `crate` itself, a line for each:
#
#   awk -v crate=gqlparse -f tools/crates.awk crates.txt

{
    sub(/#.*/, "")
    if (!index($0, ":")) {
        next
    }
    name = $1
    sub(/:$/, "", name)
    below[name] = substr($0, index($0, ":") + 1)
}

# Prints what a crate depends on, and the crate, each once. Crates of the kit have no line here.
function print_crate(name,    count, part, parts) {
    if (!(name in below) || name in printed) {
        return
    }
    printed[name] = 1
    count = split(below[name], parts, " ")
    for (part = 1; part <= count; part++) {
        print_crate(parts[part])
    }
    print name
}

END {
    if (!(crate in below)) {
        print "crates.txt has no crate " crate > "/dev/stderr"
        exit 1
    }
    print_crate(crate)
}
