# Checks that wrong bodies still apply, and prints each that doesn't:
#
#   awk -v root=. -f tools/edits.awk tests/wrong_bodies/CRATE/*.edit crates/CRATE/must-fail/*.edit
#
# An edit is a line `file: PATH` of its crate and pairs of lines `old: TEXT` and `new: TEXT`: each old text occurs exactly once in
# that file, as the pairs before it left it.

function crate_of(edit,    parts, count) {
    count = split(edit, parts, "/")
    return parts[count - 1] == "must-fail" ? parts[count - 2] : parts[count - 1]
}

# The text of a file, each file read once.
function text_of(path,    line, text) {
    if (!(path in texts)) {
        text = "\n"
        while ((getline line < path) > 0) {
            text = text line "\n"
        }
        close(path)
        texts[path] = text
    }
    return texts[path]
}

function report(edit, why) {
    print edit ": " why
    failed = 1
}

# Applies one pair to the text that the pairs before it left.
function apply(edit, old, new,    at, rest) {
    if (path == "") {
        return report(edit, "it names no file")
    }
    at = index(text, old)
    if (at == 0) {
        return report(edit, "this text isn't in " path ": " old)
    }
    rest = substr(text, at + length(old))
    if (index(rest, old) > 0) {
        return report(edit, "this text is in " path " more than once: " old)
    }
    text = substr(text, 1, at - 1) new rest
    pairs++
}

FNR == 1 {
    if (edit != "" && pairs == 0) {
        report(edit, "it has no pair of lines that applies")
    }
    edit = FILENAME
    path = ""
    pairs = 0
}
/^file: / {
    path = substr($0, 7)
    text = text_of(root "/crates/" crate_of(edit) "/" path)
}
/^old: / {
    old = substr($0, 6)
}
/^new:/ {
    apply(edit, old, substr($0, 6))
}
END {
    if (edit != "" && pairs == 0) {
        report(edit, "it has no pair of lines that applies")
    }
    exit failed
}
