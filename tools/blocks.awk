# Prints the blocks of code of a page as files of a folder, numbered from 1:
#
#   awk -v folder=/tmp/blocks -f tools/blocks.awk docs/USING.md

/^```/ {
    is_inside = !is_inside
    if (is_inside) {
        file = folder "/" ++count
        printf "" >file
    } else {
        close(file)
    }
    next
}
is_inside {
    print >file
}
