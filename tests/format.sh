#!/bin/sh
# Runs `gql format` and `gql check` over files in a new folder, and says what isn't as it should be:
#
#   tests/format.sh [PROGRAM]
#
# What a machine's files do is no clause's: that each is written in its place, with its permissions, its owner, its attributes and
# its links, that its old text is there or in a copy at each moment, and which files of a folder are found. PROGRAM is `gql` at
# the top if none is named. As root it runs the parts about files that may not be written as nobody, who has to be able to run
# PROGRAM. It needs Debian's tools, and says what it leaves out if `setfacl`, `setfattr` or the rights to mount are missing.
#
# The status is 0 only if all is as it should be. It is run by hand, when `replacing.rt`, `walking.rt` or `texts.rt` has changed.
set -u
gql=$(readlink -f -- "${1:-$(dirname -- "$(readlink -f -- "$0")")/../gql}")
folder=$(mktemp -d)
trap 'chmod -R u+rwX "$folder"; rm -rf "$folder"' EXIT
trap 'exit 1' HUP INT TERM
chmod 755 "$folder"
cd "$folder" || exit 1
failures=0

# Says that this isn't so, if the words after it fail.
holds() {
    what=$1
    shift
    if ! "$@"; then
        echo "not so: $what" >&2
        failures=$((failures + 1))
    fi
}

# Runs gql with the words after the status that it has to end with, and keeps what it writes in `told`.
ends_with() {
    wanted=$1
    shift
    "$gql" "$@" >told 2>&1
    ended=$?
    holds "gql $* ends with $wanted, and not $ended" [ "$ended" -eq "$wanted" ]
}

# The same as a user who may not write everything.
user_ends_with() {
    wanted=$1
    shift
    if [ "$(id -u)" -eq 0 ]; then
        setpriv --reuid=65534 --regid=65534 --clear-groups "$gql" "$@" >told 2>&1
    else
        "$gql" "$@" >told 2>&1
    fi
    ended=$?
    holds "gql $* ends with $wanted, and not $ended" [ "$ended" -eq "$wanted" ]
}

# Has the user who may not write everything own this.
give() {
    [ "$(id -u)" -ne 0 ] || chown 65534:65534 "$@"
}

left_out() {
    echo "left out: $1"
}

says() {
    holds "it says \"$1\": $(cat told)" grep -qxF -- "$1" told
}

has() {
    holds "$1 has the text: $(cat "$1")" [ "$(cat "$1"; echo .)" = "$2
." ]
}

# The file has its old text, without a final line feed.
keeps() {
    holds "$1 keeps its text: $(cat "$1")" [ "$(cat "$1"; echo .)" = "$2." ]
}

# No file of a name that begins with a dot is left in the folder.
is_clean() {
    holds "nothing is left in $1" [ -z "$(find "$1" -name '.?*')" ]
}

laid_out='{
  a
}'

# Fifty selection sets in one another: 150 bytes, and more than 5,000 when they are laid out.
nested=$(printf '{a%.0s' $(seq 50); printf '}%.0s' $(seq 50))

# Permissions, owners and the time of a file that stays.
mkdir plain
printf '{a}' >plain/a.graphql
printf '{a}' >plain/b.graphql
echo "$laid_out" >plain/c.graphql
chmod 640 plain/a.graphql
chmod 4750 plain/b.graphql
[ "$(id -u)" -ne 0 ] || chown 65534:65534 plain/a.graphql
touch -d 2001-01-01 plain/c.graphql
before=$(stat -c '%u:%g %a' plain/a.graphql)
ends_with 1 format --check plain
says plain/a.graphql
holds "--check writes nothing" [ "$(cat plain/a.graphql)" = '{a}' ]
ends_with 0 format plain
says "3 files: 2 formatted, 1 unchanged"
has plain/a.graphql "$laid_out"
holds "the owner and the permissions stay" [ "$(stat -c '%u:%g %a' plain/a.graphql)" = "$before" ]
holds "all permissions stay" [ "$(stat -c %a plain/b.graphql)" = 4750 ]
holds "a file that stays isn't touched" [ "$(stat -c %Y plain/c.graphql)" = "$(date -d 2001-01-01 +%s)" ]
is_clean plain
ends_with 0 format --check plain

# The rights that writing takes away, and that the owner gives back.
mkdir own
printf '{a}' >own/a.graphql
give own own/a.graphql
chmod 4750 own/a.graphql
user_ends_with 0 format own
has own/a.graphql "$laid_out"
holds "an owner's permissions stay" [ "$(stat -c %a own/a.graphql)" = 4750 ]

# A shorter text than before.
printf '{      a      }' >plain/d.graphql
ends_with 0 format plain/d.graphql
has plain/d.graphql "$laid_out"

# Links: those that are named, and those in a folder that is searched.
mkdir links elsewhere
printf '{a}' >elsewhere/target
ln -s ../elsewhere/target links/a.graphql
ends_with 0 format links/a.graphql
holds "a link stays" [ "$(readlink links/a.graphql)" = ../elsewhere/target ]
has elsewhere/target "$laid_out"
is_clean elsewhere
is_clean links
printf '{a}' >elsewhere/target
printf '{a}' >elsewhere/b.graphql
printf '{a}' >links/c
ln -s c links/c.graphql
ln -s nowhere links/d.graphql
ln -s d.graphql links/e.graphql
ln -s ../elsewhere links/f.graphql
ends_with 0 format links
says "gql: links/a.graphql is skipped: the link leads out of the folder"
says "gql: links/d.graphql is skipped: the link leads to no file"
says "gql: links/e.graphql is skipped: the link leads to no file"
says "1 file: 1 formatted"
keeps elsewhere/target '{a}'
keeps elsewhere/b.graphql '{a}'
has links/c "$laid_out"
ends_with 2 format links/d.graphql
says "gql: links/d.graphql cannot be read: no such file"

# Hard links.
mkdir hard
printf '{a}' >hard/a.graphql
ln hard/a.graphql hard/other
before=$(stat -c '%i %h' hard/a.graphql)
ends_with 0 format hard
has hard/other "$laid_out"
holds "a file is the same as before" [ "$(stat -c '%i %h' hard/a.graphql)" = "$before" ]

# Access lists and attributes.
mkdir lists
printf '{a}' >lists/a.graphql
if setfacl -m u:1:r lists/a.graphql 2>/dev/null; then
    before=$(getfacl lists/a.graphql)
    ends_with 0 format lists
    holds "an access list stays" [ "$(getfacl lists/a.graphql)" = "$before" ]
else
    left_out "access lists: no setfacl, or none are kept here"
fi
printf '{a}' >lists/a.graphql
if setfattr -n user.a -v b lists/a.graphql 2>/dev/null; then
    ends_with 0 format lists
    holds "an attribute stays" [ "$(getfattr -n user.a --only-values lists/a.graphql)" = b ]
else
    left_out "attributes: no setfattr, or none are kept here"
fi

# Names that are there, and what is no file.
mkdir names
printf '{a}' >names/a.graphql
: >names/.a.graphql.gql-format
: >names/.a.graphql.gql-format1
ends_with 0 format names
has names/a.graphql "$laid_out"
holds "files of others stay" [ -f names/.a.graphql.gql-format ]
holds "files of others stay" [ -f names/.a.graphql.gql-format1 ]
mkfifo names/p
(printf '{a}' >names/p) &
ends_with 2 format names/p
says "gql: names/p cannot be written"
holds "what is no file stays" [ -p names/p ]
long=names/$(printf 'a%.0s' $(seq 247)).graphql
printf '{a}' >"$long"
ends_with 0 format "$long"
has "$long" "$laid_out"

# A file with a mistake, and standard input.
mkdir wrong
printf '{a(}' >wrong/a.graphql
printf '{a}' >wrong/b.graphql
ends_with 1 format wrong
holds "a file with a mistake stays" [ "$(cat wrong/a.graphql)" = '{a(}' ]
has wrong/b.graphql "$laid_out"
printf '{a}' | "$gql" format - >told
has told "$laid_out"

# Files that may not be written, and folders in which no file may be made.
mkdir kept locked
printf '{a}' >kept/a.graphql
printf '{a}' >locked/a.graphql
chmod 777 kept
chmod 444 kept/a.graphql
chmod 666 locked/a.graphql
chmod 555 locked
(
    TMPDIR=$folder/none
    export TMPDIR
    user_ends_with 2 format locked
    says "gql: locked/a.graphql cannot be written: no copy of it can be made first"
    exit "$failures"
)
failures=$?
keeps locked/a.graphql '{a}'
user_ends_with 2 format kept locked
says "gql: kept/a.graphql cannot be written: permission denied"
says "2 files: 1 formatted, 1 not written"
keeps kept/a.graphql '{a}'
has locked/a.graphql "$laid_out"
is_clean kept

# A file of another user.
if [ "$(id -u)" -eq 0 ]; then
    mkdir shared
    printf '{a}' >shared/a.graphql
    chmod 777 shared
    chmod 666 shared/a.graphql
    user_ends_with 0 format shared
    has shared/a.graphql "$laid_out"
    holds "the owner of a shared file stays" [ "$(stat -c %u shared/a.graphql)" = 0 ]
    is_clean shared
fi

# A disk that is full, but for the block that a file has; one that nobody may write to; a file that is mounted alone.
if [ "$(id -u)" -eq 0 ] && mkdir full && mount -t tmpfs -o size=16k tmpfs full 2>/dev/null; then
    printf '{a}' >full/a.graphql
    printf %s "$nested" >full/b.graphql
    cat /dev/zero >full/rest 2>/dev/null
    ends_with 2 format full
    says "gql: full/b.graphql cannot be written: no space left"
    says "2 files: 1 formatted, 1 not written"
    has full/a.graphql "$laid_out"
    keeps full/b.graphql "$nested"
    is_clean full
    mount -o remount,ro full
    ends_with 2 format full
    says "gql: full/b.graphql cannot be written: read-only file system"
    umount full
    mkdir mounted
    printf '{a}' >mounted/source
    : >mounted/a.graphql
    mount --bind mounted/source mounted/a.graphql
    ends_with 0 format mounted
    umount mounted/a.graphql
    has mounted/source "$laid_out"
    is_clean mounted
else
    left_out "full disks and mounted files: no rights to mount"
fi

# A write that fails in the middle, and one at which the run is killed: no file may have more than 512 or 1,024 bytes.
mkdir short
printf %s "$nested" >short/a.graphql
(
    trap '' XFSZ
    ulimit -f 1
    ends_with 2 format short
    says "gql: short/a.graphql cannot be written"
    exit "$failures"
)
failures=$?
keeps short/a.graphql "$nested"
is_clean short
(
    ulimit -c 0
    ulimit -f 1
    "$gql" format short
) >told 2>&1
keeps short/.a.graphql.gql-format "$nested"
holds "the copy is the owner's alone" [ "$(stat -c %a short/.a.graphql.gql-format)" = 600 ]

# What is blank.
mkdir blank
: >blank/a.graphql
printf '# {a}' >blank/b.graphqls
ends_with 0 format --check blank
ends_with 0 format blank
says "2 files: 0 formatted, 2 unchanged"
holds "comments stay" [ "$(cat blank/b.graphqls)" = '# {a}' ]
ends_with 0 check blank
ends_with 1 check --executable blank
holds "an empty text is laid out as itself" [ -z "$("$gql" format </dev/null)" ]

# Which files of a folder are found.
mkdir -p found/.hidden found/node_modules/b found/sub/.git found/left/b found/shut
for file in a.graphql sub/a.gql sub/b.graphqls sub/c.gqls sub/d.sdl sub/e.graphql.txt .hidden/a.graphql node_modules/b/a.graphql \
    sub/.git/a.graphql left/b/a.graphql sub/left.gql shut/a.graphql; do
    printf 'type A{b:C}' >"found/$file"
done
printf '# not these\n/left/\nleft.*\n' >found/.gitignore
mkfifo found/pipe.graphql
printf '{a}' >"$(printf 'found/bad\377.graphql')"
: >"$(printf 'found/odd\377.txt')"
chmod 755 found
chmod 000 found/shut
user_ends_with 2 check --schema found
says "gql: found/pipe.graphql is skipped: not a regular file"
says "gql: found/bad�.graphql cannot be read: its name is not UTF-8"
says "gql: found/odd�.txt is skipped: its name is not UTF-8"
says "gql: found/shut cannot be read: permission denied"
says "7 files: 5 good, 2 not read"
chmod 755 found/shut
rm found/bad*
ends_with 0 check --schema found
says "6 files: 6 good"
ends_with 0 check --schema --no-ignore found
says "11 files: 11 good"
ends_with 0 check --schema -v found/.hidden/ found/left
says "found/.hidden/a.graphql: good"
says "found/left/b/a.graphql: good"
ends_with 0 format --schema found
has found/sub/d.sdl 'type A {
  b: C
}'
keeps found/left/b/a.graphql 'type A{b:C}'
mkdir found/none
ends_with 2 check found/none
says "gql: found/none has no file named *.graphql, *.graphqls, *.gqls, *.gql or *.sdl"

[ "$failures" -eq 0 ] && echo "format: all is as it should be"
