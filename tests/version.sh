#!/bin/sh
# Checks that the version is one number: VERSION of the Makefile, from which the names of the shared library and of the
# archive are made, stands in the program, its manual pages, the pkg-config file, README.md and as the newest section of
# CHANGELOG.md, and the number of an older section stands nowhere else.
#
# usage: version.sh [PROGRAM]; without a program its source alone is compared
# The last line is 'N passed, M failed'; the status is 0 where none failed.

program=${1:-}
case $program in
'' | /*) ;;
*) program=$PWD/$program ;;
esac
top=$(cd "$(dirname "$0")/.." && pwd)
. "$top/tests/shared.sh"
cd "$top" || exit 1

# three_numbers TEXT: it is three numbers with dots between them
three_numbers() {
    expr "$1" : '[0-9][0-9]*\.[0-9][0-9]*\.[0-9][0-9]*$' > /dev/null
}

version=$(sed -n 's/^VERSION = //p' Makefile)
holds "the Makefile has a version of three numbers, not '$version'" three_numbers "$version"

# says FILE LINE: the file has this line
says() {
    holds "$1: $2" grep -qxF -e "$2" "$1"
}

says crates/kmap/src/command_line.rt "pub(crate) const VERSION: &str = \"$version\";"
says include/kmap.pc "Version: $version"
says python/pyproject.toml "version = \"$version\""
for page in man/kmap.1 man/kmap.3 man/kmap.5; do
    says "$page" "This page is that of version $version."
done
holds "README.md: the archive of $version" grep -qF "kmap-$version-x86_64-linux.tar.gz" README.md
[ -z "$program" ] || holds 'the program is of this version' [ "$("$program" --version)" = "kmap $version" ]

# The list of changes has a section a version, each with its day below it, the newest first.
sections=$(sed -n 's/^## //p' CHANGELOG.md)
holds 'the newest section of CHANGELOG.md is of this version' [ "$(echo "$sections" | head -n 1)" = "$version" ]
days=$(sed -n '/^## /{n;n;p;}' CHANGELOG.md)
holds 'each section of CHANGELOG.md has its day' \
    [ "$(echo "$days" | grep -cxE '[0-9]{4}-[0-9]{2}-[0-9]{2}')" -eq "$(echo "$sections" | wc -l)" ]
holds 'the sections of CHANGELOG.md go from the newest to the oldest' \
    [ "$(echo "$days" | sort -r)" = "$days" ]
for older in $(echo "$sections" | sed 1d); do
    found=$(find . \( -name .git -o -name out \) -prune -o -type f ! -name CHANGELOG.md -print |
        xargs grep -lwF -e "$older" | tr '\n' ' ')
    holds "$older stands in: $found" [ -z "$found" ]
done

# The name by which programs find the shared library goes up with a change of what a call means, not with the version.
says Makefile 'SONAME = libkmap.so.0'

counted
