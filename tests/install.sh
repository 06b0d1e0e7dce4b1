#!/bin/sh
# Installs the program into an empty folder and takes it away again, with GNU make and with BSD make. In place of the
# kit's rt stands a program that notes that it was asked to build, or one that fails. Then the same from a tree that may
# only be read, in a folder with blanks in its name, as a user. The archive of `make dist` is unpacked elsewhere, and
# its program run. And a shell that knows no more than README tells it finds all that is installed below HOME/.local.
#
# usage: install.sh, with the program and the C library already built
# The last line is 'N passed, M failed'; the status is 0 where none failed.

top=$(cd "$(dirname "$0")/.." && pwd)
. "$top/tests/shared.sh"
folder=$(mktemp -d) || exit 1
trap 'chmod -R u+w "$folder"; rm -rf "$folder"' EXIT
cd "$top" || exit 1
# What a make that runs this script was told is not for the ones below.
unset MAKEFLAGS MFLAGS MAKELEVEL
printf '#!/bin/sh\necho "${PWD##*/} $*" >> "%s/asked"\n' "$folder" > "$folder/built"
printf '#!/bin/sh\necho why it fails\nexit 1\n' > "$folder/not built"
chmod +x "$folder/built" "$folder/not built"
place="$folder/a place"
own=$place/opt/kmap
version=$(sed -n 's/^VERSION = //p' Makefile)

cat > "$folder/wanted" << END
bin/kmap
include/kmap.h
lib/libkmap.a
lib/libkmap.so
lib/libkmap.so.0
lib/libkmap.so.$version
lib/pkgconfig/kmap.pc
share/bash-completion/completions/kmap
share/doc/kmap/CHANGELOG.md
share/doc/kmap/LICENSE
share/doc/kmap/README.md
share/doc/kmap/docs/FORMATS.md
share/doc/kmap/docs/GUIDE.md
share/doc/kmap/docs/PROOFS.md
share/doc/kmap/docs/TRANSLATION.md
share/doc/kmap/docs/de.svg
share/examples/kmap/accents.kbd
share/examples/kmap/console_ends.py
share/examples/kmap/console_test.py
share/examples/kmap/de.kbd
share/examples/kmap/de.script
share/examples/kmap/line.numbers
share/examples/kmap/line.script
share/examples/kmap/live.c
share/examples/kmap/load.c
share/examples/kmap/test_keymap.py
share/examples/kmap/trap.kbd
share/examples/kmap/type.c
share/examples/kmap/type.py
share/examples/kmap/us.kbd
share/fish/vendor_completions.d/kmap.fish
share/kmap/python/kmap/__init__.py
share/kmap/python/kmap/py.typed
share/kmap/python/pyproject.toml
share/man/man1/kmap.1
share/man/man3/kmap.3
share/man/man3/kmap_accepts.3
share/man/man3/kmap_action_name.3
share/man/man3/kmap_bearer.3
share/man/man3/kmap_cell.3
share/man/man3/kmap_check.3
share/man/man3/kmap_check_narrow.3
share/man/man3/kmap_deliver.3
share/man/man3/kmap_fault_words.3
share/man/man3/kmap_finding_words.3
share/man/man3/kmap_from_kbio.3
share/man/man3/kmap_key_of_evdev.3
share/man/man3/kmap_locks.3
share/man/man3/kmap_modifiers.3
share/man/man3/kmap_narrow.3
share/man/man3/kmap_pending.3
share/man/man3/kmap_press.3
share/man/man3/kmap_print_text.3
share/man/man3/kmap_read_text.3
share/man/man3/kmap_release.3
share/man/man3/kmap_start.3
share/man/man3/kmap_step.3
share/man/man3/kmap_step_between.3
share/man/man3/kmap_step_between_narrow.3
share/man/man3/kmap_step_narrow.3
share/man/man3/kmap_text_fault_words.3
share/man/man3/kmap_widen.3
share/man/man5/kmap.5
share/zsh/site-functions/_kmap
END

# made MAKE RT TARGET [VARIABLE=..]: runs a target with this build, below DESTDIR and PREFIX
made() {
    tool=$1 kit=$2
    shift 2
    "$tool" RT="$kit" DESTDIR="$place" PREFIX=/opt/kmap "$@" > "$folder/said" 2>&1
}

# refused MAKE RT TARGET: as `made`, of a target that cannot be made
refused() {
    ! made "$@"
}

# changed SINCE: files of this repository that were written since then
changed() {
    find . -path ./.git -prune -o -newer "$1" -print
}

# installs MAKE: installing and taking away with this make
installs() {
    # a kit that is newer than what is built is asked for it
    touch "$folder/built"
    holds "$1 installs" made "$1" "$folder/built" install
    holds "$1 asks for the build of the program first" grep -qx 'kmap run -- --version' "$folder/asked"
    holds "$1 asks for the build of the library first" grep -qx 'kmap_c lib' "$folder/asked"
    (cd "$own" && find . ! -type d) | sed 's/^\.\///' | LC_ALL=C sort > "$folder/got"
    same_text "$1 installs these files" "$folder/wanted" "$folder/got"
    holds "$1 installs nothing elsewhere" [ "$(find "$place" ! -type d | wc -l)" -eq "$(wc -l < "$folder/wanted")" ]
    holds "$1 installs the program" cmp -s crates/kmap/out/kmap "$own/bin/kmap"
    holds "$1 installs a program that runs" "$own/bin/kmap" check "$own/share/examples/kmap/de.kbd" > "$folder/said"
    holds "$1 installs the library" cmp -s crates/kmap_c/out/libkmap_c.a "$own/lib/libkmap.a"
    holds "$1 installs a kmap.pc that names this place" grep -qx 'prefix=/opt/kmap' "$own/lib/pkgconfig/kmap.pc"
    for page in "$own"/share/man/man3/kmap_*; do
        holds "$1 installs the page of the library as ${page##*/}" cmp -s "$own/share/man/man3/kmap.3" "$page"
    done
    holds "$1 installs pages that name this place" grep -q '^\.It Pa /opt/kmap/share/doc' "$own/share/man/man1/kmap.1"
    touch "$folder/stamp"
    : > "$folder/asked"
    holds "$1 installs again" made "$1" "$folder/built" install
    holds "$1 then asks for nothing" [ ! -s "$folder/asked" ]
    holds "$1 then writes nothing here" [ -z "$(changed "$folder/stamp")" ]

    : > "$own/share/examples/kmap/mine.kbd"
    holds "$1 uninstalls" made "$1" "$folder/built" uninstall
    holds "$1 leaves what is not its own" [ "$(find "$place" -type f)" = "$own/share/examples/kmap/mine.kbd" ]
    rm "$own/share/examples/kmap/mine.kbd"
    holds "$1 uninstalls twice" made "$1" "$folder/built" uninstall
    holds "$1 takes its own folders away" [ -z "$(find "$place" -name kmap ! -path "$own")" ]
    rm -rf "$place"

    holds "$1 installs where it is told to" made "$1" "$folder/built" install LIBDIR=/opt/lib64 MANDIR=/opt/man \
        INCLUDEDIR=/opt/inc
    for file in opt/lib64/libkmap.a opt/lib64/pkgconfig/kmap.pc opt/man/man1/kmap.1 opt/inc/kmap.h; do
        holds "$1 installs $file" [ -f "$place/$file" ]
    done
    holds "$1 tells pkg-config where" grep -qx 'libdir=/opt/lib64' "$place/opt/lib64/pkgconfig/kmap.pc"
    rm -rf "$place"

    # signs that mean something to sed
    odd=/opt/a,b\&c
    holds "$1 installs below a name with odd signs" made "$1" "$folder/built" install "PREFIX=$odd"
    holds "$1 names them in kmap.pc" grep -qxF "prefix=$odd" "$place$odd/lib/pkgconfig/kmap.pc"
    holds "$1 names them in a page" grep -qF ".It Pa $odd/share/doc" "$place$odd/share/man/man1/kmap.1"
    rm -rf "$place"

    touch "$folder/not built"
    holds "$1 stops where the build fails" refused "$1" "$folder/not built" install
    holds "$1 then shows what the kit said" grep -qx 'why it fails' "$folder/said"
    holds "$1 then installs nothing" [ ! -e "$place" ]
    rm -f "$folder/asked"
}

# copies: copies this repository with what was built into a folder that may only be read; one who tried the examples
# there has left a file beside them, which is not to be installed
copies() {
    copy="$folder/a tree to read"
    mkdir "$copy"
    tar -c --exclude ./.git --exclude out . | tar -x -C "$copy"
    for file in crates/kmap/out/kmap crates/kmap_c/out/libkmap_c.a crates/kmap_c/out/libkmap.so; do
        mkdir -p "$copy/${file%/*}"
        cp -p "$file" "$copy/$file"
    done
    : > "$copy/examples/us.tables"
    chmod -R a+rX,a-w "$copy"
    chmod a+rx "$folder"
}

# user_made MAKE TARGET: runs a target in the copy, as a user, with a kit that fails
user_made() {
    {
        echo "cd '$copy' &&"
        echo "    $1 RT=false DESTDIR='$folder/a user' PREFIX='/opt/the kmap' $2"
    } > "$folder/by user"
    if [ "$(id -u)" -eq 0 ]; then
        su -s /bin/sh nobody -c "sh '$folder/by user'" > "$folder/said" 2>&1
    else
        sh "$folder/by user" > "$folder/said" 2>&1
    fi
}

# installs_for_user MAKE: installing from the copy and taking away, in paths with blanks
installs_for_user() {
    mkdir "$folder/a user"
    chmod a+rwx "$folder/a user"
    theirs="$folder/a user/opt/the kmap"
    holds "$1 installs from a tree that may only be read" user_made "$1" install
    (cd "$theirs" && find . ! -type d) | sed 's/^\.\///' | LC_ALL=C sort > "$folder/got"
    same_text "$1 installs these files for a user" "$folder/wanted" "$folder/got"
    holds "$1 installs a kmap.pc that names a path with blanks" \
        grep -qx 'prefix=/opt/the kmap' "$theirs/lib/pkgconfig/kmap.pc"
    if is_there pkg-config; then
        said=$(PKG_CONFIG_PATH="$theirs/lib/pkgconfig" pkg-config --cflags --libs kmap)
        holds "pkg-config quotes the blanks: $said" \
            [ "${said% }" = '-I/opt/the\ kmap/include -L/opt/the\ kmap/lib -lkmap' ]
    fi
    holds "$1 uninstalls for a user" user_made "$1" uninstall
    holds "$1 then leaves nothing" [ -z "$(find "$folder/a user" ! -type d)" ]
    rm -rf "$folder/a user"
}

# archives: what `make dist` puts together, twice the same, and run where it was unpacked
archives() {
    archive=kmap-$version-x86_64-linux.tar.gz
    holds 'make dist puts an archive together' make RT="$folder/built" dist > "$folder/said"
    holds 'it says its name' grep -qx "$archive" "$folder/said"
    mv "$archive" "$folder"
    sleep 1
    holds 'make dist does it again' make RT="$folder/built" dist > "$folder/said"
    holds 'the same bytes for the same files' cmp "$archive" "$folder/$archive"
    rm -f "$archive"
    (cd "$folder" && tar -xf "$archive")
    (cd "$folder/kmap-$version" && find . ! -type d) | sed 's/^\.\///' | LC_ALL=C sort > "$folder/got"
    same_text 'the archive holds what is installed' "$folder/wanted" "$folder/got"
    "$folder/kmap-$version/bin/kmap" play --typed examples/us.kbd examples/line.script > "$folder/got"
    crates/kmap/out/kmap play --typed examples/us.kbd examples/line.script > "$folder/typed"
    same_text 'the program of the archive types the line' "$folder/typed" "$folder/got"
    if is_there pkg-config; then
        unpacked() { PKG_CONFIG_PATH=$folder/kmap-$version/lib/pkgconfig pkg-config --variable="$1" kmap; }
        holds 'pkg-config finds the header where the archive was unpacked' [ -f "$(unpacked includedir)/kmap.h" ]
        holds 'pkg-config finds the library there' [ -f "$(unpacked libdir)/libkmap.a" ]
    fi
}

# not_installed FOLDER: the links and paths of the documents there that lead to no installed file, but for the paths of
# PROOFS.md, which says that the files that it names are those of the repository
not_installed() {
    (cd "$1" && grep -o '](\([^)#]*\)' README.md docs/*.md | while IFS= read -r link; do
        file=${link%%:*}
        [ -e "$(dirname "$file")/${link#*](}" ] || echo "$link"
    done
    # (what stands below $PWD is said of a clone)
    grep -noE '(\$PWD/)?`?(tests|crates|bench|include|completions|man)/[a-z_./]*' README.md docs/GUIDE.md \
        docs/FORMATS.md docs/TRANSLATION.md | grep -vF ':$PWD/'
    grep -noE 'CONTRIBUTING|ARCHITECTURE|DECISIONS' README.md docs/*.md)
}

# in_new_shell LINE: runs a line in a shell that has a home and the lines of README, and nothing else
in_new_shell() {
    {
        exports_of README.md
        echo "$1"
    } > "$folder/line"
    env -i HOME="$folder/home" PATH="$PATH" TERM=dumb sh -e "$folder/line"
}

# as_readme_says: what is installed below HOME/.local is found by who has read README
as_readme_says() {
    mkdir "$folder/home"
    line=$(sed -n 's/^\(make install PREFIX=[^ ]*\).*/\1/p' README.md)
    holds "README installs: $line" in_new_shell "$line RT='$folder/built' > '$folder/said'"
    own=$folder/home/.local
    missing=$(not_installed "$own/share/doc/kmap")
    holds "installed documents name what is installed, but: $missing" [ -z "$missing" ]
    holds 'the program is found' [ "$(in_new_shell 'command -v kmap')" = "$own/bin/kmap" ]
    if is_there man; then
        for page in '1 kmap' '3 kmap' '5 kmap' kmap_step kmap_press; do
            holds "man finds $page" in_new_shell "man -w $page > '$folder/said'"
        done
    fi
    if is_there zsh; then
        line=$(sed -n 's/.*for zsh `\(fpath=[^`]*\)`.*/\1/p' README.md)
        holds "zsh finds completions by: $line" [ "$(in_new_shell "
            zsh -fc '$line; autoload -Uz compinit && compinit -u -D; echo \$_comps[kmap]'")" = _kmap ]
    fi
    copied='mkdir -p ~/keymaps && cp ~/.local/share/examples/kmap/* ~/keymaps && cd ~/keymaps'
    if is_there pkg-config && is_there cc; then
        program_of README.md > "$folder/home/readme.c"
        holds 'the example of README types' [ "$(in_new_shell "$copied
            cc ../readme.c \$(pkg-config --cflags --libs kmap) -o readme && ./readme < us.kbd")" = a ]
    fi
    if is_there python3; then
        holds 'the tests of a keymap in Python pass' in_new_shell "$copied && python3 test_keymap.py > '$folder/said'"
    fi
    line=$(sed -n 's/^\(make uninstall PREFIX=[^ ]*\).*/\1/p' README.md)
    holds "README uninstalls: $line" in_new_shell "$line > '$folder/said'"
    holds 'then nothing is left' [ -z "$(find "$own" ! -type d)" ]
}

# old_processor COMMAND..: on a processor without SSE4.2 the command fails with a line that tells of it
old_processor() {
    ! qemu-x86_64 -cpu core2duo "$@" > "$folder/said" 2>&1 && grep -q 'x86-64-v2' "$folder/said"
}

# old_loader LIBRARY: the loader refuses the library there; a list of libraries to load takes no path with blanks
old_loader() {
    (cd "${1%/*}" && qemu-x86_64 -cpu core2duo -E LD_PRELOAD="./${1##*/}" /bin/true) 2>&1 |
        grep -q 'CPU ISA level is lower than required'
}

for tool in make bmake; do
    if is_there "$tool"; then
        installs "$tool"
    fi
done
if is_there readelf; then
    holds 'the shared library says which processors it is for' \
        [ "$(readelf -n crates/kmap_c/out/libkmap.so | grep -c 'x86-64-v2')" -eq 1 ]
fi
if is_there qemu-x86_64; then
    if [ -n "${UNPROVED:-}" ]; then
        skip 'old processors for a program that is built without a proof'
    else
        holds 'the program tells an old processor what it lacks' old_processor crates/kmap/out/kmap --version
    fi
    holds 'the loader refuses the shared library on an old processor' old_loader crates/kmap_c/out/libkmap.so
fi
copies
for tool in make bmake; do
    if is_there "$tool"; then
        installs_for_user "$tool"
    fi
done
if is_there make; then
    archives
    as_readme_says
fi

counted
