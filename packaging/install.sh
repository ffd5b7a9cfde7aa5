#!/bin/sh
# usage: install.sh [install | uninstall]
# Installs the unpacked release that it lies in, below PREFIX (/usr/local), or takes away what it installed there.
# The libraries go to LIBDIR (PREFIX/lib), which lies below PREFIX too. With DESTDIR all of that goes below that folder in
# the place of /. What is installed, is written down in PREFIX/share/gate/installed: an uninstall goes by that, and an
# install takes away an earlier one first.
set -eu
LC_ALL=C
export LC_ALL

say() {
    printf 'install.sh: %s\n' "$1" >&2
}

fail() {
    say "$1"
    exit "${2-1}"
}

here=$(cd "$(dirname "$0")" && pwd)
top=${DESTDIR-}
prefix=${PREFIX-/usr/local}
case $prefix in
/*) prefix=${prefix%/} ;;
*) fail "PREFIX has to begin with /" 64 ;;
esac
# Without PREFIX before it, as lib64 or lib/x86_64-linux-gnu.
libdir=${LIBDIR-lib}
libdir=${libdir#"$prefix/"}
libdir=${libdir%/}
case /$libdir/ in
//* | */../* | */./*) fail "LIBDIR has to lie below PREFIX" 64 ;;
esac
record=$prefix/share/gate/installed
tab=$(printf '\t')

# What is installed, a line each: its place in the release, a tab, and its place below PREFIX.
files() {
    cd "$here"
    find bin include lib share README.md CHANGELOG.md PROOFS docs examples ! -type d | sort | while IFS= read -r from; do
        case $from in
        lib/*) to=$libdir/${from#lib/} ;;
        bin/* | include/* | share/*) to=$from ;;
        *) to=share/doc/gate/$from ;;
        esac
        printf '%s%s%s\n' "$from" "$tab" "$to"
    done
}

# Makes a folder, after those that it lies in, and writes down what was not there: with `/` at its end.
folder() {
    if [ ! -d "$top$1/" ]; then
        folder "$(dirname "$1")"
        mkdir -m 755 "$top$1"
        made="$made$1/
"
    fi
}

# Copies a file or a link.
put() {
    made=
    folder "$(dirname "$2")"
    printf '%s%s\n' "$made" "$2" >>"$top$record"
    cp -P "$1" "$top$2"
    if [ ! -h "$1" ]; then
        if [ -x "$1" ]; then chmod 755 "$top$2"; else chmod 644 "$top$2"; fi
    fi
}

# The description for pkg-config says where the library lies, in the place of how to find it from its own folder; that for
# CMake how to find PREFIX from its own folder.
set_prefix() {
    {
        printf 'prefix=%s\nlibdir=%s\n' "$prefix" "\${prefix}/$libdir"
        sed 1,2d "$here/lib/pkgconfig/gate.pc"
    } >"$top$prefix/$libdir/pkgconfig/gate.pc"
    {
        up=$(printf '%s\n' "$libdir/cmake/gate" | sed 's,[^/][^/]*,..,g')
        printf 'get_filename_component(gate_prefix "%s" ABSOLUTE)\n' "\${CMAKE_CURRENT_LIST_DIR}/$up"
        sed 1d "$here/lib/cmake/gate/gateConfig.cmake"
    } >"$top$prefix/$libdir/cmake/gate/gateConfig.cmake"
}

# Stops where something lies in the way that no install.sh put there.
look() {
    printf '%s\n' "$list" | while IFS=$tab read -r _ to; do
        if [ -e "$top$prefix/$to" ] || [ -h "$top$prefix/$to" ]; then
            grep -Fqx "$prefix/$to" "$top$record" 2>/dev/null ||
                fail "$top$prefix/$to is there, and no install.sh put it there: nothing is installed"
        fi
    done
}

# What a host may still need, by where the library lies.
hint() {
    case $prefix in
    /usr | /usr/local) say "where a program does not find libgate.so, run ldconfig" ;;
    *) say "hosts need PKG_CONFIG_PATH=$prefix/$libdir/pkgconfig, and LD_LIBRARY_PATH=$prefix/$libdir or an rpath" ;;
    esac
}

install_all() {
    [ -x "$here/bin/gate" ] || fail "no bin/gate beside it: it installs an unpacked release, and packaging/release makes one"
    list=$(files)
    look
    [ ! -f "$top$record" ] || uninstall_all
    [ -z "$top" ] || mkdir -p "$top"
    made=
    folder "$(dirname "$record")"
    printf '%s' "$made" >"$top$record"
    chmod 644 "$top$record"
    printf '%s\n' "$list" | while IFS=$tab read -r from to; do
        put "$here/$from" "$prefix/$to"
    done
    set_prefix
    say "installed $(printf '%s\n' "$list" | wc -l) files below $top$prefix"
    [ -n "$top" ] || hint
}

uninstall_all() {
    [ -f "$top$record" ] || fail "nothing is installed below $top$prefix"
    grep -v '/$' "$top$record" | while IFS= read -r name; do
        rm -f "$top$name"
    done
    folders=$(grep '/$' "$top$record" | sort -r)
    rm -f "$top$record"
    printf '%s\n' "$folders" | while IFS= read -r name; do
        rmdir "$top$name" 2>/dev/null || :
    done
}

[ $# -le 1 ] || fail "usage: install.sh [install | uninstall]" 64
case ${1-install} in
install) install_all ;;
uninstall)
    uninstall_all
    say "uninstalled from below $top$prefix"
    ;;
*) fail "usage: install.sh [install | uninstall]" 64 ;;
esac
