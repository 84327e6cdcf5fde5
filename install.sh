#!/bin/sh
# Installs the library for C and C++: the header, the archive, and the files by which CMake and pkg-config find them.
#
#   ./install.sh [--prefix FOLDER]        FOLDER is /usr/local if none is given
#
# The environment variable DESTDIR, if it is set, is a folder to put everything below, for those who make packages. The archive is
# target/staticlib/libpanel.a; if it is not there, archive.sh builds it.
set -eu
started_in=$PWD
cd "$(dirname "$0")"

fail() {
    echo "install: $1" >&2
    exit 1
}

prefix=/usr/local
while [ $# -gt 0 ]; do
    case $1 in
    --prefix)
        [ $# -gt 1 ] || fail '--prefix needs a folder'
        prefix=$2
        shift
        ;;
    --prefix=*) prefix=${1#--prefix=} ;;
    *) fail "the only option is --prefix FOLDER, not $1" ;;
    esac
    shift
done
case $prefix in
/*) ;;
'') fail '--prefix needs a folder' ;;
*) prefix=$started_in/$prefix ;;
esac

archive=target/staticlib/libpanel.a
[ -f "$archive" ] || ./archive.sh
version=$(sed -n 's/^#define PANEL_VERSION "\(.*\)"$/\1/p' include/panel.h)

# fill TEMPLATE FILE: the template with the prefix and the version put in. Characters that sed would read as its own are escaped.
escaped_prefix=$(printf '%s' "$prefix" | sed 's/[&|\\]/\\&/g')
fill() {
    sed -e "s|@PREFIX@|$escaped_prefix|" -e "s|@VERSION@|$version|" "$1" >"$2"
    chmod 644 "$2"
}

root=${DESTDIR:-}$prefix
mkdir -p "$root/include" "$root/lib/cmake/panel" "$root/lib/pkgconfig"
install -m 644 include/panel.h "$root/include/panel.h"
install -m 644 "$archive" "$root/lib/libpanel.a"
install -m 644 cmake/panel-config.cmake "$root/lib/cmake/panel/panel-config.cmake"
fill cmake/panel-config-version.cmake.in "$root/lib/cmake/panel/panel-config-version.cmake"
fill cmake/panel.pc.in "$root/lib/pkgconfig/panel.pc"
echo "install: version $version in $root"
