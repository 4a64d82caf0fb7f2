#!/bin/sh
# Installs the library and its header.
root=$(dirname -- "$(readlink -f -- "$0")") me=install
. "$root/scripts/common.sh"

usage() {
    cat <<'END'
./install.sh PREFIX

Builds the library where that is due and installs it below PREFIX, an absolute or a relative folder:

  include/amv.h
  lib/libamv.a
  lib/libamv.so, a link to libamv.so.MAJOR.MINOR, a link to libamv.so.MAJOR.MINOR.PATCH
  lib/pkgconfig/amv.pc, so that `pkg-config --cflags --libs amv` says how to link
  share/doc/amv/FORMAT.md and NOTICE

DESTDIR, where it is set, is put before PREFIX in the names of the files and not in what amv.pc says. Needs a C
compiler (CC, or cc) to make the shared library.
END
}

help_for "$@"
case ${1-} in
'') fail "a PREFIX to install below is missing, as in ./install.sh /usr/local (./install.sh --help)" ;;
-*) fail "there is no option $1 (./install.sh --help)" ;;
esac
[ $# -eq 1 ] || fail "one PREFIX, and these are $# words (./install.sh --help)"
compiler=${CC:-cc}
command -v "$compiler" >/dev/null || fail "needs a C compiler, and there is no $compiler on the path"
prefix=$(readlink -m -- "$1")
to=${DESTDIR:-}$prefix

"$root/build-library.sh" || exit

# The header has the version.
part() { sed -n "s/^#define AMV_VERSION_$1 //p" "$root/include/amv.h"; }
release=$(part MAJOR).$(part MINOR)
version=$release.$(part PATCH)

# The shared library shows the functions of the header, and nothing else that the archive holds.
made=$(mktemp -d) || exit
trap 'rm -rf "$made"' EXIT
echo '{ global: amv_*; local: *; };' >"$made/exports"
"$compiler" -shared -o "$made/libamv.so" -Wl,-soname,"libamv.so.$release" -Wl,--version-script="$made/exports" -Wl,-z,defs \
    -Wl,--whole-archive "$lib_dir/libamv.a" -Wl,--no-whole-archive || fail "$compiler cannot make the shared library"
cat >"$made/amv.pc" <<END
prefix=$prefix
includedir=\${prefix}/include
libdir=\${prefix}/lib

Name: amv
Description: AMV recordings: read, index, jump, check, print and write them, decode their sound, and drive a reader by registers, proved
Version: $version
Cflags: -I"\${includedir}"
Libs: -L"\${libdir}" -lamv
END

{
    mkdir -p "$to/include" "$to/lib/pkgconfig" "$to/share/doc/amv" &&
        install -m 644 "$root/include/amv.h" "$to/include/amv.h" &&
        install -m 644 "$lib_dir/libamv.a" "$to/lib/libamv.a" &&
        install -m 755 "$made/libamv.so" "$to/lib/libamv.so.$version" &&
        ln -sf "libamv.so.$version" "$to/lib/libamv.so.$release" &&
        ln -sf "libamv.so.$release" "$to/lib/libamv.so" &&
        install -m 644 "$made/amv.pc" "$to/lib/pkgconfig/amv.pc" &&
        install -m 644 "$root/docs/FORMAT.md" "$root/NOTICE" "$to/share/doc/amv"
} || fail "cannot install below $to"
say "libamv $version is installed below $to"
