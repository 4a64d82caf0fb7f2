#!/bin/sh
# Proves the library and writes it as target/lib/libamv.a; examples, tests, bench and compare link that one.
root=$(dirname -- "$(readlink -f -- "$0")") me=build-library
. "$root/scripts/common.sh"

usage() {
    cat <<'END'
./build-library.sh

Proves the library and writes target/lib/libamv.a, for x86-64 Linux. Does nothing where that is newer than its
sources and made by the kit on the path.

AMV_LIB_DIR, where it is set, names a folder with a libamv.a to take as it is, say an installed one: then nothing
is built. ./test.sh, ./bench.sh, ./compare.sh, examples/c/run.sh and the build of bindings/rust go by it too.
END
}

help_for "$@"
[ $# -eq 0 ] || fail "takes no words, and these are $# (./build-library.sh --help)"

library=$lib_dir/libamv.a
if [ -n "${AMV_LIB_DIR:-}" ]; then
    [ -f "$library" ] || fail "AMV_LIB_DIR names $lib_dir, and there is no libamv.a in it"
    say "taking $library as it is"
    exit 0
fi

make() {
    # For every x86-64: rt's own choice needs a newer processor, and a static library does not ask for it.
    show_rt capi_c lib --cpu=x86-64
    mkdir -p "$lib_dir"
    cp "$root/crates/capi_c/out/libcapi_c.a" "$library.new" && mv "$library.new" "$library" || fail "cannot write $library"
}
keep_current capi_c "$library"
say "${library#"$root/"} is current"
