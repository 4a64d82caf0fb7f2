#!/bin/sh
# What the gate does not run: the C example, the header's names, an installed library, the Rust binding, and the scripts themselves.
root=$(dirname -- "$(readlink -f -- "$0")") me=test
. "$root/scripts/common.sh"

usage() {
    cat <<'END'
./test.sh

Runs what the gate does not: the C example, whose output must be the stored one; tests/header.c, which holds the
names of include/amv.h against the library, as C99 to C2x and C++11 to C++20, and again over an installed library,
static and shared; the tests of the Rust binding, over both; and the scripts, used rightly and wrongly. The last
line is 'N passed, M failed'. Needs a C compiler (CC, or cc) and cargo; C++ (CXX, or c++) and pkg-config are used
where they are there.
END
}

help_for "$@"
[ $# -eq 0 ] || fail "takes no words, and these are $# (./test.sh --help)"
command -v "${CC:-cc}" >/dev/null || fail "needs a C compiler, and there is no ${CC:-cc} on the path"
command -v cargo >/dev/null || fail "needs cargo, and there is none on the path"
"$root/build-library.sh" || exit

work=$root/target/test
rm -rf "$work"
mkdir -p "$work" || exit 2
. "$root/tests/parts.sh"
example
header
installed
binding
scripts
echo "$passed passed, $failed failed"
[ "$failed" -eq 0 ]
