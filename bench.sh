#!/bin/sh
# Times the library against a plain Rust program.
root=$(dirname -- "$(readlink -f -- "$0")") me=bench
. "$root/scripts/common.sh"

usage() {
    cat <<'END'
./bench.sh [RUNS | --quick]

Times the library against a plain Rust program, RUNS times each (3001), then shows how drain and index grow with
the file, to 1 GiB, and decoding with the block. --quick: 101 runs, and to 16 MiB. docs/SPEED.md says what the
columns are. Needs cargo; no network.
END
}

help_for "$@"
[ $# -le 1 ] || fail "one word at most, and these are $# (./bench.sh --help)"
case ${1-3001} in
--quick) runs=101 largest=16 ;;
'' | *[!0-9]* | 0*) fail "RUNS is a number above 0, and not '$1' (./bench.sh --help)" ;;
*) runs=${1-3001} largest=1024 ;;
esac

"$root/build-library.sh" || exit
build_with_cargo bench || exit
exec "$root/target/bench/release/bench" "$runs" "$largest"
