#!/bin/sh
# Holds the library against the Rust original and against a plain second implementation.
root=$(dirname -- "$(readlink -f -- "$0")") me=compare
. "$root/scripts/common.sh"

# The original, and the commit that is compared.
repository=https://github.com/OxideAV/oxideav-amv commit=72a4302929
beside=../oxideav-amv

usage() {
    cat <<END
./compare.sh [SEED] [COUNT] [DIR]
./compare.sh vectors [DIR]

Holds the library against the Rust original and against a plain second implementation (plain/). After the short
inputs, the programs and the large files, random inputs from SEED (1) run until COUNT (20000000) comparisons are
made in all, but at least 1000 rounds. The last line is 'N passed, M failed'.

The second form stores answers, the original's and those that it does not have, for the program vectors.

DIR has the original's parse.rs, demuxer.rs and muxer.rs, which are built as they stand: the folder src of
$repository at commit $commit; where DIR is not given,
$beside/src. Needs cargo; no network.
END
}

help_for "$@"
case ${1-} in
vectors)
    [ $# -le 2 ] || fail "too many words (./compare.sh --help)"
    dir=${2-} mode=vectors
    ;;
*)
    [ $# -le 3 ] || fail "too many words (./compare.sh --help)"
    dir=${3-} mode=random seed=${1-1} count=${2-20000000}
    for number in "$seed" "$count"; do
        case $number in '' | *[!0-9]*) fail "SEED and COUNT are numbers, and not '$number' (./compare.sh --help)" ;; esac
    done
    ;;
esac

dir=${dir:-$root/$beside/src}
for name in parse demuxer muxer; do
    [ -r "$dir/$name.rs" ] && continue
    say "the original is not in $dir: there is no $name.rs"
    say "its three files are in src/ of $repository, commit $commit:"
    say "    git clone $repository $(readlink -m -- "$root/$beside")"
    say "    git -C $(readlink -m -- "$root/$beside") checkout $commit"
    fail "or name a folder that has them: ./compare.sh SEED COUNT DIR"
done
AMV_ORIGINAL=$(readlink -f -- "$dir")
export AMV_ORIGINAL

"$root/build-library.sh" || exit
keep_list_current
build_with_cargo compare || exit
case $mode in
vectors) exec "$root/target/compare/release/compare" vectors "$root/crates/vectors" ;;
random) exec "$root/target/compare/release/compare" "$seed" "$count" ;;
esac
