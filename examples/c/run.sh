#!/bin/sh
# Builds the library and the two programs; records; checks and plays the recording, one that was cut, one that was cut inside the picture
# that is jumped to, one that is damaged, and one as another program would write it; prints the index of the recording; hears it, and the
# start of one with a block that is refused; drives a reader by registers over the recording and the one that was cut, to a picture that is
# there and to one past the end, and over the damaged one. Standard output is what expected.txt stores.
set -eu
root=$(dirname -- "$(readlink -f -- "$0")")/../..
root=$(readlink -f -- "$root") me=example
. "$root/scripts/common.sh"
command -v "${CC:-cc}" >/dev/null || fail "needs a C compiler, and there is no ${CC:-cc} on the path"
"$root/build-library.sh"
mkdir -p "$root/target/c"
for program in record panel; do
    "${CC:-cc}" -std=c11 -Wall -Wextra -O2 -I"$root/include" -o "$root/target/c/$program" "$root/examples/c/$program.c" "$lib_dir/libamv.a"
done
cd "$root/target/c"

# A copy of the recording with the bytes at an offset replaced.
with_bytes() { # NAME OFFSET BYTES
    cp vat.amv "$1"
    printf "$3" | dd of="$1" bs=1 seek="$2" conv=notrunc 2>/dev/null
}

./record vat.amv
head -c 5000 vat.amv >cut.amv
head -c 4682 vat.amv >inside.amv
with_bytes damaged.amv 4686 'XXXX'
with_bytes other.amv 32 '\206'
for name in vat cut inside damaged other; do
    echo
    ./panel check $name.amv || echo "(no finished recording)"
    ./panel play $name.amv 12
done
echo
./panel print vat.amv
echo
./panel hear vat.amv
# The second block has the step index 89, and the file is cut in the fifth.
with_bytes index.amv 703 '\131'
head -c 2000 index.amv >wrong.amv
echo
./panel hear wrong.amv || echo "(not all of it can be heard)"
for name in vat cut; do
    for picture in 12 99; do
        echo
        ./panel drive $name.amv $picture
    done
done
echo
./panel drive damaged.amv 12 || echo "(not all of it can be read)"
