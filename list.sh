#!/bin/sh
# Lists a recording. Proves and compiles the program first, where that is due.
root=$(dirname -- "$(readlink -f -- "$0")") me=list
. "$root/scripts/common.sh"

usage() {
    cat <<'END'
./list.sh [FILE]

Lists a recording of at most 65,536 bytes: FILE, or standard input for -, or examples/small.amv where none is
named. A line for each chunk: V (picture) or A (sound), its offset, and the frames, samples and blocks before it.
Then the totals: END with the trailer's offset, FRAMES, BLOCKS, SAMPLES, and PAIRED with Y or N.

A file that is no finished recording gives one line: NO, the number of the refusal, its place (docs/FORMAT.md has
the numbers). A longer file gives NO LONG.

Exit status: 0 listed; 1 refused, a line with NO; 2 wrong use, or the program could not be proved.
END
}

help_for "$@"
case $# in
0)
    file=$root/examples/small.amv
    say "no file is named: this is examples/small.amv"
    ;;
1) file=$1 ;;
*) fail "one file at a time, and these are $# (./list.sh --help)" ;;
esac

# The file is opened before anything is proved, and from the folder that the caller is in.
case $file in
'') fail "the file's name is empty" ;;
-) exec 3<&0 ;;
-*) fail "there is no option $file (./list.sh --help); a file of that name is ./$file" ;;
*)
    [ ! -d "$file" ] || fail "$file is a folder"
    [ -e "$file" ] || fail "there is no file $file"
    [ -r "$file" ] || fail "cannot read $file"
    exec 3<"$file"
    ;;
esac
exec </dev/null

keep_list_current
lines=$("$list_program" <&3) || fail "the program ended with status $?"
printf '%s\n' "$lines"
case $lines in 'NO '*) exit 1 ;; esac
