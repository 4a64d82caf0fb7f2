# The parts of test.sh, which sources this with `root`, `lib_dir` and `work`, a folder of its own, set.
passed=0 failed=0

# One test: a command that must succeed. What it prints is shown where it does not.
ok() { # NAME COMMAND..
    name=$1
    shift
    if "$@" >"$work/said" 2>&1; then
        passed=$((passed + 1))
    else
        failed=$((failed + 1))
        echo "FAILED $name"
        sed 's/^/    /' "$work/said"
    fi
}

example_as_stored() {
    "$root/examples/c/run.sh" >"$work/example.out" && diff "$root/examples/c/expected.txt" "$work/example.out"
}

example() { ok "the C example prints what is stored" example_as_stored; }

# ---- the header, in every standard that the compilers know

strictly='-Wall -Wextra -Wpedantic -Wconversion -Wsign-conversion -Wshadow -Werror'

# Compiles tests/header.c, links it with what is left of the words, and runs it.
header_as() { # COMPILER LANGUAGE STANDARD WORDS..
    compiler=$1 language=$2 standard=$3
    shift 3
    # shellcheck disable=SC2086
    "$compiler" -x "$language" "-std=$standard" $strictly -o "$work/header" "$root/tests/header.c" -x none "$@" && "$work/header"
}

knows() { # COMPILER LANGUAGE STANDARD
    command -v "$1" >/dev/null && echo 'int main(void) { return 0; }' | "$1" -x "$2" "-std=$3" -fsyntax-only - 2>/dev/null
}

header() {
    for standard in c99 c11 c17 c2x; do
        if knows "${CC:-cc}" c $standard; then
            ok "tests/header.c as $standard" header_as "${CC:-cc}" c $standard -I"$root/include" "$lib_dir/libamv.a"
        fi
    done
    for standard in c++11 c++14 c++17 c++20; do
        if knows "${CXX:-c++}" c++ $standard; then
            ok "tests/header.c as $standard" header_as "${CXX:-c++}" c++ $standard -I"$root/include" "$lib_dir/libamv.a"
        fi
    done
}

# ---- the library, installed

has_files() { # FOLDER NAME..
    folder=$1
    shift
    for name in "$@"; do [ -e "$folder/$name" ] || { echo "there is no $folder/$name" && return 1; }; done
}

# A shared library that shows the functions of the header and no others.
shows_the_header() { # LIBRARY
    nm -D --defined-only "$1" | awk '{ print $3 }' | sort >"$work/shown"
    sed -n 's/^uint32_t \(amv_[a-z_]*\)(.*/\1/p' "$root/include/amv.h" | sort | diff - "$work/shown"
}

over_shared() { # PREFIX
    header_as "${CC:-cc}" c c11 -I"$1/include" -L"$1/lib" -Wl,-rpath,"$1/lib" -lamv &&
        ldd "$work/header" | grep "$1/lib/libamv.so"
}

by_pkg_config() { # PREFIX
    PKG_CONFIG_PATH=$1/lib/pkgconfig
    export PKG_CONFIG_PATH
    eval "header_as '${CC:-cc}' c c11 $(pkg-config --cflags --libs amv) -Wl,-rpath,'$1/lib'" &&
        grep "#define AMV_VERSION \"$(pkg-config --modversion amv)\"" "$root/include/amv.h"
}

installed() {
    prefix=$work/prefix
    ok "install" "$root/install.sh" "$prefix"
    ok "install: files" has_files "$prefix" include/amv.h lib/libamv.a lib/libamv.so lib/pkgconfig/amv.pc share/doc/amv/FORMAT.md share/doc/amv/NOTICE
    ok "install: static" header_as "${CC:-cc}" c c11 -I"$prefix/include" "$prefix/lib/libamv.a"
    ok "install: static, with no shared library" header_as "${CC:-cc}" c c11 -static -I"$prefix/include" -L"$prefix/lib" -lamv
    ok "install: shared" over_shared "$prefix"
    if command -v nm >/dev/null; then ok "install: what the shared library shows" shows_the_header "$prefix/lib/libamv.so"; fi
    if command -v pkg-config >/dev/null; then ok "install: pkg-config" by_pkg_config "$prefix"; fi
    ok "install: below DESTDIR" env DESTDIR="$work/dest" "$root/install.sh" /opt/amv
    ok "install: files below DESTDIR" has_files "$work/dest/opt/amv" include/amv.h lib/libamv.so lib/pkgconfig/amv.pc
    ok "install: amv.pc without DESTDIR" grep -x "prefix=/opt/amv" "$work/dest/opt/amv/lib/pkgconfig/amv.pc"
}

# ---- the binding

cargo_test() { # VARIABLE..
    env "$@" cargo test --offline --quiet --manifest-path "$root/bindings/rust/Cargo.toml" --target-dir "$root/target/cargo"
}

# Its build says what to run where the library is missing.
binding_says() {
    env AMV_LIB_DIR="$work" cargo build --offline --quiet --manifest-path "$root/bindings/rust/Cargo.toml" --target-dir "$work/cargo" 2>&1 |
        grep "run $root/build-library.sh"
}

binding() {
    ok "the tests of the Rust binding" cargo_test
    ok "the tests of the Rust binding over the installed library" cargo_test AMV_LIB_DIR="$prefix/lib"
    ok "the binding's build, without a library" binding_says
}

# ---- the scripts

# A script's exit status, and a part of what it writes to standard output and to standard error. Run from a folder that is not the repository.
gives() { # STATUS OUT ERROR COMMAND..
    status=$1 out=$2 error=$3
    shift 3
    (cd "$work" && "$@" >"$work/out" 2>"$work/error" </dev/null)
    got=$?
    [ "$got" -eq "$status" ] || { echo "exit $got, and not $status" && cat "$work/out" "$work/error" && return 1; }
    if [ -n "$out" ]; then
        grep -qF -- "$out" "$work/out" || { echo "standard output has no '$out'" && cat "$work/out" && return 1; }
    else
        [ ! -s "$work/out" ] || { echo "standard output is not empty" && cat "$work/out" && return 1; }
    fi
    [ -z "$error" ] || grep -qF -- "$error" "$work/error" || { echo "standard error has no '$error'" && cat "$work/error" && return 1; }
}

# Standard output is these lines, and standard error is empty.
listing_is() { # LINES COMMAND..
    expected=$1
    shift
    "$@" >"$work/out" 2>"$work/error" && printf '%s' "$expected" | cmp - "$work/out" && [ ! -s "$work/error" ]
}

small_lines='V 316 0 0 0
A 327 1 0 0
END 345 FRAMES 1 BLOCKS 1 SAMPLES 2 PAIRED Y
'

from_input() { "$root/list.sh" - <"$root/examples/small.amv"; }

in_pieces() { { head -c 100 "$root/examples/small.amv" && sleep 1 && tail -c +101 "$root/examples/small.amv"; } | "$root/list.sh" -; }

list_uses() {
    small=$root/examples/small.amv
    ok "list: no argument" gives 0 "END 345" "no file is named" "$root/list.sh"
    ok "list: a file" listing_is "$small_lines" "$root/list.sh" "$small"
    ok "list: standard input" listing_is "$small_lines" from_input
    ok "list: standard input in pieces" listing_is "$small_lines" in_pieces
    ok "list: --help" gives 0 "./list.sh [FILE]" "" "$root/list.sh" --help
    ok "list: an empty argument" gives 2 "" "list: the file's name is empty" "$root/list.sh" ""
    ok "list: a folder" gives 2 "" "list: . is a folder" "$root/list.sh" .
    ok "list: no such file" gives 2 "" "list: there is no file nowhere.amv" "$root/list.sh" nowhere.amv
    ok "list: two arguments" gives 2 "" "list: one file at a time" "$root/list.sh" "$small" "$small"
    ok "list: an option that is none" gives 2 "" "list: there is no option -x" "$root/list.sh" -x
    cp "$small" "$work/unreadable.amv" && chmod 0 "$work/unreadable.amv"
    # root reads every file, so it is tried as nobody.
    nobody=
    [ ! -r "$work/unreadable.amv" ] || nobody='setpriv --reuid=65534 --regid=65534 --clear-groups'
    if $nobody cat "$root/list.sh" "$root/scripts/common.sh" >"$work/said" 2>&1; then
        # shellcheck disable=SC2086
        ok "list: a file that cannot be read" gives 2 "" "list: cannot read unreadable.amv" $nobody "$root/list.sh" unreadable.amv
    else
        echo "not tried: a file that cannot be read, since this user reads every file"
    fi
    head -c 352 "$small" >"$work/cut.amv"
    ok "list: a file that is cut" gives 1 "NO 60 345" "" "$root/list.sh" cut.amv
    : >"$work/empty.amv"
    ok "list: an empty file" gives 1 "NO 11 0" "" "$root/list.sh" empty.amv
    head -c 65537 /dev/zero >"$work/long.amv"
    ok "list: a long file" gives 1 "NO LONG" "" "$root/list.sh" long.amv
    cp "$small" "$work/a name with blanks.amv" && ln -s "a name with blanks.amv" "$work/link.amv"
    ln -s "$root/list.sh" "$work/linked-list"
    ok "list: a name with blanks" gives 0 "END 345" "" "$root/list.sh" "a name with blanks.amv"
    ok "list: a link to the file and one to the script" gives 0 "END 345" "" "$work/linked-list" link.amv
    cp "$small" "$work/-x"
    ok "list: a file that looks like an option" gives 0 "END 345" "" "$root/list.sh" ./-x
}

scripts() {
    unset AMV_LIB_DIR
    list_uses
    ok "build-library: nothing to do" gives 0 "" "is current" "$root/build-library.sh"
    ok "build-library: a word" gives 2 "" "takes no words" "$root/build-library.sh" now
    ok "build-library: AMV_LIB_DIR without a library" gives 2 "" "there is no libamv.a in it" env AMV_LIB_DIR="$work" "$root/build-library.sh"
    ok "build-library: AMV_LIB_DIR" gives 0 "" "as it is" env AMV_LIB_DIR="$prefix/lib" "$root/build-library.sh"
    ok "install: no PREFIX" gives 2 "" "a PREFIX to install below is missing" "$root/install.sh"
    ok "install: two" gives 2 "" "one PREFIX" "$root/install.sh" a b
    ok "install: below a file" gives 2 "" "cannot install below" "$root/install.sh" "$work/cut.amv"
    ok "bench: a word that is no number" gives 2 "" "RUNS is a number" "$root/bench.sh" many
    ok "compare: no original" gives 2 "" "checkout 72a4302929" "$root/compare.sh" 1 1 "$work"
    ok "compare: a word that is no number" gives 2 "" "SEED and COUNT are numbers" "$root/compare.sh" one
    for script in build-library install bench compare test; do
        ok "$script: --help" gives 0 "./$script.sh" "" "$root/$script.sh" --help
    done
    if ! (PATH=/usr/bin:/bin && command -v rt >/dev/null); then
        ok "without the kit" gives 2 "" "there is no rt on the path" env PATH=/usr/bin:/bin "$root/list.sh" "$root/examples/small.amv"
    fi
}
