# What the scripts share; each sources it with `root`, the repository, and `me`, its own name, set.

# A line for whoever runs the script; standard output is left to what was asked for.
say() { printf '%s: %s\n' "$me" "$*" >&2; }

# The script was called wrongly, or lacks something: a line, and 2.
fail() {
    say "$*"
    exit 2
}

# Shows the script's usage, a function of its own, where that is asked for.
help_for() { # the script's words
    case ${1-} in
    -h | --help)
        usage
        exit 0
        ;;
    esac
}

# The named crates and all of the repository that they stand on, by crates.txt.
stands_on() {
    awk -v names="$*" '
        function take(name,   deps, n, i) {
            if (!(name in on) || name in taken) return
            taken[name] = 1
            n = split(on[name], deps, " ")
            for (i = 1; i <= n; i++) take(deps[i])
        }
        { sub(/#.*/, "") }
        split($0, part, ":") == 2 { split(part[1], word, " "); on[word[1]] = part[2]; order[++crates] = word[1] }
        END {
            n = split(names, name, " ")
            for (i = 1; i <= n; i++) take(name[i])
            for (i = 1; i <= crates; i++) if (order[i] in taken) print order[i]
        }' "$root/crates.txt"
}

# Whether a crate's file was made by this kit from the sources as they are. The stamp has the time at which making it began.
is_current() { # CRATE FILE
    stamp=$root/target/made/$1
    [ -e "$2" ] && [ -e "$stamp" ] && [ "$(cat "$stamp")" = "$kit" ] || return 1
    set -- "$root/crates.txt"
    for crate in $(stands_on "$(basename "$stamp")"); do
        for part in src specs proofs; do
            [ ! -d "$root/crates/$crate/$part" ] || set -- "$@" "$root/crates/$crate/$part"
        done
    done
    # A folder is newer where a file was taken out of it.
    [ -z "$(find "$@" -newer "$stamp" -print 2>&1 | head -n 1)" ]
}

# Runs rt in a crate's folder, with a line for each crate as it is proved. The rest of what rt prints is kept, and shown where rt fails.
show_rt() { # CRATE, then rt's words
    log=$root/target/$me.log
    crate=$1
    shift
    { (cd "$root/crates/$crate" && rt "$@" </dev/null) 2>&1; echo "ended $?"; } | tee "$log" | awk -v me="$me" '
        /^crate [a-z_0-9]+: / { name = substr($2, 1, length($2) - 1) }
        /^logic=proved / && name != "" { printf "%s: %s is proved\n", me, name; fflush(); name = "" }
        { last = $2 }
        END { exit last }' >&2 || {
        sed '$d' "$log" >&2
        fail "rt $* failed in crates/$crate; what it said is above, and in ${log#"$root/"}"
    }
}

# Proves a crate and makes its file, unless the file is current: by `make`, a function of the script's.
keep_current() { # CRATE FILE
    command -v rt >/dev/null || fail "needs the Rattle kit: there is no rt on the path (README.md says which kit)"
    [ "$(uname -m)" = x86_64 ] || fail "makes and runs programs for x86-64; this machine is $(uname -m)"
    kit=$(rt version)
    ! is_current "$1" "$2" || return 0
    say "proving $1 and what it stands on, $(stands_on "$1" | wc -l) crates in all; where none is proved yet this takes minutes (README.md)"
    mkdir -p "$root/target/made"
    printf '%s\n' "$kit" >"$root/target/made/$1.new"
    make
    mv "$root/target/made/$1.new" "$root/target/made/$1"
}

# Where the library is: the folder that AMV_LIB_DIR names, else where build-library.sh puts it.
lib_dir=$root/target/lib
[ -z "${AMV_LIB_DIR:-}" ] || lib_dir=$(readlink -m -- "$AMV_LIB_DIR")

# Builds a Rust program of the repository over the library.
build_with_cargo() { # FOLDER
    command -v cargo >/dev/null || fail "needs cargo, and there is none on the path"
    AMV_LIB_DIR=$lib_dir cargo build --quiet --offline --release --manifest-path "$root/$1/Cargo.toml" --target-dir "$root/target/$1"
}

# The listing program, proved and compiled, unless it is current. rt runs it once, on no input.
list_program=$root/target/bin/list
keep_list_current() {
    make() {
        show_rt list run
        mkdir -p "$root/target/bin"
        cp "$root/crates/list/out/list" "$list_program.new" && mv "$list_program.new" "$list_program" || fail "cannot write $list_program"
    }
    keep_current list "$list_program"
}
