# For the commands that need something proved: sourced with `root`, the repository, and `name`, the command, set.

say() {
    printf '%s: %s\n' "$name" "$1" >&2
}

fail() {
    say "$1"
    exit 1
}

# The crate $1 and those of the repository that it depends on.
crates_of() {
    local crate
    for crate in "$1" $(sed -n "s/^$1\( staticlib\)\{0,1\}://p" "$root/crates.txt"); do
        [ ! -d "$root/crates/$crate" ] || printf '%s\n' "$crate"
    done
}

# Whether $2 is built from the sources of crate $1, and from the other files and folders that are named, as they are now. What rt keeps
# in a crate's out/ is no source.
is_built() {
    local crate built=$2 sources=("$root/crates.txt" "${@:3}")
    [ -e "$built" ] || return 1
    for crate in $(crates_of "$1"); do
        sources+=("$root/crates/$crate")
    done
    [ -z "$(find "${sources[@]}" -name out -prune -o -newer "$built" -print -quit)" ]
}

# Ends the command where $1, as users call it, cannot be built.
can_build() {
    command -v rt >/dev/null || fail "$1 is to be built, and rt, the command of the Rattle kit that does it, is not installed"
    { mkdir -p "$root/target/bin" && [ -w "$root/target" ] && [ -w "$root/target/bin" ]; } 2>/dev/null ||
        fail "$1 is to be built, and $root/target cannot be written"
}

# Proves and builds crate $1 by `rt $2`; users call it $3. What rt says of each crate is passed on as it comes, with how many of how many
# they are; what the prover says is shown where it fails, the last of it.
prove() {
    local line crate= count=0 prover=() crates=()
    mapfile -t crates < <(crates_of "$1")
    say "proving and building $3, which may take some minutes"
    while IFS= read -r line; do
        case $line in
        'crate '*': modules '*)
            crate=${line#crate }
            crate=${crate%%:*}
            ;;
        'logic=proved '*)
            count=$((count + 1))
            say "$crate proved, $count of ${#crates[@]}"
            ;;
        *) prover+=("$line") ;;
        esac
    done < <(cd "$root/crates/$1" && exec rt "$2" </dev/null 2>&1)
    wait $! || {
        [ ${#prover[@]} -eq 0 ] || printf '%s\n' "${prover[@]}" | tail -n 20 >&2
        fail "$3 is not proved"
    }
}

# Proves and builds program $1, which users call $2, as target/bin/$1.
build_program() {
    can_build "$2"
    prove "$1" run "$2"
    # last, for its time tells that all is built
    cp "$root/crates/$1/out/$1" "$root/target/bin/"
}
