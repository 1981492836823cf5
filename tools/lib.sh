# What the scripts beside it share, and those of tests/: what is built from which sources. It is not run by itself; a script that
# sources it has $root, the top of the repository.
# shellcheck shell=bash disable=SC2154

# stands_on CRATE: $crates are this crate and those of the repository that it stands on, as crates.txt names them.
stands_on() {
    local -A below=() known=(["$1"]=yes)
    local line crate number
    while IFS= read -r line; do
        [[ $line == [a-z]*:* ]] || continue
        crate=${line%%:*}
        below[${crate%% *}]=${line#*:}
    done <"$root/crates.txt"
    crates=("$1")
    for ((number = 0; number < ${#crates[@]}; number++)); do
        for crate in ${below[${crates[number]}]-}; do
            # (those of the toolchain have no line)
            if [[ -v below[$crate] && ! -v known[$crate] ]]; then
                known[$crate]=yes
                crates+=("$crate")
            fi
        done
    done
}

# is_current FILE CRATE: the file is there, and no source of the crate that it was built from is newer. Other files, as an editor
# leaves some, are no sources.
is_current() {
    local crate part folders=() crates sources=(-name '*.rt' -o -name '*.antt' -o -name crates.txt)
    [ -e "$1" ] || return
    stands_on "$2"
    for crate in "${crates[@]}"; do
        for part in src specs proofs; do
            [ ! -d "$root/crates/$crate/$part" ] || folders+=("$root/crates/$crate/$part")
        done
    done
    [ -z "$(find "$root/crates.txt" "${folders[@]}" -type f \( "${sources[@]}" \) -newer "$1" -print -quit)" ]
}

# is_built THING: it is built from its sources as they stand: a program of crates/, or the library.
is_built() {
    case $1 in
        library) [ -e "$root/crates/rh_c/out/librhset.a" ] && is_current "$root/crates/rh_c/out/librhset.so" rh_c ;;
        *) is_current "$root/crates/$1/out/$1" "$1" ;;
    esac
}

# build THING: proves and builds it, and tells a line of each crate on standard error.
build() {
    case $1 in
        library) "$root/tools/library" ;;
        *) "$root/tools/build" "$1" </dev/null ;;
    esac
}
