# What the scripts beside it share: each sources it first and ends by `finish`. It is not run by itself.
# A script has from it $root, the top of the repository, and $work, an empty folder that goes when the script ends. The status
# is 0 where all is as expected, 1 where something is not, and 77 where this machine lacks what the script needs.
set -uo pipefail
root=$(dirname "$(readlink -f "${BASH_SOURCE[0]}")")/..
work=$(mktemp -d) || exit 1
trap 'rm -rf "$work"' EXIT
. "$root/tools/lib.sh" || exit 1
test_name=${0##*/}
failed=0

# wrong TEXT FILE..: tells what is not as expected, and shows these files. The script goes on, and fails at its end.
wrong() {
    echo "$test_name: $1"
    shift
    [ $# = 0 ] || tail -v -n +1 -- "$@"
    failed=1
    return 1
}

# fail TEXT FILE..: the same, and the script ends here.
fail() {
    wrong "$@"
    exit 1
}

# finish: the end of each script.
finish() {
    [ "$failed" = 0 ] && echo "$test_name: all as expected"
    exit "$failed"
}

# needs THING..: what the script needs of what is built here: rhset, rhkeys, rhpack, rhplay, rh_phase_bench, the library, or nothing.
# It is built where it is not, or the script ends here, with status 77 where there is no toolchain. tests/run reads this line too, so
# that it can have all built first.
needs() {
    local thing
    [ "$*" != nothing ] || return 0
    for thing in "$@"; do
        if is_built "$thing"; then continue; fi
        command -v rt >/dev/null || {
            echo "$test_name: $thing is not built, and there is no rt here, not run"
            exit 77
        }
        build "$thing" || fail "$thing is not built"
    done
}

# text FILE TEXT: writes the file FILE of the work folder. %b reads \n in TEXT; where it begins with @ it is a file's path, and
# that file is copied.
text() {
    if [ "${2:0:1}" = @ ]; then cat -- "${2:1}" >"$work/$1"; else printf '%b' "$2" >"$work/$1"; fi || fail "no file $1 is written"
}

# keys FILE KEY..: writes a key file of the second version, of these keys, as 9 or 0x9.
keys() {
    local file=$1
    shift
    {
        printf 'RHK2'
        printf '%016x' "$#" "$@" | sed 's/../\\x&/g' | xargs -0 printf '%b'
    } >"$work/$file" || fail "no file $file is written"
}

# two_lists: writes the texts a and b of the work folder: numbers of all sizes, with repeats, and bounds of theirs, of which many
# stand in both.
two_lists() {
    awk 'BEGIN { srand(7); for (i = 0; i < 3000; i++) printf "%d%018d\n", int(rand() * 3) + 1, int(rand() * 1e9) * 1000000007 % 1e18 }' >"$work/a"
    awk 'BEGIN { srand(9); for (i = 0; i < 2000; i++) print int(rand() * 500) }' >>"$work/a"
    printf '%s\n' 0 4611686018427387902 1152921504606846975 1152921504606846976 2305843009213693951 2305843009213693952 >>"$work/a"
    { head -n 1500 "$work/a" && tail -n 900 "$work/a" && seq 200 900; } | shuf --random-source="$work/a" >"$work/b"
}

# run INPUT COMMAND..: runs the command in the work folder, on the file INPUT. What it writes is then $work/output, what it
# tells $work/told, and its status $ended, which is the status of this call too.
run() {
    local input=$1
    shift
    (cd "$work" && "$@") <"$input" >"$work/output" 2>"$work/told"
    ended=$?
    return "$ended"
}

# expect STATUS OUTPUT TOLD INPUT PROGRAM ARGUMENT..: the program of the repository, with these arguments on this input, ends with
# this status, writes this and tells this, byte by byte. OUTPUT, TOLD and INPUT are texts or @FILE, as `text` takes them.
expect() {
    expect_of "${@:1:4}" "$root/$5" "${@:6}"
}

# expect_of STATUS OUTPUT TOLD INPUT COMMAND..: the same of any command.
expect_of() {
    local status=$1
    text expected_output "$2"
    text expected_told "$3"
    text input "$4"
    shift 4
    run "$work/input" "$@"
    if [ "$ended" != "$status" ] || ! cmp -s "$work/output" "$work/expected_output" ||
        ! cmp -s "$work/told" "$work/expected_told"; then
        wrong "not as expected: $*, status $ended, wanted $status" "$work"/{,expected_}{output,told}
    fi
}

# expect_line STATUS LINE INPUT OUTPUT PROGRAM ARGUMENT..: the program, between the files INPUT and OUTPUT, ends with this status
# and tells a line that is LINE, as grep reads it.
expect_line() {
    local status=$1 line=$2 input=$3 output=$4
    shift 4
    (cd "$work" && "$root/$1" "${@:2}") <"$input" >"$output" 2>"$work/told"
    ended=$?
    if [ "$ended" != "$status" ] || ! grep -qx -- "$line" "$work/told"; then
        wrong "not as expected: $*, status $ended, wanted $status and the line $line" "$work/told"
    fi
}

# nobody COMMAND..: runs it as a user without rights: where root runs the script as one whom no file belongs to.
nobody() {
    if [ "$(id -u)" = 0 ]; then setpriv --reuid 65534 --regid 65534 --clear-groups -- "$@"; else "$@"; fi
}

# has_nobody PROGRAM: such a user can run commands here, in the work folder, and there the built program too. Where none can, that is
# told.
has_nobody() {
    chmod 755 "$work" && cp "$root/crates/$1/out/$1" "$work/$1" || fail "$1 is not copied"
    nobody true 2>/dev/null && return
    echo "$test_name: not run, as no command runs here as a user without rights: what such a user is told"
    return 1
}

# mode_is MODE FILE: the file of the work folder has this mode, as chmod takes it.
mode_is() {
    [ "$(stat -c %a "$work/$2")" = "$1" ] || wrong "$2 has the mode $(stat -c %a "$work/$2"), wanted $1"
}

# is_part_left: a snapshot that was begun is left in the work folder.
is_part_left() {
    [ -n "$(find "$work" -maxdepth 1 -name '*rhset-part*')" ]
}

# preload: builds the library that `refuse` loads, of the C text on standard input. It refuses the call of the number $REFUSED,
# and then makes the file $REFUSED_MET. Where there is no C compiler the script ends here, with status 77.
preload() {
    local compiler
    compiler=$(command -v cc || command -v gcc || command -v clang) || {
        echo "$test_name: no C compiler here, not run"
        exit 77
    }
    cat >"$work/refuse.c"
    "$compiler" -shared -fPIC -O1 -o "$work/refuse.so" "$work/refuse.c" -ldl || fail 'the C text is not compiled'
}

# refuse NUMBER INPUT PROGRAM ARGUMENT..: runs the built program, as `run` does, with the call of this number refused. It is
# true where the run came to that call.
refuse() {
    local number=$1 input=$2 program=$3
    shift 3
    rm -f "$work/met"
    run "$input" env REFUSED="$number" REFUSED_MET="$work/met" LD_PRELOAD="$work/refuse.so" \
        "$root/crates/$program/out/$program" "$@"
    [ -e "$work/met" ]
}
