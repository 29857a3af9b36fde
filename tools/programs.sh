#!/usr/bin/env bash
# The programs of this repository, and whether each was proved and built from the sources as they are.
#
# A crate of crates.txt is a program if a script at the top has its name. Where ./prove or ./test has proved and built one, it leaves a note
# beside the program: the Rattle kit, and the checksum of each file that the proof has read, and of the program. Where there is no note, or
# what is there differs from it, the program isn't known to be proved. Nothing is guessed from times.
#
#   tools/programs.sh names            prints the names of the programs
#   tools/programs.sh sources NAME     prints what the proof of a program reads: the kit, and each file with its checksum
#   tools/programs.sh is-proved NAME   ends with status 0 where the program was proved and built from that, and else with 1
#   tools/programs.sh note NAME FILE   notes that it was, from what FILE has of `sources NAME`. The status is 1 where that is there no more

top=$(cd "$(dirname "${BASH_SOURCE[0]}")/.." && pwd)

# What `rt version` prints. The kit has that in a file, which is read in no time; `rt` takes longer than all else here.
kit() {
    local rt identity
    rt=$(command -v rt) && rt=$(readlink -f "$rt") || return
    read -r identity 2>/dev/null <"${rt%/*/*}/KIT-ID" || identity=$(rt version) || return
    echo "$identity"
}

# Sets `found` to a crate and those of crates.txt below it, which is none where the crate isn't there.
find_crates() {
    local -A libraries=()
    local line crate left=("$1")
    while IFS= read -r line || [ -n "$line" ]; do
        line=${line%%#*}
        crate=${line%%[ :]*}
        [ -z "$crate" ] || libraries[$crate]=${line#*:}
    done <"$top/crates.txt"
    found=()
    while [ ${#left[@]} -gt 0 ]; do
        crate=${left[0]}
        left=("${left[@]:1}")
        if [ -n "${libraries[$crate]+listed}" ] && [[ " ${found[*]} " != *" $crate "* ]]; then
            found+=("$crate")
            left+=(${libraries[$crate]})
        fi
    done
}

# Prints what the proof of a program reads, and then the checksum of each further file.
built_from() (
    set -o pipefail
    cd "$top" || return
    find_crates "$1"
    shift
    folders=()
    for crate in "${found[@]}"; do
        for part in src specs proofs; do
            [ ! -d "crates/$crate/$part" ] || folders+=("crates/$crate/$part")
        done
    done
    [ ${#folders[@]} -gt 0 ] && kit || return
    { find -L "${folders[@]}" -type f -print0 | LC_ALL=C sort -z && printf '%s\0' crates.txt "$@"; } | xargs -0 b2sum -l 256 --
)

names() {
    local crate
    while IFS= read -r crate; do
        crate=${crate%%[ :#]*}
        [ -z "$crate" ] || [ ! -f "$top/$crate" ] || [ ! -x "$top/$crate" ] || echo "$crate"
    done <"$top/crates.txt"
}

is_proved() (
    set -o pipefail
    program=crates/$1/out/$1
    [ -x "$top/$program" ] && [ -f "$top/$program.proved" ] || return
    built_from "$1" "$program" 2>/dev/null | cmp -s - "$top/$program.proved"
)

note() {
    local program=crates/$1/out/$1 there
    there=$(built_from "$1" "$program") && [ "${there%$'\n'*}" = "$(cat "$2")" ] || return 1
    { echo "$there" >"$top/$program.proved"; } 2>/dev/null || return 2
}

if [ "$0" = "${BASH_SOURCE[0]}" ]; then
    case $#,${1-} in
    1,names) names ;;
    2,sources) built_from "$2" ;;
    2,is-proved) is_proved "$2" ;;
    3,note) note "$2" "$3" ;;
    *) sed -n 's/^#   //p' "$0" >&2 && exit 2 ;;
    esac
fi
