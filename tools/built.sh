#!/bin/sh
# Whether files are made of the sources as they are, and where they lie: ./rsp, library/c/build and tools/link source this file, CMake and Python call it.

# The words that print sums as sha256sum does; macOS has shasum. Empty if there are none, and then nothing counts as made.
for sums in sha256sum 'shasum -a 256' 'openssl dgst -sha256 -r' ''; do command -v "${sums%% *}" >/dev/null && break; done

tell_sums() { # [FILE..]: the sums of files, or of the input
    # shellcheck disable=SC2086  # its words
    $sums "$@" 2>/dev/null | sed 's/ \*stdin$/  -/; s/^\([0-9a-f]*\) \*/\1  /'
}

# The sources of a crate are what the kit reads: its line of crates.txt, *.rt and *.antt. An editor's hidden files are none.
list_sources() { # TOP CRATE..: the lines of crates.txt, and the sums of the files by their names from crates/
    (
        cd "$1/crates" && shift || exit
        grep -E "^($(IFS='|' && echo "$*"))[: ]" ../crates.txt
        # shellcheck disable=SC2046,SC2086  # each folder is a word, and so are those of `sums`
        find -L $(for it; do echo "$it/src $it/specs $it/proofs"; done) -name '.*' -prune -o ! -type d \( -name '*.rt' -o -name '*.antt' \) \
            -exec $sums {} + 2>/dev/null | sed 's/ \*/  /' | LC_ALL=C sort
    )
}

tell_sources() { list_sources "$@" | tell_sums; } # TOP CRATE..: their sum

# A mark says of what files are made: what proved the crate, the names of the crates that it is made of, the sum of their sources, and in all other
# lines the sums of the files, as sha256sum prints them, with their names from the top.
is_made() { # TOP MARK: whether the files are there and made of the sources as they are, by a kit of the right logic. Sets `proved_by`
    case $2 in /*) ;; *) set -- "$1" "$1/$2" ;; esac
    # shellcheck disable=SC2034  # who sources this file reads it
    { read -r proved_by && read -r crates && read -r sum; } 2>/dev/null <"$2" || return
    read -r logic <"$1/tools/logic"
    # shellcheck disable=SC2086  # each crate is a word
    case $proved_by in *"$logic") [ "$sum" = "$(tell_sources "$1" $crates)" ] ;; *) false ;; esac &&
        files=$(sed 1,3d "$2") && [ "$files" ] && [ "$files" = "$(tell_files "$1" "$2")" ]
}

tell_names() { sed -e 1,3d -e 's/^[^ ]*  //' "$1"; } # MARK: the names of its files

tell_files() { # TOP MARK: the sums of its files as they are
    (
        cd "$1" && set -f && IFS='
'
        # shellcheck disable=SC2046  # each line is a name
        set -- $(tell_names "$2")
        unset IFS
        tell_sums "$@" </dev/null
    )
}

# A line for each source, in compiled/sources too: its name and the first digits of its sum, or its line of crates.txt.
tell_list() { # TOP CRATE..
    list_sources "$@" | sed -E -e 's|^([0-9a-f]{16})[0-9a-f]{48}  (.*)|crates/\2 \1|' -e t -e 's|^|crates.txt |' | LC_ALL=C sort
}

tell_change() { # TOP MARK: the name of the first source or file that isn't as compiled/sources or the mark says
    crates=$(sed -n 2p "$1/$2") names=$(sed -n '2s/ /|/gp' "$1/$2")
    # shellcheck disable=SC2086  # each crate is a word
    {
        sed -n '1s|.*\(logic .*\)|tools/logic \1|p' "$1/$2" && sed 's|^|tools/logic |' "$1/tools/logic"
        grep -E "^(crates/($names)/|crates\.txt ($names)[: ])" "$1/compiled/sources" && tell_list "$1" $crates
        { sed 1,3d "$1/$2" && tell_files "$1" "$2"; } | sed 's/^\([^ ]*\)  \(.*\)/\2 \1/'
    } | LC_ALL=C sort | uniq -u | sed -E -e 's#^(crates\.txt|tools/logic) .*#\1#' -e 's/ [0-9a-f]+$//' -e q # a name may have a blank
} 2>/dev/null

# The names, from crates/, of all whose state counts for a mark. A folder counts too, because its time is that of its last new or removed name, and so does
# one that isn't there. /bin/sh counts for the machine, because one with another processor has another.
# What is younger than two seconds may change again without another time, if its filesystem has the coarsest clock.
list_counted() { # TOP MARK
    (
        cd "$1/crates" && mark=$2 && shift 2 || exit
        {
            read -r _ && read -r crates && read -r _
            while read -r _ file; do
                case $file in /*) set -- "$@" "$file" ;; *) set -- "$@" "../$file" ;; esac
            done
        } <"$mark"
        for it in $crates; do set -- "$@" "$it/src" "$it/specs" "$it/proofs"; done
        set -- ../crates.txt ../tools/logic /bin/sh "$mark" "$@"
        for it; do shift && if [ -e "$it" ]; then set -- "$@" "$it"; else echo "$it"; fi; done
        find -L "$@" -name '.*' -prune -o \( -newerct '2 seconds ago' -printf '//young\n' -o -print \) 2>/dev/null || echo //young # as any change
    )
}

# As in git's index, sizes, times and inodes stand for the contents, because no command sets back the time of a change.
tell_state() { # TOP NAMES, in a subshell: the state of these files and folders, after a line for the compiler
    {
        echo "${CC-}" && cd "$1/crates" && export LC_ALL=C && set -f && IFS='
'
        # shellcheck disable=SC2046  # each line is a name
        exec stat -L -c '%i %s %.9Z' $(cat "$2")
    } 2>/dev/null
}

is_current() { # TOP MARK: as is_made, and that cc makes such files; without reading files whose state is that of the last time
    case $2 in /*) ;; *) set -- "$1" "$1/$2" ;; esac
    read -r proved_by 2>/dev/null <"$2" || return
    tell_state "$1" "$2.state.names" | cmp -s - "$2.state" && return
    names=$(list_counted "$1" "$2")
    { printf '%s\n' "$names" >"$2.state.names"; } 2>/dev/null
    state=$(tell_state "$1" "$2.state.names")
    is_made "$1" "$2" && is_for "$2" "$(tell_machine)" || return
    case $names in *//young*) ;; *) [ "$state" = "${CC-}" ] || { printf '%s\n' "$state" >"$2.state"; } 2>/dev/null ;; esac
    true
}

find_cc() { # sets `cc`, the words of the C compiler; empty if there is none
    cc=${CC-}
    [ "$cc" ] || for cc in cc gcc clang ''; do command -v "$cc" >/dev/null && break; done
}

# The system and the processor for which the C compiler makes files, as the names in compiled/ begin.
tell_machine() {
    find_cc
    machine=$($cc -dumpmachine 2>/dev/null) || machine=$(uname -m)-$(uname -s)
    case $machine in
        arm64-*[Ll]inux*) echo Linux-aarch64 ;;
        *-[Ll]inux*) echo "Linux-${machine%%-*}" ;;
        *-w64-*) echo "Windows-${machine%%-*}" ;;
        aarch64-apple-*) echo Darwin-arm64 ;;
        *-apple-*) echo "Darwin-${machine%%-*}" ;;
        *) echo "$machine" ;;
    esac
}

is_for() { # MARK MACHINE: whether the files are made of that machine's assembly
    grep -q "^[^ ]*  .*/$2-[a-z]*\.s$" "$1"
}

# Where a crate's files lie: in the tree, or all in one folder.
find_place() { # TOP CRATE [FOLDER]: sets `folder`, and `mark`, which says of what they are made
    # shellcheck disable=SC2034  # who sources this file reads it
    case ${3:+elsewhere}$2 in
        rsp_main) folder=$1/crates/rsp_main/out mark=$folder/linked ;;
        rsp_c) folder=$1/library/c mark=$1/crates/rsp_c/out/linked ;;
        *) folder=$3 mark=$3/$2.linked ;;
    esac
}

# The folder for a user who can't write the tree.
tell_cache() { # TOP
    case ${XDG_CACHE_HOME-} in /*) cache=$XDG_CACHE_HOME ;; *) cache=${HOME-}/.cache ;; esac
    echo "$cache/rsp/$(cd "$1" && pwd -P | tell_sums | cut -c 1-16)"
}

# shellcheck disable=SC3067  # dash has -O, as bash and busybox have
is_own() { [ -O "$1" ]; } # FOLDER: whether it is this user's, and not prepared by another one, who can write a shared cache too

can_place() { # TOP CRATE: whether tools/link can put files into the tree: into the two folders, or into the crate, where it makes those that aren't there
    for place in "$folder" "${mark%/*}"; do
        [ -e "$place" ] || place=$1/crates/$2
        [ -w "$place" ] || return
    done
}

find_made() { # TOP CRATE: whether its files are there, made of the sources as they are. Sets `folder`, where they lie, and `proved_by`
    find_place "$1" "$2" "${RSP_OUT-}"
    is_current "$1" "$mark" && return
    [ -z "${RSP_OUT-}" ] && ! can_place "$1" "$2" && find_place "$1" "$2" "$(tell_cache "$1")" && is_own "$folder" && is_current "$1" "$mark"
}
