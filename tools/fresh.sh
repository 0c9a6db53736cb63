# For the launcher `tagedit` and tools/build, which source it: whether what was built is as new as its sources. `root` is the repository's folder.

programs="$root/target/programs"
proved_sources=("$root/crates" "$root/crates.txt" "$root/rt-version")
# What rt makes in a crate's folder, and the edits, which are in no archive.
not_proved=(-name must-fail -o -name out)
are_proved=(-name '*.rt' -o -name '*.antt' -o -name crates.txt -o -name rt-version)

# library NAME: sets what is known of a library, by the name that tools/build has for it: its `title`, its `crate` and its `archive`; and `others`, the folders of
# crates that it does not depend on. The second package's crates are those whose names begin with `record`, and the first package uses none of them.
# The file `proved` is made when a build of the archive has succeeded, and is as old as that build's start: so a source that changed meanwhile is newer.
library() {
    case "$1" in
    archive) title="the C library" crate=taglib proved="$root/target/staticlib/proved" others=(-o -path "$root/crates/record*") ;;
    records) title="the record layer" crate=record_lib proved="$root/target/staticlib/proved-records" others=() ;;
    *) return 1 ;;
    esac
    archive="$root/target/staticlib/lib$crate.a"
}

# is_proved NAME: whether a library's archive is newer than all that it is proved and compiled from.
is_proved() {
    library "$1"
    [ -e "$archive" ] && [ -e "$proved" ] &&
        [ -z "$(find "${proved_sources[@]}" \( "${not_proved[@]}" "${others[@]}" \) -prune -o \( "${are_proved[@]}" \) -newer "$proved" -print -quit)" ]
}

# sources_of NAME: sets `sources` to the headers of a program and the folders that hold its C files, and `libraries` to those that it is linked with.
sources_of() {
    case "$1" in
    tagedit) sources=("$root/include/aquiledru.h" "$root/programs/tagedit") libraries=(archive) ;;
    ask | exports) sources=("$root/include" "$root/ask") libraries=(archive records) ;;
    *) return 1 ;;
    esac
}

# is_fresh NAME: whether a program is newer than its C files and its archives, these are newer than what is proved, and the loader that starts it is there.
# For each archive all files are looked at in one `find`, since the launcher asks this at every start.
is_fresh() {
    local first name program="$programs/$1"
    sources_of "$1"
    [ -x "$program" ] && { read -r first <"$programs/loader"; } 2>/dev/null && [ -x "$first" ] || return 1
    for name in "${libraries[@]}"; do
        library "$name"
        [ -e "$proved" ] && [ ! "$archive" -nt "$program" ] &&
            [ -z "$(find "${proved_sources[@]}" "$root/tools/headers" "$root/tools/kit-cc" "${sources[@]}" \( "${not_proved[@]}" "${others[@]}" \) -prune -o \
                \( \( "${are_proved[@]}" \) -newer "$proved" -o \( -name '*.[ch]' -o -name kit-cc \) -newer "$program" \) -print -quit)" ] || return 1
    done
}
