# Puts the commands, the C library and the manual under a prefix, and takes them away again.

# The programs that the command runs.
run_by_command=(report month_end mend vectors invoice_vectors items)

# The list of the files that install put there and of the folders that it made.
list=lib/tockplover/installed

# Sets $entries, what install puts under the prefix: mode, file of the repository, file under the prefix.
list_entries() {
    local name
    entries=("755 tockplover bin/tockplover" "755 tools/book bin/tockplover-book")
    for name in "${run_by_command[@]}"; do entries+=("755 target/bin/$name libexec/tockplover/$name"); done
    for name in vectors invoice_vectors; do
        entries+=("644 crates/$name/stdin libexec/tockplover/$name.questions" "644 crates/$name/stdout libexec/tockplover/$name.answers")
    done
    for name in "$top"/command/*.sh; do entries+=("644 command/${name##*/} libexec/tockplover/command/${name##*/}"); done
    for name in "$top"/docs/help/*.txt; do entries+=("644 docs/help/${name##*/} share/tockplover/help/${name##*/}"); done
    entries+=(
        "644 docs/refusals.txt share/tockplover/refusals.txt"
        "644 docs/tockplover.1 share/man/man1/tockplover.1"
        "644 docs/tockplover-book.1 share/man/man1/tockplover-book.1"
        "644 bindings/c/tockplover.h include/tockplover.h"
        "644 bindings/c/tockplover_words.h include/tockplover_words.h"
        "644 bindings/c/tockplover.pc lib/pkgconfig/tockplover.pc"
        "644 target/staticlib/libcapi.a lib/libtockplover.a"
    )
}

# Sets $root, the folder that install and uninstall work in: DESTDIR and behind it the prefix.
find_root() { # [--prefix DIR]
    local prefix
    read_words --prefix= "$@"
    [ "${#words[@]}" -eq 0 ] || wrong_call "$word takes --prefix DIR and no other word"
    prefix=${option[--prefix]-}
    if [ -n "$prefix" ] || [ -n "$top" ]; then
        prefix=${prefix:-/usr/local}
        [[ $prefix = /* ]] || prefix=$PWD/$prefix
        root=${DESTDIR-}$prefix
        [[ $root = /* ]] || root=$PWD/$root
    else
        root=$home
    fi
    # the list has a path on each line
    [[ $root != *$'\n'* ]] || wrong_call "a prefix with a line end cannot be used"
    root=$(readlink -m -- "$root/") || die 5 "$root cannot be read"
    root=${root%/}
}

# Reads the list of an earlier install, if there is one, into $old_files and $old_folders.
read_list() {
    local text path
    old_files=() old_folders=()
    [ -e "$root/$list" ] || return 0
    [ -r "$root/$list" ] || die 5 "$root/$list cannot be read"
    while IFS= read -r text; do
        path=${text#* }
        [[ /$path/ != */../* ]] || text=''
        case $text in
        "file "[!/]*) old_files+=("$path") ;;
        "folder /"*)
            # under the root or above it; where the files were moved since, the folders are not install's
            [[ $path/ != "$root"/* && $root/ != "$path"/* ]] || old_folders+=("$path")
            ;;
        *) die 5 "$root/$list is not the list that install wrote" ;;
        esac
    done <"$root/$list"
}

# Whether a word is among the others.
among() { # WORD WORD..
    local word
    for word in "${@:2}"; do
        [ "$word" != "$1" ] || return 0
    done
    return 1
}

# Refuses a place that cannot be written, or that something else has.
check_place() { # PLACE
    local file=$root/$1 folder
    [ ! -d "$file" ] || die 5 "$file is a folder"
    if [ -e "$file" ] || [ -L "$file" ]; then
        among "$1" "$list" "${old_files[@]}" || die 5 "$file is there already, and install did not put it there"
    fi
    folder=${file%/*}
    until [ -e "$folder/" ] || [ -e "$folder" ] || [ -L "$folder" ]; do folder=${folder%/*}; done
    [ -d "$folder/" ] || die 5 "$folder is not a folder"
    [ -w "$folder/" ] || die 5 "$folder/ cannot be written; it takes more rights, or another --prefix"
}

# Makes a folder with those above it, and keeps in $made which of them were not there.
make_folder() { # FOLDER
    local folder=$1 lacking=()
    until [ -d "$folder/" ]; do
        lacking=("$folder" "${lacking[@]}")
        folder=${folder%/*}
    done
    for folder in "${lacking[@]}"; do
        mkdir -m 755 -- "$folder" || die 5 "$folder cannot be made; nothing is installed"
        made+=("$folder")
    done
}

# Removes those of the folders that are empty, the last ones first.
remove_folders() { # FOLDER..
    local at
    for ((at = $#; at > 0; at--)); do
        [ -L "${!at}" ] || rmdir -- "${!at}" 2>/dev/null
    done
}

# Takes back an install that did not come to its end: the new files that are not in place yet, and the folders.
take_back() {
    [ "${#fresh[@]}" -eq 0 ] || rm -f -- "${fresh[@]}"
    remove_folders "${made[@]}"
}

# Writes a file beside its place under the root, under the name that it has until all of them are written.
put_beside() { # MODE FILE PLACE
    local new=$root/$3.installing
    make_folder "${new%/*}"
    fresh+=("$new")
    { rm -f -- "$new" && cp -- "$2" "$new" && chmod "$1" -- "$new"; } ||
        die 5 "$root/$3 cannot be written; nothing is installed"
}

# Writes the list beside its place: these files, and the folders.
write_list() { # PLACE..
    local path new=$root/$list.installing lines=()
    make_folder "${new%/*}"
    fresh+=("$new")
    for path in "$@"; do lines+=("file $path"); done
    for path in "${old_folders[@]}" "${made[@]}"; do lines+=("folder $path"); done
    { rm -f -- "$new" && printf '%s\n' "${lines[@]}" >"$new" && chmod 644 -- "$new"; } ||
        die 5 "$root/$list cannot be written; nothing is installed"
}

# Puts files that are written beside their places there.
put_in_place() { # PLACE..
    local place
    for place in "$@"; do
        mv -f -- "$root/$place.installing" "$root/$place" ||
            die 5 "$root/$place cannot be written; what is installed is not whole"
    done
}

install() { # [--prefix DIR]
    find_root "$@"
    [ -n "$top" ] || die 5 "install is for the repository; this is an installed command"
    read_list
    list_entries
    local entry mode file place places=() gone=()
    for entry in "${entries[@]}"; do places+=("${entry##* }"); done
    for place in "${old_files[@]}"; do among "$place" "${places[@]}" || gone+=("$place"); done
    # before the build, which can take long
    for place in "${places[@]}" "$list"; do check_place "$place"; done
    need "${run_by_command[@]}"
    build_proved staticlib capi

    made=() fresh=()
    trap take_back EXIT
    for entry in "${entries[@]}"; do
        read -r mode file place <<<"$entry"
        put_beside "$mode" "$top/$file" "$place"
    done
    # the list is the first in its place, so that uninstall knows of every file that is
    write_list "${gone[@]}" "${places[@]}"
    put_in_place "$list" "${places[@]}"
    # what only an earlier version had goes, and then goes from the list
    for place in "${gone[@]}"; do rm -f -- "$root/$place"; done
    write_list "${places[@]}"
    put_in_place "$list"
    trap - EXIT
    for place in "${places[@]}" "$list"; do line "$root/$place"; done
}

uninstall() { # [--prefix DIR]
    find_root "$@"
    [ -e "$root/$list" ] || die 5 "tockplover is not installed in $root/ (there is no $list)"
    read_list
    local place folder removed=()
    for place in "${old_files[@]}" "$list"; do
        folder=$root/$place
        folder=${folder%/*}
        [ ! -d "$folder" ] || [ -w "$folder" ] || die 5 "$folder/ cannot be written; nothing is removed"
        [ ! -d "$root/$place" ] || die 5 "$root/$place is a folder; nothing is removed"
    done
    for place in "${old_files[@]}" "$list"; do
        [ -e "$root/$place" ] || [ -L "$root/$place" ] || continue
        rm -f -- "$root/$place" || die 5 "$root/$place cannot be removed"
        removed+=("$root/$place")
    done
    remove_folders "${old_folders[@]}"
    for place in "${removed[@]}"; do line "$place"; done
}
