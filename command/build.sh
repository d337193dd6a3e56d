# Proves and builds what a command needs, in the repository.

log=$top/target/build.log

# Whether a file is there, and no source of it is newer. A folder is newer where a file of it went away. What the prover keeps in a crate's out/ is no
# source, and a crate's own folder is newer whenever that is made.
is_fresh() { # FILE SOURCE..
    [ -f "$1" ] && [ -z "$(find "${@:2}" -name out -prune -o -newer "$1" ! -regex '.*/crates/[^/]*' -print -quit 2>/dev/null)" ]
}

# Sets $under, the crates that these stand on, themselves among them.
find_under() { # CRATE..
    local name rest waiting=("$@")
    local -A below=() met=()
    while IFS=: read -r name rest; do below[${name%% *}]=$rest; done <"$top/crates.txt"
    while [ "${#waiting[@]}" -gt 0 ]; do
        name=${waiting[0]} waiting=("${waiting[@]:1}")
        [ -n "${below[$name]+listed}" ] && [ -z "${met[$name]-}" ] || continue
        met[$name]=yes
        read -ra rest <<<"${below[$name]}"
        waiting+=("${rest[@]}")
    done
    under=("${!met[@]}")
}

# Whether a file is there that is built from crates, and none of these, nor of those that they stand on, is newer.
is_proved() { # FILE CRATE..
    find_under "${@:2}"
    is_fresh "$1" "$top/crates.txt" "${under[@]/#/$top/crates/}"
}

# Tells of each crate as it is proved, and how many are left.
show_progress() { # CRATES
    local left=$1 text
    while IFS= read -r text; do
        [[ $text =~ ^rt:\ ([a-z0-9_]+)\ proved\ \((.*)\)$ ]] || continue
        left=$((left - 1))
        [[ ${BASH_REMATCH[2]} = unchanged* ]] || say "proved ${BASH_REMATCH[1]} (${BASH_REMATCH[2]}), $left left"
    done
}

# Ends a build with all that it runs.
end_build() { # STATUS
    kill -TERM -- "-$builder" 2>/dev/null
    wait
    say "interrupted; what is proved stays so"
    exit "$1"
}

# Runs a build, with what it writes in the log, and tells of so many crates. It has a process group of its own, which ends when this command does.
run_build() { # CRATES WORD..
    local status
    mkdir -p "$top/target" && : >"$log" || die 3 "target/ cannot be written"
    set -m
    (cd "$top" && exec "${@:2}") </dev/null >"$log" 2>&1 &
    builder=$!
    set +m
    trap 'end_build 130' INT
    trap 'end_build 143' TERM HUP
    tail -n +1 -s 0.1 -f --pid="$builder" -- "$log" 2>/dev/null | show_progress "$1" &
    wait "$builder"
    status=$?
    wait
    trap - INT TERM HUP
    return "$status"
}

# Builds files, or tells why they cannot be. What a failed build leaves is removed, so that no later call runs it.
build_files() { # SHOWN CRATES FILE.. -- WORD..
    local shown=$1 crates=$2 files=() file
    shift 2
    while [ "$1" != -- ]; do
        files+=("$1")
        shift
    done
    mkdir -p "$top/target" && : >"$top/target/build.begun" || die 3 "target/ cannot be written"
    if ! run_build "$crates" "${@:2}"; then
        for file in "${files[@]}"; do rm -f -- "$top/$file"; done
        show "$log" >&2
        die 3 "the build of $shown failed; its log is above, and in target/build.log"
    fi
    for file in "${files[@]}"; do
        [ -f "$top/$file" ] || die 3 "the build ended well, and yet there is no $file; remove target/ and call again"
        # a source that was changed while it was built is newer
        touch -r "$top/target/build.begun" -- "$top/$file"
    done
}

# Proves and builds those of the programs, or that archive, that are not there or older than their sources.
build_proved() { # check|staticlib CRATE..
    local name file front=bin/ back='' names=() files=() shown why='not built yet'
    [ "$1" = check ] || front=staticlib/lib back=.a
    for name in "${@:2}"; do
        file=target/$front$name$back
        is_proved "$top/$file" "$name" && continue
        [ ! -f "$top/$file" ] || why='older than its sources'
        names+=("$name") files+=("$file") shown+=" ${file##*/}"
    done
    [ "${#names[@]}" -gt 0 ] || return 0
    shown=${shown# }
    command -v rt >/dev/null 2>&1 || die 3 "$shown is $why, and the Rattle toolchain that builds it (its command is rt) is not installed"
    say "$shown is $why: proving and building it, which takes up to ten minutes (log: target/build.log)"
    find_under "${names[@]}"
    build_files "$shown" "${#under[@]}" "${files[@]}" -- "$top/tools/build" "$1" "${names[@]}"
    say "built"
}

# Builds a program of a Rust package.
build_with_cargo() { # PACKAGE PROGRAM
    local file=target/cargo/release/$2
    command -v cargo >/dev/null 2>&1 || die 3 "$2 is built by cargo, the command of the Rust toolchain, and cargo is not installed"
    build_proved staticlib capi
    say "building $2 (log: target/build.log)"
    # a folder given by the environment would hold another program
    unset CARGO_BUILD_TARGET TOCKPLOVER_STATICLIB
    build_files "$2" 0 "$file" -- cargo build --release --offline --locked --manifest-path "$top/bindings/$1/Cargo.toml" \
        --bin "$2" --target-dir "$top/target/cargo"
}

# Builds the program that shows single items, where it is not there or older than its sources.
build_items() {
    local file=$top/target/bin/items
    is_fresh "$file" "$top/bindings/items" "$top/bindings/rust" && is_proved "$file" capi && return
    build_with_cargo items items
    mkdir -p "$top/target/bin" && cp -p -- "$top/target/cargo/release/items" "$file.new" && mv -f -- "$file.new" "$file" ||
        die 3 "target/bin/items cannot be written"
}

# Builds what is not there of these programs, or older than its sources.
build_programs() { # PROGRAM..
    local name proved=()
    for name in "$@"; do [ "$name" = items ] || proved+=("$name"); done
    [ "${#proved[@]}" -eq 0 ] || build_proved check "${proved[@]}"
    [ "$#" -eq "${#proved[@]}" ] || build_items
}
