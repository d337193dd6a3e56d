# The proved library, measured against plain Rust.

bench() { # [SECONDS [NAME]]
    read_words '' "$@"
    [ "${#words[@]}" -le 2 ] || wrong_call "bench takes SECONDS and NAME"
    [[ ${words[0]-1} =~ ^[0-9]+(\.[0-9]+)?$ ]] || wrong_call "bench takes SECONDS as a number"
    [ -n "$top" ] || die 3 "bench is for the repository; this is an installed command"
    [ -f "$top/bindings/compare/Cargo.toml" ] || die 3 "there is no bindings/compare, the package that holds the benchmark"
    . "$parts/build.sh" || exit 3
    build_with_cargo compare bench
    "$top/target/cargo/release/bench" "${words[@]}" </dev/null || die 1 "the benchmark ended with status $?"
}
