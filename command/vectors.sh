# The published vectors of BOLT 1, BOLT 11 and BIP 173.

# Shows an answer that is not the expected one, and counts it.
differs() { # FOUND EXPECTED
    line "MISMATCH $1"
    line "expected $2"
    wrong=$((wrong + 1))
}

# Shows each answer of a program, which is run on its questions, and counts in $right and $wrong how it compares with the expected one; with $quiet the right
# ones are only counted.
compare() { # NAME
    local questions=$programs/$1.questions answers=$programs/$1.answers found expected
    [ -z "$top" ] || questions=$top/crates/$1/stdin answers=$top/crates/$1/stdout
    [ -r "$questions" ] && exec 3<"$answers" || die 3 "the questions or the answers of $1 cannot be read"
    keep "$1" <"$questions" || wrong=$((wrong + 1))
    while IFS= read -r found || [ -n "$found" ]; do
        IFS= read -r expected <&3 || expected='nothing'
        if [ "$found" != "$expected" ]; then
            differs "$found" "$expected"
        elif [[ $found = '#'* ]]; then
            [ -n "$quiet" ] || line "$found"
        else
            [ -n "$quiet" ] || line "ok $found"
            right=$((right + 1))
        fi
    done <"$out"
    while IFS= read -r expected <&3; do
        differs nothing "$expected"
    done
}

vectors() { # [--quiet]
    read_words --quiet "$@"
    [ "${#words[@]}" -eq 0 ] || wrong_call "vectors takes no words but its option"
    need vectors invoice_vectors
    make_work
    local name right=0 wrong=0 quiet=${option[--quiet]-}
    for name in vectors invoice_vectors; do compare "$name"; done
    line "$right right, $wrong wrong"
    [ "$wrong" -eq 0 ] || exit 1
}
