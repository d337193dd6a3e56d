# The month-end figures of recording books.

# A list of names has fewer bytes than this.
names_most=4194304

# Puts the names of the books into $names: those of the call, and in the place of - those that standard input lists, one to a line.
read_lists() {
    local given name
    names=()
    for given in "${words[@]}"; do
        [ "$given" = - ] || { names+=("$given"); continue; }
        need_input "the names of the books"
        copy_input "$names_most" "the list of the names of the books" "$out"
        [ "$(wc -c <"$out")" -lt "$names_most" ] || die 3 "the list of the names of the books has $names_most bytes or more"
        while IFS= read -r name || [ -n "$name" ]; do
            [ -z "$name" ] || names+=("$name")
        done <"$out"
    done
}

# Writes words about a book, its file behind them and, where it is refused, what the number means.
tell_book() { # BOOK REFUSAL WORD..
    local name=${names[$1 - 1]}
    # a name with a line end or the like would break the line
    [[ $name != *[[:cntrl:]]* ]] || name=${name@Q}
    line "${*:3} $name${2:+: ${meanings[$2]-no number of the list}}"
}

# Shows the figures in words.
show_figures() {
    local w
    while read -ra w; do
        if [ "${w[0]}" = book ]; then tell_book "${w[1]}" "${w[3]-}" "${w[@]}"; else line "${w[*]}"; fi
    done <"$out"
}

# Writes a line of a table.
table_line() {
    local IFS=,
    line "$*"
}

# Shows the figures as two tables, the pairs and then the totals, and tells the refused books on standard error.
show_tables() {
    local w invoices
    table_line namespace type known known_bytes passed_over passed_over_bytes frame_bytes
    while read -ra w; do
        case ${w[0]} in
        book) [ "${w[2]}" = added ] || tell_book "${w[1]}" "${w[3]}" "${w[@]}" >&2 ;;
        namespace) table_line "${w[1]}" "${w[3]}" "${w[5]}" "${w[7]}" "${w[10]}" "${w[12]}" "${w[14]}" ;;
        invoices) invoices=("${w[1]}" "${w[4]}" "${w[6]}" "${w[8]/none/}") ;;
        end)
            line
            table_line books added refused pairs value_bytes frame_bytes invoices without_amount msat satoshi
            table_line "${w[2]}" "${w[4]}" "${w[6]}" "${w[8]}" "${w[11]}" "${w[14]}" "${invoices[@]}"
            ;;
        esac
    done <"$out"
}

month() { # [--csv] BOOK..
    read_words --csv "$@"
    [ "${#words[@]}" -gt 0 ] || wrong_call "month takes the files of the books, or - for a list of them"
    make_work
    read_lists
    local name last csv=${option[--csv]-}
    # figures that lack a book would not be the month's
    for name in "${names[@]}"; do need_file "$name"; done
    need month_end
    read_meanings
    keep month_end "${names[@]}" || exit 3
    last=$(last_line)
    if [[ $last =~ ^month\ refused\ ([0-9]+)\ book\ ([0-9]+)$ ]] && [ "$(wc -l <"$out")" -eq 1 ]; then
        [ -z "$csv" ] || exec >&2
        tell_book "${BASH_REMATCH[2]}" "${BASH_REMATCH[1]}" "$last"
        exit 2
    fi
    [[ $last =~ ^end\ books\ ${#names[@]}\ added\ [0-9]+\ refused\ ([0-9]+)\  ]] ||
        die 3 "the figures are not whole: they have no end line"
    local refused=${BASH_REMATCH[1]}
    if [ -n "$csv" ]; then show_tables; else show_figures; fi
    [ "$refused" = 0 ] || exit 1
}
