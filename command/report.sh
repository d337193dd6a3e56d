# The report on a recording book.

report() { # [--words] [FILE]
    read_words --words "$@"
    [ "${#words[@]}" -le 1 ] || wrong_call "report takes one FILE"
    open_input "${words[0]--}" "the book"
    need report
    make_work
    [ -z "${option[--words]-}" ] || read_meanings
    local last status
    keep report
    status=$?
    if [ -n "${option[--words]-}" ]; then show_lines; else show "$out"; fi
    [ "$status" -eq 0 ] || exit 3
    last=$(last_line)
    if [[ $last =~ ^end\ streams\ [0-9]+\ messages\ [0-9]+\ invoices\ [0-9]+\ refused\ ([0-9]+)$ ]]; then
        [ "${BASH_REMATCH[1]}" = 0 ] || exit 1
    elif [[ $last =~ ^book\ refused\ [0-9]+$ ]] && [ "$(wc -l <"$out")" -eq 1 ]; then
        exit 2
    else
        die 3 "the report is not whole: it has no end line"
    fi
}
