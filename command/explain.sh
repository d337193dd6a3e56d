# What the refusals mean, and what to do about them.

explain() { # [NUMBER..]
    local number
    read_words '' "$@"
    read_meanings
    for number in "${words[@]}"; do
        [[ $number =~ ^[0-9]+$ ]] || wrong_call "explain takes the numbers of refusals, and $(plain "$number") is none"
        [ -n "${meanings[$number]-}" ] || die 1 "there is no refusal $number (tockplover explain lists them all)"
    done
    [ "${#words[@]}" -gt 0 ] || words=("${numbers[@]}")
    for number in "${words[@]}"; do
        line "$number: ${meanings[$number]}"
        line "    ${advices[$number]}"
    done
}
